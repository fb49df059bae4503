//! Clocks for a chain of boundary-scan cells: test sets as TMS and TDI bits, and responses from TDO bits.

use crate::board::Board;
use crate::chain_interface as raw;
use crate::refusal::Refusal;
use crate::sizes::{MOST_CLOCKS, MOST_VECTORS};

/// A chain of boundary-scan cells, of one chip or of several, and what its cells are for.
///
/// Cells are counted from TDO: cell 0 is the nearest to it. Each net has a cell for its driver, and each receiver one
/// of its own. A cell that is neither is idle.
///
/// Any numbers are taken here. The calls accept 2 to 200 cells, as many driver cells as nets and receiver cells as
/// receivers, all of them in the chain and no cell twice. They refuse others with 18.
///
/// ```
/// use fontarelga::{write_clocks, Chain, Refusal};
/// // Two chips, from TDI to TDO: chip 1 with cells 5 to 3, chip 2 with cells 2 to 0. Chip 1 drives net 0 by cell 4,
/// // and chip 2 reads it by cell 0. Chip 2 drives net 1 by cell 1, and chip 1 reads it by cell 5. Cells 2 and 3
/// // are idle.
/// let chain = Chain { cells: 6, driver_cells: vec![4, 1], receiver_cells: vec![0, 5] };
/// assert_eq!(write_clocks(2, &chain, &[1])?.len(), 2 * (6 + 5));
/// // Cell 4 for two purposes.
/// let wrong = Chain { receiver_cells: vec![4, 5], ..chain };
/// assert_eq!(write_clocks(2, &wrong, &[1]), Err(Refusal(18)));
/// # Ok::<(), Refusal>(())
/// ```
#[derive(Clone, Debug, PartialEq, Eq, Hash)]
pub struct Chain {
    /// L, the number of cells.
    pub cells: u64,
    /// The cell of each net's driver, net 0's first.
    pub driver_cells: Vec<u64>,
    /// The cell of each receiver, receiver 0's first.
    pub receiver_cells: Vec<u64>,
}

/// The clocks that drive a test set by IEEE 1149.1: a byte for each, TMS in bit 0 and TDI in bit 1.
///
/// They start and end in Run-Test/Idle, with EXTEST loaded already. There is a scan for each vector and a last one that
/// repeats the last vector, by which what is read of it comes out: (v + 1) times (L + 5) clocks. A scan has three
/// clocks to Shift-DR, L shift clocks, of which clock j carries cell j's bit, and two clocks back by way of Update-DR.
/// A driver's cell gets the bit of its net, and every other cell gets 0, also one that controls whether an output
/// drives.
///
/// A pod plays them in order. For each it sets TMS and TDI, samples TDO, lets TCK rise and lets it fall. The samples go
/// to [`read_clocks`].
///
/// `board` says the nets and the receivers; its soft level and its gate have no part in it and are not tested.
/// `vectors` has 1 to 64 parallel words.
///
/// Refused: 5, 21, 7, 8, 18.
///
/// ```
/// use fontarelga::{write_clocks, Chain, Refusal};
/// let chain = Chain { cells: 4, driver_cells: vec![0, 1], receiver_cells: vec![2, 3] };
/// let scan = [1, 0, 0, 2, 0, 0, 1, 1, 0];
/// assert_eq!(write_clocks(2, &chain, &[1]), Ok([scan, scan].concat()));
/// assert_eq!(write_clocks(2, &chain, &[4]), Err(Refusal(8)));
/// ```
pub fn write_clocks<'a>(board: impl Into<Board<'a>>, chain: &Chain, vectors: &[u64]) -> Result<Vec<u8>, Refusal> {
    let mut clocks = vec![0; clock_count(vectors.len(), chain.cells)];
    Refusal::from_code(raw::write_clocks(board, chain, vectors, &mut clocks))?;
    Ok(clocks)
}

/// How many clocks this many vectors take on so many cells. Numbers that the call refuses give no more than the most.
fn clock_count(vectors: usize, cells: u64) -> usize {
    let cells = usize::try_from(cells).unwrap_or(usize::MAX);
    vectors.saturating_add(1).saturating_mul(cells.saturating_add(5)).min(MOST_CLOCKS)
}

/// The responses to a test set of `count` vectors, from TDO at each of the clocks that [`write_clocks`] gave for it: a
/// word for each vector, bit r read by receiver r.
///
/// `tdo` has a byte for each clock, 0 or 1, sampled before TCK rises. The capture of each scan but the first answers
/// the vector before it. Outside the shift, and in the first scan, it does not matter which of the two TDO is.
///
/// `board` and `chain` are those that the clocks were written for, and `count` is 1 to 64.
///
/// Refused: 5, 21, 7 (`count` is outside 1 to 64), 18, 19.
///
/// ```
/// use fontarelga::{diagnose, read_clocks, write_clocks, Chain, Refusal};
/// let (vectors, chain) = ([0, 1, 2], Chain { cells: 5, driver_cells: vec![0, 1], receiver_cells: vec![2, 4] });
/// assert_eq!(write_clocks(2, &chain, &vectors)?.len(), 40);
/// // Of two nets the second is open. What the pod sampled, three clocks before the shift, five of it, two after:
/// let tdo = [
///     [0, 0, 0, 1, 1, 0, 1, 0, 0, 0],
///     [0, 0, 0, 0, 0, 0, 0, 1, 0, 0],
///     [0, 0, 0, 1, 0, 1, 0, 1, 0, 0],
///     [0, 0, 0, 0, 1, 0, 0, 1, 0, 0],
/// ];
/// let responses = read_clocks(2, &chain, 3, &tdo.concat())?;
/// assert_eq!(responses, [2, 3, 2]);
/// assert_eq!(diagnose(2, 2, &vectors, &responses), Ok(vec![1, 0]));
/// assert_eq!(read_clocks(2, &chain, 2, &tdo.concat()), Err(Refusal(19)));
/// # Ok::<(), Refusal>(())
/// ```
pub fn read_clocks<'a>(
    board: impl Into<Board<'a>>,
    chain: &Chain,
    count: u64,
    tdo: &[u8],
) -> Result<Vec<u64>, Refusal> {
    let mut responses = [0; MOST_VECTORS];
    Refusal::from_code(raw::read_clocks(board, chain, count, tdo, &mut responses))?;
    Ok(responses[..count as usize].to_vec())
}
