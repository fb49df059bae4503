//! Clocks for a chain: the writer and the reader.

use super::{admit_nets, admit_receivers, admit_vector_count, admit_vectors, code};
use fontarelga::{Board, Chain, MOST_CELLS};
use std::mem::replace;

/// The clocks of a scan before the shift, and those around it.
const BEFORE: usize = 3;
const AROUND: usize = 5;
const TMS: u8 = 1;
const TDI: u8 = 2;

/// A way to write the scans of these vectors, as many as the list has room for.
pub type Put = fn(&Chain, &[u64], &mut [u8]);

/// Each scan, with its vector.
fn scans<'a>(chain: &Chain, vectors: &'a [u64], clocks: &'a mut [u8]) -> impl Iterator<Item = (&'a mut [u8], &'a u64)> {
    clocks.chunks_exact_mut(chain.cells as usize + AROUND).zip(vectors.iter().chain(vectors.last()))
}

/// Clock after clock: a table of each cell's net, in which each cell is looked up.
pub fn by_cells(chain: &Chain, vectors: &[u64], clocks: &mut [u8]) {
    let mut nets = [None; MOST_CELLS];
    (0..).zip(&chain.driver_cells).for_each(|(net, cell)| nets[*cell as usize] = Some(net));
    let nets = &nets[..chain.cells as usize];
    let bit = |vector: u64, net: Option<u64>| net.map_or(0, |net| (vector >> net & 1) as u8 * TDI);
    for (scan, vector) in scans(chain, vectors, clocks) {
        let (before, rest) = scan.split_at_mut(BEFORE);
        let (shift, after) = rest.split_at_mut(nets.len());
        before.copy_from_slice(&[TMS, 0, 0]);
        shift.iter_mut().zip(nets).for_each(|(clock, net)| *clock = bit(*vector, *net));
        shift[nets.len() - 1] |= TMS;
        after.copy_from_slice(&[TMS, 0]);
    }
}

/// Driver after driver: each scan is laid out without a bit, and then the drivers' bits are put in.
pub fn by_drivers(chain: &Chain, vectors: &[u64], clocks: &mut [u8]) {
    let end = BEFORE + chain.cells as usize;
    for (scan, vector) in scans(chain, vectors, clocks) {
        scan.fill(0);
        [0, end - 1, end].iter().for_each(|clock| scan[*clock] = TMS);
        for (net, cell) in chain.driver_cells.iter().enumerate() {
            scan[BEFORE + *cell as usize] |= (vector >> net & 1) as u8 * TDI;
        }
    }
}

/// A way to see whether all bytes are 0 or 1.
pub type Test = fn(&[u8]) -> bool;

/// Byte after byte, up to the first that is above 1.
pub fn one_by_one(tdo: &[u8]) -> bool {
    tdo.iter().all(|byte| *byte <= 1)
}

/// All bytes together, whatever they are.
pub fn all_at_once(tdo: &[u8]) -> bool {
    tdo.iter().fold(0, |all, byte| all | byte) <= 1
}

/// Row 18.
fn admit_chain(board: &Board, chain: &Chain) -> Result<(), u64> {
    let Chain { cells, driver_cells, receiver_cells } = chain;
    let one_for_each =
        driver_cells.len() as u64 == board.network().nets() && receiver_cells.len() == board.receivers().len();
    if !(2..=MOST_CELLS as u64).contains(cells) || !one_for_each {
        return Err(18);
    }
    let mut used = [false; MOST_CELLS];
    let mut is_free = |cell: &u64| *cell < *cells && !replace(&mut used[*cell as usize], true);
    if driver_cells.iter().chain(receiver_cells).all(&mut is_free) {
        Ok(())
    } else {
        Err(18)
    }
}

/// The clocks for this many vectors.
fn clock_count(chain: &Chain, vectors: usize) -> usize {
    (vectors + 1) * (chain.cells as usize + AROUND)
}

/// Row 19.
fn admit_tdo(test: Test, chain: &Chain, count: usize, tdo: &[u8]) -> Result<(), u64> {
    if tdo.len() == clock_count(chain, count) && test(tdo) {
        Ok(())
    } else {
        Err(19)
    }
}

fn written(put: Put, board: &Board, chain: &Chain, vectors: &[u64], clocks: &mut [u8]) -> Result<(), u64> {
    admit_nets(board.network().nets())?;
    admit_receivers(board)?;
    admit_vectors(board.network().nets(), vectors)?;
    admit_chain(board, chain)?;
    put(chain, vectors, clocks.get_mut(..clock_count(chain, vectors.len())).ok_or(12u64)?);
    Ok(())
}

fn read(test: Test, board: &Board, chain: &Chain, count: u64, tdo: &[u8], responses: &mut [u64]) -> Result<(), u64> {
    admit_nets(board.network().nets())?;
    admit_receivers(board)?;
    admit_vector_count(count)?;
    admit_chain(board, chain)?;
    admit_tdo(test, chain, count as usize, tdo)?;
    let responses = responses.get_mut(..count as usize).ok_or(12u64)?;
    let scans = tdo.chunks_exact(chain.cells as usize + AROUND).skip(1);
    for (word, scan) in responses.iter_mut().zip(scans) {
        let bits = chain.receiver_cells.iter().map(|cell| u64::from(scan[BEFORE + *cell as usize]));
        *word = bits.enumerate().map(|(r, bit)| bit << r).sum();
    }
    Ok(())
}

/// The call *write clocks*, in one of the ways.
pub fn write_clocks(put: Put, board: &Board, chain: &Chain, vectors: &[u64], clocks: &mut [u8]) -> u64 {
    code(written(put, board, chain, vectors, clocks))
}

/// The call *read clocks*, in one of the ways.
pub fn read_clocks(test: Test, board: &Board, chain: &Chain, count: u64, tdo: &[u8], responses: &mut [u64]) -> u64 {
    code(read(test, board, chain, count, tdo, responses))
}
