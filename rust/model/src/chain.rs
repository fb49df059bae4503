//! Clocks for a chain of boundary-scan cells: a test set as TMS and TDI bits, and responses from TDO bits.

use crate::board::Board;
use crate::rows::{bad_chain, bad_tdo, bad_vector_count, rows_of_receivers, rows_of_vectors, Rows};
use crate::words::{bit, word_of};

/// A chain, of any numbers: L, and the cells of the drivers, net 0's first, and of the receivers. Cell 0 is nearest
/// TDO.
#[derive(Clone, Debug, PartialEq, Eq, Hash)]
pub struct Chain {
    pub cells: u64,
    pub drivers: Vec<u64>,
    pub receivers: Vec<u64>,
}

/// TMS of a scan before the shift, from Run-Test/Idle.
const TMS_BEFORE: [bool; 3] = [true, false, false];
/// TMS of a scan after the shift, back to Run-Test/Idle.
const TMS_AFTER: [bool; 2] = [true, false];

/// The clocks of a scan that are not in the shift.
const AROUND_SHIFT: u64 = (TMS_BEFORE.len() + TMS_AFTER.len()) as u64;

/// The clocks for this many vectors: a scan for each and one more. Where it is too great a number, the greatest that
/// there is: no list is that long.
pub fn clock_count(count: u64, cells: u64) -> u128 {
    (u128::from(count) + 1).saturating_mul(u128::from(cells) + u128::from(AROUND_SHIFT))
}

impl Chain {
    /// What each cell gets for a vector, cell 0 first: a driver's the bit of its net, every other 0.
    pub fn contents(&self, vector: u64) -> Vec<bool> {
        let of_cell = |cell: u64| match self.drivers.iter().position(|driver| *driver == cell) {
            Some(net) => bit(vector, net as u64),
            None => false,
        };
        (0..self.cells).map(of_cell).collect()
    }

    /// The bytes of one scan.
    fn scan(&self, vector: u64) -> Vec<u8> {
        let contents = self.contents(vector);
        let last = contents.len() - 1;
        let tms_of_shift: Vec<bool> = (0..contents.len()).map(|clock| clock == last).collect();
        let tms = [&TMS_BEFORE[..], &tms_of_shift, &TMS_AFTER].concat();
        let tdi = [&[false; TMS_BEFORE.len()][..], &contents, &[false; TMS_AFTER.len()]].concat();
        tms.into_iter().zip(tdi).map(|(tms, tdi)| u8::from(tms) + 2 * u8::from(tdi)).collect()
    }

    /// The word of what the receivers' cells captured, from the TDO bits of one scan.
    fn captured(&self, scan: &[u8]) -> u64 {
        let shift = &scan[TMS_BEFORE.len()..scan.len() - TMS_AFTER.len()];
        word_of(self.receivers.iter().map(|cell| shift[*cell as usize] == 1))
    }
}

pub fn rows_of_write_clocks<'a>(board: &'a Board, chain: &'a Chain, vectors: &'a [u64], room: usize) -> Rows<'a> {
    rows_of_receivers(board)
        .then(rows_of_vectors(board.network.nets, vectors))
        .row(18, move || bad_chain(board, chain))
        .row(12, move || (room as u128) < clock_count(vectors.len() as u64, chain.cells))
}

/// The call *write clocks*: a scan for each vector, and a last one that repeats the last vector.
pub fn write_clocks(board: &Board, chain: &Chain, vectors: &[u64], room: usize) -> Result<Vec<u8>, u64> {
    rows_of_write_clocks(board, chain, vectors, room).admit()?;
    Ok(vectors.iter().chain(vectors.last()).flat_map(|vector| chain.scan(*vector)).collect())
}

pub fn rows_of_read_clocks<'a>(board: &'a Board, chain: &'a Chain, count: u64, tdo: &'a [u8], room: usize) -> Rows<'a> {
    rows_of_receivers(board)
        .row(7, move || bad_vector_count(count))
        .row(18, move || bad_chain(board, chain))
        .row(19, move || bad_tdo(count, chain.cells, tdo))
        .row(12, move || (room as u64) < count)
}

/// The call *read clocks*: the capture of each scan but the first answers the vector before it.
pub fn read_clocks(board: &Board, chain: &Chain, count: u64, tdo: &[u8], room: usize) -> Result<Vec<u64>, u64> {
    rows_of_read_clocks(board, chain, count, tdo, room).admit()?;
    let scans = tdo.chunks((chain.cells + AROUND_SHIFT) as usize);
    Ok(scans.skip(1).map(|scan| chain.captured(scan)).collect())
}

#[cfg(test)]
mod tests {
    use super::*;
    use crate::network::{Network, OR};

    fn board_of(nets: u64, owners: &[u64]) -> Board {
        Board { network: Network { nets, level: 1, gate: OR }, owners: owners.to_vec() }
    }

    fn chain_of(cells: u64, drivers: &[u64], receivers: &[u64]) -> Chain {
        Chain { cells, drivers: drivers.to_vec(), receivers: receivers.to_vec() }
    }

    /// Two nets with one receiver each, drivers in cells 0 and 1, receivers in cells 2 and 3.
    fn two_nets() -> (Board, Chain) {
        (board_of(2, &[0, 1]), chain_of(4, &[0, 1], &[2, 3]))
    }

    /// One vector: TMS 1 0 0, four shift clocks of which the first has TDI 1 and the last TMS 1, TMS 1 0; and again.
    #[test]
    fn the_bytes_of_one_vector() {
        let (board, chain) = two_nets();
        let scan = [1, 0, 0, 2, 0, 0, 1, 1, 0];
        assert_eq!(write_clocks(&board, &chain, &[1], 18), Ok([scan, scan].concat()));
        assert_eq!(write_clocks(&board, &chain, &[1], 100), Ok([scan, scan].concat()));
    }

    /// Six cells, of which 1 and 3 are idle. Net 0's driver is in the cell nearest TDI, so its bit meets TMS 1.
    #[test]
    fn the_bytes_of_three_vectors() {
        let (board, chain) = (board_of(2, &[0, 1]), chain_of(6, &[5, 2], &[4, 0]));
        let scans = [
            [1, 0, 0, 0, 0, 0, 0, 0, 3, 1, 0],
            [1, 0, 0, 0, 0, 2, 0, 0, 1, 1, 0],
            [1, 0, 0, 0, 0, 2, 0, 0, 3, 1, 0],
            [1, 0, 0, 0, 0, 2, 0, 0, 3, 1, 0],
        ];
        assert_eq!(write_clocks(&board, &chain, &[1, 2, 3], 44), Ok(scans.concat()));
        assert_eq!(write_clocks(&board, &chain, &[1, 2, 3], 43), Err(12));
    }

    /// The first scan has what was there before, and no clock outside the shift counts, nor does an idle cell.
    #[test]
    fn responses_by_hand() {
        // Receiver 0 is in cell 4, receivers 1 and 2 are in cells 0 and 3.
        let (board, chain) = (board_of(2, &[0, 1, 0]), chain_of(6, &[5, 2], &[4, 0, 3]));
        let scans = [
            [1, 1, 1, /* shift: */ 1, 1, 1, 1, 1, 1, /* after it: */ 1, 1],
            [0, 1, 1, /* shift: */ 0, 1, 1, 0, 1, 1, /* after it: */ 1, 0],
            [1, 0, 0, /* shift: */ 1, 0, 0, 1, 0, 0, /* after it: */ 0, 1],
        ];
        assert_eq!(read_clocks(&board, &chain, 2, &scans.concat(), 2), Ok(vec![1, 6]));
        assert_eq!(read_clocks(&board, &chain, 1, &scans[1..].concat(), 1), Ok(vec![6]));
        assert_eq!(read_clocks(&board, &chain, 2, &scans.concat(), 1), Err(12));
    }

    /// The greatest of all: 13,325 clocks, bit 63 of word 63, and cell 199.
    #[test]
    fn the_greatest_sizes() {
        let owners: Vec<u64> = (0..64).map(|r| r % 48).collect();
        let board = board_of(48, &owners);
        let drivers: Vec<u64> = (0..48).map(|i| 199 - i).collect();
        let chain = chain_of(200, &drivers, &(0..64).collect::<Vec<u64>>());
        let vectors = [vec![0; 63], vec![1]].concat();
        let bytes = write_clocks(&board, &chain, &vectors, 13_325).unwrap();
        assert_eq!((bytes.len() as u128, bytes.len()), (clock_count(64, 200), 13_325));
        let with_tdi: Vec<usize> = (0..bytes.len()).filter(|clock| bytes[*clock] > 1).collect();
        assert_eq!(with_tdi, [63 * 205 + 202, 64 * 205 + 202]);
        assert_eq!(write_clocks(&board, &chain, &vectors, 13_324), Err(12));

        let mut tdo = vec![0; 13_325];
        tdo[64 * 205 + 3 + 63] = 1;
        let responses = read_clocks(&board, &chain, 64, &tdo, 64).unwrap();
        assert_eq!(responses, [vec![0; 63], vec![1 << 63]].concat());
    }

    /// No sum or product of any two numbers is too great.
    #[test]
    fn clocks_counted_by_hand() {
        assert_eq!([(1, 4), (1, 200), (64, 4), (64, 200)].map(|(v, l)| clock_count(v, l)), [18, 410, 585, 13_325]);
        assert_eq!(clock_count(u64::MAX, 1), 6 << 64);
        assert_eq!(clock_count(u64::MAX, u64::MAX), u128::MAX);
    }

    /// Each way into row 18, for two nets with one receiver on net 0 and two on net 1.
    #[test]
    fn row_18_by_hand() {
        let board = board_of(2, &[0, 1, 1]);
        let bad =
            |cells: u64, drivers: &[u64], receivers: &[u64]| bad_chain(&board, &chain_of(cells, drivers, receivers));
        let (drivers, receivers) = ([0, 1], [2, 3, 4]);
        assert_eq!([5, 6, 199, 200].map(|cells| bad(cells, &drivers, &receivers)), [false; 4]);
        let lengths = [0, 1, 2, 3, 4, 201, 256, 256 + 5, 1 << 32, u64::MAX];
        assert_eq!(lengths.map(|cells| bad(cells, &drivers, &receivers)), [true; 10]);
        assert!(!bad(200, &[199, 0], &[7, 198, 5]));
        // Not one for each net, and not one for each receiver.
        assert!([&[][..], &[0], &[0, 1, 5]].iter().all(|drivers| bad(200, drivers, &receivers)));
        assert!([&[][..], &[2, 3], &[2, 3, 4, 5]].iter().all(|receivers| bad(200, &drivers, receivers)));
        // Outside the chain.
        assert!([[200, 1], [0, 200], [0, u64::MAX]].iter().all(|drivers| bad(200, drivers, &receivers)));
        assert!([[200, 3, 4], [2, 3, 200], [2, 3, u64::MAX]].iter().all(|receivers| bad(200, &drivers, receivers)));
        // Two purposes: two drivers, two receivers, and a driver and a receiver, whichever.
        assert!(bad(200, &[1, 1], &receivers));
        assert!([[2, 2, 4], [2, 3, 2], [2, 4, 4]].iter().all(|receivers| bad(200, &drivers, receivers)));
        assert!([[0, 3, 4], [2, 1, 4], [2, 3, 0]].iter().all(|receivers| bad(200, &drivers, receivers)));
    }

    /// Four cells are the least, one for each driver and each receiver of two nets.
    #[test]
    fn no_chain_of_two_or_three_cells() {
        for cells in [2, 3] {
            for chosen in crate::network::all_lists(cells, 4) {
                assert!(bad_chain(&board_of(2, &[0, 1]), &chain_of(cells, &chosen[..2], &chosen[2..])));
            }
        }
    }

    #[test]
    fn row_19_by_hand() {
        let all_but_one =
            |place: usize, byte: u8| (0..18).map(|i| if i == place { byte } else { 1 }).collect::<Vec<u8>>();
        assert!(![vec![0; 18], vec![1; 18], all_but_one(4, 0)].iter().any(|tdo| bad_tdo(1, 4, tdo)));
        assert!([0, 9, 17, 19, 27].iter().all(|length| bad_tdo(1, 4, &vec![0; *length])));
        for place in 0..18 {
            assert!([2, 3, 128, 255].iter().all(|byte| bad_tdo(1, 4, &all_but_one(place, *byte))));
        }
        assert!(bad_tdo(u64::MAX, u64::MAX, &[]) && bad_tdo(u64::MAX, 4, &[]));
    }

    #[test]
    fn rows_by_hand() {
        let (board, chain) = two_nets();
        let (no_net, no_receiver, no_cells) = (board_of(1, &[]), board_of(2, &[]), chain_of(201, &[0], &[0]));
        let written =
            |board: &Board, chain: &Chain, vectors: &[u64]| write_clocks(board, chain, vectors, 17).unwrap_err();
        assert_eq!(written(&no_net, &no_cells, &[]), 5);
        assert_eq!(written(&no_receiver, &no_cells, &[]), 21);
        assert_eq!([written(&board, &no_cells, &[]), written(&board, &no_cells, &[4; 65])], [7; 2]);
        assert_eq!(written(&board, &no_cells, &[4]), 8);
        assert_eq!(written(&board, &no_cells, &[1]), 18);
        assert_eq!(written(&board, &chain, &[1]), 12);

        let read = |board: &Board, chain: &Chain, count: u64, tdo: &[u8]| {
            read_clocks(board, chain, count, tdo, 0).unwrap_err()
        };
        assert_eq!(read(&no_net, &no_cells, 0, &[]), 5);
        assert_eq!(read(&no_receiver, &no_cells, 0, &[]), 21);
        assert_eq!([0, 65, 256 + 1, u64::MAX].map(|count| read(&board, &no_cells, count, &[])), [7; 4]);
        assert_eq!(read(&board, &no_cells, 1, &[]), 18);
        assert_eq!([read(&board, &chain, 1, &[]), read(&board, &chain, 1, &[2; 18])], [19; 2]);
        assert_eq!(read(&board, &chain, 1, &[1; 18]), 12);
    }

    /// Level and gate have no part in either call, whatever they are.
    #[test]
    fn no_level_and_no_gate() {
        let (mut board, chain) = two_nets();
        let bytes = write_clocks(&board, &chain, &[1, 2], 27);
        board.network = Network { nets: 2, level: 7, gate: 7 };
        assert_eq!(write_clocks(&board, &chain, &[1, 2], 27), bytes);
        assert_eq!(read_clocks(&board, &chain, 1, &[1; 18], 1), Ok(vec![3]));
    }
}
