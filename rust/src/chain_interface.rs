//! The calls on a chain of the C interface, on lent lists.

use crate::board::Board;
use crate::chain::Chain;

mod c {
    extern "C" {
        pub fn fontarelga_write_clocks(
            nets: u64,
            receivers: *const u64,
            receivers_len: usize,
            vectors: *const u64,
            vectors_len: usize,
            cells: u64,
            driver_cells: *const u64,
            driver_cells_len: usize,
            receiver_cells: *const u64,
            receiver_cells_len: usize,
            clocks: *mut u8,
            clocks_len: usize,
        ) -> u64;

        pub fn fontarelga_read_clocks(
            nets: u64,
            receivers: *const u64,
            receivers_len: usize,
            count: u64,
            cells: u64,
            driver_cells: *const u64,
            driver_cells_len: usize,
            receiver_cells: *const u64,
            receiver_cells_len: usize,
            tdo: *const u8,
            tdo_len: usize,
            responses: *mut u64,
            responses_len: usize,
        ) -> u64;
    }
}

/// A byte for each clock into the front of `clocks`. The board's level and gate are not used.
pub fn write_clocks<'a>(board: impl Into<Board<'a>>, chain: &Chain, vectors: &[u64], clocks: &mut [u8]) -> u64 {
    let board = board.into();
    let receivers = board.receivers();
    let Chain { cells, driver_cells, receiver_cells } = chain;
    unsafe {
        c::fontarelga_write_clocks(
            board.network().nets(),
            receivers.as_ptr(),
            receivers.len(),
            vectors.as_ptr(),
            vectors.len(),
            *cells,
            driver_cells.as_ptr(),
            driver_cells.len(),
            receiver_cells.as_ptr(),
            receiver_cells.len(),
            clocks.as_mut_ptr(),
            clocks.len(),
        )
    }
}

/// A word for each vector, `count` of them, into the front of `responses`. The board's level and gate are not used.
pub fn read_clocks<'a>(
    board: impl Into<Board<'a>>,
    chain: &Chain,
    count: u64,
    tdo: &[u8],
    responses: &mut [u64],
) -> u64 {
    let board = board.into();
    let receivers = board.receivers();
    let Chain { cells, driver_cells, receiver_cells } = chain;
    unsafe {
        c::fontarelga_read_clocks(
            board.network().nets(),
            receivers.as_ptr(),
            receivers.len(),
            count,
            *cells,
            driver_cells.as_ptr(),
            driver_cells.len(),
            receiver_cells.as_ptr(),
            receiver_cells.len(),
            tdo.as_ptr(),
            tdo.len(),
            responses.as_mut_ptr(),
            responses.len(),
        )
    }
}
