//! Chains of boundary-scan cells, and boards played through them.

use super::generator::Generator;
use model::tap::{play, Chips, Played, State, Wired};
use model::{Board, Chain};

/// The library's value for a chain of any numbers.
pub fn chain_of_library(chain: &Chain) -> fontarelga::Chain {
    let Chain { cells, drivers, receivers } = chain.clone();
    fontarelga::Chain { cells, driver_cells: drivers, receiver_cells: receivers }
}

/// The least cells that a chain of this board can have: one for each driver and each receiver.
pub fn least_cells(board: &Board) -> u64 {
    board.network.nets + board.receivers() as u64
}

/// The chain that has its drivers in the first of these cells, and its receivers in those after them.
pub fn chain_with(cells: u64, board: &Board, used: &[u64]) -> Chain {
    let (drivers, rest) = used.split_at(board.network.nets as usize);
    Chain { cells, drivers: drivers.to_vec(), receivers: rest[..board.receivers()].to_vec() }
}

/// A chain of this many cells for the board, used in any order, in that of the cells or in the opposite one.
pub fn random_chain(g: &mut Generator, board: &Board, cells: u64) -> Chain {
    let mut used: Vec<u64> = (0..cells).collect();
    match g.below(6) {
        0 => {}
        1 => used.reverse(),
        _ => g.shuffle(&mut used),
    }
    chain_with(cells, board, &used)
}

/// The same of any length that there can be, and of the least and the most on every third chain each.
pub fn some_chain(g: &mut Generator, board: &Board) -> Chain {
    let least = least_cells(board);
    let cells = match g.below(3) {
        0 => least,
        1 => 200,
        _ => least + g.below(201 - least as usize) as u64,
    };
    random_chain(g, board, cells)
}

/// A board in its chain, in Run-Test/Idle with EXTEST loaded. What its cells hold and drive at first is anything.
pub struct Bench<'a> {
    wired: Wired<'a>,
    chips: Chips,
    open: Generator,
}

impl<'a> Bench<'a> {
    pub fn new(board: &'a Board, reaches: &'a [u64], chain: &'a Chain, seed: u64) -> Bench<'a> {
        let mut open = Generator::new(seed);
        let chips = Chips::idle(chain.cells, &mut || open.once_in(2));
        Bench { wired: Wired { board, reaches, chain }, chips, open }
    }

    /// Plays bytes from where the chips are.
    pub fn play(&mut self, bytes: &[u8]) -> Played {
        play(&mut self.chips, self.wired, bytes, &mut || self.open.once_in(2))
    }

    /// In Run-Test/Idle, and EXTEST is loaded still.
    pub fn is_idle(&self) -> bool {
        self.chips.state == State::RunTestIdle && self.chips.extest
    }
}
