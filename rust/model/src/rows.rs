//! The table "Where a call is turned away": its rows, each a test of its own.

use crate::board::Board;
use crate::chain::{clock_count, Chain};
use crate::network::{is_state, Network, AND, OR};
use crate::words::bit;

/// The rows of a call in the table's order: number, and whether it holds.
#[derive(Default)]
pub struct Rows<'a>(Vec<(u64, Box<dyn Fn() -> bool + 'a>)>);

impl<'a> Rows<'a> {
    pub fn new() -> Self {
        Rows(Vec::new())
    }

    /// The same rows and one more.
    pub fn row(mut self, number: u64, holds: impl Fn() -> bool + 'a) -> Self {
        self.0.push((number, Box::new(holds)));
        self
    }

    /// The same rows and then those of `more`.
    pub fn then(mut self, more: Rows<'a>) -> Self {
        self.0.extend(more.0);
        self
    }

    /// The numbers of the call's rows, in order.
    pub fn numbers(&self) -> Vec<u64> {
        self.0.iter().map(|(number, _)| *number).collect()
    }

    /// Every row that holds, in order.
    pub fn holding(&self) -> Vec<u64> {
        self.0.iter().filter(|(_, holds)| holds()).map(|(number, _)| *number).collect()
    }

    /// The first row that holds, as a refusal.
    pub fn admit(&self) -> Result<(), u64> {
        match self.0.iter().find(|(_, holds)| holds()) {
            Some((number, _)) => Err(*number),
            None => Ok(()),
        }
    }
}

/// Row 5.
pub fn bad_net_count(n: u64) -> bool {
    !(2..=48).contains(&n)
}

/// Row 21: m is outside n to 64, or a receiver names no net, or a net has none.
pub fn bad_receivers(board: &Board) -> bool {
    let (n, m) = (board.network.nets, board.receivers() as u64);
    let names_no_net = |owner: &u64| *owner >= n;
    let has_none = |net: u64| !board.owners.contains(&net);
    m < n || m > 64 || board.owners.iter().any(names_no_net) || (0..n).any(has_none)
}

/// The most nets for which row 6 admits every class up to n.
const SMALL_BOARD: u64 = 10;

/// Row 6: k is not 1, 2, 3, n or, for n up to 10, one from 4 to n - 1; or it is above n.
pub fn bad_class(n: u64, k: u64) -> bool {
    let of_every_board = k == 1 || k == 2 || k == 3 || k == n;
    let of_small_boards = n <= SMALL_BOARD && (4..n).contains(&k);
    !(of_every_board || of_small_boards) || k > n
}

/// The greatest class of which sets are shortened.
const GREATEST_SHORTENED: u64 = 3;

/// Row 6 of a set to be shortened: the same, and besides every k above 3.
pub fn bad_class_to_shorten(n: u64, k: u64) -> bool {
    bad_class(n, k) || k > GREATEST_SHORTENED
}

/// Row 17.
pub fn bad_level(level: u64) -> bool {
    level != 0 && level != 1
}

/// Row 20.
pub fn bad_gate(gate: u64) -> bool {
    gate != OR && gate != AND
}

/// Row 7.
pub fn bad_vector_count(count: u64) -> bool {
    !(1..=64).contains(&count)
}

/// Row 7 of sequential words: the same, and besides words that are not n.
pub fn bad_sequential_words(n: u64, count: u64, words: &[u64]) -> bool {
    bad_vector_count(count) || words.len() as u64 != n
}

/// Row 8, of n bits or in a sequential word as many as there are vectors, and row 10, of m bits: a bit at or above that
/// many.
pub fn has_high_bit(bits: u64, words: &[u64]) -> bool {
    words.iter().any(|word| (0..64).any(|i| i >= bits && bit(*word, i)))
}

/// Row 18: L is outside 2 to 200, or the driver cells are not n or the receiver cells not m, or a cell is outside the
/// chain or used for two purposes.
pub fn bad_chain(board: &Board, chain: &Chain) -> bool {
    let used = [&chain.drivers[..], &chain.receivers].concat();
    let is_outside = |cell: &u64| *cell >= chain.cells;
    let has_two_purposes = |cell: &u64| used.iter().filter(|other| *other == cell).count() > 1;
    !(2..=200).contains(&chain.cells)
        || chain.drivers.len() as u64 != board.network.nets
        || chain.receivers.len() != board.receivers()
        || used.iter().any(is_outside)
        || used.iter().any(has_two_purposes)
}

/// Row 19: the TDO bytes are not as many as the clocks, or one is above 1.
pub fn bad_tdo(count: u64, cells: u64, tdo: &[u8]) -> bool {
    tdo.len() as u128 != clock_count(count, cells) || tdo.iter().any(|byte| *byte > 1)
}

/// Row 11.
pub fn bad_state(board: &Board, k: u64, state: &[u64]) -> bool {
    !is_state(board.network.nets, board.receivers(), k, state)
}

/// Row 5.
pub fn row_of_net_count<'a>(n: u64) -> Rows<'a> {
    Rows::new().row(5, move || bad_net_count(n))
}

/// Rows 5 and 21.
pub fn rows_of_receivers(board: &Board) -> Rows<'_> {
    row_of_net_count(board.network.nets).row(21, move || bad_receivers(board))
}

/// Rows 5, 21, 17 and 20, which begin the calls that take receivers and no class.
pub fn rows_of_board(board: &Board) -> Rows<'_> {
    rows_of_receivers(board).then(rows_of_level_and_gate(board.network))
}

/// Rows 5, 6, 17 and 20, which begin the calls on a test set and a class that take no receivers.
pub fn rows_before_vectors<'a>(net: Network, k: u64) -> Rows<'a> {
    row_of_net_count(net.nets).then(rows_of_class(net, k))
}

/// The same and rows 7 and 8.
pub fn rows_of_set<'a>(net: Network, k: u64, vectors: &'a [u64]) -> Rows<'a> {
    rows_before_vectors(net, k).then(rows_of_vectors(net.nets, vectors))
}

/// The same rows for a set to be shortened, with a row 6 of its own.
pub fn rows_of_set_to_shorten<'a>(net: Network, k: u64, vectors: &'a [u64]) -> Rows<'a> {
    row_of_net_count(net.nets)
        .row(6, move || bad_class_to_shorten(net.nets, k))
        .then(rows_of_level_and_gate(net))
        .then(rows_of_vectors(net.nets, vectors))
}

/// Rows 5, 21, 6, 17, 20, 7 and 8, which begin those that take receivers.
pub fn rows_of_set_on_board<'a>(board: &'a Board, k: u64, vectors: &'a [u64]) -> Rows<'a> {
    let net = board.network;
    rows_of_receivers(board).then(rows_of_class(net, k)).then(rows_of_vectors(net.nets, vectors))
}

/// Rows 6, 17 and 20.
fn rows_of_class<'a>(net: Network, k: u64) -> Rows<'a> {
    Rows::new().row(6, move || bad_class(net.nets, k)).then(rows_of_level_and_gate(net))
}

/// Rows 17 and 20.
fn rows_of_level_and_gate<'a>(net: Network) -> Rows<'a> {
    Rows::new().row(17, move || bad_level(net.level)).row(20, move || bad_gate(net.gate))
}

/// Rows 7 and 8 on parallel words.
pub fn rows_of_vectors(n: u64, vectors: &[u64]) -> Rows<'_> {
    Rows::new().row(7, move || bad_vector_count(vectors.len() as u64)).row(8, move || has_high_bit(n, vectors))
}

/// Rows 7 and 8 on the sequential words of this many vectors.
pub fn rows_of_sequential(n: u64, count: u64, words: &[u64]) -> Rows<'_> {
    Rows::new().row(7, move || bad_sequential_words(n, count, words)).row(8, move || has_high_bit(count, words))
}

/// Rows 9 and 10 on the responses of m receivers to `asked` vectors.
pub fn rows_of_responses<'a>(m: u64, asked: usize, responses: &'a [u64]) -> Rows<'a> {
    Rows::new().row(9, move || responses.len() != asked).row(10, move || has_high_bit(m, responses))
}

#[cfg(test)]
mod tests {
    use super::*;

    /// The classes that row 6 admits for more than 10 nets, and for up to 10.
    #[test]
    fn row_6_by_hand() {
        let admitted = |n: u64| (0..=n + 1).chain([u64::MAX]).filter(|k| !bad_class(n, *k)).collect::<Vec<u64>>();
        assert_eq!([11, 12, 48].map(admitted), [[1, 2, 3, 11], [1, 2, 3, 12], [1, 2, 3, 48]]);
        for n in 2..=10 {
            assert_eq!(admitted(n), (1..=n).collect::<Vec<u64>>());
        }
        assert_eq!([(5, 4), (10, 9), (10, 10), (4, 3)].map(|(n, k)| bad_class(n, k)), [false; 4]);
        assert_eq!([(11, 4), (11, 9), (11, 10), (10, 11), (4, 5), (2, 3)].map(|(n, k)| bad_class(n, k)), [true; 6]);
    }

    /// The classes of sets that are shortened: n among them for 2 and 3 nets only.
    #[test]
    fn row_6_of_a_set_to_shorten_by_hand() {
        let admitted = |n: u64| (0..=n + 1).chain([u64::MAX]).filter(|k| !bad_class_to_shorten(n, *k)).collect();
        let lists: [Vec<u64>; 7] = [2, 3, 4, 5, 10, 11, 48].map(admitted);
        assert_eq!(lists[0], [1, 2]);
        assert!(lists[1..].iter().all(|list| *list == [1, 2, 3]));
    }
}
