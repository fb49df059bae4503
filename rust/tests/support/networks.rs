//! Networks of each gate and soft level, and boards, as the model has them and as the library does.

use model::network::{extra_vector, walking_vectors};
use model::{Board, Network, AND};

pub use model::network::each_combination;

/// The library's value for a network of any numbers.
pub fn of_library(net: Network) -> fontarelga::Network {
    fontarelga::Network::new(net.nets).with_level(net.level).with_gate(net.gate)
}

/// Does the board have one receiver a net, receiver i on net i? Then its network alone says it.
pub fn is_said_alone(board: &Board) -> bool {
    board.owners.iter().copied().eq(0..board.network.nets)
}

/// The library's value for a board, with the list of receivers.
pub fn board_of_library(board: &Board) -> fontarelga::Board<'_> {
    fontarelga::Board::with(of_library(board.network), &board.owners)
}

/// The library's values for a board: with the list, and by the network alone if that says it.
pub fn said_in_each_way(board: &Board) -> Vec<fontarelga::Board<'_>> {
    let alone = is_said_alone(board).then(|| of_library(board.network).into());
    std::iter::once(board_of_library(board)).chain(alone).collect()
}

/// The vector that is the gate's extra one at one soft level: 0 with OR, all ones with AND.
pub fn extra_at_some_level(net: Network) -> u64 {
    let level = if net.gate == AND { 0 } else { 1 };
    extra_vector(Network { level, ..net }).expect("an extra vector at this level")
}

/// That vector and the walking ones: a set that passes for every class at either level.
pub fn whole_walking_set(net: Network) -> Vec<u64> {
    std::iter::once(extra_at_some_level(net)).chain(walking_vectors(net)).collect()
}
