//! The diagnosis: by the answers to walking vectors for k = n, by a hash map of readings for k below n.

use super::checker::{floating, reading, sets_of_class, walking};
use super::{admit_responses, admit_set_on_board, code, dominant, extra_vector, put_driver, put_floating, reached};
use super::{reaches_agree, read, receiver_count, turned};
use fontarelga::Board;
use std::collections::HashMap;

/// k = n: the answers to the extra vector, if there is one, and to the walking vectors spell out each reach, and the
/// rest must agree.
fn by_walking(board: &Board, vectors: &[u64], responses: &[u64]) -> Result<Vec<u64>, u64> {
    let network = board.network();
    if walking(network, vectors).is_some() {
        return Err(13);
    }
    let mut state = vec![0; board.receivers().len()];
    let mut floating = 0;
    for (vector, response) in vectors.iter().zip(responses) {
        let (driver, receivers) = (dominant(network, *vector), reached(board, *response));
        if extra_vector(network) == Some(*vector) {
            floating = receivers;
        } else if driver.is_power_of_two() {
            put_driver(&mut state, receivers, driver);
        }
    }
    put_floating(&mut state, floating);
    let fits = vectors.iter().zip(responses).all(|(vector, response)| read(network, &state, *vector) == *response);
    if fits && reaches_agree(&state) {
        Ok(state)
    } else {
        Err(14)
    }
}

/// k below n: each receiver's reach is the set that reads as it answered.
fn by_readings(board: &Board, k: u64, vectors: &[u64], responses: &[u64]) -> Result<Vec<u64>, u64> {
    let network = board.network();
    let (driven, floating) = (turned(network.nets(), vectors), floating(network, vectors.len()));
    let sets = sets_of_class(network.nets(), k);
    let mut set_of = HashMap::with_capacity(sets.len());
    for set in sets {
        if set_of.insert(reading(network.gate(), set, &driven, floating), set).is_some() {
            return Err(13);
        }
    }
    let answered = turned(receiver_count(board), responses);
    let reaches: Option<Vec<u64>> = answered.iter().map(|word| set_of.get(word).copied()).collect();
    reaches.filter(|state| reaches_agree(state)).ok_or(14)
}

fn state_of(board: &Board, k: u64, vectors: &[u64], responses: &[u64], room: usize) -> Result<Vec<u64>, u64> {
    admit_set_on_board(board, k, vectors)?;
    admit_responses(receiver_count(board), vectors.len(), responses)?;
    if room < board.receivers().len() {
        return Err(12);
    }
    if k == board.network().nets() {
        by_walking(board, vectors, responses)
    } else {
        by_readings(board, k, vectors, responses)
    }
}

/// The call.
pub fn diagnose(board: &Board, k: u64, vectors: &[u64], responses: &[u64], state: &mut [u64]) -> u64 {
    let answer = state_of(board, k, vectors, responses, state.len());
    code(answer.map(|reaches| state[..reaches.len()].copy_from_slice(&reaches)))
}
