//! Two and three nets, of each gate and soft level: with one receiver a net every test set of a few vectors, every
//! class, every state and every response; two nets with every list of two to four receivers and three nets with every
//! list of four, over fewer sets.

mod support;

use model::board::all_owners;
use model::checker::verdict;
use model::diagnosis::only;
use model::network::{all_lists, all_states, response};
use model::{Board, Network, Verdict};
use std::collections::HashMap;
use support::calls::*;
use support::networks::{each_combination, whole_walking_set};

/// The states of a class by the response that they give to a set.
type Responses = HashMap<Vec<u64>, Vec<Vec<u64>>>;

fn responses_of(net: Network, states: &[Vec<u64>], vectors: &[u64]) -> Responses {
    let mut responses = Responses::new();
    for state in states {
        responses.entry(response(net, vectors, state)).or_default().push(state.clone());
    }
    responses
}

/// What the diagnosis must give: 13 for a set that is turned down, 14 if no state fits, else the one that does.
fn reading(passed: bool, fitting: Option<&Vec<Vec<u64>>>) -> Result<Vec<u64>, u64> {
    match (passed, fitting) {
        (false, _) => Err(13),
        (true, None) => Err(14),
        (true, Some(states)) => Ok(only(states.clone())),
    }
}

/// Tries everything on one test set, and gives the number of calls.
fn try_set(board: &Board, k: u64, vectors: &[u64], states: &[Vec<u64>]) -> usize {
    let (net, m) = (board.network, board.receivers());
    let responses = responses_of(net, states, vectors);
    let shown = verdict(net, k, vectors);
    let passed = shown == Verdict::Pass;
    assert_eq!(passed, responses.len() == states.len(), "pass means one state a response: {board:?} {k} {vectors:?}");
    check_gives(net, k, vectors, &Ok(shown));
    for (i, state) in states.iter().enumerate() {
        respond_gives(board, k, vectors, state, vectors.len() + i % 3, &Ok(response(net, vectors, state)));
    }
    let all_responses = all_lists(1 << m, vectors.len());
    for (i, given) in all_responses.iter().enumerate() {
        diagnose_gives(board, k, vectors, given, m + i % 3, &reading(passed, responses.get(given)));
    }
    1 + states.len() + all_responses.len()
}

/// Tries every set of up to `longest` vectors for every class, and says how many. Gives the number of sets.
fn try_sets(board: &Board, longest: usize) -> usize {
    let n = board.network.nets;
    let (mut sets, mut calls) = (0, 0);
    for k in 1..=n {
        let states = all_states(n, board.receivers(), k);
        for vectors in (1..=longest).flat_map(|length| all_lists(1 << n, length)) {
            sets += 1;
            calls += try_set(board, k, &vectors, &states);
        }
    }
    println!("{board:?}: {sets} sets, {calls} calls");
    sets
}

#[test]
fn every_set_of_up_to_4_vectors_on_2_nets() {
    for net in each_combination(2) {
        assert_eq!(try_sets(&net.into(), 4), 2 * (4 + 16 + 64 + 256));
    }
}

#[test]
fn every_set_of_up_to_3_vectors_on_3_nets() {
    for net in each_combination(3) {
        assert_eq!(try_sets(&net.into(), 3), 3 * (8 + 64 + 512));
    }
}

/// The network with every list of m receivers.
fn boards(network: Network, m: usize) -> Vec<Board> {
    all_owners(network, m).into_iter().map(|owners| Board { network, owners }).collect()
}

/// Two nets of each gate and level with every list of two to four receivers.
fn boards_of_2_nets() -> Vec<Board> {
    let boards_of = |net: Network| (2..=4).flat_map(move |m| boards(net, m));
    each_combination(2).into_iter().flat_map(boards_of).collect()
}

#[test]
fn every_set_of_up_to_2_vectors_with_every_list_of_receivers() {
    let boards = boards_of_2_nets();
    assert_eq!(boards.len(), 4 * (2 + 6 + 14));
    boards.iter().for_each(|board| assert_eq!(try_sets(board, 2), 2 * (4 + 16)));
}

/// Class 2, for which the extra vector makes the smallest sets that pass.
#[test]
fn every_set_of_3_vectors_that_passes_with_every_list_of_receivers() {
    let mut sets = 0;
    for board in boards_of_2_nets() {
        let states = all_states(2, board.receivers(), 2);
        let passing = |vectors: &Vec<u64>| verdict(board.network, 2, vectors) == Verdict::Pass;
        for vectors in all_lists(4, 3).into_iter().filter(passing) {
            try_set(&board, 2, &vectors, &states);
            sets += 1;
        }
    }
    // With an extra vector, the three in any order; without one, the lists that lack neither walking vector.
    assert_eq!(sets, (2 + 6 + 14) * (2 * 6 + 2 * (64 - 27 - 27 + 8)));
}

/// Three nets with every list of four receivers: every state of every class over a set that passes, and each response
/// with one of the lists.
#[test]
fn three_nets_with_four_receivers() {
    for net in each_combination(3) {
        let (boards, vectors) = (boards(net, 4), whole_walking_set(net));
        assert_eq!(boards.len(), 36);
        for k in 1..=3 {
            let states = all_states(3, 4, k);
            let responses = responses_of(net, &states, &vectors);
            for (i, state) in states.iter().enumerate() {
                let (board, right) = (&boards[i % 36], response(net, &vectors, state));
                respond_gives(board, k, &vectors, state, 4 + i % 3, &Ok(right.clone()));
                boards.iter().for_each(|board| diagnose_gives(board, k, &vectors, &right, 4, &Ok(state.clone())));
            }
            for (i, given) in all_lists(16, 4).iter().enumerate() {
                diagnose_gives(&boards[i % 36], k, &vectors, given, 4 + i % 3, &reading(true, responses.get(given)));
            }
        }
    }
}

/// A list of m reaches, a state or not, to the findings and to the response.
fn try_reaches(board: &Board, list: &[u64], i: usize) {
    let records = board.receivers() + i % 3;
    findings_gives(board, list, 3 * records + i % 2, &model::findings(board, list, records));
    for k in 1..=board.network.nets {
        respond_gives(board, k, &[1, 2], list, 2 + i % 2, &model::respond(board, k, &[1, 2], list, 2));
    }
}

#[test]
fn every_list_of_reaches_on_up_to_4_nets() {
    for net in (2..=4).flat_map(each_combination) {
        let (board, lists) = (net.into(), all_lists(1 << net.nets, net.nets as usize));
        lists.iter().enumerate().for_each(|(i, list)| try_reaches(&board, list, i));
    }
}

#[test]
fn every_list_of_reaches_with_every_list_of_receivers() {
    for board in boards_of_2_nets() {
        let lists = all_lists(4, board.receivers());
        lists.iter().enumerate().for_each(|(i, list)| try_reaches(&board, list, i));
    }
}

/// Three nets with every list of four receivers, of one gate and level after the other.
#[test]
fn every_list_of_reaches_of_four_receivers_on_3_nets() {
    let boards = each_combination(3).map(|net| boards(net, 4));
    for (i, list) in all_lists(8, 4).iter().enumerate() {
        boards[i % 4].iter().for_each(|board| try_reaches(board, list, i / 4));
    }
}
