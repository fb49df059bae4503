//! Sessions with several receivers on a net, of each gate and soft level: on two nets every list of two to four
//! receivers with all answers, every list of a few calls with three receivers, and on three nets every state of four.

mod support;

use fontarelga::raw;
use model::board::all_owners;
use model::network::{all_lists, all_states, extra_vector, response, walking_vector};
use model::session::{finished, first_vectors, WORDS};
use model::{Board, Network, Record};
use std::collections::HashMap;
use support::networks::each_combination;
use support::session::*;
use support::walk::walk;

/// Every list of second answers on a record that waits for them. `known` are the states that give the first answers
/// that it holds. Gives the number of calls.
fn try_second_answers(board: &Board, waiting: &Record, second: &[u64], known: &[&Vec<u64>]) -> usize {
    let net = board.network;
    let fitting: HashMap<Vec<u64>, &Vec<u64>> =
        known.iter().map(|state| (response(net, second, state), *state)).collect();
    assert_eq!(fitting.len(), known.len(), "at most one state fits: {waiting:?}");
    let words = waiting.words();
    let answers = all_lists(1 << board.receivers(), second.len());
    for given in &answers {
        let expected = match fitting.get(given) {
            Some(state) => (0, finished(board, state, 2 + second.len()).words()),
            None => (14, words),
        };
        let mut record = words;
        let number = raw::second_answers(&mut record, given);
        assert!((number, record) == expected, "{words:?}\n{given:?}\ngave {number} {record:?}");
    }
    answers.len()
}

/// Every list of first answers on a board of two nets, and every list of second answers after those that some state
/// gives and after every eighth of the others. Gives the number of calls.
fn try_answers(board: &Board) -> usize {
    let (net, m) = (board.network, board.receivers());
    let (states, vectors) = (all_states(2, m, 2), first_vectors(2));
    let (begun, _) = model::begin(board, 2).unwrap();
    let mut calls = 0;
    for (i, first) in all_lists(1 << m, 2).into_iter().enumerate() {
        let known: Vec<_> = states.iter().filter(|state| response(net, &vectors, state) == first).collect();
        let call = Call::First { answers: first, room: 3 };
        let answer = call.answer(&begun);
        session_call_gives(&begun.words(), &call, &answer);
        let (left, second) = answer.unwrap();
        calls += 1;
        if !second.is_empty() && (!known.is_empty() || i % 8 == 0) {
            calls += try_second_answers(board, &left, &second, &known);
        }
    }
    calls
}

#[test]
fn all_answers_on_2_nets_with_every_list_of_receivers() {
    for net in each_combination(2) {
        let boards = (2..=4).flat_map(|m| all_owners(net, m)).map(|owners| Board { network: net, owners });
        let calls: Vec<usize> = boards.map(|board| try_answers(&board)).collect();
        println!("{net:?}: {} lists of receivers, {} calls", calls.len(), calls.iter().sum::<usize>());
        assert_eq!(calls.len(), 2 + 6 + 14);
    }
}

#[test]
fn every_state_of_2_nets_with_every_list_of_receivers_is_reported() {
    for net in each_combination(2) {
        for owners in (2..=4).flat_map(|m| all_owners(net, m)) {
            let board = Board { network: net, owners };
            all_states(2, board.receivers(), 2).iter().for_each(|state| assert_reported(&board, state));
        }
    }
}

/// Every list and every state, with one gate and level after the other.
#[test]
fn every_state_of_3_nets_with_4_receivers_is_reported() {
    let networks = each_combination(3);
    let states = all_states(3, 4, 3);
    for (i, owners) in all_owners(networks[0], 4).into_iter().enumerate() {
        let boards = networks.map(|network| Board { network, owners: owners.clone() });
        states.iter().zip(i..).for_each(|(state, i)| assert_reported(&boards[i % 4], state));
    }
}

fn board(network: Network, owners: &[u64]) -> Board {
    Board { network, owners: owners.to_vec() }
}

/// Begins: accepted with three receivers, with the same on other nets, with two and with four, and refused by 12, 21
/// for each of its reasons, and 5.
fn begins(net: Network) -> Vec<Call> {
    let calls = [
        (board(net, &[0, 1, 0]), 2),
        (board(net, &[1, 0, 1]), 2),
        (net.into(), 3),
        (board(net, &[0, 1, 0, 0]), 2),
        (board(net, &[0, 1, 0]), 1),
        (board(net, &[]), 2),
        (board(net, &[0]), 2),
        (board(net, &[0, 2, 1]), 2),
        (board(net, &[0, 0, 0]), 2),
        (board(Network { nets: 1, ..net }, &[0]), 2),
    ];
    calls.map(|(board, room)| Call::Begin { board, room }).to_vec()
}

/// First answers that some state of three receivers gives, and some that none gives, that are too few, or that have a
/// bit for a fourth receiver or a higher one.
fn firsts(net: Network) -> Vec<Call> {
    let given = all_states(2, 3, 2).into_iter().map(|state| response(net, &first_vectors(2), &state));
    let others = [vec![6, 5], vec![4, 4], vec![7], vec![1, 8], vec![9, 2], vec![5, 1 << 63]];
    let mut lists: Vec<Vec<u64>> = given.chain(others).collect();
    lists.sort();
    lists.dedup();
    lists.into_iter().map(|answers| Call::First { answers, room: 3 }).collect()
}

/// Second answers that some state gives if both nets are unclear or one is, and some that none gives, that are too few
/// or that have a high bit.
fn seconds(net: Network) -> Vec<Call> {
    let mut lists = vec![vec![], vec![6, 5, 3], vec![2, 7], vec![0, 8], vec![0, 1, 1 << 63]];
    for state in all_states(2, 3, 2) {
        for unclear in [[0, 1].as_slice(), &[0], &[1]] {
            let walking = unclear.iter().map(|i| walking_vector(net, *i));
            let second: Vec<u64> = extra_vector(net).into_iter().chain(walking).collect();
            lists.push(response(net, &second, &state));
        }
    }
    lists.sort();
    lists.dedup();
    lists.into_iter().map(|answers| Call::Second { answers }).collect()
}

/// Records to start from: junk, and left by calls with three receivers, and nearly so: with an owner that is no net, a
/// net without a receiver, an unused owner that is not 0, another number of receivers.
fn starting_records(net: Network) -> Vec<[u64; WORDS]> {
    let (begun, first) = model::begin(&board(net, &[0, 1, 0]), 2).unwrap();
    let (waiting, _) = model::first_answers(&begun, &response(net, &first, &[3, 3, 0]), 3).unwrap();
    let with_owner = |record: &Record, place: usize, owner: u64| {
        let mut changed = record.clone();
        changed.owners[place] = owner;
        changed.words()
    };
    let with_count = |record: &Record, receivers: u64| Record { receivers, ..record.clone() }.words();
    let changed = |record: &Record| {
        let owners = [(2, 1), (2, 2), (1, 0), (3, 1), (63, 1)].map(|(place, owner)| with_owner(record, place, owner));
        let counts = [0, 1, 2, 4, 65, u64::MAX].map(|count| with_count(record, count));
        [&owners[..], &counts].concat()
    };
    [vec![[3; WORDS]], changed(&begun), changed(&waiting)].concat()
}

#[test]
fn every_list_of_3_calls_with_3_receivers() {
    for net in each_combination(2) {
        walk([begins(net), firsts(net), seconds(net)].concat(), 3, &[[0; WORDS]], &net);
    }
}

#[test]
fn every_list_of_2_calls_from_changed_records() {
    for net in each_combination(2) {
        walk([begins(net), firsts(net), seconds(net)].concat(), 2, &starting_records(net), &net);
    }
}
