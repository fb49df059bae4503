//! Sessions of each gate and soft level: every list of a few calls on two nets with one receiver each, every state of
//! up to four, random boards with one receiver a net and with more, damaged records and damaged answers.

mod support;

use model::network::{all_lists, all_states, extra_vector, response, walking_vector};
use model::session::{left_waiting, FIRST, SECOND, WORDS};
use model::{Board, Network, Record, AND};
use support::boards;
use support::generator::Generator;
use support::networks::each_combination;
use support::session::*;
use support::walk::walk;

/// The network at the other soft level, and with the other gate.
fn others(net: Network) -> [Network; 2] {
    [Network { level: 1 - net.level, ..net }, Network { gate: 1 - net.gate, ..net }]
}

/// Begins: accepted with room to spare, and exact at the other level, with the other gate and with the receivers in the
/// other order, and refused by 12, 5, 17, 20 and 21.
fn begins(net: Network) -> Vec<Call> {
    let [other_level, other_gate] = others(net);
    let with = |owners: &[u64]| Board { network: net, owners: owners.to_vec() };
    let calls = [
        (net.into(), 3),
        (other_level.into(), 2),
        (other_gate.into(), 2),
        (with(&[1, 0]), 2),
        (net.into(), 1),
        (Network { nets: 1, ..net }.into(), 3),
        (Network { nets: 49, ..net }.into(), 6),
        (Network { level: 2, ..net }.into(), 3),
        (Network { gate: 2, ..net }.into(), 3),
        (with(&[0, 0]), 3),
    ];
    calls.map(|(board, room)| Call::Begin { board, room }).to_vec()
}

/// The most vectors of step two on two nets.
fn most_seconds(net: Network) -> usize {
    2 + extra_vector(net).iter().count()
}

/// First answers: every two words below 4, right for some state or not; room exact, short and not needed; too few, too
/// many, high bits.
fn firsts(net: Network) -> Vec<Call> {
    let most = most_seconds(net);
    let mut calls: Vec<Call> = all_lists(4, 2).into_iter().map(|answers| Call::First { answers, room: 4 }).collect();
    let others: [(&[u64], usize); 8] = [
        (&[1, 2], 0),
        (&[3, 3], most),
        (&[3, 3], most - 1),
        (&[3], 4),
        (&[1, 2, 0], 4),
        (&[4, 1], 4),
        (&[1, 1 << 63], 4),
        (&[4], 0),
    ];
    calls.extend(others.map(|(answers, room)| Call::First { answers: answers.to_vec(), room }));
    calls
}

/// Second answers that some state gives after some first answers, which leave both nets unclear or one.
fn right_seconds(net: Network) -> Vec<Vec<u64>> {
    let mut lists: Vec<Vec<u64>> = Vec::new();
    for state in all_states(2, 2, 2) {
        for unclear in [[0, 1].as_slice(), &[0], &[1]] {
            let walking = unclear.iter().map(|i| walking_vector(net, *i));
            let second: Vec<u64> = extra_vector(net).into_iter().chain(walking).collect();
            lists.push(response(net, &second, &state));
        }
    }
    lists.sort();
    lists.dedup();
    lists
}

/// Second answers that are refused after any first ones: none, too few or given by no state, too many, high bits.
fn odd_seconds(net: Network) -> Vec<Vec<u64>> {
    // A clear net reads 0 with OR on the other's walking vector, and 1 with AND.
    let given_by_no_state = if net.gate == AND { 0 } else { 3 };
    vec![vec![], vec![given_by_no_state], vec![0, 1, 2, 0], vec![4, 1, 2], vec![0, 1 << 63], vec![4]]
}

fn seconds(lists: Vec<Vec<u64>>) -> Vec<Call> {
    lists.into_iter().map(|answers| Call::Second { answers }).collect()
}

/// The records that a session on two tied nets leaves: begun, waiting for second answers, finished.
fn records_of_tied_nets(net: Network) -> [Record; 3] {
    let (begun, first) = model::begin(&net.into(), 2).unwrap();
    let (waiting, second) = model::first_answers(&begun, &response(net, &first, &[3, 3]), 3).unwrap();
    let finished = model::second_answers(&waiting, &response(net, &second, &[3, 3])).unwrap();
    [begun, waiting, finished]
}

/// Records to start from: clean, junk, left by calls, and nearly so, in the level and the gate too.
fn starting_records(net: Network) -> Vec<[u64; WORDS]> {
    let mut g = Generator::new(59);
    let [begun, waiting, finished] = records_of_tied_nets(net);
    let [other_level, other_gate] = others(net);
    let with = |network: Network, record: &Record| Record { network, ..record.clone() }.words();
    vec![
        [0; WORDS],
        [u64::MAX; WORDS],
        std::array::from_fn(|_| g.word() % 4),
        begun.words(),
        Record { spent: 1, ..begun.clone() }.words(),
        with(Network { level: 2, ..net }, &begun),
        with(Network { gate: 2, ..net }, &begun),
        waiting.words(),
        Record { spent: 5, ..waiting.clone() }.words(),
        with(Network { level: 2, ..net }, &waiting),
        with(Network { gate: u64::MAX, ..net }, &waiting),
        // Accepted calls at the other level, and with the other gate, leave these.
        with(other_level, &waiting),
        with(other_gate, &waiting),
        // Answers that leave no net unclear finish a session, so no call leaves this one waiting.
        Record { answers: [1, 2, 0, 0, 0, 0, 0, 0], ..waiting }.words(),
        finished.words(),
    ]
}

#[test]
fn every_list_of_4_calls_on_2_nets() {
    for net in each_combination(2) {
        let calls = [begins(net), firsts(net), seconds(right_seconds(net)), seconds(odd_seconds(net))].concat();
        walk(calls, 4, &starting_records(net)[..2], &net);
    }
}

/// The same with every list of second answers, wrong ones included, and from more records.
#[test]
fn every_list_of_3_calls_on_2_nets() {
    for net in each_combination(2) {
        let most = most_seconds(net);
        let every_second = [all_lists(4, most - 1), all_lists(4, most), odd_seconds(net)].concat();
        let calls = [begins(net), firsts(net), seconds(every_second)].concat();
        walk(calls, 3, &starting_records(net), &net);
    }
}

#[test]
fn every_state_of_up_to_4_nets_is_reported() {
    let mut boards = 0;
    for net in (2..=4).flat_map(each_combination) {
        for state in all_states(net.nets, net.nets as usize, net.nets) {
            assert_reported(&net.into(), &state);
            boards += 1;
        }
    }
    println!("sessions over every state of 2 to 4 nets, of each gate and level: {boards}");
    assert!(boards > 4000);
}

#[test]
fn random_boards_of_2_to_48_nets_are_reported() {
    let g = &mut Generator::new(48);
    for case in 0..705 {
        for net in each_combination(2 + case % 47) {
            for board in [net.into(), boards::with_some_receivers(g, net)] {
                assert_reported(&board, &boards::state(g, &board, net.nets));
            }
        }
    }
}

/// Each receiver is reached by its own net's driver: no net is unclear.
#[test]
fn sound_boards_of_2_to_48_nets_are_reported() {
    let g = &mut Generator::new(49);
    for net in (2..=48).flat_map(each_combination) {
        for board in [net.into(), boards::with_some_receivers(g, net)] {
            assert_reported(&board, &board.owners.iter().map(|owner| 1 << owner).collect::<Vec<_>>());
        }
    }
}

/// A session over a random state with a bit turned in the first step, in the second, in both, or with any words.
fn run_damaged(g: &mut Generator, board: &Board, case: usize) -> Result<Record, u64> {
    let (net, m) = (board.network, board.receivers());
    let state = boards::state(g, board, net.nets);
    let mut first = response(net, &model::session::first_vectors(net.nets), &state);
    if case.is_multiple_of(2) {
        first = g.one_bit_turned(&first, m);
    }
    run(board, &first, |second| match case % 5 {
        0 => second.iter().map(|_| g.word() & boards::low_bits(m as u64)).collect(),
        1 | 2 => g.one_bit_turned(&response(net, second, &state), m),
        _ => response(net, second, &state),
    })
}

/// As many cases with one receiver a net as with more.
#[test]
fn damaged_answers() {
    let g = &mut Generator::new(14);
    for of_two_nets in each_combination(2) {
        let (mut cases, mut unfit) = (0, 0);
        for nets in [3, 4, 5, 6, 9, 17, 33, 48] {
            let net = Network { nets, ..of_two_nets };
            for case in 0..200 {
                let board = if case < 100 { net.into() } else { boards::with_some_receivers(g, net) };
                unfit += usize::from(run_damaged(g, &board, case) == Err(14));
                cases += 1;
            }
        }
        let Network { gate, level, .. } = of_two_nets;
        println!("gate {gate}, level {level}, sessions with damaged answers: {cases}, refused with 14: {unfit}");
        assert!(unfit > cases / 10 && unfit < cases);
    }
}

/// Boards of few and many nets, with one receiver a net and with more.
fn some_boards() -> Vec<Board> {
    let g = &mut Generator::new(8);
    let own = [2, 4, 7, 48].into_iter().flat_map(each_combination).map(Board::from);
    let more = [(2, 3), (6, 9), (10, 64), (48, 64)].map(|(n, m)| each_combination(n).map(|net| (net, m)));
    let more = more.into_iter().flatten().map(|(net, m)| boards::with_receivers(g, net, m));
    own.chain(more).collect()
}

/// Records left by calls on a board whose receiver 0 floats, with answers that suit each.
fn left_records(board: &Board) -> [(Record, Vec<u64>, Vec<u64>); 3] {
    let net = board.network;
    let (begun, first) = model::begin(board, 8).unwrap();
    let mut state: Vec<u64> = board.owners.iter().map(|owner| 1 << owner).collect();
    state[0] = 0;
    let answers = response(net, &first, &state);
    let (waiting, second) = model::first_answers(&begun, &answers, 49).unwrap();
    let answers_2 = response(net, &second, &state);
    let done = model::second_answers(&waiting, &answers_2).unwrap();
    [begun, waiting, done].map(|record| (record, answers.clone(), answers_2.clone()))
}

/// Numbers that a step, a net count, a level, a gate, a number of receivers, an owner or a word may be mistaken for,
/// and the neighbours of the old one.
fn values_near(old: u64) -> Vec<u64> {
    let neighbours = [old ^ 1, old ^ 2, old.wrapping_add(1), old.wrapping_sub(1)];
    let others = [0, 1, 2, 3, 4, 5, 47, 48, 49, 63, 64, 65, 1 << 47, 1 << 63, u64::MAX];
    [&neighbours[..], &others].concat()
}

/// The record with this number in one of its words: each call and the part to drive agree with the model. Says whether
/// the record is at step 1 or 2 and left by no calls.
fn try_changed(words: &[u64; WORDS], place: usize, new: u64, first: &[u64], second: &[u64]) -> bool {
    let mut changed = *words;
    changed[place] = new;
    let record = Record::from_words(&changed);
    let calls = [
        Call::Begin { board: Network { nets: 3, level: 0, gate: AND }.into(), room: 4 },
        Call::First { answers: first.to_vec(), room: 49 },
        Call::Second { answers: second.to_vec() },
    ];
    calls.iter().for_each(|call| session_call_gives(&changed, call, &call.answer(&record)));
    part_to_drive_agrees(&changed);
    matches!(record.step, FIRST | SECOND) && !left_waiting(&record)
}

/// Row 4 is exact: a record that differs in any word from one left by calls is left by other calls, or turned away.
#[test]
fn records_with_any_word_changed() {
    let mut turned_away = 0;
    let mut cases = 0;
    for (record, first, second) in some_boards().iter().flat_map(left_records) {
        let words = record.words();
        for place in 0..WORDS {
            for new in values_near(words[place]) {
                cases += 1;
                turned_away += usize::from(try_changed(&words, place, new, &first, &second));
            }
        }
    }
    println!("records with a word changed: {cases}, at step 1 or 2 and left by no calls: {turned_away}");
    assert!(turned_away > cases / 2 && turned_away < cases);
}
