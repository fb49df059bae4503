//! Random boards of up to 48 nets and 64 receivers, of each gate and soft level. The state that a response was made
//! from is the one read back.

mod support;

use model::checker::verdict;
use model::network::{extra_vector, response};
use model::{Board, Network, Verdict};
use support::boards::*;
use support::calls::*;
use support::generator::Generator;
use support::networks::{each_combination, whole_walking_set};

/// Response, diagnosis and findings of one board over a set that passes, and the diagnosis of a damaged response.
fn try_board(g: &mut Generator, board: &Board, k: u64, vectors: &[u64]) {
    let (net, m) = (board.network, board.receivers());
    let state = state(g, board, k);
    let right = response(net, vectors, &state);
    let longer = g.below(4);
    respond_gives(board, k, vectors, &state, vectors.len() + longer, &Ok(right.clone()));
    diagnose_gives(board, k, vectors, &right, m + longer, &Ok(state.clone()));
    findings_gives(board, &state, 3 * m + longer, &model::findings(board, &state, m));
    let damaged = g.one_bit_turned(&right, m);
    diagnose_gives(board, k, vectors, &damaged, m + longer, &model::diagnose(board, k, vectors, &damaged, m));
}

/// The same of one receiver a net, and of more.
fn try_boards(g: &mut Generator, net: Network, k: u64, vectors: &[u64]) {
    try_board(g, &net.into(), k, vectors);
    let board = with_some_receivers(g, net);
    try_board(g, &board, k, vectors);
}

/// Compares the verdict with the model's, and says whether it is pass.
fn passes(net: Network, k: u64, vectors: &[u64]) -> bool {
    let shown = verdict(net, k, vectors);
    check_gives(net, k, vectors, &Ok(shown));
    shown == Verdict::Pass
}

/// A board of each gate and level over a set with all that walks.
fn try_walking(g: &mut Generator, n: u64, k: u64) {
    for net in each_combination(n) {
        let vectors = walking_set(g, net);
        assert!(passes(net, k, &vectors));
        try_boards(g, net, k, &vectors);
    }
}

#[test]
fn class_n_over_walking_vectors() {
    let g = &mut Generator::new(1);
    for case in 0..376 {
        let n = 2 + case % 47;
        try_walking(g, n, n);
    }
}

#[test]
fn classes_1_and_2_over_walking_vectors() {
    let g = &mut Generator::new(2);
    for case in 0..180 {
        try_walking(g, 4 + case % 45, 1 + case % 2);
    }
}

#[test]
fn class_3_over_walking_vectors() {
    let g = &mut Generator::new(3);
    for n in [4, 5, 7, 12, 13, 20, 48] {
        try_walking(g, n, 3);
    }
}

/// A board on a random set if that passes, else the diagnosis that is turned down. Says whether it passes.
fn try_random_set(g: &mut Generator, net: Network, k: u64, vectors: &[u64]) -> bool {
    let passed = passes(net, k, vectors);
    if passed {
        try_boards(g, net, k, vectors);
    } else {
        let board = with_some_receivers(g, net);
        let answers = response(net, vectors, &state(g, &board, k));
        diagnose_gives(&board, k, vectors, &answers, 64, &Err(13));
    }
    passed
}

/// Sets of random vectors, of which some pass with each gate at each level.
#[test]
fn classes_below_n_over_random_sets() {
    let g = &mut Generator::new(5);
    let mut passed = [[0; 3]; 4];
    for case in 0..450 {
        let k = 1 + case % 3;
        let n = if k == 3 { 4 + g.below(15) } else { 4 + g.below(45) } as u64;
        let length = 2 + g.below(if k == 1 { 20 } else { 63 });
        let vectors = sparse_set(g, n, length, k as usize + 1);
        for (net, passed) in each_combination(n).into_iter().zip(&mut passed) {
            passed[k as usize - 1] += u32::from(try_random_set(g, net, k, &for_gate(net, &vectors)));
        }
    }
    println!("150 random sets for each of classes 1, 2, 3: passed {passed:?} with OR and AND at levels 0 and 1");
    assert!(passed.iter().flatten().all(|count| (16..135).contains(count)));
}

/// The largest search: 48 nets and class 3, with the pair early, late and not at all.
#[test]
fn class_3_on_48_nets() {
    let g = &mut Generator::new(6);
    let random = [5, 20, 40, 64].map(|length| sparse_set(g, 48, length, 4));
    for net in each_combination(48) {
        let walking = whole_walking_set(net);
        assert!(passes(net, 3, &walking));
        assert!(!passes(net, 3, &walking[..48]));
        assert!(passes(net, 3, &walking[1..]), "three drivers do not read as a floating receiver");
        random.iter().for_each(|vectors| _ = passes(net, 3, &for_gate(net, vectors)));
    }
}

/// A walking set of class n without one of its vectors, for every n: the pair that names it. The first, vector 0 or all
/// ones, may be missing where it is not the extra vector.
#[test]
fn class_n_without_one_vector() {
    for net in (2..=48).flat_map(each_combination) {
        let whole = whole_walking_set(net);
        for missing in 0..whole.len() {
            let mut vectors = whole.clone();
            vectors.remove(missing);
            assert_eq!(passes(net, net.nets, &vectors), missing == 0 && extra_vector(net).is_none());
        }
    }
}
