//! Every class of few nets, of each gate and soft level: which of them every call with row 6 admits, for 2 to 12 nets;
//! and those from 4 to n - 1, for 5 to 10 nets: verdicts, pairs, states read back, and job files. Shortening alone
//! admits none above 3.

mod support;

use model::checker::{sets_of_class, verdict};
use model::jobfile::bytes_of;
use model::network::{extra_vector, meet_and_differ, response, walking_vectors};
use model::{Board, Job, Network, Verdict};
use support::boards::*;
use support::calls::*;
use support::generator::Generator;
use support::jobs::{read_agrees, KINDS};
use support::networks::{each_combination, extra_at_some_level, of_library, whole_walking_set};

/// Every n from 5 to 10 with every class from 4 to n - 1.
fn small_classes() -> Vec<(u64, u64)> {
    (5..=10).flat_map(|n| (4..n).map(move |k| (n, k))).collect()
}

/// Sound boards, with one receiver a net and with a second one on net 0, and their states.
fn sound(net: Network) -> [(Board, Vec<u64>); 2] {
    let state: Vec<u64> = (0..net.nets).map(|i| 1 << i).collect();
    let with_another = Board { network: net, owners: (0..net.nets).chain([0]).collect() };
    [(net.into(), state.clone()), (with_another, [&state[..], &[1]].concat())]
}

/// Makes every call that has row 6 on a sound board, over vectors that pass for every class. Says whether the class is
/// admitted.
fn try_class(net: Network, k: u64) -> bool {
    let vectors = whole_walking_set(net);
    let checked = model::check(net, k, &vectors);
    check_gives(net, k, &vectors, &checked);
    let shortened = model::shorten(net, k, &vectors, u64::MAX, vectors.len());
    shorten_gives(net, k, &vectors, u64::MAX, vectors.len(), &shortened);
    assert_eq!(shortened.is_ok(), checked.is_ok() && k <= 3);
    for (board, state) in sound(net) {
        let (m, v, answers) = (board.receivers(), vectors.len(), response(net, &vectors, &state));
        respond_gives(&board, k, &vectors, &state, v, &model::respond(&board, k, &vectors, &state, v));
        diagnose_gives(&board, k, &vectors, &answers, m, &model::diagnose(&board, k, &vectors, &answers, m));
    }
    for (kind, responses) in KINDS.into_iter().flat_map(|kind| [(kind, vec![]), (kind, vectors.clone())]) {
        let job = Job { kind, network: net, k, vectors: vectors.clone(), responses };
        write_job_gives(&job, 2048, &model::write_job(&job, 2048));
        let _ = read_agrees(&bytes_of(&job));
    }
    assert!(checked.is_err() || checked == Ok(Verdict::Pass));
    checked != Err(6)
}

/// Up to 10 nets all classes from 1 to n are admitted, for 11 and 12 nets four of them.
#[test]
fn every_class_of_2_to_12_nets() {
    for n in 2..=12 {
        for net in each_combination(n) {
            let admitted: Vec<u64> = (0..=n + 1).filter(|k| try_class(net, *k)).collect();
            let expected = if n <= 10 { (1..=n).collect() } else { vec![1, 2, 3, n] };
            assert_eq!(admitted, expected, "{net:?}");
        }
    }
}

/// A set for this network: all that walks among others; the walking vectors alone, or without one; random ones beside
/// some of them; sparse ones; or any.
fn test_set(g: &mut Generator, net: Network) -> Vec<u64> {
    let (n, mut walking) = (net.nets, walking_vectors(net));
    g.shuffle(&mut walking);
    match g.below(6) {
        0 => walking_set(g, net),
        1 => walking,
        2 => walking[1..].to_vec(),
        3 => {
            let (kept, more) = (2 + g.below(n as usize - 2), 1 + g.below(12));
            [&walking[..kept], &for_gate(net, &sparse_set(g, n, more, 4))].concat()
        }
        4 => {
            let (length, times) = (5 + g.below(60), 3 + g.below(8));
            for_gate(net, &sparse_set(g, n, length, times))
        }
        _ => (0..1 + g.below(64)).map(|_| g.word() & low_bits(n)).collect(),
    }
}

/// The reach at receiver 0, all others floating.
fn shown_state(net: Network, reach: u64) -> Vec<u64> {
    let mut state = vec![0; net.nets as usize];
    state[0] = reach;
    state
}

/// What must hold of any pair, said without the model: A is below B, each has at most k drivers, and the states shown
/// answer alike.
fn assert_pair_of_class(net: Network, k: u64, vectors: &[u64], a: u64, b: u64) {
    assert!(a < b && b < 1 << net.nets && a.count_ones().max(b.count_ones()) as u64 <= k, "{net:?} {k} {a} {b}");
    let [of_a, of_b] =
        [a, b].map(|reach| fontarelga::respond(of_library(net), k, vectors, &shown_state(net, reach)).unwrap());
    assert_eq!(of_a, of_b, "{net:?} {k} {vectors:?} {a} {b}");
}

/// A board over a set that passes: a state of the class, read back; a bit of its response turned; a state with a reach
/// of k + 1 drivers; and two receivers whose reaches meet and differ, which no state has. Gives what the diagnosis said
/// of all four.
fn try_board(g: &mut Generator, board: &Board, k: u64, vectors: &[u64]) -> [Result<Vec<u64>, u64>; 4] {
    let (net, m) = (board.network, board.receivers());
    let right = state(g, board, k);
    let longer = g.below(3);
    respond_gives(board, k, vectors, &right, vectors.len() + longer, &Ok(response(net, vectors, &right)));
    let mut wide = vec![0; m];
    wide[g.below(m)] = low_bits(k + 1) << g.below((net.nets - k) as usize);
    respond_gives(board, k, vectors, &wide, vectors.len() + longer, &Err(11));
    let sets = sets_of_class(net.nets, k);
    let mut conflict = right.clone();
    while !meet_and_differ(conflict[0], conflict[1]) {
        [conflict[0], conflict[1]] = [*g.pick(&sets), *g.pick(&sets)];
    }
    let turned = g.one_bit_turned(&response(net, vectors, &right), m);
    let responses =
        [response(net, vectors, &right), turned, response(net, vectors, &wide), response(net, vectors, &conflict)];
    let by_model = |given: &[u64]| model::diagnose(board, k, vectors, given, m);
    let expected = [Ok(right), by_model(&responses[1]), by_model(&responses[2]), Err(14)];
    for (given, reading) in responses.iter().zip(&expected) {
        diagnose_gives(board, k, vectors, given, m + longer, reading);
    }
    expected
}

/// How often each was met.
#[derive(Debug, Default)]
struct Seen {
    passed: u32,
    pairs: u32,
    /// Pairs of which a set has more than three drivers.
    large_pairs: u32,
    /// Responses read back, those of them whose state has a reach of more than three drivers, and those that no state
    /// gives; all but for reaches that meet and differ.
    read: u32,
    read_large: u32,
    unfit: u32,
}

impl Seen {
    fn count(&mut self, reading: &Result<Vec<u64>, u64>) {
        match reading {
            Ok(state) => {
                self.read += 1;
                self.read_large += u32::from(state.iter().any(|reach| reach.count_ones() > 3));
            }
            Err(_) => self.unfit += 1,
        }
    }
}

/// One set: its verdict by the model, and boards on it, of one receiver a net and of more.
fn try_set(g: &mut Generator, net: Network, k: u64, vectors: &[u64], seen: &mut Seen) {
    let shown = verdict(net, k, vectors);
    check_gives(net, k, vectors, &Ok(shown));
    let boards = [net.into(), with_some_receivers(g, net)];
    if let Verdict::Pair(a, b) = shown {
        assert_pair_of_class(net, k, vectors, a, b);
        seen.pairs += 1;
        seen.large_pairs += u32::from(a.count_ones().max(b.count_ones()) > 3);
        for board in boards {
            let answers = response(net, vectors, &state(g, &board, k));
            diagnose_gives(&board, k, vectors, &answers, 64, &Err(13));
        }
    } else {
        seen.passed += 1;
        for board in boards {
            try_board(g, &board, k, vectors)[..3].iter().for_each(|reading| seen.count(reading));
        }
    }
}

/// Random sets of every n and k. Of each gate and level a good part passes, and a good part of the pairs has a set of
/// more than three drivers.
#[test]
fn random_sets() {
    let g = &mut Generator::new(41);
    let mut seen: [Seen; 4] = Default::default();
    for (n, k) in small_classes() {
        for (net, seen) in each_combination(n).into_iter().zip(&mut seen) {
            for _ in 0..24 {
                let vectors = test_set(g, net);
                try_set(g, net, k, &vectors, seen);
            }
        }
    }
    println!("504 random sets with OR and AND at levels 0 and 1: {seen:?}");
    for seen in seen {
        assert_eq!(seen.passed + seen.pairs, 504);
        assert!(seen.passed.min(seen.pairs) > 120 && seen.large_pairs > 20, "{seen:?}");
        assert!(seen.read > 200 && seen.read_large > 100 && seen.unfit > 200, "{seen:?}");
    }
}

/// Vector 0, and the walking vectors but for that of the first net named: its driver drives 1 beside each of the next
/// `behind` alone; with AND all that turned. In a reach with all of those it is not seen, and otherwise every set is.
/// Gives the set, those others, and the driver.
fn hiding_set(net: Network, nets: &[u64], behind: usize) -> (Vec<u64>, u64, u64) {
    let hidden = 1 << nets[0];
    let (others, before) = (nets[1..].iter().map(|i| 1u64 << i), nets[1..=behind].iter().map(|i| 1 << i));
    let vectors: Vec<u64> = [0].into_iter().chain(others).chain(before.clone().map(|i: u64| i | hidden)).collect();
    (for_gate(net, &vectors), before.sum(), hidden)
}

/// A driver that is not seen beside `behind` others: every class up to that number passes, and every class above shows
/// those others, and the same with the driver. Said without the model.
#[test]
fn a_driver_that_others_hide() {
    let g = &mut Generator::new(42);
    let (mut passed, mut pairs) = (0, 0);
    for n in 5..=10 {
        for (behind, net) in (1..n).flat_map(|behind| each_combination(n).map(|net| (behind, net))) {
            let mut nets: Vec<u64> = (0..n).collect();
            g.shuffle(&mut nets);
            let (mut vectors, others, hidden) = hiding_set(net, &nets, behind as usize);
            g.shuffle(&mut vectors);
            for k in 1..n {
                let shown = if k <= behind { Verdict::Pass } else { Verdict::Pair(others, others | hidden) };
                check_gives(net, k, &vectors, &Ok(shown));
                *(if k <= behind { &mut passed } else { &mut pairs }) += 1;
            }
        }
    }
    println!("sets in which a driver is hidden: {passed} passed, {pairs} shown as pairs");
    assert_eq!((passed, pairs), (4 * (10 + 15 + 21 + 28 + 36 + 45), 4 * (6 + 10 + 15 + 21 + 28 + 36)));
}

/// Driver 1 is not seen beside all above it: only the last set of class n - 1, all drivers but 0, reads as a smaller
/// one.
#[test]
fn the_last_set_of_a_class() {
    for n in 5..=10 {
        let (nets, last): (Vec<u64>, u64) = ((1..n).chain([0]).collect(), low_bits(n) - 1);
        for net in each_combination(n) {
            let (vectors, others, hidden) = hiding_set(net, &nets, n as usize - 2);
            assert_eq!(others | hidden, last);
            check_gives(net, n - 1, &vectors, &Ok(Verdict::Pair(last - 2, last)));
            check_gives(net, n - 2, &vectors, &Ok(Verdict::Pass));
        }
    }
}

/// Walking vectors alone pass for every class below n, and for class n where there is no extra vector. Over vector 0
/// alone with OR, and all ones with AND, every driver reads the same: as a floating receiver does where there is no
/// extra vector.
#[test]
fn walking_vectors_and_the_extra_one_apart() {
    for net in (5..=10).flat_map(each_combination) {
        let (n, walking, idle) = (net.nets, walking_vectors(net), [extra_at_some_level(net); 64]);
        let (of_class_n, of_idle) = match extra_vector(net) {
            Some(_) => (Verdict::Pair(0, low_bits(n)), Verdict::Pair(1, 2)),
            None => (Verdict::Pass, Verdict::Pair(0, 1)),
        };
        check_gives(net, n, &walking, &Ok(of_class_n));
        for k in 1..n {
            check_gives(net, k, &walking, &Ok(Verdict::Pass));
            check_gives(net, k, &idle, &Ok(of_idle));
        }
    }
}

/// Jobs of such classes are written, read back with all that they say, and diagnosed from what was read.
#[test]
fn job_files() {
    let g = &mut Generator::new(43);
    for (n, k) in small_classes() {
        for network in each_combination(n) {
            let (vectors, board_state) = (walking_set(g, network), state(g, &network.into(), k));
            let responses = response(network, &vectors, &board_state);
            let job = Job { kind: *g.pick(&KINDS), network, k, vectors, responses };
            let file = bytes_of(&job);
            write_job_gives(&job, file.len(), &Ok(file.clone()));
            read_job_gives(&file, 64, 64, &Ok(job.clone()));
            let read = fontarelga::Job::read(&file).unwrap();
            assert_eq!((read.network, read.class, read.kind), (of_library(network), k, job.kind));
            assert_eq!(read.write(), Ok(file));
            assert_eq!(fontarelga::diagnose(read.network, k, &read.vectors, &read.responses), Ok(board_state));
        }
    }
}
