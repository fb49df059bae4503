//! Document 01's bench examples and document 02's partners, soft level 0, gate AND, shorter sets, sets net by net and
//! clocks for a chain, by the wrappers.

mod support;

use fontarelga::*;
use support::networks::{each_combination, of_library};

/// Four nets whose receivers float to 0.
const PULL_DOWN: Network = Network::new(4).with_level(0);
/// The same with gate AND, and the same whose receivers float to 1.
const AND_PULL_DOWN: Network = PULL_DOWN.with_gate(AND);
const AND_PULL_UP: Network = AND_PULL_DOWN.with_level(1);

/// Source document 004, table II, the set for two shorts.
const TABLE_TWO: [u64; 7] = [34, 9, 49, 6, 76, 86, 96];

fn pair(a: u64, b: u64) -> Result<Verdict, Refusal> {
    Ok(Verdict::Pair { a, b })
}

#[test]
fn checker() {
    assert_eq!(check(4, 4, &[0, 1, 2, 4, 8]), Ok(Verdict::Pass));
    assert_eq!(check(4, 4, &[1, 2, 4, 8]), pair(0, 15));
    assert_eq!(check(4, 4, &[0, 1, 2, 4]), pair(7, 15));
    assert_eq!(check(4, 1, &[8, 6, 5]), Ok(Verdict::Pass));
    assert_eq!(check(4, 2, &[8, 6, 5]), pair(3, 4));
    assert_eq!(check(4, 1, &[3, 5, 12, 10]), Ok(Verdict::Pass));
    assert_eq!(check(4, 2, &[3, 5, 12, 10]), pair(0, 6));
    assert_eq!(check(2, 2, &[1, 2, 0]), Ok(Verdict::Pass));
}

/// The set that is left, the checks made and the floor.
fn shorter(kept: &[u64], checks: u64, floor: u64) -> Result<Shorter, Refusal> {
    Ok(Shorter { kept: kept.to_vec(), checks, floor })
}

/// Of seven vectors the last two and the first can be left out; two checks reach the last two.
#[test]
fn shorter_sets() {
    let vectors = [0, 1, 2, 4, 8, 3, 5];
    assert_eq!(shorten(4, 2, &vectors, 7), shorter(&[1, 2, 4, 8], 7, 4));
    assert_eq!(shorten(4, 2, &vectors, 2), shorter(&[0, 1, 2, 4, 8], 2, 4));
    assert_eq!(shorten(4, 2, &vectors, 0), shorter(&vectors, 0, 4));
    assert_eq!(shorten(4, 2, &vectors, u64::MAX), shorten(4, 2, &vectors, 7));
    assert_eq!(shorten(4, 2, &[0, 1, 2, 4], 0), Err(Refusal(13)));
}

/// The walking ones of four nets, net by net: after vector 0 each net is driven to 1 on one vector. And the counting
/// sequence, which gives the nets the numbers 1 to 4, highest digit first.
#[test]
fn sets_net_by_net() {
    assert_eq!(turn(4, &[0, 1, 2, 4, 8]), Ok(vec![2, 4, 8, 16]));
    assert_eq!(turn_back(4, 5, &[2, 4, 8, 16]), Ok(vec![0, 1, 2, 4, 8]));
    assert_eq!(turn(4, &[8, 6, 5]), Ok(vec![0b100, 0b010, 0b110, 0b001]));
    assert_eq!(turn_back(4, 3, &[0b100, 0b010, 0b110, 0b001]), Ok(vec![8, 6, 5]));
}

/// Four cells, which two nets need: drivers in cells 0 and 1, receivers in cells 2 and 3.
fn least_chain() -> Chain {
    Chain { cells: 4, driver_cells: vec![0, 1], receiver_cells: vec![2, 3] }
}

/// Vector 1 drives net 0 to 1. TDO is 1 at shift clock 2 of the second scan, so receiver 0 reads 1.
#[test]
fn clocks_for_a_chain() {
    let scan = [1, 0, 0, 2, 0, 0, 1, 1, 0];
    assert_eq!(write_clocks(2, &least_chain(), &[1]), Ok([scan, scan].concat()));
    let tdo = [[0; 9], [0, 0, 0, 0, 0, 1, 0, 0, 0]].concat();
    assert_eq!(read_clocks(2, &least_chain(), 1, &tdo), Ok(vec![1]));
}

/// Class n of two and three nets: vector 0 is wanted with OR at level 1, and not at level 0.
#[test]
fn shorter_sets_of_class_n() {
    let vectors = [4, 0, 2, 1, 7, 0];
    let [pull_up, pull_down] = [1, 0].map(|level| Network::new(3).with_level(level));
    assert_eq!(shorten(pull_up, 3, &vectors, 6), shorter(&[4, 0, 2, 1], 6, 3));
    assert_eq!(shorten(pull_down, 3, &vectors, 6), shorter(&[4, 2, 1], 6, 3));
    assert_eq!(shorten(2, 2, &[0, 1, 2, 3], 4), shorter(&[0, 1, 2], 4, 2));
    assert_eq!(shorten(2, 3, &[0, 1, 2, 3], 4), Err(Refusal(6)));
    assert_eq!(shorten(4, 4, &[0, 1, 2, 4, 8], 5), Err(Refusal(6)));
}

/// The published set for two shorts has two vectors more than the floor. The walking ones of 48 nets have many more.
#[test]
fn floors() {
    assert_eq!(shorten(7, 2, &TABLE_TWO, 0), shorter(&TABLE_TWO, 0, 5));
    let walking: Vec<u64> = (0..48).map(|i| 1 << i).collect();
    for (class, floor) in [(1, 6), (2, 11), (3, 15)] {
        assert_eq!(shorten(48, class, &walking, 0), shorter(&walking, 0, floor));
    }
}

/// Classes from 4 to n - 1, for up to 10 nets. Driver 2 of five is hidden behind 0, 1 and 4, and driver 1 of six behind
/// 2, 3 and 5: a short of four drivers, which class 3 does not have.
#[test]
fn small_boards() {
    let (of_five, of_six) = ([16, 1, 20, 5, 8, 2, 14], [34, 1, 6, 4, 8, 16, 32, 10]);
    assert_eq!([3, 4].map(|class| check(5, class, &of_five)), [Ok(Verdict::Pass), pair(19, 23)]);
    assert_eq!([3, 4].map(|class| check(6, class, &of_six)), [Ok(Verdict::Pass), pair(44, 46)]);
    let walking: Vec<u64> = (0..10).map(|i| 1 << i).collect();
    assert_eq!(
        [9, 10, 11].map(|class| check(10, class, &walking)),
        [Ok(Verdict::Pass), pair(0, 1023), Err(Refusal(6))]
    );
    assert_eq!([4, 9, 10].map(|class| check(11, class, &walking)), [Err(Refusal(6)); 3]);
    assert_eq!([3, 11].map(|class| check(11, class, &walking)), [pair(1, 1025), pair(0, 2047)]);
}

#[test]
fn checker_at_level_0() {
    assert_eq!(check(PULL_DOWN, 4, &[1, 2, 4, 8]), Ok(Verdict::Pass));
    assert_eq!(check(PULL_DOWN, 4, &[0, 1, 2, 4, 8]), Ok(Verdict::Pass));
    assert_eq!(check(PULL_DOWN, 4, &[0, 1, 2, 4]), pair(7, 15));
    assert_eq!(check(PULL_DOWN, 2, &[3, 5, 12, 10]), pair(6, 9));
}

#[test]
fn checker_with_and() {
    for network in [AND_PULL_DOWN, AND_PULL_UP] {
        assert_eq!(check(network, 4, &[15, 14, 13, 11, 7]), Ok(Verdict::Pass));
        assert_eq!(check(network, 4, &[15, 14, 13, 11]), pair(7, 15));
        assert_eq!(check(network, 4, &[7, 15, 11, 13]), pair(14, 15));
        assert_eq!(check(network, 3, &[14, 13, 11, 7]), Ok(Verdict::Pass));
    }
    assert_eq!(check(AND_PULL_DOWN, 4, &[14, 13, 11, 7]), pair(0, 15));
    assert_eq!(check(AND_PULL_DOWN, 4, &[0, 1, 2, 4, 8]), pair(0, 15));
    assert_eq!(check(AND_PULL_UP, 4, &[14, 13, 11, 7]), Ok(Verdict::Pass));
    assert_eq!(check(AND_PULL_UP, 4, &[0, 1, 2, 4, 8]), pair(14, 15));
}

/// At class 3 nets 0, 1 and 6 together read all ones; the pair shown is another.
#[test]
fn table_two() {
    assert_eq!(check(7, 2, &TABLE_TWO), Ok(Verdict::Pass));
    assert_eq!(respond(7, 3, &TABLE_TWO, &[0b100_0011, 0, 0, 0, 0, 0, 0]), Ok(vec![127; 7]));
    assert_eq!(check(7, 3, &TABLE_TWO), pair(7, 11));
}

/// With AND nets 0 and 1 read 0 on every vector, and so do nets 0 and 2: at level 0 as a floating receiver does.
#[test]
fn table_two_with_and() {
    let pull_up = Network::new(7).with_gate(AND);
    let pull_down = pull_up.with_level(0);
    let verdicts = |network: Network| [1, 2, 3].map(|class| check(network, class, &TABLE_TWO));
    assert_eq!(verdicts(pull_down), [Ok(Verdict::Pass), pair(0, 3), pair(0, 3)]);
    assert_eq!(verdicts(pull_up), [Ok(Verdict::Pass), pair(3, 5), pair(3, 5)]);
    assert_eq!(respond(pull_up, 2, &TABLE_TWO, &[3, 3, 0, 0, 0, 0, 0]), Ok(vec![124; 7]));
    assert_eq!(respond(pull_up, 2, &TABLE_TWO, &[5, 0, 5, 0, 0, 0, 0]), Ok(vec![122; 7]));
}

/// 64 vectors, along which every driver drives the same: what a set reads and what a floating receiver reads are words
/// of 64 ones or of 64 zeros. For each gate and level the pairs over all ones and over zeros, for each class below n.
#[test]
fn full_words_of_64_vectors() {
    for (nets, all) in [(4, 15), (48, (1 << 48) - 1)] {
        for network in each_combination(nets).map(of_library) {
            let [over_ones, over_zeros] = [[all; 64], [0; 64]];
            let (as_floating, as_another) = (pair(0, 1), pair(1, 2));
            let expected = if network.level() == 1 { [as_floating, as_another] } else { [as_another, as_floating] };
            for class in [1, 2, 3] {
                assert_eq!([over_ones, over_zeros].map(|vectors| check(network, class, &vectors)), expected);
            }
        }
    }
}

/// 64 vectors that pass for every class on 48 nets: the walking ones with the single 0, and all ones.
#[test]
fn walking_zeros_of_48_nets() {
    let all = (1 << 48) - 1;
    let vectors: Vec<u64> = (0..48).map(|i| all - (1 << i)).chain([all; 16]).collect();
    let state: Vec<u64> = [6 << 40, 6 << 40, 0].into_iter().chain((3..48).map(|i| 1 << (i % 38))).collect();
    for (level, floating) in [(0, 0), (1, 4)] {
        let network = Network::new(48).with_level(level).with_gate(AND);
        let responses = respond(network, 2, &vectors, &state).unwrap();
        let [by_pairs, by_ones] = [all - 7, all - 4].map(|driven| driven + floating);
        assert_eq!([41, 42, 63].map(|place| responses[place]), [by_pairs, by_pairs, by_ones]);
        for class in [2, 3, 48] {
            assert_eq!(check(network, class, &vectors), Ok(Verdict::Pass));
            assert_eq!(diagnose(network, class, &vectors, &responses).as_ref(), Ok(&state));
        }
        let without_all_ones = if level == 1 { Ok(Verdict::Pass) } else { pair(0, all) };
        assert_eq!(check(network, 48, &vectors[..48]), without_all_ones);
        assert_eq!(check(network, 48, &vectors[1..]), pair(all - 1, all));
    }
}

#[test]
fn reading_back() {
    let vectors = [0, 1, 2, 4, 8];
    assert_eq!(respond(4, 4, &vectors, &[3, 3, 0, 8]), Ok(vec![4, 7, 7, 4, 12]));
    assert_eq!(diagnose(4, 4, &vectors, &[4, 7, 7, 4, 12]), Ok(vec![3, 3, 0, 8]));
    assert_eq!(diagnose(4, 4, &vectors, &[4, 7, 7, 4, 4]), Err(Refusal(14)));
}

/// Five nets, of which 0 to 3 are tied together, and receivers 2 and 3 float: a reach of four drivers.
#[test]
fn reading_back_a_short_of_four() {
    let (vectors, state) = ([1, 2, 4, 8, 16], vec![15, 15, 0, 0, 16]);
    assert_eq!(respond(5, 4, &vectors, &state), Ok(vec![15, 15, 15, 15, 28]));
    assert_eq!(diagnose(5, 4, &vectors, &[15, 15, 15, 15, 28]), Ok(state.clone()));
    assert_eq!(diagnose(5, 5, &vectors, &[15, 15, 15, 15, 28]), Err(Refusal(13)));
    assert_eq!(diagnose(5, 3, &vectors, &[15, 15, 15, 15, 28]), Err(Refusal(14)));
    assert_eq!(respond(5, 3, &vectors, &state), Err(Refusal(11)));
    assert_eq!(respond(11, 4, &vectors, &[0; 11]), Err(Refusal(6)));
    assert_eq!(diagnose(11, 4, &vectors, &[0; 5]), Err(Refusal(6)));
}

#[test]
fn reading_back_at_level_0() {
    assert_eq!(respond(PULL_DOWN, 4, &[0, 1, 2, 4, 8], &[3, 3, 0, 8]), Ok(vec![0, 3, 3, 0, 8]));
    assert_eq!(diagnose(PULL_DOWN, 4, &[0, 1, 2, 4, 8], &[0, 3, 3, 0, 8]), Ok(vec![3, 3, 0, 8]));
    assert_eq!(diagnose(PULL_DOWN, 4, &[1, 2, 4, 8], &[3, 3, 0, 8]), Ok(vec![3, 3, 0, 8]));
    assert_eq!(diagnose(PULL_DOWN, 4, &[1, 2, 4, 8], &[3, 1, 0, 8]), Err(Refusal(14)));
}

#[test]
fn reading_back_with_and() {
    let [pull_down, pull_up] = [0, 1].map(|level| Network::new(3).with_level(level).with_gate(AND));
    let state = vec![6, 6, 0];
    assert_eq!(respond(pull_down, 3, &[7, 6, 5, 3], &state), Ok(vec![3, 3, 0, 0]));
    assert_eq!(diagnose(pull_down, 3, &[7, 6, 5, 3], &[3, 3, 0, 0]).as_ref(), Ok(&state));
    assert_eq!(diagnose(pull_down, 3, &[7, 6, 5, 3], &[3, 3, 0, 1]), Err(Refusal(14)));
    assert_eq!(diagnose(pull_down, 3, &[6, 5, 3], &[3, 0, 0]), Err(Refusal(13)));
    assert_eq!(respond(pull_up, 3, &[6, 5, 3], &state), Ok(vec![7, 4, 4]));
    assert_eq!(diagnose(pull_up, 3, &[6, 5, 3], &[7, 4, 4]), Ok(state));
    assert_eq!(diagnose(pull_up, 3, &[6, 5, 3], &[7, 4, 5]), Err(Refusal(14)));
}

/// Of each gate and soft level, which have no part in the findings.
fn assert_findings(state: &[u64], expected: &[(Kind, u64, u64)]) {
    let expected: Vec<_> = expected.iter().map(|&(kind, reach, partners)| Finding { kind, reach, partners }).collect();
    for network in each_combination(state.len() as u64).map(of_library) {
        assert_eq!(findings(network, state).as_ref(), Ok(&expected));
    }
}

#[test]
fn findings_of_the_listing() {
    let expected = [(Kind::Short, 3, 2), (Kind::Short, 3, 1), (Kind::Open, 0, 0), (Kind::Sound, 8, 0)];
    assert_findings(&[3, 3, 0, 8], &expected);
    assert_findings(&[2, 2], &[(Kind::Both, 2, 2), (Kind::Short, 2, 1)]);
}

/// A crossed pair, a cycle of three, and a net reached by its own and a floating net's driver; then two nets that a
/// third net's receiver joins, and two that a third net's driver joins.
#[test]
fn findings_with_partners() {
    assert_findings(&[2, 1], &[(Kind::Both, 2, 2), (Kind::Both, 1, 1)]);
    assert_findings(&[2, 4, 1], &[(Kind::Both, 2, 6), (Kind::Both, 4, 5), (Kind::Both, 1, 3)]);
    assert_findings(&[3, 0], &[(Kind::Short, 3, 2), (Kind::Both, 0, 1)]);
    assert_findings(&[0, 0, 3], &[(Kind::Both, 0, 6), (Kind::Both, 0, 5), (Kind::Both, 3, 3)]);
    assert_findings(&[4, 4, 0], &[(Kind::Both, 4, 6), (Kind::Both, 4, 5), (Kind::Both, 0, 3)]);
}

#[test]
fn session_of_four_nets() {
    let mut session = Session::begin(4).unwrap();
    assert_eq!((session.waits_for(), session.to_drive()), (Waits::FirstAnswers, &[11, 5, 6, 8][..]));
    session.first_answers(&[15, 7, 7, 12]).unwrap();
    assert_eq!((session.waits_for(), session.to_drive()), (Waits::SecondAnswers, &[0, 1, 2, 4][..]));
    assert_eq!((session.reaches(), session.spent()), (None, None));
    session.second_answers(&[4, 7, 7, 4]).unwrap();
    assert_eq!((session.waits_for(), session.to_drive()), (Waits::Nothing, &[][..]));
    assert_eq!((session.reaches(), session.spent()), (Some(&[3, 3, 0, 8][..]), Some(8)));
}

/// The session of the same board on another network: first answers, second vectors, second answers and count spent.
fn assert_session(network: Network, [first, vectors, second]: [&[u64]; 3], spent: u64) {
    let mut session = Session::begin(network).unwrap();
    assert_eq!((session.waits_for(), session.to_drive()), (Waits::FirstAnswers, &[11, 5, 6, 8][..]));
    session.first_answers(first).unwrap();
    assert_eq!((session.waits_for(), session.to_drive()), (Waits::SecondAnswers, vectors));
    session.second_answers(second).unwrap();
    assert_eq!((session.network(), session.waits_for()), (network, Waits::Nothing));
    assert_eq!((session.reaches(), session.spent()), (Some(&[3, 3, 0, 8][..]), Some(spent)));
}

#[test]
fn session_of_four_nets_at_level_0() {
    assert_session(PULL_DOWN, [&[11, 3, 3, 8], &[1, 2, 4], &[3, 3, 0]], 7);
}

#[test]
fn sessions_of_four_nets_with_and() {
    assert_session(AND_PULL_DOWN, [&[11, 0, 0, 8], &[15, 14, 13, 11], &[11, 8, 8, 11]], 8);
    assert_session(AND_PULL_UP, [&[15, 4, 4, 12], &[14, 13, 11], &[12, 12, 15]], 7);
}

#[test]
fn sessions_of_two_nets() {
    let mut session = Session::begin(2).unwrap();
    session.first_answers(&[1, 2]).unwrap();
    assert_eq!((session.reaches(), session.spent()), (Some(&[1, 2][..]), Some(2)));
    session.begin_anew(2).unwrap();
    session.first_answers(&[3, 3]).unwrap();
    session.second_answers(&[3, 3, 3]).unwrap();
    assert_eq!((session.reaches(), session.spent()), (Some(&[0, 0][..]), Some(5)));
    session.begin_anew(Network::new(2).with_level(0)).unwrap();
    session.first_answers(&[0, 0]).unwrap();
    session.second_answers(&[0, 0]).unwrap();
    assert_eq!((session.reaches(), session.spent()), (Some(&[0, 0][..]), Some(4)));
    session.begin_anew(Network::new(2).with_gate(AND)).unwrap();
    session.first_answers(&[3, 3]).unwrap();
    session.second_answers(&[3, 3]).unwrap();
    assert_eq!((session.reaches(), session.spent()), (Some(&[0, 0][..]), Some(4)));
    session.begin_anew(Network::new(2).with_level(0).with_gate(AND)).unwrap();
    session.first_answers(&[0, 0]).unwrap();
    session.second_answers(&[0, 0, 0]).unwrap();
    assert_eq!((session.reaches(), session.spent()), (Some(&[0, 0][..]), Some(5)));
}

#[test]
fn a_refused_call_leaves_the_session() {
    let mut session = Session::begin(4).unwrap();
    let begun = session.clone();
    assert_eq!(session.second_answers(&[0]), Err(Refusal(4)));
    assert_eq!(session.first_answers(&[0]), Err(Refusal(9)));
    assert_eq!(session.begin_anew(49), Err(Refusal(5)));
    assert_eq!(session.begin_anew(PULL_DOWN.with_level(2)), Err(Refusal(17)));
    assert_eq!(session.begin_anew(PULL_DOWN.with_gate(2)), Err(Refusal(20)));
    assert_eq!(session, begun);
}

#[test]
fn refusals() {
    assert_eq!(check(1, 1, &[0]), Err(Refusal(5)));
    assert_eq!(check(49, 1, &[0]), Err(Refusal(5)));
    assert_eq!(check(11, 4, &[0]), Err(Refusal(6)));
    assert_eq!(check(4, 4, &[0; 65]), Err(Refusal(7)));
    assert_eq!(check(4, 4, &[16]), Err(Refusal(8)));
    assert_eq!(respond(2, 2, &[0], &[3, 1]), Err(Refusal(11)));
    assert_eq!(findings(2, &[3, 1]), Err(Refusal(11)));
    assert_eq!([1, 49].map(|nets| turn(nets, &[0])), [Err(Refusal(5)), Err(Refusal(5))]);
    assert_eq!([turn(4, &[0; 65]), turn(4, &[16])], [Err(Refusal(7)), Err(Refusal(8))]);
    assert_eq!([1, 49].map(|nets| turn_back(nets, 1, &[0])), [Err(Refusal(5)), Err(Refusal(5))]);
    assert_eq!([turn_back(4, 5, &[0; 3]), turn_back(4, 5, &[0, 0, 0, 32])], [Err(Refusal(7)), Err(Refusal(8))]);
    let job = Job { network: Network::new(4), class: 4, kind: 3, vectors: vec![0], responses: vec![] };
    assert_eq!(job.write(), Err(Refusal(2)));
}

/// Chains of two and three cells are too short for any board, and one of 201 is too long.
#[test]
fn refusals_of_a_chain() {
    for cells in [2, 3, 201] {
        let chain = Chain { cells, ..least_chain() };
        assert_eq!(write_clocks(2, &chain, &[1]), Err(Refusal(18)));
        assert_eq!(read_clocks(2, &chain, 1, &[0; 18]), Err(Refusal(18)));
    }
    assert_eq!(write_clocks(3, &least_chain(), &[1]), Err(Refusal(18)));
    assert_eq!(write_clocks(Board::with(2, &[0, 1, 1]), &least_chain(), &[1]), Err(Refusal(18)));
    assert_eq!(read_clocks(Board::with(2, &[0, 0]), &least_chain(), 1, &[0; 18]), Err(Refusal(21)));
    assert_eq!(
        [0, 65].map(|count| read_clocks(2, &least_chain(), count, &[0; 18])),
        [7; 2].map(|row| Err(Refusal(row)))
    );
    assert_eq!(read_clocks(2, &least_chain(), 1, &[0; 17]), Err(Refusal(19)));
    assert_eq!(read_clocks(2, &least_chain(), 1, &[2; 18]), Err(Refusal(19)));
}

/// Every call that takes a network, on two nets with this level and gate.
fn calls_on(level: u64, gate: u64) -> [Result<(), Refusal>; 8] {
    let (network, vectors, state) = (Network::new(2).with_level(level).with_gate(gate), vec![0, 1, 2, 3], [1, 2]);
    assert_eq!((network.nets(), network.level(), network.gate()), (2, level, gate));
    let job = |kind: u64| Job { network, class: 2, kind, vectors: vectors.clone(), responses: vec![] };
    [
        check(network, 2, &vectors).map(drop),
        shorten(network, 2, &vectors, 4).map(drop),
        respond(network, 2, &vectors, &state).map(drop),
        diagnose(network, 2, &vectors, &vectors).map(drop),
        findings(network, &state).map(drop),
        Session::begin(network).map(drop),
        job(PARALLEL).write().map(drop),
        job(SEQUENTIAL).write().map(drop),
    ]
}

/// Level and gate, each in and out of its range; the level is tested first.
#[test]
fn levels_and_gates() {
    for level in [0, 1, 2, 256, u64::MAX] {
        for gate in [OR, AND, 2, 256, u64::MAX] {
            let answer = match (level, gate) {
                (0 | 1, OR | AND) => Ok(()),
                (0 | 1, _) => Err(Refusal(20)),
                _ => Err(Refusal(17)),
            };
            assert_eq!(calls_on(level, gate), [answer; 8], "level {level}, gate {gate}");
        }
    }
}

/// Class before level, level before gate, gate before vectors and state.
#[test]
fn the_rows_around_the_gate() {
    let bad_gate = PULL_DOWN.with_gate(2);
    let bad_both = bad_gate.with_level(2);
    assert_eq!(check(bad_both, 0, &[]), Err(Refusal(6)));
    assert_eq!(check(bad_both, 4, &[]), Err(Refusal(17)));
    assert_eq!(check(bad_gate, 4, &[]), Err(Refusal(20)));
    assert_eq!(check(PULL_DOWN, 4, &[]), Err(Refusal(7)));
    assert_eq!(shorten(bad_both, 4, &[], 0), Err(Refusal(6)));
    assert_eq!(shorten(bad_both, 3, &[], 0), Err(Refusal(17)));
    assert_eq!(shorten(bad_gate, 3, &[], 0), Err(Refusal(20)));
    assert_eq!(shorten(PULL_DOWN, 3, &[], 0), Err(Refusal(7)));
    assert_eq!(findings(Network::new(1).with_gate(2), &[]), Err(Refusal(5)));
    assert_eq!(findings(bad_gate, &[]), Err(Refusal(20)));
    assert_eq!(Session::begin(Network::new(49).with_gate(2)), Err(Refusal(5)));
}

/// The job of the report in document 01, and one of each other gate and soft level, through a file.
#[test]
fn job_of_the_listing() {
    let jobs = [
        (Network::new(4), [0, 1, 2, 4, 8], [4, 7, 7, 4, 12], [4, 4, 1, 0]),
        (PULL_DOWN, [0, 1, 2, 4, 8], [0, 3, 3, 0, 8], [4, 4, 0, 0]),
        (AND_PULL_DOWN, [15, 14, 13, 11, 7], [11, 8, 8, 11, 3], [4, 4, 0, 1]),
        (AND_PULL_UP, [15, 14, 13, 11, 7], [15, 12, 12, 15, 7], [4, 4, 1, 1]),
    ];
    for (network, vectors, responses, nets) in jobs {
        assert_eq!(diagnose(network, 4, &vectors, &responses), Ok(vec![3, 3, 0, 8]));
        for (kind, size) in [(PARALLEL, 116), (SEQUENTIAL, 109)] {
            let job = Job { network, class: 4, kind, vectors: vectors.to_vec(), responses: responses.to_vec() };
            let file = job.write().unwrap();
            assert_eq!((&file[..5], &file[32..36], file.len()), (&b"BSJ3\x03"[..], &nets[..], size));
            assert_eq!(Job::read(&file), Ok(job));
        }
    }
}

#[test]
fn every_refusal_has_words() {
    let words: std::collections::HashSet<_> =
        (1..=14).chain([17, 20, 21]).map(|number| Refusal(number).words()).collect();
    assert_eq!(words.len(), 17);
    for number in [0, 15, 16, 18, 19, 22, 99, u64::MAX] {
        assert_eq!(Refusal(number).words(), "no row of the table");
        assert!(!words.contains(Refusal(number).words()));
    }
}

/// A plain number of nets is a network, for the wrappers and for the calls on lent lists.
#[test]
fn a_number_of_nets_and_a_network_give_the_same() {
    let (network, vectors, state) = (Network::new(4), [0, 1, 2, 4, 8], [3, 3, 0, 8]);
    let responses = respond(network, 4, &vectors, &state).unwrap();
    assert_eq!(check(4, 4, &vectors), check(network, 4, &vectors));
    assert_eq!(shorten(4, 3, &vectors, 5), shorten(network, 3, &vectors, 5));
    assert_eq!(respond(4, 4, &vectors, &state).as_ref(), Ok(&responses));
    assert_eq!(diagnose(4, 4, &vectors, &responses), diagnose(network, 4, &vectors, &responses));
    assert_eq!(findings(4, &state), findings(network, &state));
    let clocks = write_clocks(Network::new(2), &least_chain(), &[1, 2]);
    assert_eq!(write_clocks(2, &least_chain(), &[1, 2]), clocks);
    let (mut session, begun) = (Session::begin(4).unwrap(), Session::begin(network).unwrap());
    assert_eq!((&session, session.network(), session.nets()), (&begun, network, network.nets()));
    session.begin_anew(network).unwrap();
    assert_eq!(session, begun);
    let (mut by_number, mut by_network) = ([7; RECORD_WORDS], [8; RECORD_WORDS]);
    assert_eq!((raw::begin(&mut by_number, 4, &mut [0; 4]), raw::begin(&mut by_network, network, &mut [0; 4])), (0, 0));
    assert_eq!(by_number, by_network);
    assert_eq!((Network::from(4), check(1, 1, &[0])), (network, check(Network::new(1), 1, &[0])));
}
