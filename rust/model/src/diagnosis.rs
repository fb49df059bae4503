//! Reading back: the state that fits a response, and the findings.

use crate::board::Board;
use crate::checker::{check, sets_of_class, Verdict};
use crate::network::{
    all_states, extended, extra_vector, is_state, meet_and_differ, reads, response, shows_driver, walking_vector,
    Network,
};
use crate::rows::{bad_class, bad_state, rows_of_board, rows_of_responses, rows_of_set_on_board, Rows};
use crate::words::{bit, word_of};

/// A record of the findings.
#[derive(Clone, Copy, Debug, PartialEq, Eq)]
pub struct Finding {
    pub kind: u64,
    pub reach: u64,
    pub partners: u64,
}

/// Those of the states that give exactly this response.
pub fn fitting_among(net: Network, states: &[Vec<u64>], vectors: &[u64], responses: &[u64]) -> Vec<Vec<u64>> {
    states.iter().filter(|state| response(net, vectors, state) == responses).cloned().collect()
}

/// Every state of m receivers and the class that gives exactly this response, from all states. For few of them.
pub fn fitting_states(net: Network, m: usize, k: u64, vectors: &[u64], responses: &[u64]) -> Vec<Vec<u64>> {
    fitting_among(net, &all_states(net.nets, m, k), vectors, responses)
}

/// The same for more of them, receiver by receiver: every set that reads as the receiver answered, joined to every
/// front whose reaches it does not meet and differ from. Wants as many responses as vectors and no high bit.
pub fn fitting_by_receivers(net: Network, m: usize, k: u64, vectors: &[u64], responses: &[u64]) -> Vec<Vec<u64>> {
    let sets = sets_of_class(net.nets, k);
    let mut fronts = vec![Vec::new()];
    for receiver in 0..m as u64 {
        let answered = |set: u64, (v, word): (&u64, &u64)| reads(net, set, *v) == bit(*word, receiver);
        let reads_so = |set: &u64| vectors.iter().zip(responses).all(|asked| answered(*set, asked));
        let reaches: Vec<u64> = sets.iter().copied().filter(reads_so).collect();
        fronts = joined(&fronts, &reaches);
    }
    fronts
}

/// Every front with every reach after it that it can stand beside.
fn joined(fronts: &[Vec<u64>], reaches: &[u64]) -> Vec<Vec<u64>> {
    let mut longer = Vec::new();
    for front in fronts {
        for reach in reaches {
            if !front.iter().any(|other| meet_and_differ(*reach, *other)) {
                longer.push(extended(front, *reach));
            }
        }
    }
    longer
}

/// Class n, for any n: with the extra vector, if there is one, and every walking vector in the set, the answers spell
/// out each reach. Wants a set that passes for class n.
pub fn fitting_by_walking(net: Network, m: usize, vectors: &[u64], responses: &[u64]) -> Vec<Vec<u64>> {
    let n = net.nets;
    let answer_to = |vector: u64| responses[vectors.iter().position(|v| *v == vector).expect("a passed set")];
    let reads_level = |answer: u64, receiver: u64| bit(answer, receiver) == (net.level == 1);
    let floats = |receiver: u64| extra_vector(net).is_some_and(|extra| reads_level(answer_to(extra), receiver));
    let reached = |driver: u64, receiver: u64| {
        let answer = answer_to(walking_vector(net, driver));
        shows_driver(net, bit(answer, receiver))
    };
    let reach_of = |receiver: u64| match floats(receiver) {
        true => 0,
        false => word_of((0..n).map(|driver| reached(driver, receiver))),
    };
    let state: Vec<u64> = (0..m as u64).map(reach_of).collect();
    let fits = is_state(n, m, n, &state) && response(net, vectors, &state) == responses;
    Vec::from_iter(fits.then_some(state))
}

/// Are n drivers and m receivers few enough to go through all states for every response? Three of each are.
pub fn few(n: u64, m: usize) -> bool {
    n * m as u64 <= 9
}

/// The states of m receivers and the class that fit, by the plainest of the three ways that the size allows.
pub fn fitting(net: Network, m: usize, k: u64, vectors: &[u64], responses: &[u64]) -> Vec<Vec<u64>> {
    if few(net.nets, m) {
        fitting_states(net, m, k, vectors, responses)
    } else if net.nets <= 10 || k < net.nets {
        fitting_by_receivers(net, m, k, vectors, responses)
    } else {
        fitting_by_walking(net, m, vectors, responses)
    }
}

/// Row 14. It may be asked of any input, so it says first what no state can give. Over 48 nets or 64 receivers, and
/// over 10 nets for a class that row 6 refuses, it is taken not to hold.
fn no_state_fits(board: &Board, k: u64, vectors: &[u64], responses: &[u64]) -> bool {
    let (net, m) = (board.network, board.receivers());
    if net.nets > 48 || m > 64 || net.nets > 10 && bad_class(net.nets, k) {
        return false;
    }
    let shaped = rows_of_responses(m as u64, vectors.len(), responses).admit().is_ok();
    !shaped || fitting(net, m, k, vectors, responses).is_empty()
}

pub fn rows_of_diagnose<'a>(
    board: &'a Board,
    k: u64,
    vectors: &'a [u64],
    responses: &'a [u64],
    room: usize,
) -> Rows<'a> {
    let m = board.receivers();
    rows_of_set_on_board(board, k, vectors)
        .then(rows_of_responses(m as u64, vectors.len(), responses))
        .row(12, move || room < m)
        .row(13, move || check(board.network, k, vectors) != Ok(Verdict::Pass))
        .row(14, move || no_state_fits(board, k, vectors, responses))
}

/// The call *diagnose*.
pub fn diagnose(board: &Board, k: u64, vectors: &[u64], responses: &[u64], room: usize) -> Result<Vec<u64>, u64> {
    rows_of_diagnose(board, k, vectors, responses, room).admit()?;
    Ok(only(fitting(board.network, board.receivers(), k, vectors, responses)))
}

/// The one state of the list.
pub fn only(mut states: Vec<Vec<u64>>) -> Vec<u64> {
    assert_eq!(states.len(), 1, "a passed set leaves one state at most");
    states.remove(0)
}

/// Does this net's driver reach this receiver?
fn reaches(state: &[u64], net: u64, receiver: usize) -> bool {
    bit(state[receiver], net)
}

/// Is net j a partner of receiver r? It is another net than r's own, and it has a receiver of the same non-empty reach,
/// or its driver and that of r's own net reach one receiver, or its driver reaches r, or it has a receiver that the
/// driver of r's own net reaches.
fn is_partner(board: &Board, state: &[u64], r: usize, j: u64) -> bool {
    let own = board.owners[r];
    let receivers = 0..board.receivers();
    let mut receivers_of_j = receivers.clone().filter(|s| board.owners[*s] == j);
    let same_reach = receivers_of_j.clone().any(|s| state[r] != 0 && state[s] == state[r]);
    let one_receiver = receivers.clone().any(|s| reaches(state, j, s) && reaches(state, own, s));
    let reached_by_j = reaches(state, j, r);
    let reaches_one_of_j = receivers_of_j.any(|s| reaches(state, own, s));
    j != own && (same_reach || one_receiver || reached_by_j || reaches_one_of_j)
}

/// What is found on receiver r.
pub fn finding(board: &Board, state: &[u64], r: usize) -> Finding {
    let open = !reaches(state, board.owners[r], r);
    let partners = word_of((0..board.network.nets).map(|j| is_partner(board, state, r, j)));
    let kind = match (open, partners != 0) {
        (false, false) => 0,
        (true, false) => 1,
        (false, true) => 2,
        (true, true) => 3,
    };
    Finding { kind, reach: state[r], partners }
}

pub fn rows_of_findings<'a>(board: &'a Board, state: &'a [u64], room: usize) -> Rows<'a> {
    rows_of_board(board)
        .row(11, move || bad_state(board, board.network.nets, state))
        .row(12, move || room < board.receivers())
}

/// The call *findings*; room is in records.
pub fn findings(board: &Board, state: &[u64], room: usize) -> Result<Vec<Finding>, u64> {
    rows_of_findings(board, state, room).admit()?;
    Ok((0..state.len()).map(|r| finding(board, state, r)).collect())
}

#[cfg(test)]
mod tests {
    use super::*;
    use crate::board::all_owners;
    use crate::network::{all_lists, each_combination, AND, OR};

    const WALKING: [u64; 5] = [0, 1, 2, 4, 8];
    const PULL_UP: Network = Network { nets: 4, level: 1, gate: OR };
    const PULL_DOWN: Network = Network { nets: 4, level: 0, gate: OR };

    /// Two nets and these receivers.
    fn two_nets(owners: &[u64]) -> Board {
        Board { network: Network { nets: 2, ..PULL_UP }, owners: owners.to_vec() }
    }

    #[test]
    fn the_papers_state_is_read_back() {
        let diagnose = |net: Network, v: &[u64], responses: &[u64]| diagnose(&net.into(), 4, v, responses, 4);
        assert_eq!(diagnose(PULL_UP, &WALKING, &[4, 7, 7, 4, 12]), Ok(vec![3, 3, 0, 8]));
        assert_eq!(diagnose(PULL_UP, &WALKING, &[4, 7, 7, 4, 4]), Err(14));
        assert_eq!(diagnose(PULL_DOWN, &WALKING, &[0, 3, 3, 0, 8]), Ok(vec![3, 3, 0, 8]));
        assert_eq!(diagnose(PULL_DOWN, &WALKING[1..], &[3, 3, 0, 8]), Ok(vec![3, 3, 0, 8]));
        assert_eq!(diagnose(PULL_DOWN, &WALKING, &[4, 7, 7, 4, 12]), Err(14));
    }

    #[test]
    fn a_wired_and_is_read_back() {
        let [pull_up, pull_down] = [PULL_UP, PULL_DOWN].map(|net| Network { gate: AND, nets: 3, ..net });
        let diagnose = |net: Network, v: &[u64], responses: &[u64]| diagnose(&net.into(), 3, v, responses, 3);
        assert_eq!(diagnose(pull_down, &[7, 6, 5, 3], &[3, 3, 0, 0]), Ok(vec![6, 6, 0]));
        assert_eq!(diagnose(pull_down, &[7, 6, 5, 3], &[7, 3, 0, 0]), Err(14));
        assert_eq!(diagnose(pull_down, &[6, 5, 3], &[3, 0, 0]), Err(13));
        assert_eq!(diagnose(pull_up, &[6, 5, 3], &[7, 4, 4]), Ok(vec![6, 6, 0]));
        assert_eq!(diagnose(pull_up, &[6, 5, 3], &[5, 4, 4]), Err(14));
    }

    /// Five nets, of which 0 to 3 are tied together and receivers 2 and 3 float: class 4 has that state, and class 3
    /// does not. A reach of all five drivers is in class 5 alone.
    #[test]
    fn a_reach_of_four_drivers_is_read_back() {
        let (board, vectors) = (Network { nets: 5, ..PULL_UP }.into(), [0, 1, 2, 4, 8, 16]);
        let diagnose = |k: u64, responses: &[u64]| diagnose(&board, k, &vectors, responses, 5);
        let four = [12, 15, 15, 15, 15, 28];
        assert_eq!(
            [3, 4, 5].map(|k| diagnose(k, &four)),
            [Err(14), Ok(vec![15, 15, 0, 0, 16]), Ok(vec![15, 15, 0, 0, 16])]
        );
        let five = [30, 31, 31, 31, 31, 31];
        assert_eq!([3, 4, 5].map(|k| diagnose(k, &five)), [Err(14), Err(14), Ok(vec![31, 0, 0, 0, 0])]);
    }

    /// A clock net of three receivers, the second of them floating, and a net of one.
    #[test]
    fn a_clock_net_is_read_back() {
        let board = two_nets(&[0, 0, 0, 1]);
        let diagnose = |responses: &[u64], room: usize| diagnose(&board, 2, &[0, 1, 2], responses, room);
        assert_eq!(diagnose(&[2, 7, 10], 4), Ok(vec![1, 0, 1, 2]));
        assert_eq!(diagnose(&[2, 7, 10], 3), Err(12));
        assert_eq!(diagnose(&[2, 7, 16 + 10], 4), Err(10));
        assert_eq!(diagnose(&[2, 7, 8], 4), Err(14));
    }

    #[test]
    fn the_papers_findings() {
        for net in each_combination(4) {
            let lines = findings(&net.into(), &[3, 3, 0, 8], 4).unwrap();
            let plain: Vec<_> = lines.iter().map(|line| (line.kind, line.reach, line.partners)).collect();
            assert_eq!(plain, [(2, 3, 2), (2, 3, 1), (1, 0, 0), (0, 8, 0)]);
        }
    }

    /// Kinds and partners at the receivers of a state.
    fn found(board: &Board, state: &[u64]) -> Vec<(u64, u64)> {
        findings(board, state, 64).unwrap().iter().map(|finding| (finding.kind, finding.partners)).collect()
    }

    #[test]
    fn findings_of_several_receivers() {
        // Receiver 2 floats, and its net's driver is tied to net 1's.
        assert_eq!(found(&two_nets(&[0, 1, 0]), &[3, 3, 0]), [(2, 2), (2, 1), (3, 2)]);
        // Of a clock net one receiver floats: that one alone is open, and those of the same net are no partners.
        assert_eq!(found(&two_nets(&[0, 0, 0, 1]), &[1, 0, 1, 2]), [(0, 0), (1, 0), (0, 0), (0, 0)]);
        // One receiver of the clock net is on net 1's driver.
        assert_eq!(found(&two_nets(&[0, 0, 1]), &[1, 2, 2]), [(0, 0), (3, 2), (2, 1)]);
        // Receiver 0 is on net 1 and receiver 1 on net 0: pinned so, and pinned straight.
        assert_eq!(found(&two_nets(&[1, 0]), &[2, 1]), [(0, 0), (0, 0)]);
        assert_eq!(found(&two_nets(&[1, 0]), &[1, 2]), [(3, 1), (3, 2)]);
    }

    /// Each clause of the rule alone, and what it must not name: nets 0 and 1 have a driver in common, a receiver in
    /// common, are crossed one way, both ways, or are sound.
    #[test]
    fn partners_by_each_clause() {
        let partners = |state: &[u64]| {
            let board = Board::from(Network { nets: state.len() as u64, ..PULL_UP });
            (0..state.len()).map(|r| finding(&board, state, r).partners).collect::<Vec<u64>>()
        };
        assert_eq!(partners(&[4, 4, 0]), [6, 5, 3]);
        assert_eq!(partners(&[0, 0, 3]), [6, 5, 3]);
        assert_eq!(partners(&[0, 1]), [2, 1]);
        assert_eq!(partners(&[2, 1]), [2, 1]);
        assert_eq!(partners(&[1, 2]), [0, 0]);
    }

    /// With one receiver a net, the sentence that names nets in place of receivers: one driver reaches both receivers,
    /// one receiver is reached by both drivers, or either's driver reaches the other's receiver.
    fn is_partner_of_net(state: &[u64], i: usize, j: usize) -> bool {
        let mut nets = 0..state.len();
        let reached = |driver: usize, receiver: usize| bit(state[receiver], driver as u64);
        let one_driver = nets.clone().any(|driver| reached(driver, i) && reached(driver, j));
        let one_receiver = nets.any(|receiver| reached(i, receiver) && reached(j, receiver));
        j != i && (one_driver || one_receiver || reached(i, j) || reached(j, i))
    }

    #[test]
    fn partners_with_one_receiver_a_net_are_those_of_nets() {
        for nets in 2..=4 {
            let board = Board::from(Network { nets, ..PULL_UP });
            for state in all_states(nets, nets as usize, nets) {
                for (i, j) in (0..nets).flat_map(|i| (0..nets).map(move |j| (i, j))) {
                    let by_nets = is_partner_of_net(&state, i as usize, j as usize);
                    assert_eq!(is_partner(&board, &state, i as usize, j), by_nets, "{state:?} {i} {j}");
                }
            }
        }
    }

    /// Row 21 stands after row 5 and before class, level and gate, in the calls that take a class and in findings.
    #[test]
    fn row_21_in_its_place() {
        let bad = |nets: u64, level: u64| Board { network: Network { nets, level, gate: 2 }, owners: vec![0] };
        let good = Board::from(Network { level: 2, ..PULL_UP });
        assert_eq!([bad(1, 2), bad(2, 2), good.clone()].map(|board| findings(&board, &[], 0)), [5, 21, 17].map(Err));
        assert_eq!([bad(49, 1), bad(2, 1), good].map(|board| diagnose(&board, 0, &[], &[], 0)), [5, 21, 6].map(Err));
    }

    fn assert_receivers_agree(net: Network, m: usize, k: u64, states: &[Vec<u64>], vectors: &[u64]) {
        for responses in all_lists(1 << m, vectors.len()) {
            let plain = fitting_among(net, states, vectors, &responses);
            assert_eq!(fitting_by_receivers(net, m, k, vectors, &responses), plain);
        }
    }

    fn assert_walking_agrees(net: Network, m: usize, states: &[Vec<u64>], vectors: &[u64]) {
        for responses in all_lists(1 << m, vectors.len()) {
            let plain = fitting_among(net, states, vectors, &responses);
            assert_eq!(fitting_by_walking(net, m, vectors, &responses), plain);
        }
    }

    #[test]
    fn the_three_ways_to_find_a_state_agree() {
        for net in each_combination(3) {
            for k in 1..=3 {
                let states = all_states(3, 3, k);
                all_lists(8, 2).iter().for_each(|vectors| assert_receivers_agree(net, 3, k, &states, vectors));
            }
            let vectors: &[u64] = if net.gate == AND { &[7, 3, 6, 5] } else { &[0, 4, 1, 2] };
            assert_walking_agrees(net, 3, &all_states(3, 3, 3), vectors);
            if extra_vector(net).is_none() {
                assert_walking_agrees(net, 3, &all_states(3, 3, 3), &vectors[1..]);
            }
        }
    }

    #[test]
    fn the_three_ways_agree_with_more_receivers_than_nets() {
        for net in each_combination(2) {
            let walking: &[u64] = if net.gate == AND { &[3, 2, 1] } else { &[0, 2, 1] };
            for m in [3, 4] {
                for k in [1, 2] {
                    let states = all_states(2, m, k);
                    all_lists(4, 2).iter().for_each(|vectors| assert_receivers_agree(net, m, k, &states, vectors));
                }
                assert_walking_agrees(net, m, &all_states(2, m, 2), walking);
            }
        }
        for net in each_combination(3) {
            let walking: &[u64] = if net.gate == AND { &[7, 6, 5, 3] } else { &[0, 1, 2, 4] };
            for state in all_states(3, 4, 3) {
                let responses = response(net, walking, &state);
                assert_eq!(fitting_by_receivers(net, 4, 3, walking, &responses), [&state[..]]);
                assert_eq!(fitting_by_walking(net, 4, walking, &responses), [state]);
            }
        }
    }

    /// The state that is read back does not depend on which nets the receivers are on.
    #[test]
    fn reading_back_goes_by_the_number_of_receivers() {
        let walking = [0, 1, 2];
        for owners in all_owners(two_nets(&[]).network, 3) {
            for state in all_states(2, 3, 2) {
                let responses = response(PULL_UP, &walking, &state);
                assert_eq!(diagnose(&two_nets(&owners), 2, &walking, &responses, 3), Ok(state));
            }
        }
    }
}
