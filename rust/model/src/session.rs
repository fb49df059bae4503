//! The two-step session.

use crate::board::Board;
use crate::diagnosis::{few, fitting_by_receivers, fitting_states, only};
use crate::network::{extra_vector, is_state, response, shows_driver, walking_vector, Network};
use crate::rows::{bad_net_count, bad_receivers, rows_of_board, rows_of_responses, Rows};
use crate::words::{bit, word_of};

/// Waits for first answers.
pub const FIRST: u64 = 1;
/// Waits for second answers.
pub const SECOND: u64 = 2;
/// Finished.
pub const FINISHED: u64 = 3;

/// How many words a record has.
pub const WORDS: usize = 142;

/// A session record. What a step does not use is 0, and so are the places of receivers that there are not.
#[derive(Clone, Debug, PartialEq, Eq, Hash)]
pub struct Record {
    pub step: u64,
    pub network: Network,
    /// How many receivers there are.
    pub receivers: u64,
    /// The net of each.
    pub owners: [u64; 64],
    pub answers: [u64; 8],
    pub reaches: [u64; 64],
    pub spent: u64,
}

impl Record {
    /// A record with the network and the receivers, and zeros for the rest.
    fn blank(step: u64, board: &Board) -> Record {
        let mut owners = [0; 64];
        owners[..board.receivers()].copy_from_slice(&board.owners);
        Record {
            step,
            network: board.network,
            receivers: board.receivers() as u64,
            owners,
            answers: [0; 8],
            reaches: [0; 64],
            spent: 0,
        }
    }

    pub fn words(&self) -> [u64; WORDS] {
        let mut words = [0; WORDS];
        words[0] = self.step;
        words[1] = self.network.nets;
        words[2] = self.network.level;
        words[3] = self.network.gate;
        words[4] = self.receivers;
        words[5..69].copy_from_slice(&self.owners);
        words[69..77].copy_from_slice(&self.answers);
        words[77..141].copy_from_slice(&self.reaches);
        words[141] = self.spent;
        words
    }

    pub fn from_words(words: &[u64; WORDS]) -> Record {
        Record {
            step: words[0],
            network: Network { nets: words[1], level: words[2], gate: words[3] },
            receivers: words[4],
            owners: array(&words[5..69]),
            answers: array(&words[69..77]),
            reaches: array(&words[77..141]),
            spent: words[141],
        }
    }

    /// The network with the receivers that the record holds, if it has place for so many.
    pub fn board(&self) -> Option<Board> {
        let m = usize::try_from(self.receivers).ok()?;
        Some(Board { network: self.network, owners: self.owners.get(..m)?.to_vec() })
    }

    /// The same, if rows 5 and 21 admit it.
    fn admitted_board(&self) -> Option<Board> {
        self.board().filter(|board| !bad_net_count(board.network.nets) && !bad_receivers(board))
    }

    /// The answers of step one that the record holds.
    fn first_answers(&self) -> &[u64] {
        &self.answers[..first_length(self.network.nets)]
    }
}

fn array<const LENGTH: usize>(words: &[u64]) -> [u64; LENGTH] {
    words.try_into().expect("as many words")
}

/// C(p, q), the number of ways to choose q of p things.
fn ways(p: u64, q: u64) -> u64 {
    match (p, q) {
        (_, 0) => 1,
        (0, _) => 0,
        _ => ways(p - 1, q - 1) + ways(p - 1, q),
    }
}

/// p: the smallest number with C(p, p/2 rounded down) at least n. Capped, for numbers that no session has.
pub fn first_length(n: u64) -> usize {
    (0..9).find(|p| ways(*p, p / 2) >= n).unwrap_or(9) as usize
}

/// The n sequential words of step one, net 0 first.
pub fn step_one_words(n: u64) -> Vec<u64> {
    let p = first_length(n) as u64;
    (0..1u64 << p).filter(|word| u64::from(word.count_ones()) == p / 2).take(n as usize).collect()
}

/// The p vectors of step one.
pub fn first_vectors(n: u64) -> Vec<u64> {
    let words = step_one_words(n);
    (0..first_length(n) as u64).map(|t| word_of(words.iter().map(|word| bit(*word, t)))).collect()
}

/// The unclear nets, ascending. A net is clear if all its receivers returned its word and no other receiver did.
pub fn unclear_nets(board: &Board, answers: &[u64]) -> Vec<u64> {
    let words = step_one_words(board.network.nets);
    let returned = |r: usize| word_of(answers.iter().map(|answer| bit(*answer, r as u64)));
    let returned: Vec<u64> = (0..board.receivers()).map(returned).collect();
    let of_net = |net: u64| board.owners.iter().zip(&returned).filter(move |(owner, _)| **owner == net);
    let of_others = |net: u64| board.owners.iter().zip(&returned).filter(move |(owner, _)| **owner != net);
    let clear = |net: u64| {
        let word = words[net as usize];
        of_net(net).all(|(_, returned)| *returned == word) && !of_others(net).any(|(_, returned)| *returned == word)
    };
    (0..board.network.nets).filter(|net| !clear(*net)).collect()
}

/// The vectors of step two; none if no net is unclear.
pub fn second_vectors(board: &Board, answers: &[u64]) -> Vec<u64> {
    let unclear = unclear_nets(board, answers);
    if unclear.is_empty() {
        return vec![];
    }
    let net = board.network;
    extra_vector(net).into_iter().chain(unclear.iter().map(|i| walking_vector(net, *i))).collect()
}

pub fn rows_of_begin(board: &Board, room: usize) -> Rows<'_> {
    rows_of_board(board).row(12, move || room < first_length(board.network.nets))
}

/// The call *begin*: the record and the vectors of step one.
pub fn begin(board: &Board, room: usize) -> Result<(Record, Vec<u64>), u64> {
    rows_of_begin(board, room).admit()?;
    Ok((Record::blank(FIRST, board), first_vectors(board.network.nets)))
}

/// Do accepted calls leave this very record, waiting for answers?
/// At step one only begin leaves it; at step two first answers do, and those can only be the ones that it holds.
pub fn left_waiting(record: &Record) -> bool {
    let Some(Ok((begun, _))) = record.board().map(|board| begin(&board, usize::MAX)) else {
        return false;
    };
    match record.step {
        FIRST => *record == begun,
        SECOND => match first_answers(&begun, record.first_answers(), usize::MAX) {
            Ok((left, _)) => left == *record,
            Err(_) => false,
        },
        _ => false,
    }
}

fn waits_for(record: &Record, step: u64) -> bool {
    record.step == step && left_waiting(record)
}

/// The rows of first answers. Rows 9 to 12 are asked of any record whose nets and receivers rows 5 and 21 admit; else
/// they are taken not to hold.
pub fn rows_of_first_answers<'a>(record: &'a Record, answers: &'a [u64], room: usize) -> Rows<'a> {
    let rows = Rows::new().row(4, move || !waits_for(record, FIRST));
    let Some(board) = record.admitted_board() else {
        return rows;
    };
    rows.then(rows_of_responses(record.receivers, first_length(board.network.nets), answers))
        .row(12, move || room < second_vectors(&board, answers).len())
}

/// The call *first answers*: the record and the vectors of step two.
pub fn first_answers(record: &Record, answers: &[u64], room: usize) -> Result<(Record, Vec<u64>), u64> {
    rows_of_first_answers(record, answers, room).admit()?;
    let board = record.board().expect("admitted");
    let second = second_vectors(&board, answers);
    if second.is_empty() {
        let own_drivers: Vec<u64> = board.owners.iter().map(|net| 1 << net).collect();
        return Ok((finished(&board, &own_drivers, first_length(board.network.nets)), second));
    }
    let mut left = Record::blank(SECOND, &board);
    left.answers[..answers.len()].copy_from_slice(answers);
    Ok((left, second))
}

/// The vectors and the answers of both steps.
fn both_steps(board: &Board, first: &[u64], second: &[u64]) -> (Vec<u64>, Vec<u64>) {
    let vectors = [first_vectors(board.network.nets), second_vectors(board, first)].concat();
    (vectors, [first, second].concat())
}

/// Every state of class n that gives these first answers and these second ones.
fn fitting_both(board: &Board, first: &[u64], second: &[u64]) -> Vec<Vec<u64>> {
    let (net, n, m) = (board.network, board.network.nets, board.receivers());
    let (vectors, answers) = both_steps(board, first, second);
    if few(n, m) {
        fitting_states(net, m, n, &vectors, &answers)
    } else if n <= 10 {
        fitting_by_receivers(net, m, n, &vectors, &answers)
    } else {
        fitting_by_steps(board, first, second)
    }
}

/// The same for any n. The reach of a clear net's receiver is that net's driver, and no other reach has that driver; so
/// the second answers spell out the reaches of the unclear nets' receivers. What they spell is tried.
fn fitting_by_steps(board: &Board, first: &[u64], second: &[u64]) -> Vec<Vec<u64>> {
    let (net, n) = (board.network, board.network.nets);
    let unclear = unclear_nets(board, first);
    let (to_extra, to_walking) = second.split_at(extra_vector(net).iter().count());
    let drivers_read = |receiver: u64| {
        let read = |(driver, answer): (&u64, &u64)| u64::from(shows_driver(net, bit(*answer, receiver))) << driver;
        unclear.iter().zip(to_walking).map(read).sum()
    };
    let floats = |receiver: u64| to_extra.iter().any(|answer| bit(*answer, receiver) == (net.level == 1));
    let reach_of = |(receiver, owner): (u64, &u64)| match (unclear.contains(owner), floats(receiver)) {
        (false, _) => 1 << owner,
        (true, true) => 0,
        (true, false) => drivers_read(receiver),
    };
    let state: Vec<u64> = (0..).zip(&board.owners).map(reach_of).collect();
    let (vectors, answers) = both_steps(board, first, second);
    let fits = is_state(n, board.receivers(), n, &state) && response(net, &vectors, &state) == answers;
    Vec::from_iter(fits.then_some(state))
}

fn no_state_fits_both(board: &Board, first: &[u64], second: &[u64]) -> bool {
    let asked = second_vectors(board, first).len();
    let shaped = rows_of_responses(board.receivers() as u64, asked, second).admit().is_ok();
    !shaped || fitting_both(board, first, second).is_empty()
}

/// The rows of second answers. Rows 9 to 14 are asked of any record whose nets and receivers rows 5 and 21 admit; else
/// they are taken not to hold.
pub fn rows_of_second_answers<'a>(record: &'a Record, answers: &'a [u64]) -> Rows<'a> {
    let rows = Rows::new().row(4, move || !waits_for(record, SECOND));
    let Some(board) = record.admitted_board() else {
        return rows;
    };
    let first = record.first_answers();
    let asked = second_vectors(&board, first).len();
    rows.then(rows_of_responses(record.receivers, asked, answers))
        .row(14, move || no_state_fits_both(&board, first, answers))
}

/// The call *second answers*.
pub fn second_answers(record: &Record, answers: &[u64]) -> Result<Record, u64> {
    rows_of_second_answers(record, answers).admit()?;
    let board = record.board().expect("admitted");
    let first = record.first_answers();
    let state = only(fitting_both(&board, first, answers));
    let asked = second_vectors(&board, first).len();
    Ok(finished(&board, &state, first_length(board.network.nets) + asked))
}

/// The finished record with this state and this many vectors spent.
pub fn finished(board: &Board, state: &[u64], spent: usize) -> Record {
    let mut record = Record::blank(FINISHED, board);
    record.reaches[..state.len()].copy_from_slice(state);
    record.spent = spent as u64;
    record
}

/// How many words to drive from the start of the first list (step one) or of the second (step two).
pub fn to_drive(record: &Record, first_room: usize, second_room: usize) -> usize {
    if !left_waiting(record) {
        return 0;
    }
    let board = record.board().expect("left by calls");
    let (count, room) = match record.step {
        FIRST => (first_length(board.network.nets), first_room),
        _ => (second_vectors(&board, record.first_answers()).len(), second_room),
    };
    if room < count {
        0
    } else {
        count
    }
}

#[cfg(test)]
mod tests {
    use super::*;
    use crate::board::all_owners;
    use crate::diagnosis::fitting_among;
    use crate::network::{all_lists, all_states, each_combination, AND, OR};

    /// First answers, second vectors, second answers and count spent of a session.
    type Session = (&'static [u64], &'static [u64], &'static [u64], u64);

    /// The session of a board with these first vectors reports this state.
    fn assert_session(board: &Board, first: &[u64], state: &[u64], session: Session) {
        let (answers_1, second, answers_2, spent) = session;
        let (begun, vectors) = begin(board, first.len()).unwrap();
        assert_eq!(vectors, first);
        assert_eq!(first_answers(&begun, answers_1, second.len() - 1), Err(12));
        let (waiting, vectors) = first_answers(&begun, answers_1, second.len()).unwrap();
        assert_eq!(vectors, second);
        let done = second_answers(&waiting, answers_2).unwrap();
        assert_eq!((&done.reaches[..state.len()], done.spent), (state, spent));
        assert!([begun, waiting, done].iter().all(|record| record.board().as_ref() == Some(board)));
    }

    /// The paper's session is that of OR and soft level 1.
    #[test]
    fn sessions_of_four_nets() {
        let sessions: [Session; 4] = [
            (&[11, 3, 3, 8], &[1, 2, 4], &[3, 3, 0], 7),
            (&[15, 7, 7, 12], &[0, 1, 2, 4], &[4, 7, 7, 4], 8),
            (&[11, 0, 0, 8], &[15, 14, 13, 11], &[11, 8, 8, 11], 8),
            (&[15, 4, 4, 12], &[14, 13, 11], &[12, 12, 15], 7),
        ];
        for (net, session) in each_combination(4).into_iter().zip(sessions) {
            assert_session(&net.into(), &[11, 5, 6, 8], &[3, 3, 0, 8], session);
        }
    }

    /// Net 0 is a clock net of three receivers, of which the second floats, and net 1 has one and is clear.
    #[test]
    fn sessions_of_a_clock_net() {
        let sessions: [Session; 4] = [
            (&[5, 8], &[1], &[5], 3),
            (&[7, 10], &[0, 1], &[2, 7], 4),
            (&[5, 8], &[3, 2], &[13, 8], 4),
            (&[7, 10], &[2], &[10], 3),
        ];
        for (network, session) in each_combination(2).into_iter().zip(sessions) {
            let board = Board { network, owners: vec![0, 0, 0, 1] };
            assert_session(&board, &[1, 2], &[1, 0, 1, 2], session);
            let (begun, _) = begin(&board, 2).unwrap();
            let (sound, second) = first_answers(&begun, &[7, 8], 0).unwrap();
            assert_eq!((&sound.reaches[..5], sound.spent, second.len()), (&[1, 1, 1, 2, 0][..], 2, 0));
        }
    }

    /// One receiver of the clock net returned another word, and one of net 1 returned the clock's.
    #[test]
    fn clear_nets_of_several_receivers() {
        let board = Board { network: Network { nets: 2, level: 1, gate: OR }, owners: vec![0, 0, 1, 1] };
        assert_eq!(unclear_nets(&board, &[3, 12]), []);
        assert_eq!(unclear_nets(&board, &[1, 12]), [0]);
        assert_eq!(unclear_nets(&board, &[3, 4]), [1]);
        assert_eq!(unclear_nets(&board, &[7, 8]), [0, 1]);
        assert_eq!(unclear_nets(&board, &[12, 3]), [0, 1]);
    }

    #[test]
    fn the_papers_sessions_of_two_nets() {
        let (begun, _) = begin(&Network { nets: 2, level: 1, gate: OR }.into(), 2).unwrap();
        let (sound, second) = first_answers(&begun, &[1, 2], 0).unwrap();
        assert_eq!((sound.step, sound.spent, second.len()), (FINISHED, 2, 0));
        let (floating, _) = first_answers(&begun, &[3, 3], 3).unwrap();
        let done = second_answers(&floating, &[3, 3, 3]).unwrap();
        assert_eq!((&done.reaches[..2], done.spent), (&[0, 0][..], 5));
    }

    #[test]
    fn the_lengths_of_step_one() {
        let lengths: Vec<usize> = [2, 3, 4, 6, 7, 10, 11, 20, 21, 35, 36, 48].map(first_length).to_vec();
        assert_eq!(lengths, [2, 3, 4, 4, 5, 5, 6, 6, 7, 7, 8, 8]);
    }

    /// With one receiver a net, the sentence of document 01: receiver i returned its own word and no other receiver
    /// did.
    #[test]
    fn clear_nets_with_one_receiver_a_net() {
        for nets in [2, 3] {
            let (board, words) = (Network { nets, level: 1, gate: OR }.into(), step_one_words(nets));
            for answers in all_lists(1 << nets, first_length(nets)) {
                let returned = |i: u64| word_of(answers.iter().map(|answer| bit(*answer, i)));
                let clear = |i: &u64| (0..nets).all(|j| (returned(j) == words[*i as usize]) == (j == *i));
                let unclear: Vec<u64> = (0..nets).filter(|i| !clear(i)).collect();
                assert_eq!(unclear_nets(&board, &answers), unclear);
            }
        }
    }

    fn assert_ways_agree(states: &[Vec<u64>], board: &Board, first: &[u64], second: &[u64]) {
        let (net, m) = (board.network, board.receivers());
        let (vectors, all) = both_steps(board, first, second);
        let plain = fitting_among(net, states, &vectors, &all);
        assert_eq!(fitting_by_steps(board, first, second), plain);
        assert_eq!(fitting_by_receivers(net, m, net.nets, &vectors, &all), plain);
    }

    /// Every second answer after these first ones.
    fn assert_ways_agree_after(board: &Board, states: &[Vec<u64>], first: &[u64]) {
        let asked = second_vectors(board, first).len();
        if asked > 0 {
            let seconds = all_lists(1 << board.receivers(), asked);
            seconds.iter().for_each(|second| assert_ways_agree(states, board, first, second));
        }
    }

    #[test]
    fn the_ways_to_find_a_sessions_state_agree_on_all_answers_of_two_nets() {
        for (net, m) in each_combination(2).into_iter().flat_map(|net| [(net, 2), (net, 3)]) {
            let states = all_states(2, m, 2);
            for owners in all_owners(net, m) {
                let board = Board { network: net, owners };
                all_lists(1 << m, 2).iter().for_each(|first| assert_ways_agree_after(&board, &states, first));
            }
        }
    }

    /// The right answers of a state, and each with one bit of a second answer turned.
    fn assert_ways_agree_on(board: &Board, states: &[Vec<u64>], state: &[u64]) {
        let net = board.network;
        let first = response(net, &first_vectors(net.nets), state);
        let second = response(net, &second_vectors(board, &first), state);
        if second.is_empty() {
            return;
        }
        assert_ways_agree(states, board, &first, &second);
        let m = board.receivers();
        for place in 0..m * second.len() {
            let mut turned = second.clone();
            turned[place / m] ^= 1 << (place % m);
            assert_ways_agree(states, board, &first, &turned);
        }
    }

    #[test]
    fn the_ways_to_find_a_sessions_state_agree_on_boards_of_three_nets() {
        let (states, longer) = (all_states(3, 3, 3), all_states(3, 4, 3));
        for network in each_combination(3) {
            states.iter().for_each(|state| assert_ways_agree_on(&network.into(), &states, state));
            for owners in [vec![0, 1, 2, 0], vec![2, 1, 1, 0]] {
                let board = Board { network, owners };
                longer.iter().step_by(7).for_each(|state| assert_ways_agree_on(&board, &longer, state));
            }
        }
    }

    /// Records that wait for first and for second answers, on two nets with three receivers.
    fn waiting_records() -> [Record; 2] {
        let board = Board { network: Network { nets: 2, level: 1, gate: AND }, owners: vec![0, 1, 0] };
        let (begun, _) = begin(&board, 2).unwrap();
        let (waiting, _) = first_answers(&begun, &[7, 7], 3).unwrap();
        [begun, waiting]
    }

    #[test]
    fn a_record_of_a_level_or_gate_above_1_is_left_by_no_call() {
        for record in waiting_records() {
            let net = record.network;
            for (number, left) in [(0, true), (1, true), (2, false), (u64::MAX, false)] {
                for network in [Network { level: number, ..net }, Network { gate: number, ..net }] {
                    assert_eq!(left_waiting(&Record { network, ..record.clone() }), left);
                }
            }
        }
    }

    /// Owners that row 21 refuses, unused ones that are not 0, and other numbers of receivers. Receiver 1 is the only
    /// one of net 1, so with net 0 there it has none; receivers 0 and 2 are on net 0, so either may be on net 1.
    #[test]
    fn a_record_of_other_receivers() {
        for record in waiting_records() {
            let with_owner = |place: usize, owner: u64| {
                let mut changed = record.clone();
                changed.owners[place] = owner;
                left_waiting(&changed)
            };
            assert_eq!([with_owner(0, 1), with_owner(2, 1), with_owner(1, 1)], [true; 3]);
            assert_eq!([with_owner(1, 0), with_owner(0, 2), with_owner(2, u64::MAX)], [false; 3]);
            assert_eq!([with_owner(3, 1), with_owner(63, 1)], [false; 2]);
            let with_count = |receivers: u64| left_waiting(&Record { receivers, ..record.clone() });
            assert_eq!([0, 1, 65, u64::MAX].map(with_count), [false; 4]);
            // The unused owners are 0, so more receivers are on net 0.
            assert_eq!([4, 64].map(with_count), [true; 2]);
        }
        // With two receivers the owner of the third is unused, and it is 0; but first answers of 7 have a bit for it.
        assert_eq!(waiting_records().map(|record| left_waiting(&Record { receivers: 2, ..record })), [true, false]);
    }
}
