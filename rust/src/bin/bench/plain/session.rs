//! The session, on the words of its record.

use super::{admit_board, admit_responses, code, dominant, extra_vector, has_high_bit, put_driver, put_floating};
use super::{reached, reaches_agree, read, receiver_count, turned};
use fontarelga::{Board, Network, MOST_RECEIVERS, RECORD_WORDS};

/// Step, nets, level, gate, number of receivers, the net of each, 8 first answers, 64 reaches, vectors spent.
pub type Record = [u64; RECORD_WORDS];

const STEP: usize = 0;
const NETS: usize = 1;
const LEVEL: usize = 2;
const GATE: usize = 3;
const RECEIVERS: usize = 4;
const OWNERS: usize = 5;
const ANSWERS: usize = OWNERS + MOST_RECEIVERS;
pub const REACHES: usize = ANSWERS + 8;
const SPENT: usize = REACHES + MOST_RECEIVERS;

/// The board that the record holds, if an accepted begin can leave it there.
fn board_of(session: &Record) -> Option<Board<'_>> {
    let network = Network::new(session[NETS]).with_level(session[LEVEL]).with_gate(session[GATE]);
    let owners = &session[OWNERS..ANSWERS];
    let (receivers, unused) = owners.split_at_checked(usize::try_from(session[RECEIVERS]).ok()?)?;
    let board = Board::with(network, receivers);
    let left = unused.iter().all(|word| *word == 0) && admit_board(&board).is_ok();
    left.then_some(board)
}

/// C(p, p/2 rounded down).
fn words_of_half_weight(p: u64) -> u64 {
    (1..=p / 2).fold(1, |ways, q| ways * (p + 1 - q) / q)
}

fn first_length(n: u64) -> u64 {
    (1..).find(|p| words_of_half_weight(*p) >= n).expect("p grows")
}

/// The sequential words of step one.
fn step_one_words(n: u64) -> Vec<u64> {
    let p = first_length(n);
    (0..1u64 << p).filter(|word| u64::from(word.count_ones()) == p / 2).take(n as usize).collect()
}

/// The unclear nets, as a word. A net is clear if its word came back from as many receivers as it has, and from all of
/// its own.
fn unclear(board: &Board, answers: &[u64]) -> u64 {
    let words = step_one_words(board.network().nets());
    let returned = turned(receiver_count(board), answers);
    let (mut own, mut right) = (vec![0; words.len()], vec![0; words.len()]);
    for (net, word) in board.receivers().iter().map(|net| *net as usize).zip(&returned) {
        own[net] += 1;
        right[net] += usize::from(*word == words[net]);
    }
    let came_back = |i: usize| returned.iter().filter(|word| **word == words[i]).count();
    let clear = |i: usize| right[i] == own[i] && came_back(i) == own[i];
    (0..words.len()).filter(|i| !clear(*i)).map(|i| 1 << i).sum()
}

/// The extra vector, if there is one, and the walking vector of each net of the word, ascending.
fn second_vectors(network: Network, unclear: u64) -> impl Iterator<Item = u64> {
    let drivers = (0..48).map(|i| 1 << i).filter(move |driver| unclear & driver != 0);
    extra_vector(network).into_iter().chain(drivers.map(move |driver| dominant(network, driver)))
}

fn second_length(network: Network, unclear: u64) -> usize {
    extra_vector(network).iter().count() + unclear.count_ones() as usize
}

fn start(session: &mut Record, board: &Board, first: &mut [u64]) -> Result<(), u64> {
    admit_board(board)?;
    let (network, receivers) = (board.network(), board.receivers());
    let n = network.nets();
    let p = first_length(n);
    if first.len() < p as usize {
        return Err(12);
    }
    let words = step_one_words(n);
    first[..p as usize].copy_from_slice(&turned(p, &words));
    session.fill(0);
    session[..OWNERS].copy_from_slice(&[1, n, network.level(), network.gate(), receiver_count(board)]);
    session[OWNERS..OWNERS + receivers.len()].copy_from_slice(receivers);
    Ok(())
}

pub fn begin(session: &mut Record, board: &Board, first: &mut [u64]) -> u64 {
    code(start(session, board, first))
}

/// The board of a record that waits for first answers.
fn awaits_first(session: &Record) -> Option<Board<'_>> {
    let waits = session[STEP] == 1 && session[ANSWERS..].iter().all(|word| *word == 0);
    board_of(session).filter(|_| waits)
}

fn take_first(session: &mut Record, answers: &[u64], second: &mut [u64]) -> Result<(), u64> {
    let board = awaits_first(session).ok_or(4u64)?;
    let (network, p) = (board.network(), first_length(board.network().nets()));
    admit_responses(receiver_count(&board), p as usize, answers)?;
    let unclear = unclear(&board, answers);
    if unclear == 0 {
        (0..board.receivers().len()).for_each(|r| session[REACHES + r] = 1 << session[OWNERS + r]);
        (session[STEP], session[SPENT]) = (3, p);
        return Ok(());
    }
    if second.len() < second_length(network, unclear) {
        return Err(12);
    }
    second.iter_mut().zip(second_vectors(network, unclear)).for_each(|(word, vector)| *word = vector);
    session[STEP] = 2;
    session[ANSWERS..ANSWERS + answers.len()].copy_from_slice(answers);
    Ok(())
}

pub fn first_answers(session: &mut Record, answers: &[u64], second: &mut [u64]) -> u64 {
    code(take_first(session, answers, second))
}

/// The board of a record that waits for second answers, and the nets that are unclear.
fn awaits_second(session: &Record) -> Option<(Board<'_>, u64)> {
    let board = board_of(session).filter(|_| session[STEP] == 2)?;
    let (answers, unused) = session[ANSWERS..].split_at(first_length(board.network().nets()) as usize);
    let left = unused.iter().all(|word| *word == 0) && !has_high_bit(receiver_count(&board), answers);
    let unclear = unclear(&board, answers);
    (left && unclear != 0).then_some((board, unclear))
}

/// The state that the second answers spell out.
fn spelled(board: &Board, unclear: u64, answers: &[u64]) -> Vec<u64> {
    let network = board.network();
    let is_unclear = |(r, net): (usize, &u64)| (unclear >> net & 1) << r;
    let of_unclear: u64 = board.receivers().iter().enumerate().map(is_unclear).sum();
    let mut state: Vec<u64> = board.receivers().iter().map(|net| (1 << net) & !unclear).collect();
    for (vector, answer) in second_vectors(network, unclear).zip(answers) {
        put_driver(&mut state, reached(board, *answer) & of_unclear, dominant(network, vector));
    }
    put_floating(&mut state, extra_vector(network).map_or(0, |_| reached(board, answers[0]) & of_unclear));
    state
}

/// Does the state give these answers to these vectors?
fn gives(network: Network, state: &[u64], mut vectors: impl Iterator<Item = u64>, answers: &[u64]) -> bool {
    answers.iter().all(|answer| vectors.next().map(|vector| read(network, state, vector)) == Some(*answer))
}

fn take_second(session: &mut Record, answers: &[u64]) -> Result<(), u64> {
    let (board, unclear) = awaits_second(session).ok_or(4u64)?;
    let (network, n) = (board.network(), board.network().nets());
    let count = second_length(network, unclear);
    admit_responses(receiver_count(&board), count, answers)?;
    let p = first_length(n);
    let state = spelled(&board, unclear, answers);
    let first = turned(p, &step_one_words(n)).into_iter();
    let first_given = gives(network, &state, first, &session[ANSWERS..ANSWERS + p as usize]);
    if !first_given || !gives(network, &state, second_vectors(network, unclear), answers) || !reaches_agree(&state) {
        return Err(14);
    }
    session[ANSWERS..].fill(0);
    (session[STEP], session[SPENT]) = (3, p + count as u64);
    session[REACHES..REACHES + state.len()].copy_from_slice(&state);
    Ok(())
}

pub fn second_answers(session: &mut Record, answers: &[u64]) -> u64 {
    code(take_second(session, answers))
}
