//! The calls of a session, made on a record.

use super::lent::{Given, Lent};
use super::networks::{board_of_library, is_said_alone, of_library};
use fontarelga::raw;
use model::network::response;
use model::session::{finished, first_vectors, unclear_nets, FINISHED, WORDS};
use model::{Board, Record, AND, OR};

/// A call on a session record, with the room of the list that it is lent.
#[derive(Clone, Debug)]
pub enum Call {
    Begin { board: Board, room: usize },
    First { answers: Vec<u64>, room: usize },
    Second { answers: Vec<u64> },
}

/// The record after an accepted call, and the words written to the lent list.
pub type Left = (Record, Vec<u64>);

impl Call {
    /// The model's answer.
    pub fn answer(&self, record: &Record) -> Result<Left, u64> {
        match self {
            Call::Begin { board, room } => model::begin(board, *room),
            Call::First { answers, room } => model::first_answers(record, answers, *room),
            Call::Second { answers } => model::second_answers(record, answers).map(|left| (left, vec![])),
        }
    }

    pub fn room(&self) -> usize {
        match self {
            Call::Begin { room, .. } | Call::First { room, .. } => *room,
            Call::Second { .. } => 0,
        }
    }

    /// Makes the call on a record and a lent list, and gives its number. A begin with one receiver a net says the
    /// network alone.
    pub fn make(&self, record: &mut [u64; WORDS], list: &mut [u64]) -> u64 {
        match self {
            Call::Begin { board, .. } if is_said_alone(board) => raw::begin(record, of_library(board.network), list),
            _ => self.make_with_list(record, list),
        }
    }

    /// The same, but every begin has the list of receivers.
    fn make_with_list(&self, record: &mut [u64; WORDS], list: &mut [u64]) -> u64 {
        match self {
            Call::Begin { board, .. } => raw::begin(record, board_of_library(board), list),
            Call::First { answers, .. } => raw::first_answers(record, answers, list),
            Call::Second { answers } => raw::second_answers(record, answers),
        }
    }

    fn given(&self) -> &[u64] {
        match self {
            Call::Begin { board, .. } => &board.owners,
            Call::First { answers, .. } | Call::Second { answers } => answers,
        }
    }
}

/// Makes the call on a record, and a begin with the list of receivers too, and compares number, record and list with
/// the answer.
pub fn session_call_gives(record: &[u64; WORDS], call: &Call, answer: &Result<Left, u64>) {
    made_gives(Call::make, record, call, answer);
    if matches!(call, Call::Begin { .. }) {
        made_gives(Call::make_with_list, record, call, answer);
    }
}

/// One of the two ways to make a call.
type Make = fn(&Call, &mut [u64; WORDS], &mut [u64]) -> u64;

fn made_gives(make: Make, record: &[u64; WORDS], call: &Call, answer: &Result<Left, u64>) {
    let what = (record, call);
    let given = Given::of(call.given());
    let mut lent_record = Lent::of([&record[..], &[77, 78]].concat());
    let mut list = Lent::words(call.room());
    let number = make(call, lent_record.lend_front(), list.lend());
    assert_eq!(number, super::calls::code(answer), "{what:?}");
    match answer {
        Ok((left, written)) => {
            lent_record.assert_holds(&left.words(), &what);
            list.assert_holds(written, &what);
        }
        Err(_) => {
            lent_record.assert_holds(&[], &what);
            list.assert_holds(&[], &what);
        }
    }
    given.assert_unchanged();
}

/// Compares the part to drive for lists that are too short, long enough and longer.
pub fn part_to_drive_agrees(words: &[u64; WORDS]) {
    let record = Record::from_words(words);
    for (first, second) in [(8, 49), (0, 49), (8, 0), (2, 3), (1, 3), (2, 2), (2, 1), (9, 60)] {
        let part = raw::to_drive(words, &vec![7; first], &vec![7; second]);
        assert_eq!(part, model::to_drive(&record, first, second) as u64, "{words:?} {first} {second}");
    }
}

/// A session with these answers to step one and two, each call compared with the model. Gives the last record.
pub fn run(board: &Board, answer_first: &[u64], answer_second: impl FnOnce(&[u64]) -> Vec<u64>) -> Result<Record, u64> {
    let mut record = [0xBAD; WORDS];
    let mut make = |call: Call| -> Result<Left, u64> {
        let answer = call.answer(&Record::from_words(&record));
        session_call_gives(&record, &call, &answer);
        let (left, written) = answer?;
        record = left.words();
        part_to_drive_agrees(&record);
        Ok((left, written))
    };
    make(Call::Begin { board: board.clone(), room: 9 })?;
    let (left, second) = make(Call::First { answers: answer_first.to_vec(), room: 50 })?;
    if left.step == FINISHED {
        return Ok(left);
    }
    Ok(make(Call::Second { answers: answer_second(&second) })?.0)
}

/// A board that stays the same through both steps is the one reported. With p vectors spent if all nets are clear; else
/// with p + F + 1 for OR at level 1 and AND at level 0, and p + F for the other two.
pub fn assert_reported(board: &Board, state: &[u64]) {
    let net = board.network;
    let first = first_vectors(net.nets);
    let answers = response(net, &first, state);
    let unclear = unclear_nets(board, &answers).len();
    let record = run(board, &answers, |second| response(net, second, state)).expect("a state is never refused");
    let spent = match (unclear, net.gate, net.level) {
        (0, _, _) => first.len(),
        (_, OR, 1) | (_, AND, 0) => first.len() + unclear + 1,
        _ => first.len() + unclear,
    };
    assert_eq!(record, finished(board, state, spent), "{board:?} {state:?}");
}
