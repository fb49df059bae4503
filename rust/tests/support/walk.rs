//! Walks along every list of a few session calls on one record.

use super::session::{part_to_drive_agrees, Call};
use model::session::WORDS;
use model::Record;
use std::collections::HashMap;
use std::rc::Rc;

/// The most words that a call of the walk is lent.
const LIST: usize = 6;
/// What such a list holds before a call.
const FILLING: [u64; LIST] = [71, 72, 73, 74, 75, 76];

/// What a call must leave: its number, the record and the list.
struct Expected {
    number: u64,
    record: Rc<[u64; WORDS]>,
    list: [u64; LIST],
}

/// A walk along every list of calls. What the model says of a record is worked out once.
pub struct Walk {
    calls: Vec<Call>,
    known: HashMap<[u64; WORDS], Rc<Vec<Expected>>>,
    pub made: usize,
    pub accepted: usize,
}

impl Walk {
    pub fn of(calls: Vec<Call>) -> Walk {
        Walk { calls, known: HashMap::new(), made: 0, accepted: 0 }
    }

    fn expected(&mut self, words: &[u64; WORDS]) -> Rc<Vec<Expected>> {
        if let Some(known) = self.known.get(words) {
            return known.clone();
        }
        part_to_drive_agrees(words);
        let (record, unchanged) = (Record::from_words(words), Rc::new(*words));
        let expected = |call: &Call| match call.answer(&record) {
            Err(number) => Expected { number, record: unchanged.clone(), list: FILLING },
            Ok((left, written)) => {
                let mut list = FILLING;
                list[..written.len()].copy_from_slice(&written);
                Expected { number: 0, record: Rc::new(left.words()), list }
            }
        };
        let all = Rc::new(self.calls.iter().map(expected).collect::<Vec<_>>());
        self.known.insert(*words, all.clone());
        all
    }

    /// Every list of `depth` calls from this record. Each call gets the record as the library left it.
    pub fn from(&mut self, record: &[u64; WORDS], depth: usize) {
        let all = self.expected(record);
        for (i, expected) in all.iter().enumerate() {
            let (mut left, mut list) = (*record, FILLING);
            let room = self.calls[i].room();
            let number = self.calls[i].make(&mut left, &mut list[..room]);
            let agrees = number == expected.number && left == *expected.record && list == expected.list;
            assert!(agrees, "{record:?}\n{:?}\ngave {number} {left:?} {list:?}", self.calls[i]);
            self.made += 1;
            self.accepted += usize::from(number == 0);
            if depth > 1 {
                self.from(&left, depth - 1);
            }
        }
    }
}

/// Walks from each record, says how many calls were made and accepted, and sees that some were and some were not.
pub fn walk(calls: Vec<Call>, depth: usize, records: &[[u64; WORDS]], of: &dyn std::fmt::Debug) {
    let alphabet = calls.len();
    let mut walk = Walk::of(calls);
    records.iter().for_each(|record| walk.from(record, depth));
    let Walk { made, accepted, .. } = walk;
    println!("{of:?}, lists of up to {depth} of {alphabet} calls: {made} calls, {accepted} accepted");
    assert!(accepted > 0 && accepted < made);
}
