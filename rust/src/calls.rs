//! The calls on test sets, responses and states.

use crate::board::Board;
use crate::interface as raw;
use crate::network::Network;
use crate::refusal::Refusal;
use crate::sizes::{FINDING_WORDS, MOST_RECEIVERS, SHORTENED_WORDS, VERDICT_WORDS};

/// The checker's answer.
#[derive(Clone, Copy, Debug, PartialEq, Eq, Hash)]
pub enum Verdict {
    /// Whatever the response, at most one state of the class fits it.
    Pass,
    /// Two driver sets that the test set cannot tell apart: reach `a` or `b` at receiver 0, all others floating.
    Pair { a: u64, b: u64 },
}

/// What is kept of a test set, and how far it can be from the shortest.
#[derive(Clone, Debug, PartialEq, Eq, Hash)]
pub struct Shorter {
    /// The vectors that are kept, in the order given: a passed set.
    pub kept: Vec<u64>,
    /// How many checks were made, one for each vector that was tried: as many as were allowed, or as there were vectors
    /// if those are fewer. The check of the set given is not counted.
    pub checks: u64,
    /// The smallest q with 2^q at least the number of sets of at most k drivers, the empty one included. Every passed
    /// set of the class has at least q vectors, so none is shorter than `kept` by more than `kept.len()` minus q.
    pub floor: u64,
}

/// What is found at a receiver: it is open if its own net's driver does not reach it, and a short if it has partners
/// ([`Finding::partners`]).
#[derive(Clone, Copy, Debug, PartialEq, Eq, Hash)]
pub enum Kind {
    /// Neither: its own net's driver and no other reaches it, and that driver reaches no receiver of another net.
    Sound = 0,
    /// Open and no short: it floats, and the receivers that its own net's driver reaches, if any, are of that net and
    /// reached by no other driver.
    Open = 1,
    /// A short and not open: its own net's driver reaches it, and it has partners.
    Short = 2,
    /// Open and a short: its own net's driver does not reach it, and it has partners. So it is with both nets of a
    /// crossed pair.
    Both = 3,
}

impl Kind {
    fn from_number(number: u64) -> Kind {
        match number {
            0 => Kind::Sound,
            1 => Kind::Open,
            2 => Kind::Short,
            3 => Kind::Both,
            _ => unreachable!("the library gives kinds 0 to 3"),
        }
    }
}

/// What is found at one receiver.
#[derive(Clone, Copy, Debug, PartialEq, Eq, Hash)]
pub struct Finding {
    pub kind: Kind,
    /// The drivers that reach it.
    pub reach: u64,
    /// Its partners, as nets. They are other nets than its own: those with a receiver of the same reach, if that is not
    /// empty; those whose driver and its own net's driver reach one receiver, whichever; those whose driver reaches it;
    /// and those with a receiver that its own net's driver reaches.
    pub partners: u64,
}

/// Can a test set tell all states of a class apart?
///
/// The network has n nets, 2 to 48, soft level 0 or 1, and gate OR or AND. `class` is the most drivers that a reach may
/// have: 1, 2, 3, n or, for n up to 10, one from 4 to n - 1. `vectors` has 1 to 64 words; bit i is what driver i
/// drives.
///
/// Refused: 5, 6, 17, 20, 7, 8.
///
/// ```
/// use fontarelga::{check, Network, Verdict, AND};
/// let network = Network::new(4);
/// assert_eq!(check(network, 4, &[0, 1, 2, 4, 8]), Ok(Verdict::Pass));
/// assert_eq!(check(network, 4, &[1, 2, 4, 8]), Ok(Verdict::Pair { a: 0, b: 15 }));
/// assert_eq!(check(network.with_level(0), 4, &[1, 2, 4, 8]), Ok(Verdict::Pass));
/// assert_eq!(check(network.with_gate(AND), 4, &[14, 13, 11, 7]), Ok(Verdict::Pass));
/// // Walking ones of five nets: a receiver that all five drivers reach reads as one that floats, and class 4
/// // has no such reach.
/// assert_eq!(check(5, 4, &[1, 2, 4, 8, 16]), Ok(Verdict::Pass));
/// assert_eq!(check(5, 5, &[1, 2, 4, 8, 16]), Ok(Verdict::Pair { a: 0, b: 31 }));
/// ```
pub fn check(network: impl Into<Network>, class: u64, vectors: &[u64]) -> Result<Verdict, Refusal> {
    let mut verdict = [0; VERDICT_WORDS];
    Refusal::from_code(raw::check(network, class, vectors, &mut verdict))?;
    Ok(match verdict {
        [0, ..] => Verdict::Pass,
        [_, a, b] => Verdict::Pair { a, b },
    })
}

/// A shorter test set, by a number of checks that the caller gives.
///
/// The network and `vectors` are as for [`check`]; `class` is 1, 2 or 3, and at most n. From the last vector to the
/// first, each is left out if those kept so far are passed without it. Each trial costs one check. `allowed` is how
/// many may be made, any number; with none left, the rest is kept.
///
/// Refused: 5, 6 (here also for every class above 3), 17, 20, 7, 8, 13 (the set given is not passed; [`check`] then
/// shows two driver sets that it cannot tell apart).
///
/// ```
/// use fontarelga::{shorten, Refusal, Shorter};
/// let vectors = [0, 1, 2, 4, 8, 3, 5];
/// assert_eq!(shorten(4, 2, &vectors, 7), Ok(Shorter { kept: vec![1, 2, 4, 8], checks: 7, floor: 4 }));
/// // With two checks 5 and 3 are tried, and with none all vectors are kept.
/// assert_eq!(shorten(4, 2, &vectors, 2), Ok(Shorter { kept: vec![0, 1, 2, 4, 8], checks: 2, floor: 4 }));
/// assert_eq!(shorten(4, 2, &vectors, 0), Ok(Shorter { kept: vectors.to_vec(), checks: 0, floor: 4 }));
/// assert_eq!(shorten(4, 2, &[0, 1, 2, 4], 7), Err(Refusal(13)));
/// ```
pub fn shorten(network: impl Into<Network>, class: u64, vectors: &[u64], allowed: u64) -> Result<Shorter, Refusal> {
    let mut kept = vec![0; vectors.len()];
    let mut shortened = [0; SHORTENED_WORDS];
    Refusal::from_code(raw::shorten(network, class, vectors, allowed, &mut kept, &mut shortened))?;
    let [count, checks, floor] = shortened;
    kept.truncate(count as usize);
    Ok(Shorter { kept, checks, floor })
}

/// The response of a wiring state: a word a vector, bit r read by receiver r.
///
/// `class` is as for [`check`]. `state` has m words, the reaches of receivers 0 to m - 1; 0 is a receiver that floats.
///
/// Refused: 5, 21, 6, 17, 20, 7, 8, 11.
///
/// ```
/// use fontarelga::{respond, Board, Network, AND};
/// let (network, vectors, state) = (Network::new(4), [0, 1, 2, 4, 8], [3, 3, 0, 8]);
/// assert_eq!(respond(network, 4, &vectors, &state), Ok(vec![4, 7, 7, 4, 12]));
/// assert_eq!(respond(network.with_level(0), 4, &vectors, &state), Ok(vec![0, 3, 3, 0, 8]));
/// assert_eq!(respond(network.with_gate(AND), 4, &[14, 13, 11], &state), Ok(vec![12, 12, 15]));
/// // A second receiver on net 3, which reads what the first one reads.
/// let board = Board::with(network, &[0, 1, 2, 3, 3]);
/// assert_eq!(respond(board, 4, &vectors, &[3, 3, 0, 8, 8]), Ok(vec![4, 7, 7, 4, 28]));
/// ```
pub fn respond<'a>(
    board: impl Into<Board<'a>>,
    class: u64,
    vectors: &[u64],
    state: &[u64],
) -> Result<Vec<u64>, Refusal> {
    let mut response = vec![0; vectors.len()];
    Refusal::from_code(raw::respond(board, class, vectors, state, &mut response))?;
    Ok(response)
}

/// The only wiring state of the class that gives exactly these responses: its m reaches.
///
/// `class` is as for [`check`]. `responses` has a word a vector.
///
/// Refused: 5, 21, 6, 17, 20, 7, 8, 9, 10, 13, 14.
///
/// ```
/// use fontarelga::{diagnose, Board, Network, Refusal};
/// let (network, vectors) = (Network::new(4), [0, 1, 2, 4, 8]);
/// assert_eq!(diagnose(network, 4, &vectors, &[4, 7, 7, 4, 12]), Ok(vec![3, 3, 0, 8]));
/// assert_eq!(diagnose(network, 4, &vectors, &[4, 7, 7, 4, 4]), Err(Refusal(14)));
/// let board = Board::with(network, &[0, 1, 2, 3, 3]);
/// assert_eq!(diagnose(board, 4, &vectors, &[4, 7, 7, 4, 28]), Ok(vec![3, 3, 0, 8, 8]));
/// ```
pub fn diagnose<'a>(
    board: impl Into<Board<'a>>,
    class: u64,
    vectors: &[u64],
    responses: &[u64],
) -> Result<Vec<u64>, Refusal> {
    let board = board.into();
    let mut state = [0; MOST_RECEIVERS];
    Refusal::from_code(raw::diagnose(&board, class, vectors, responses, &mut state))?;
    Ok(state[..board.receivers().len()].to_vec())
}

/// What is found at each receiver of a wiring state, receiver 0 first. Soft level and gate have no part in it.
///
/// Refused: 5, 21, 17, 20, 11 (for class n).
///
/// ```
/// use fontarelga::{findings, Board, Finding, Kind, Network};
/// let found = findings(Network::new(4), &[3, 3, 0, 8]).unwrap();
/// assert_eq!(found[0], Finding { kind: Kind::Short, reach: 3, partners: 2 });
/// assert_eq!(found[2], Finding { kind: Kind::Open, reach: 0, partners: 0 });
/// let crossed = findings(Network::new(2), &[2, 1]).unwrap();
/// assert_eq!(crossed[0], Finding { kind: Kind::Both, reach: 2, partners: 2 });
/// // Receivers 0 and 2 are on net 0. The second of them floats, and net 1 is tied to the driver of its net.
/// let fanned_out = findings(Board::with(Network::new(2), &[0, 1, 0]), &[3, 3, 0]).unwrap();
/// assert_eq!(fanned_out[2], Finding { kind: Kind::Both, reach: 0, partners: 2 });
/// ```
pub fn findings<'a>(board: impl Into<Board<'a>>, state: &[u64]) -> Result<Vec<Finding>, Refusal> {
    let board = board.into();
    let mut table = [0; FINDING_WORDS * MOST_RECEIVERS];
    Refusal::from_code(raw::findings(&board, state, &mut table))?;
    let record = |r: &[u64]| Finding { kind: Kind::from_number(r[0]), reach: r[1], partners: r[2] };
    Ok(table.chunks(FINDING_WORDS).take(board.receivers().len()).map(record).collect())
}
