use crate::board::Board;
use crate::interface as raw;
use crate::network::Network;
use crate::refusal::Refusal;
use crate::sizes::{MOST_FIRST_VECTORS, MOST_SECOND_VECTORS, RECORD_WORDS};

const STEP: usize = 0;
const NETS: usize = 1;
const LEVEL: usize = 2;
const GATE: usize = 3;
const RECEIVERS: usize = 4;
const OWNERS: usize = 5;
const REACHES: usize = 77;
const SPENT: usize = 141;

/// What a session waits for.
#[derive(Clone, Copy, Debug, PartialEq, Eq, Hash)]
pub enum Waits {
    /// The answers to the vectors of step one.
    FirstAnswers,
    /// The answers to the vectors of step two.
    SecondAnswers,
    /// Nothing: it is finished.
    Nothing,
}

/// A session: finds any wiring state of class n in two steps, with few vectors.
///
/// It owns its record and the vectors of both steps. A refused call changes nothing.
///
/// A net is clear after step one if all its receivers returned its word and no other receiver did. Step two drives the
/// walking vector of each net that is not, and before them the extra vector where the [`Network`] has one.
///
/// ```
/// use fontarelga::{Board, Network, Session, Waits, AND};
/// let mut session = Session::begin(Network::new(4))?;
/// assert_eq!(session.to_drive(), [11, 5, 6, 8]);
/// session.first_answers(&[15, 7, 7, 12])?;
/// assert_eq!(session.to_drive(), [0, 1, 2, 4]);
/// session.second_answers(&[4, 7, 7, 4])?;
/// assert_eq!(session.waits_for(), Waits::Nothing);
/// assert_eq!(session.reaches(), Some(&[3, 3, 0, 8][..]));
/// assert_eq!(session.spent(), Some(8));
///
/// session.begin_anew(Network::new(4).with_level(0))?;
/// session.first_answers(&[11, 3, 3, 8])?;
/// assert_eq!(session.to_drive(), [1, 2, 4]);
///
/// session.begin_anew(Network::new(4).with_gate(AND))?;
/// session.first_answers(&[15, 4, 4, 12])?;
/// assert_eq!(session.to_drive(), [14, 13, 11]);
///
/// // Net 0 has three receivers, of which the second floats, and net 1 has one: it is clear.
/// session.begin_anew(Board::with(Network::new(2), &[0, 0, 0, 1]))?;
/// assert_eq!(session.to_drive(), [1, 2]);
/// session.first_answers(&[7, 10])?;
/// assert_eq!(session.to_drive(), [0, 1]);
/// session.second_answers(&[2, 7])?;
/// assert_eq!((session.reaches(), session.spent()), (Some(&[1, 0, 1, 2][..]), Some(4)));
/// # Ok::<(), fontarelga::Refusal>(())
/// ```
#[derive(Clone, Debug, PartialEq, Eq)]
pub struct Session {
    record: [u64; RECORD_WORDS],
    first: [u64; MOST_FIRST_VECTORS],
    second: [u64; MOST_SECOND_VECTORS],
}

impl Session {
    /// A session on this board that waits for first answers.
    ///
    /// Refused: 5, 21, 17, 20.
    pub fn begin<'a>(board: impl Into<Board<'a>>) -> Result<Session, Refusal> {
        let mut session =
            Session { record: [0; RECORD_WORDS], first: [0; MOST_FIRST_VECTORS], second: [0; MOST_SECOND_VECTORS] };
        session.begin_anew(board)?;
        Ok(session)
    }

    /// Begins anew, whatever the session waited for. What it was told before counts no more.
    ///
    /// Refused: 5, 21, 17, 20.
    pub fn begin_anew<'a>(&mut self, board: impl Into<Board<'a>>) -> Result<(), Refusal> {
        Refusal::from_code(raw::begin(&mut self.record, board, &mut self.first))
    }

    /// Takes the answers to step one: a word a vector, in order. If a net is unclear, step two is to be driven;
    /// otherwise the session is finished.
    ///
    /// Refused: 4, 9, 10.
    pub fn first_answers(&mut self, answers: &[u64]) -> Result<(), Refusal> {
        Refusal::from_code(raw::first_answers(&mut self.record, answers, &mut self.second))
    }

    /// Takes the answers to step two, and finishes with the only state that fits both steps.
    ///
    /// Refused: 4, 9, 10, 14.
    pub fn second_answers(&mut self, answers: &[u64]) -> Result<(), Refusal> {
        Refusal::from_code(raw::second_answers(&mut self.record, answers))
    }

    /// What the session waits for.
    pub fn waits_for(&self) -> Waits {
        match self.record[STEP] {
            1 => Waits::FirstAnswers,
            2 => Waits::SecondAnswers,
            _ => Waits::Nothing,
        }
    }

    /// The vectors to drive next; none if the session is finished.
    pub fn to_drive(&self) -> &[u64] {
        let count = raw::to_drive(&self.record, &self.first, &self.second) as usize;
        match self.waits_for() {
            Waits::FirstAnswers => &self.first[..count],
            Waits::SecondAnswers => &self.second[..count],
            Waits::Nothing => &[],
        }
    }

    /// The board.
    pub fn board(&self) -> Board<'_> {
        Board::with(self.network(), self.receivers())
    }

    /// The network.
    pub fn network(&self) -> Network {
        Network::new(self.nets()).with_level(self.record[LEVEL]).with_gate(self.record[GATE])
    }

    /// The number of nets.
    pub fn nets(&self) -> u64 {
        self.record[NETS]
    }

    /// The net of each receiver.
    pub fn receivers(&self) -> &[u64] {
        &self.record[OWNERS..][..self.receiver_count()]
    }

    /// The wiring state found, a reach a receiver, once the session is finished.
    pub fn reaches(&self) -> Option<&[u64]> {
        self.finished().then(|| &self.record[REACHES..][..self.receiver_count()])
    }

    /// How many vectors were spent, once the session is finished.
    pub fn spent(&self) -> Option<u64> {
        self.finished().then(|| self.record[SPENT])
    }

    /// The words of the record.
    pub fn record(&self) -> &[u64; RECORD_WORDS] {
        &self.record
    }

    fn receiver_count(&self) -> usize {
        self.record[RECEIVERS] as usize
    }

    fn finished(&self) -> bool {
        self.waits_for() == Waits::Nothing
    }
}
