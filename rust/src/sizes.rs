//! The most that lists hold, the words of those that have a fixed length, and the stack that calls want.

/// The most nets of a network.
pub const MOST_NETS: usize = 48;
/// The most receivers of a board.
pub const MOST_RECEIVERS: usize = 64;
/// The most vectors of a test set.
pub const MOST_VECTORS: usize = 64;
/// The most cells of a chain.
pub const MOST_CELLS: usize = 200;
/// The most clocks: a scan for each vector and one more, each with five clocks more than there are cells.
pub const MOST_CLOCKS: usize = (MOST_VECTORS + 1) * (MOST_CELLS + 5);
/// The most vectors of a session's step one.
pub const MOST_FIRST_VECTORS: usize = 8;
/// The most vectors of a session's step two: the extra vector, where there is one, and one a net.
pub const MOST_SECOND_VECTORS: usize = MOST_NETS + 1;
/// The most bytes of a job file.
pub const MOST_FILE_BYTES: usize = 2048;

/// The words of a verdict: 0 0 0 for pass, 1 A B for a pair.
pub const VERDICT_WORDS: usize = 3;
/// The words on a shortened set: vectors kept, checks made, floor.
pub const SHORTENED_WORDS: usize = 3;
/// The words of a finding: kind, reach, partners.
pub const FINDING_WORDS: usize = 3;
/// The words of a session record: step, nets, level, gate, number of receivers, the net of each (64), 8 first answers,
/// 64 reaches, vectors spent.
pub const RECORD_WORDS: usize = 142;
/// The words of a job: nets, level, gate, class, kind, number of vectors, number of responses.
pub const JOB_WORDS: usize = 7;

/// The stack of a thread that is enough for [`check`](crate::check), [`shorten`](crate::shorten) and
/// [`diagnose`](crate::diagnose).
pub const CHECK_STACK_BYTES: usize = 320 * 1024;
/// The stack of a thread that is enough for every other call.
pub const OTHER_STACK_BYTES: usize = 32 * 1024;
