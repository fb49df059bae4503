//! Opens and shorts in the wiring of a circuit board, from what its boundary-scan cells drive and read.
//!
//! Safe wrappers over a library that is written and proved in Rattle and linked as a static archive. The words (net,
//! receiver, soft level, gate, reach, wiring state, test set, class, session) are explained in the repository's README.
//!
//! A word has 64 bits; bit i stands for net i, and in responses for receiver i. That is a parallel word. A sequential
//! word belongs to a net, and its bit t stands for vector t; [`turn`] gives these, and [`turn_back`] takes them.
//!
//! [`respond`], [`diagnose`], [`findings`] and [`Session::begin`] take a [`Board`], a network with its receivers, or
//! the network alone, which then has one receiver a net. [`check`], [`shorten`] and [`Job`] take the network, [`turn`]
//! and [`turn_back`] the number of its nets.
//!
//! A pod plays clocks, a byte of TMS and TDI for each. [`write_clocks`] turns a test set into clocks for a [`Chain`] of
//! boundary-scan cells, and [`read_clocks`] gives the responses from what TDO was. Both take a board too.
//!
//! Each call gives its full result or a [`Refusal`], the number of the first row of the table that holds; a call's rows
//! are listed with it in the table's order, in which 21 follows 5, 17 and 20 follow 6, and 18 and 19 follow 8. Any
//! numbers, any bytes and any lengths are ordinary inputs. The wrappers lend lists that are long enough, so row 12 is
//! met in [`raw`] only.
//!
//! The library takes what it needs from the stack. [`check`], [`shorten`] and [`diagnose`] run on a thread with a stack
//! of at least [`CHECK_STACK_BYTES`], all else with [`OTHER_STACK_BYTES`]. Threads of the standard library have 2 MB by
//! default.

mod board;
mod calls;
mod chain;
mod chain_interface;
mod interface;
mod job;
mod network;
mod refusal;
mod session;
mod sizes;
mod turning;

pub use board::Board;
pub use calls::{check, diagnose, findings, respond, shorten, Finding, Kind, Shorter, Verdict};
pub use chain::{read_clocks, write_clocks, Chain};
pub use job::{Job, PARALLEL, SEQUENTIAL};
pub use network::{Network, AND, OR};
pub use refusal::Refusal;
pub use session::{Session, Waits};
pub use sizes::{
    CHECK_STACK_BYTES, FINDING_WORDS, JOB_WORDS, MOST_CELLS, MOST_CLOCKS, MOST_FILE_BYTES, MOST_FIRST_VECTORS,
    MOST_NETS, MOST_RECEIVERS, MOST_SECOND_VECTORS, MOST_VECTORS, OTHER_STACK_BYTES, RECORD_WORDS, SHORTENED_WORDS,
    VERDICT_WORDS,
};
pub use turning::{turn, turn_back};

/// The calls as the C interface has them, on lists that the caller lends.
///
/// Each gives 0 if the call is accepted, else the refusal's number; [`raw::to_drive`] gives a count. After a refusal
/// every lent list is as it was; after a result a longer list keeps its tail.
///
/// ```
/// use fontarelga::{raw, Network};
/// let (network, mut response) = (Network::new(2), [9; 3]);
/// assert_eq!(raw::respond(network, 1, &[1, 2], &[1, 0], &mut response), 0);
/// assert_eq!(response, [3, 2, 9]);
/// assert_eq!(raw::respond(network, 1, &[1, 2], &[1, 0], &mut response[..1]), 12);
/// let mut receivers = [9; 3];
/// assert_eq!(raw::own_receivers(2, &mut receivers), 0);
/// assert_eq!(receivers, [0, 1, 9]);
/// ```
pub mod raw {
    pub use crate::chain_interface::{read_clocks, write_clocks};
    pub use crate::interface::{
        begin, check, diagnose, findings, first_answers, own_receivers, read_job, respond, second_answers, shorten,
        to_drive, turn, turn_back, write_job,
    };
}
