//! A brute-force model of document 01, with the changes of document 02.
//!
//! It shares no code with the library or its wrappers. It enumerates: all driver sets, all wiring states, all answers.
//! So it is slow and plain, and made for small boards. For class n above 10 nets it decodes the answers and tries the
//! result; that way is compared with enumeration on small boards.
//!
//! Each call has two functions. `rows_of_*` gives the rows of the table that the call has, in order, each as a test of
//! its own. The other gives the call's answer: the number of the first row that holds, else the full result. What a
//! call is lent comes in as its room, the number of words, or of bytes, that it has place for.

pub mod board;
pub mod chain;
pub mod checker;
pub mod diagnosis;
pub mod jobfile;
pub mod network;
pub mod responding;
pub mod rows;
pub mod session;
pub mod shortening;
pub mod tap;
pub mod turning;
pub mod words;

pub use board::Board;
pub use chain::{read_clocks, write_clocks, Chain};
pub use checker::{check, Verdict};
pub use diagnosis::{diagnose, findings, Finding};
pub use jobfile::{read_job, write_job, Job, PARALLEL, SEQUENTIAL};
pub use network::{Network, AND, OR};
pub use responding::respond;
pub use session::{begin, first_answers, second_answers, to_drive, Record};
pub use shortening::{shorten, Shorter};
pub use turning::{turn, turn_back};
