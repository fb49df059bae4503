//! The C interface, and a safe function over each of its calls. Only this file and chain_interface.rs have `unsafe`.
//!
//! A list is a pointer and a length in elements; one of a fixed length is a pointer alone. A call writes nothing but
//! the lists that it is lent for writing, and keeps no pointer; it takes any numbers, any bytes and any lengths.

use crate::board::Board;
use crate::network::Network;
use crate::sizes::{JOB_WORDS, RECORD_WORDS, SHORTENED_WORDS, VERDICT_WORDS};

mod c {
    extern "C" {
        pub fn fontarelga_check(
            nets: u64,
            level: u64,
            gate: u64,
            class: u64,
            vectors: *const u64,
            vectors_len: usize,
            verdict: *mut u64,
        ) -> u64;

        pub fn fontarelga_shorten(
            nets: u64,
            level: u64,
            gate: u64,
            class: u64,
            vectors: *const u64,
            vectors_len: usize,
            allowed: u64,
            kept: *mut u64,
            kept_len: usize,
            shortened: *mut u64,
        ) -> u64;

        pub fn fontarelga_own_receivers(nets: u64, receivers: *mut u64, receivers_len: usize) -> u64;

        pub fn fontarelga_respond(
            nets: u64,
            level: u64,
            gate: u64,
            receivers: *const u64,
            receivers_len: usize,
            class: u64,
            vectors: *const u64,
            vectors_len: usize,
            state: *const u64,
            state_len: usize,
            response: *mut u64,
            response_len: usize,
        ) -> u64;

        pub fn fontarelga_diagnose(
            nets: u64,
            level: u64,
            gate: u64,
            receivers: *const u64,
            receivers_len: usize,
            class: u64,
            vectors: *const u64,
            vectors_len: usize,
            responses: *const u64,
            responses_len: usize,
            state: *mut u64,
            state_len: usize,
        ) -> u64;

        pub fn fontarelga_findings(
            nets: u64,
            level: u64,
            gate: u64,
            receivers: *const u64,
            receivers_len: usize,
            state: *const u64,
            state_len: usize,
            table: *mut u64,
            table_len: usize,
        ) -> u64;

        pub fn fontarelga_begin(
            session: *mut u64,
            nets: u64,
            level: u64,
            gate: u64,
            receivers: *const u64,
            receivers_len: usize,
            first: *mut u64,
            first_len: usize,
        ) -> u64;

        pub fn fontarelga_first_answers(
            session: *mut u64,
            answers: *const u64,
            answers_len: usize,
            second: *mut u64,
            second_len: usize,
        ) -> u64;

        pub fn fontarelga_second_answers(session: *mut u64, answers: *const u64, answers_len: usize) -> u64;

        pub fn fontarelga_to_drive(
            session: *const u64,
            first: *const u64,
            first_len: usize,
            second: *const u64,
            second_len: usize,
        ) -> u64;

        pub fn fontarelga_turn(
            nets: u64,
            vectors: *const u64,
            vectors_len: usize,
            words: *mut u64,
            words_len: usize,
        ) -> u64;

        pub fn fontarelga_turn_back(
            nets: u64,
            count: u64,
            words: *const u64,
            words_len: usize,
            vectors: *mut u64,
            vectors_len: usize,
        ) -> u64;

        pub fn fontarelga_read_job(
            file: *const u8,
            file_len: usize,
            vectors: *mut u64,
            vectors_len: usize,
            responses: *mut u64,
            responses_len: usize,
            job: *mut u64,
        ) -> u64;

        pub fn fontarelga_write_job(
            kind: u64,
            nets: u64,
            level: u64,
            gate: u64,
            class: u64,
            vectors: *const u64,
            vectors_len: usize,
            responses: *const u64,
            responses_len: usize,
            file: *mut u8,
            file_len: usize,
            size: *mut u64,
        ) -> u64;
    }
}

// In each function below: pointer and length come from one slice, and a pointer alone from an array of the length that
// the call has, or from a word. So they name memory that may be read, and written where it is `&mut`. What is written
// overlaps nothing else, since it is borrowed.

/// Pass is 0 0 0 in `verdict`, a pair 1 A B.
pub fn check(network: impl Into<Network>, class: u64, vectors: &[u64], verdict: &mut [u64; VERDICT_WORDS]) -> u64 {
    let network = network.into();
    unsafe {
        c::fontarelga_check(
            network.nets(),
            network.level(),
            network.gate(),
            class,
            vectors.as_ptr(),
            vectors.len(),
            verdict.as_mut_ptr(),
        )
    }
}

/// The vectors kept into the front of `kept`, which must have room for all of `vectors`; their number, the checks made
/// and the floor into `shortened`.
pub fn shorten(
    network: impl Into<Network>,
    class: u64,
    vectors: &[u64],
    allowed: u64,
    kept: &mut [u64],
    shortened: &mut [u64; SHORTENED_WORDS],
) -> u64 {
    let network = network.into();
    unsafe {
        c::fontarelga_shorten(
            network.nets(),
            network.level(),
            network.gate(),
            class,
            vectors.as_ptr(),
            vectors.len(),
            allowed,
            kept.as_mut_ptr(),
            kept.len(),
            shortened.as_mut_ptr(),
        )
    }
}

/// 0 to nets - 1 into the front of `receivers`: one receiver a net.
pub fn own_receivers(nets: u64, receivers: &mut [u64]) -> u64 {
    unsafe { c::fontarelga_own_receivers(nets, receivers.as_mut_ptr(), receivers.len()) }
}

/// A word a vector into the front of `response`.
pub fn respond<'a>(
    board: impl Into<Board<'a>>,
    class: u64,
    vectors: &[u64],
    state: &[u64],
    response: &mut [u64],
) -> u64 {
    let board = board.into();
    let (network, receivers) = (board.network(), board.receivers());
    unsafe {
        c::fontarelga_respond(
            network.nets(),
            network.level(),
            network.gate(),
            receivers.as_ptr(),
            receivers.len(),
            class,
            vectors.as_ptr(),
            vectors.len(),
            state.as_ptr(),
            state.len(),
            response.as_mut_ptr(),
            response.len(),
        )
    }
}

/// A word a receiver into the front of `state`.
pub fn diagnose<'a>(
    board: impl Into<Board<'a>>,
    class: u64,
    vectors: &[u64],
    responses: &[u64],
    state: &mut [u64],
) -> u64 {
    let board = board.into();
    let (network, receivers) = (board.network(), board.receivers());
    unsafe {
        c::fontarelga_diagnose(
            network.nets(),
            network.level(),
            network.gate(),
            receivers.as_ptr(),
            receivers.len(),
            class,
            vectors.as_ptr(),
            vectors.len(),
            responses.as_ptr(),
            responses.len(),
            state.as_mut_ptr(),
            state.len(),
        )
    }
}

/// Three words a receiver, kind, reach and partners, into the front of `table`. It has room for a third of its words.
pub fn findings<'a>(board: impl Into<Board<'a>>, state: &[u64], table: &mut [u64]) -> u64 {
    let board = board.into();
    let (network, receivers) = (board.network(), board.receivers());
    unsafe {
        c::fontarelga_findings(
            network.nets(),
            network.level(),
            network.gate(),
            receivers.as_ptr(),
            receivers.len(),
            state.as_ptr(),
            state.len(),
            table.as_mut_ptr(),
            table.len(),
        )
    }
}

/// The vectors of step one into the front of `first`.
pub fn begin<'a>(session: &mut [u64; RECORD_WORDS], board: impl Into<Board<'a>>, first: &mut [u64]) -> u64 {
    let board = board.into();
    let (network, receivers) = (board.network(), board.receivers());
    unsafe {
        c::fontarelga_begin(
            session.as_mut_ptr(),
            network.nets(),
            network.level(),
            network.gate(),
            receivers.as_ptr(),
            receivers.len(),
            first.as_mut_ptr(),
            first.len(),
        )
    }
}

/// The vectors of step two, if a net is unclear, into the front of `second`.
pub fn first_answers(session: &mut [u64; RECORD_WORDS], answers: &[u64], second: &mut [u64]) -> u64 {
    unsafe {
        c::fontarelga_first_answers(
            session.as_mut_ptr(),
            answers.as_ptr(),
            answers.len(),
            second.as_mut_ptr(),
            second.len(),
        )
    }
}

/// The only state that fits both steps, into the session.
pub fn second_answers(session: &mut [u64; RECORD_WORDS], answers: &[u64]) -> u64 {
    unsafe { c::fontarelga_second_answers(session.as_mut_ptr(), answers.as_ptr(), answers.len()) }
}

/// How many words to drive from the start of `first` (word 0 of the session is 1) or of `second` (it is 2); 0 if none.
/// No refusal.
pub fn to_drive(session: &[u64; RECORD_WORDS], first: &[u64], second: &[u64]) -> u64 {
    unsafe { c::fontarelga_to_drive(session.as_ptr(), first.as_ptr(), first.len(), second.as_ptr(), second.len()) }
}

/// The sequential words, one a net, of parallel ones, into the front of `words`.
pub fn turn(nets: u64, vectors: &[u64], words: &mut [u64]) -> u64 {
    unsafe { c::fontarelga_turn(nets, vectors.as_ptr(), vectors.len(), words.as_mut_ptr(), words.len()) }
}

/// The parallel words, `count` of them, of sequential ones, into the front of `vectors`.
pub fn turn_back(nets: u64, count: u64, words: &[u64], vectors: &mut [u64]) -> u64 {
    unsafe { c::fontarelga_turn_back(nets, count, words.as_ptr(), words.len(), vectors.as_mut_ptr(), vectors.len()) }
}

/// The parallel words into the fronts of `vectors` and `responses`; nets, level, gate, class, kind and the two counts
/// into `job`.
pub fn read_job(file: &[u8], vectors: &mut [u64], responses: &mut [u64], job: &mut [u64; JOB_WORDS]) -> u64 {
    unsafe {
        c::fontarelga_read_job(
            file.as_ptr(),
            file.len(),
            vectors.as_mut_ptr(),
            vectors.len(),
            responses.as_mut_ptr(),
            responses.len(),
            job.as_mut_ptr(),
        )
    }
}

/// The bytes of a file of this kind into the front of `file`, and their number into `size`. The vectors are parallel
/// words, whatever the kind.
pub fn write_job(
    kind: u64,
    network: impl Into<Network>,
    class: u64,
    vectors: &[u64],
    responses: &[u64],
    file: &mut [u8],
    size: &mut u64,
) -> u64 {
    let network = network.into();
    unsafe {
        c::fontarelga_write_job(
            kind,
            network.nets(),
            network.level(),
            network.gate(),
            class,
            vectors.as_ptr(),
            vectors.len(),
            responses.as_ptr(),
            responses.len(),
            file.as_mut_ptr(),
            file.len(),
            size,
        )
    }
}
