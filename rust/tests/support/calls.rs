//! Each call made on lent lists, and compared with the answer that it should give: number, words written, all else as
//! it was. A call that takes receivers is made with the list of them, and with one receiver a net by the network alone.

use super::chains::chain_of_library;
use super::lent::{Given, Lent};
use super::networks::{of_library, said_in_each_way};
use fontarelga::{raw, JOB_WORDS, SHORTENED_WORDS, VERDICT_WORDS};
use model::{Board, Chain, Finding, Job, Network, Shorter, Verdict};

/// What a call should give: its result, or the refusal's number.
pub type Answer<T> = Result<T, u64>;

/// The number that a call with this answer returns.
pub fn code<T>(answer: &Answer<T>) -> u64 {
    match answer {
        Ok(_) => 0,
        Err(number) => *number,
    }
}

/// What an answer's words are; none after a refusal.
fn written<T: Clone>(answer: &Answer<Vec<T>>) -> Vec<T> {
    answer.clone().unwrap_or_default()
}

/// The three words of a verdict.
pub fn verdict_words(verdict: &Verdict) -> Vec<u64> {
    match verdict {
        Verdict::Pass => vec![0, 0, 0],
        Verdict::Pair(a, b) => vec![1, *a, *b],
    }
}

pub fn check_gives(net: Network, k: u64, vectors: &[u64], answer: &Answer<Verdict>) {
    let what = ("check", net, k, vectors);
    let given = Given::of(vectors);
    let mut verdict = Lent::words(VERDICT_WORDS + 2);
    let number = raw::check(of_library(net), k, given.give(), verdict.lend_front());
    assert_eq!(number, code(answer), "{what:?}");
    verdict.assert_holds(&written(&answer.as_ref().map(verdict_words).map_err(|e| *e)), &what);
    given.assert_unchanged();
}

/// The three words on a shortened set.
pub fn shortened_words(shorter: &Shorter) -> [u64; SHORTENED_WORDS] {
    [shorter.kept.len() as u64, shorter.checks, shorter.floor]
}

pub fn shorten_gives(net: Network, k: u64, vectors: &[u64], allowed: u64, room: usize, answer: &Answer<Shorter>) {
    let what = ("shorten", net, k, vectors, allowed, room);
    let given = Given::of(vectors);
    let (mut kept, mut shortened) = (Lent::words(room), Lent::words(SHORTENED_WORDS + 2));
    let number = raw::shorten(of_library(net), k, given.give(), allowed, kept.lend(), shortened.lend_front());
    assert_eq!(number, code(answer), "{what:?}");
    match answer {
        Ok(shorter) => {
            kept.assert_holds(&shorter.kept, &what);
            shortened.assert_holds(&shortened_words(shorter), &what);
        }
        Err(_) => [&kept, &shortened].iter().for_each(|list| list.assert_holds(&[], &what)),
    }
    given.assert_unchanged();
}

pub fn own_receivers_gives(n: u64, room: usize, answer: &Answer<Vec<u64>>) {
    let what = ("own receivers", n, room);
    let mut receivers = Lent::words(room);
    assert_eq!(raw::own_receivers(n, receivers.lend()), code(answer), "{what:?}");
    receivers.assert_holds(&written(answer), &what);
}

pub fn respond_gives(board: &Board, k: u64, vectors: &[u64], state: &[u64], room: usize, answer: &Answer<Vec<u64>>) {
    let what = ("respond", board, k, vectors, state, room);
    for said in said_in_each_way(board) {
        let given = [Given::of(said.receivers()), Given::of(vectors), Given::of(state)];
        let mut response = Lent::words(room);
        let number = raw::respond(&said, k, given[1].give(), given[2].give(), response.lend());
        assert_eq!(number, code(answer), "{what:?}");
        response.assert_holds(&written(answer), &what);
        given.iter().for_each(Given::assert_unchanged);
    }
}

pub fn diagnose_gives(
    board: &Board,
    k: u64,
    vectors: &[u64],
    responses: &[u64],
    room: usize,
    answer: &Answer<Vec<u64>>,
) {
    let what = ("diagnose", board, k, vectors, responses, room);
    for said in said_in_each_way(board) {
        let given = [Given::of(said.receivers()), Given::of(vectors), Given::of(responses)];
        let mut state = Lent::words(room);
        let number = raw::diagnose(&said, k, given[1].give(), given[2].give(), state.lend());
        assert_eq!(number, code(answer), "{what:?}");
        state.assert_holds(&written(answer), &what);
        given.iter().for_each(Given::assert_unchanged);
    }
}

/// The words of a table's records.
pub fn table_words(records: &[Finding]) -> Vec<u64> {
    records.iter().flat_map(|record| [record.kind, record.reach, record.partners]).collect()
}

/// The table is lent with `room` words, which is room for a third as many records.
pub fn findings_gives(board: &Board, state: &[u64], room: usize, answer: &Answer<Vec<Finding>>) {
    let what = ("findings", board, state, room);
    let words = answer.as_ref().map(|records| table_words(records)).map_err(|number| *number);
    for said in said_in_each_way(board) {
        let given = [Given::of(said.receivers()), Given::of(state)];
        let mut table = Lent::words(room);
        let number = raw::findings(&said, given[1].give(), table.lend());
        assert_eq!(number, code(answer), "{what:?}");
        table.assert_holds(&written(&words), &what);
        given.iter().for_each(Given::assert_unchanged);
    }
}

/// The words of a job.
fn job_words(job: &Job) -> [u64; JOB_WORDS] {
    let Network { nets, level, gate } = job.network;
    [nets, level, gate, job.k, job.kind, job.vectors.len() as u64, job.responses.len() as u64]
}

pub fn read_job_gives(file: &[u8], vector_room: usize, response_room: usize, answer: &Answer<Job>) {
    let what = ("read", file, vector_room, response_room);
    let given = Given::of(file);
    let (mut vectors, mut responses) = (Lent::words(vector_room), Lent::words(response_room));
    let mut job = Lent::words(JOB_WORDS + 2);
    let number = raw::read_job(given.give(), vectors.lend(), responses.lend(), job.lend_front());
    assert_eq!(number, code(answer), "{what:?}");
    match answer {
        Ok(read) => {
            vectors.assert_holds(&read.vectors, &what);
            responses.assert_holds(&read.responses, &what);
            job.assert_holds(&job_words(read), &what);
        }
        Err(_) => [&vectors, &responses, &job].iter().for_each(|list| list.assert_holds(&[], &what)),
    }
    given.assert_unchanged();
}

pub fn write_job_gives(job: &Job, room: usize, answer: &Answer<Vec<u8>>) {
    let what = ("write", job, room);
    let (network, [vectors, responses]) =
        (of_library(job.network), [Given::of(&job.vectors), Given::of(&job.responses)]);
    let (mut file, mut size) = (Lent::bytes(room), Lent::words(3));
    let lent = (file.lend(), &mut size.lend()[0]);
    let number = raw::write_job(job.kind, network, job.k, vectors.give(), responses.give(), lent.0, lent.1);
    assert_eq!(number, code(answer), "{what:?}");
    file.assert_holds(&written(answer), &what);
    size.assert_holds(&Vec::from_iter(answer.as_ref().ok().map(|bytes| bytes.len() as u64)), &what);
    [vectors, responses].iter().for_each(Given::assert_unchanged);
}

pub fn turn_gives(n: u64, vectors: &[u64], room: usize, answer: &Answer<Vec<u64>>) {
    let what = ("turn", n, vectors, room);
    let (given, mut words) = (Given::of(vectors), Lent::words(room));
    assert_eq!(raw::turn(n, given.give(), words.lend()), code(answer), "{what:?}");
    words.assert_holds(&written(answer), &what);
    given.assert_unchanged();
}

pub fn turn_back_gives(n: u64, count: u64, words: &[u64], room: usize, answer: &Answer<Vec<u64>>) {
    let what = ("turn back", n, count, words, room);
    let (given, mut vectors) = (Given::of(words), Lent::words(room));
    assert_eq!(raw::turn_back(n, count, given.give(), vectors.lend()), code(answer), "{what:?}");
    vectors.assert_holds(&written(answer), &what);
    given.assert_unchanged();
}

/// The lists of a chain, given to a call.
fn given_cells(chain: &fontarelga::Chain) -> [Given<'_, u64>; 2] {
    [&chain.driver_cells, &chain.receiver_cells].map(|cells| Given::of(cells))
}

pub fn write_clocks_gives(board: &Board, chain: &Chain, vectors: &[u64], room: usize, answer: &Answer<Vec<u8>>) {
    let what = ("write clocks", board, chain, vectors, room);
    let chain = &chain_of_library(chain);
    for said in said_in_each_way(board) {
        let (given, cells) = ([Given::of(said.receivers()), Given::of(vectors)], given_cells(chain));
        let mut clocks = Lent::bytes(room);
        let number = raw::write_clocks(&said, chain, given[1].give(), clocks.lend());
        assert_eq!(number, code(answer), "{what:?}");
        clocks.assert_holds(&written(answer), &what);
        given.iter().chain(&cells).for_each(Given::assert_unchanged);
    }
}

pub fn read_clocks_gives(board: &Board, chain: &Chain, count: u64, tdo: &[u8], room: usize, answer: &Answer<Vec<u64>>) {
    let what = ("read clocks", board, chain, count, tdo, room);
    let (chain, given_tdo) = (&chain_of_library(chain), Given::of(tdo));
    for said in said_in_each_way(board) {
        let (given, cells) = ([Given::of(said.receivers())], given_cells(chain));
        let mut responses = Lent::words(room);
        let number = raw::read_clocks(&said, chain, count, given_tdo.give(), responses.lend());
        assert_eq!(number, code(answer), "{what:?}");
        responses.assert_holds(&written(answer), &what);
        given.iter().chain(&cells).for_each(Given::assert_unchanged);
    }
    given_tdo.assert_unchanged();
}
