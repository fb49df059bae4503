//! The library's calls against plain Rust versions of the same jobs, measured in one run.
//!
//! Every job is first done by both sides and the results compared. A ratio below 1 means that the library is faster.

mod generator;
mod plain;
mod timing;

use fontarelga::{raw, Board, Job, Network, AND, OR, PARALLEL, SEQUENTIAL};
use fontarelga::{FINDING_WORDS, JOB_WORDS, RECORD_WORDS, SHORTENED_WORDS};
use fontarelga::{MOST_CELLS, MOST_CLOCKS, MOST_FIRST_VECTORS, MOST_RECEIVERS, MOST_SECOND_VECTORS, MOST_VECTORS};
use generator::Generator;
use plain::chain::{all_at_once, by_cells, by_drivers, one_by_one, read_clocks, write_clocks, Put, Test};
use plain::checker::{all_sets, hash, pairs, Search};
use plain::session::{Record, REACHES};
use plain::turning::{by_bits, by_ones, turn, turn_back};
use std::fmt::Debug;
use std::hint::black_box;
use timing::{print_head, print_lines, Version};

const N: u64 = 48;
const FEW: u64 = 4;
/// The most nets for which there are classes between 3 and n.
const SMALL: u64 = 10;
const SESSIONS: usize = 1000;
const STATES: usize = 1000;
/// The test sets, and the lists of TDO bytes, that calls on a chain are measured on.
const SETS: usize = 64;

/// The walking vectors, and the extra vector before them where class n wants it.
fn walking(network: Network) -> Vec<u64> {
    let walking = (0..network.nets()).map(|i| plain::dominant(network, 1 << i));
    plain::extra_vector(network).into_iter().chain(walking).collect()
}

/// A job's name, with what is not 48 nets, OR, soft level 1 and one receiver a net.
fn named_on(job: &str, board: &Board) -> String {
    let (nets, receivers) = (board.network().nets(), plain::receiver_count(board));
    let receivers = if receivers == nets { String::new() } else { format!(", m = {receivers}") };
    format!("{}{receivers}", named(job, board.network()))
}

/// The same for a job that takes no receivers.
fn named(job: &str, network: Network) -> String {
    let gate = if network.gate() == OR { "" } else { ", AND" };
    let level = if network.level() == 1 { String::new() } else { format!(", level {}", network.level()) };
    let nets = if network.nets() == N { String::new() } else { format!(", n = {}", network.nets()) };
    format!("{job}{gate}{level}{nets}")
}

/// The baselines of the checker for a class, by name. For class n the search is not used.
fn baselines(network: Network, k: u64) -> Vec<(&'static str, Search)> {
    match k {
        _ if k == network.nets() => vec![("rule", hash)],
        1..=3 => vec![("pairs", pairs), ("hash", hash)],
        _ => vec![("all sets", all_sets), ("pairs", pairs)],
    }
}

/// Measures the check of one set for one class.
fn bench_check(network: Network, set: &str, vectors: &[u64], k: u64) {
    let mut ours = [7; 3];
    assert_eq!(raw::check(network, k, vectors, &mut ours), 0);
    let verdict = if ours[0] == 0 { "pass" } else { "pair" };
    let plain_call = |(name, search): (&'static str, Search)| {
        let mut theirs = [7; 3];
        assert_eq!(plain::checker::check(search, network, k, vectors, &mut theirs), 0);
        assert_eq!(ours, theirs);
        let call = move || {
            black_box(plain::checker::check(search, network, k, black_box(vectors), black_box(&mut theirs)));
        };
        (name, call)
    };
    let mut plain_calls: Vec<_> = baselines(network, k).into_iter().map(plain_call).collect();
    let mut versions: Vec<Version> = plain_calls.iter_mut().map(|(name, call)| (*name, call as _)).collect();
    let mut call = || {
        black_box(raw::check(network, k, black_box(vectors), black_box(&mut ours)));
    };
    let job = format!("{}, k = {k}, {set}: {verdict}", named("check", network));
    print_lines(&job, &mut call, &mut versions);
}

/// Measures the shortening of one set, with as many checks allowed as it has vectors.
fn bench_shortening(network: Network, set: &str, vectors: &[u64], k: u64) {
    let (count, lent) = (vectors.len(), ([7; MOST_VECTORS], [7; SHORTENED_WORDS]));
    let (allowed, mut ours, mut theirs) = (count as u64, lent, lent);
    assert_eq!(raw::shorten(network, k, vectors, allowed, &mut ours.0, &mut ours.1), 0);
    assert_eq!(plain::shortening::shorten(hash, network, k, vectors, allowed, &mut theirs.0, &mut theirs.1), 0);
    assert_eq!(ours, theirs);
    let job = format!("{}, k = {k}, {set}: {} of {count} kept", named("shorten", network), ours.1[0]);
    let mut call = || {
        let (kept, shortened) = black_box(&mut ours);
        black_box(raw::shorten(network, k, black_box(vectors), allowed, kept, shortened));
    };
    let mut call_plain = || {
        let (kept, shortened) = black_box(&mut theirs);
        black_box(plain::shortening::shorten(hash, network, k, black_box(vectors), allowed, kept, shortened));
    };
    print_lines(&job, &mut call, &mut [("hash", &mut call_plain)]);
}

fn bench_diagnosis(board: &Board, k: u64, g: &mut Generator) {
    let network = board.network();
    let vectors = walking(network);
    let state = g.state(board, k);
    let responses: Vec<u64> = vectors.iter().map(|vector| plain::read(network, &state, *vector)).collect();
    let (mut ours, mut theirs) = (vec![7; state.len()], vec![7; state.len()]);
    assert_eq!(raw::diagnose(board, k, &vectors, &responses, &mut ours), 0);
    assert_eq!(plain::diagnosis::diagnose(board, k, &vectors, &responses, &mut theirs), 0);
    assert_eq!((&ours, &theirs), (&state, &state));
    let (vectors, responses) = (&vectors[..], &responses[..]);
    let mut call = || {
        black_box(raw::diagnose(board, k, black_box(vectors), black_box(responses), black_box(&mut ours)));
    };
    let mut call_plain = || {
        let lent = black_box(&mut theirs);
        black_box(plain::diagnosis::diagnose(board, k, black_box(vectors), black_box(responses), lent));
    };
    let job = format!("{}, k = {k}, walking", named_on("diagnosis", board));
    let name = if k == N { "plain" } else { "hash" };
    print_lines(&job, &mut call, &mut [(name, &mut call_plain)]);
}

/// The call *findings*, ours or the plain one.
type Findings = fn(&Board, &[u64], &mut [u64]) -> u64;

const OUR_FINDINGS: Findings = |board, state, table| raw::findings(board, state, table);

/// The table of one state, with room for any.
fn table(call: Findings, board: &Board, state: &[u64]) -> [u64; FINDING_WORDS * MOST_RECEIVERS] {
    let mut table = [0; FINDING_WORDS * MOST_RECEIVERS];
    assert_eq!(call(board, state, &mut table), 0);
    table
}

fn bench_findings(board: &Board, g: &mut Generator) {
    let states: Vec<Vec<u64>> = (0..STATES).map(|_| g.state(board, N)).collect();
    for state in &states {
        assert_eq!(table(OUR_FINDINGS, board, state), table(plain::findings::findings, board, state));
    }
    let run_all = |call: Findings| {
        for state in &states {
            black_box(table(call, board, black_box(state)));
        }
    };
    let mut call_plain = || run_all(plain::findings::findings);
    let job = named_on("findings of 1,000 states", board);
    print_lines(&job, &mut || run_all(OUR_FINDINGS), &mut [("plain", &mut call_plain)]);
}

/// The three calls of a session, ours or the plain ones.
struct Calls {
    begin: fn(&mut Record, &Board, &mut [u64]) -> u64,
    first: fn(&mut Record, &[u64], &mut [u64]) -> u64,
    second: fn(&mut Record, &[u64]) -> u64,
}

const OURS: Calls = Calls {
    begin: |session, board, first| raw::begin(session, board, first),
    first: raw::first_answers,
    second: raw::second_answers,
};
const PLAIN: Calls = Calls {
    begin: plain::session::begin,
    first: plain::session::first_answers,
    second: plain::session::second_answers,
};

/// What a board of some state answers in both steps.
struct Answers {
    first: Vec<u64>,
    second: Vec<u64>,
}

/// A clean record, and the lists for the vectors of both steps.
fn lent() -> (Record, [u64; MOST_FIRST_VECTORS], [u64; MOST_SECOND_VECTORS]) {
    ([0; RECORD_WORDS], [0; MOST_FIRST_VECTORS], [0; MOST_SECOND_VECTORS])
}

fn answers(board: &Board, state: &[u64]) -> Answers {
    let (mut session, mut first, mut second) = lent();
    let reads = |vector: &u64| plain::read(board.network(), state, *vector);
    let read = |vectors: &[u64]| -> Vec<u64> { vectors.iter().map(reads).collect() };
    assert_eq!(plain::session::begin(&mut session, board, &mut first), 0);
    let first = read(&first);
    assert_eq!(plain::session::first_answers(&mut session, &first, &mut second), 0);
    let count = second.iter().rposition(|vector| *vector != 0).map_or(0, |last| last + 1);
    Answers { first, second: read(&second[..count]) }
}

/// A whole session; gives its last record.
fn run(calls: &Calls, board: &Board, answers: &Answers) -> Record {
    let (mut session, mut first, mut second) = lent();
    let mut numbers = (calls.begin)(&mut session, board, &mut first);
    numbers |= (calls.first)(&mut session, &answers.first, &mut second);
    if session[0] == 2 {
        numbers |= (calls.second)(&mut session, &answers.second);
    }
    assert_eq!(numbers, 0);
    session
}

fn bench_sessions(board: &Board, g: &mut Generator) {
    let states: Vec<Vec<u64>> = (0..SESSIONS).map(|_| g.state(board, N)).collect();
    let answered: Vec<Answers> = states.iter().map(|state| answers(board, state)).collect();
    for (answers, state) in answered.iter().zip(&states) {
        let record = run(&OURS, board, answers);
        assert_eq!(record, run(&PLAIN, board, answers));
        assert_eq!(record[REACHES..][..state.len()], state[..]);
    }
    let run_all = |calls: &Calls| {
        for answers in &answered {
            black_box(run(calls, board, black_box(answers)));
        }
    };
    let job = named_on("1,000 sessions", board);
    print_lines(&job, &mut || run_all(&OURS), &mut [("plain", &mut || run_all(&PLAIN))]);
}

/// Measures the reading of one job from a file of its kind.
fn bench_reader(job: &Job) {
    let file = job.write().expect("an admitted job");
    let lists = ([7; 64], [7; 64], [7; JOB_WORDS]);
    let (mut ours, mut theirs) = (lists, lists);
    assert_eq!(raw::read_job(&file, &mut ours.0, &mut ours.1, &mut ours.2), 0);
    assert_eq!(plain::job::read_job(&file, &mut theirs.0, &mut theirs.1, &mut theirs.2), 0);
    assert_eq!(ours, theirs);
    let mut call = || {
        let lent = black_box(&mut ours);
        black_box(raw::read_job(black_box(&file), &mut lent.0, &mut lent.1, &mut lent.2));
    };
    let mut call_plain = || {
        let lent = black_box(&mut theirs);
        black_box(plain::job::read_job(black_box(&file), &mut lent.0, &mut lent.1, &mut lent.2));
    };
    let reader = if job.kind == SEQUENTIAL { "job reader, net by net" } else { "job reader" };
    let name = format!("{}, {} bytes", named(reader, job.network), file.len());
    print_lines(&name, &mut call, &mut [("plain", &mut call_plain)]);
}

/// The same job from a file of each kind.
fn bench_readers(network: Network, g: &mut Generator) {
    let mut words = || (0..64).map(|_| g.sparse(N)).collect::<Vec<u64>>();
    let job = Job { network, class: N, kind: PARALLEL, vectors: words(), responses: words() };
    bench_reader(&job);
    bench_reader(&Job { kind: SEQUENTIAL, ..job });
}

/// The call *turn* or *turn back*, ours or a plain one, of 48 nets and 64 vectors.
type Turning = fn(&[u64], &mut [u64]) -> u64;

/// Measures one of the two calls on the words given, which must give those expected.
fn bench_turning(job: &str, ours: Turning, plain: [(&'static str, Turning); 2], given: &[u64], expected: &[u64]) {
    let call_of = |turning: Turning| {
        let mut lent = vec![7; expected.len()];
        assert_eq!((turning(given, &mut lent), &lent[..]), (0, expected));
        move || {
            black_box(turning(black_box(given), black_box(&mut lent)));
        }
    };
    let mut plain_calls = plain.map(|(name, turning)| (name, call_of(turning)));
    let mut versions: Vec<Version> = plain_calls.iter_mut().map(|(name, call)| (*name, call as _)).collect();
    print_lines(job, &mut call_of(ours), &mut versions);
}

/// 64 random vectors, turned and turned back.
fn bench_turnings(g: &mut Generator) {
    const COUNT: u64 = MOST_VECTORS as u64;
    let vectors: Vec<u64> = (0..COUNT).map(|_| g.sparse(N)).collect();
    let words = plain::turned(N, &vectors);
    let turns: [(&str, Turning); 2] = [
        ("bits", |vectors, words| turn(by_bits, N, vectors, words)),
        ("ones", |vectors, words| turn(by_ones, N, vectors, words)),
    ];
    bench_turning("turn, 64 random", |vectors, words| raw::turn(N, vectors, words), turns, &vectors, &words);
    let turns_back: [(&str, Turning); 2] = [
        ("bits", |words, vectors| turn_back(by_bits, N, COUNT, words, vectors)),
        ("ones", |words, vectors| turn_back(by_ones, N, COUNT, words, vectors)),
    ];
    let ours: Turning = |words, vectors| raw::turn_back(N, COUNT, words, vectors);
    bench_turning("turn back, 64 random", ours, turns_back, &words, &vectors);
}

/// A call on a chain, ours or a plain one, from the list that it is given to the one that it is lent.
type ClockCall<'a, Given, Lent> = &'a dyn Fn(&[Given], &mut [Lent]) -> u64;

/// Measures a call on each of these lists in turn: on the same list again and again a processor would know by heart
/// which way each branch goes.
fn bench_in_turn<Given, Lent: Clone + PartialEq + Debug>(
    job: &str,
    ours: ClockCall<Given, Lent>,
    plain: [(&'static str, ClockCall<Given, Lent>); 2],
    lists: &[Vec<Given>],
    lent: &[Lent],
) {
    let result = |call: ClockCall<Given, Lent>, list: &[Given]| {
        let mut lent = lent.to_vec();
        assert_eq!(call(list, &mut lent), 0);
        lent
    };
    let call_of = |call| {
        lists.iter().for_each(|list| assert_eq!(result(call, list), result(ours, list)));
        let (mut lists, mut lent) = (lists.iter().cycle(), lent.to_vec());
        move || {
            let list = lists.next().expect("a list");
            black_box(call(black_box(list), black_box(&mut lent)));
        }
    };
    let mut plain_calls = plain.map(|(name, call)| (name, call_of(call)));
    let mut versions: Vec<Version> = plain_calls.iter_mut().map(|(name, call)| (*name, call as _)).collect();
    print_lines(job, &mut call_of(ours), &mut versions);
}

/// The most of all: 64 receivers, 64 random vectors, and 200 cells, used in any order. What is read are the answers of
/// random boards to the vectors; at all other clocks TDO is random.
fn bench_clocks(g: &mut Generator) {
    const COUNT: u64 = MOST_VECTORS as u64;
    let receivers = g.receivers(N, MOST_RECEIVERS as u64);
    let (board, chain) = (&Board::with(Network::new(N), &receivers), &g.chain(N, MOST_RECEIVERS, MOST_CELLS));
    let sets: Vec<Vec<u64>> = (0..SETS).map(|_| (0..COUNT).map(|_| g.sparse(N)).collect()).collect();
    let mut answers = |vectors: &Vec<u64>| {
        let state = g.state(board, N);
        let responses: Vec<u64> = vectors.iter().map(|vector| plain::read(board.network(), &state, *vector)).collect();
        g.tdo(chain, &responses)
    };
    let tdo: Vec<Vec<u8>> = sets.iter().map(&mut answers).collect();

    let job = named_on("write clocks, 64 random, 200 cells", board);
    let ours = |vectors: &[u64], clocks: &mut [u8]| raw::write_clocks(board, chain, vectors, clocks);
    let plain = |put: Put| move |vectors: &[u64], clocks: &mut [u8]| write_clocks(put, board, chain, vectors, clocks);
    let ways = (plain(by_cells), plain(by_drivers));
    bench_in_turn(&job, &ours, [("cells", &ways.0), ("drivers", &ways.1)], &sets, &[7; MOST_CLOCKS]);

    let job = named_on("read clocks, 64 random, 200 cells", board);
    let ours = |tdo: &[u8], responses: &mut [u64]| raw::read_clocks(board, chain, COUNT, tdo, responses);
    let plain = |test: Test| move |tdo: &[u8], words: &mut [u64]| read_clocks(test, board, chain, COUNT, tdo, words);
    let ways = (plain(one_by_one), plain(all_at_once));
    bench_in_turn(&job, &ours, [("one by one", &ways.0), ("all at once", &ways.1)], &tdo, &[7; MOST_VECTORS]);
}

fn bench_checks(network: Network, g: &mut Generator) {
    let walking = walking(network);
    let random: Vec<u64> = (0..20).map(|_| plain::dominant(network, g.sparse(N))).collect();
    for k in [1, 2, 3, N] {
        bench_check(network, "walking", &walking, k);
        bench_check(network, "walking without the last", &walking[..walking.len() - 1], k);
        bench_check(network, "20 random", &random, k);
    }
}

/// The jobs of one gate and soft level. The same sets, for AND with every bit turned, and the same boards are drawn for
/// each. The gate has no part in reading a file and in the findings, so these are measured once a level.
fn bench_combination(gate: u64, level: u64) {
    let g = &mut Generator(2024);
    let [network, few, small] = [N, FEW, SMALL].map(|nets| Network::new(nets).with_level(level).with_gate(gate));
    let board = &Board::of(network);
    bench_checks(network, g);
    [1, 2, 3].iter().for_each(|k| bench_check(few, "walking", &walking(few), *k));
    [1, 2, 3, N].iter().for_each(|k| bench_diagnosis(board, *k, g));
    bench_sessions(board, g);
    if gate == OR {
        bench_readers(network, g);
        bench_findings(board, g);
    }
    bench_several_receivers(network, g);
    bench_classes_of_small_boards(small, g);
}

/// Checks of every class between 3 and n, and diagnoses of the least and the greatest.
fn bench_classes_of_small_boards(network: Network, g: &mut Generator) {
    (4..SMALL).for_each(|k| bench_check(network, "walking", &walking(network), k));
    [4, SMALL - 1].iter().for_each(|k| bench_diagnosis(&Board::of(network), *k, g));
}

/// The most vectors: the extra one, the walking ones and random ones, which stand last and then first.
fn bench_shorter_sets(network: Network, g: &mut Generator) {
    let walking = walking(network);
    let random: Vec<u64> = (walking.len()..MOST_VECTORS).map(|_| plain::dominant(network, g.sparse(N))).collect();
    bench_shortening(network, "walking and random", &[&walking[..], &random].concat(), 3);
    bench_shortening(network, "random and walking", &[&random[..], &walking].concat(), 3);
}

/// The jobs that take receivers, with the most of them.
fn bench_several_receivers(network: Network, g: &mut Generator) {
    let receivers = g.receivers(N, MOST_RECEIVERS as u64);
    let board = &Board::with(network, &receivers);
    [3, N].iter().for_each(|k| bench_diagnosis(board, *k, g));
    bench_sessions(board, g);
    if network.gate() == OR {
        bench_findings(board, g);
    }
}

fn main() {
    print_head();
    for gate in [OR, AND] {
        [1, 0].iter().for_each(|level| bench_combination(gate, *level));
    }
    bench_shorter_sets(Network::new(N), &mut Generator(2024));
    bench_turnings(&mut Generator(2024));
    bench_clocks(&mut Generator(2024));
}
