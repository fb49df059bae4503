//! Every call at its largest, of each gate and soft level, on a thread with no more stack than is stated for it. A call
//! that takes more ends the whole test program, with the words that a thread has overflowed its stack.

mod support;

use fontarelga::*;
use model::network::extra_vector;
use support::boards::{state, walking_set, with_receivers};
use support::chains::{chain_of_library, random_chain, Bench};
use support::generator::Generator;
use support::networks::{each_combination, extra_at_some_level, of_library, said_in_each_way};

const N: u64 = MOST_NETS as u64;
/// The most nets of which every class up to n is admitted.
const SMALL: u64 = 10;

/// The network with one receiver a net, and with the most.
fn boards(g: &mut Generator, net: model::Network) -> [model::Board; 2] {
    [net.into(), with_receivers(g, net, MOST_RECEIVERS)]
}

/// What the call gives, made on a thread with this much stack.
fn on_a_stack_of<T: Send>(bytes: usize, call: impl FnOnce() -> T + Send) -> T {
    std::thread::scope(|scope| {
        let thread = std::thread::Builder::new().stack_size(bytes).spawn_scoped(scope, call);
        thread.expect("a thread").join().expect("no panic")
    })
}

/// 64 vectors, which pass for every class.
fn largest_set(g: &mut Generator, net: model::Network) -> Vec<u64> {
    let mut vectors = walking_set(g, net);
    vectors.resize(MOST_VECTORS, extra_at_some_level(net));
    vectors
}

/// Check and diagnosis of random boards on a stack of this size.
fn try_check_and_diagnosis(g: &mut Generator, net: model::Network, class: u64, bytes: usize) {
    let (network, vectors) = (of_library(net), largest_set(g, net));
    assert_eq!(on_a_stack_of(bytes, || check(network, class, &vectors)), Ok(Verdict::Pass));
    for board in boards(g, net) {
        let board_state = state(g, &board, class);
        for said in said_in_each_way(&board) {
            let responses = respond(&said, class, &vectors, &board_state).unwrap();
            let found = on_a_stack_of(bytes, || diagnose(&said, class, &vectors, &responses));
            assert_eq!(found.as_ref(), Ok(&board_state));
        }
    }
}

#[test]
fn check_and_diagnosis() {
    let g = &mut Generator::new(15);
    for net in each_combination(N) {
        [1, 2, 3, N].iter().for_each(|class| try_check_and_diagnosis(g, net, *class, CHECK_STACK_BYTES));
    }
}

/// With every check that can be made. What is kept is passed, and none of it can be left out.
#[test]
fn shortening() {
    let g = &mut Generator::new(20);
    for net in each_combination(N) {
        for class in [1, 2, 3] {
            let (network, vectors) = (of_library(net), largest_set(g, net));
            let shorter = on_a_stack_of(CHECK_STACK_BYTES, || shorten(network, class, &vectors, u64::MAX)).unwrap();
            assert_eq!(shorter.checks, MOST_VECTORS as u64);
            assert_eq!(check(network, class, &shorter.kept), Ok(Verdict::Pass));
            let again = on_a_stack_of(CHECK_STACK_BYTES, || shorten(network, class, &shorter.kept, u64::MAX)).unwrap();
            assert_eq!(again.kept, shorter.kept);
        }
    }
}

/// For class n they take no more than all else, nor do they for a class from 4 to n - 1.
#[test]
fn check_and_diagnosis_of_class_n_and_above_3() {
    let g = &mut Generator::new(17);
    each_combination(N).iter().for_each(|net| try_check_and_diagnosis(g, *net, N, OTHER_STACK_BYTES));
    for net in each_combination(SMALL) {
        (4..=SMALL).for_each(|class| try_check_and_diagnosis(g, net, class, OTHER_STACK_BYTES));
    }
}

/// So does a check that has few sets to search.
#[test]
fn small_checks() {
    let g = &mut Generator::new(18);
    for (n, class) in [(2, 1), (7, 3), (N, 1)] {
        for net in each_combination(n) {
            let (network, vectors) = (of_library(net), walking_set(g, net));
            assert_eq!(on_a_stack_of(OTHER_STACK_BYTES, || check(network, class, &vectors)), Ok(Verdict::Pass));
        }
    }
}

/// Response and findings of random boards.
fn try_response_and_findings(g: &mut Generator, net: model::Network, class: u64) {
    let vectors = largest_set(g, net);
    for board in boards(g, net) {
        let board_state = state(g, &board, class);
        for said in said_in_each_way(&board) {
            let response = on_a_stack_of(OTHER_STACK_BYTES, || respond(&said, class, &vectors, &board_state));
            let table = on_a_stack_of(OTHER_STACK_BYTES, || findings(&said, &board_state));
            assert_eq!(response, Ok(respond(&said, class, &vectors, &board_state).unwrap()));
            assert_eq!(table, Ok(findings(&said, &board_state).unwrap()));
        }
    }
}

#[test]
fn response_and_findings() {
    let g = &mut Generator::new(16);
    for net in each_combination(N) {
        [1, 2, 3, N].iter().for_each(|class| try_response_and_findings(g, net, *class));
    }
    each_combination(SMALL).iter().for_each(|net| try_response_and_findings(g, *net, SMALL - 1));
}

/// A session in which all receivers float, so that every net is unclear and step two has a vector for each, and the
/// extra one.
fn try_session(board: &model::Board) {
    let (said, floating) = (&said_in_each_way(board)[0], u64::MAX >> (64 - board.receivers()));
    let floating = |vectors: &[u64]| vec![board.network.level * floating; vectors.len()];
    let mut session = on_a_stack_of(OTHER_STACK_BYTES, || Session::begin(said)).unwrap();
    let first = on_a_stack_of(OTHER_STACK_BYTES, || session.to_drive());
    let answers = floating(first);
    on_a_stack_of(OTHER_STACK_BYTES, || session.first_answers(&answers)).unwrap();
    let second = on_a_stack_of(OTHER_STACK_BYTES, || session.to_drive());
    let answers = floating(second);
    assert_eq!(answers.len(), MOST_NETS + extra_vector(board.network).iter().count());
    on_a_stack_of(OTHER_STACK_BYTES, || session.second_answers(&answers)).unwrap();
    assert_eq!(session.reaches(), Some(&vec![0; board.receivers()][..]));
}

#[test]
fn session() {
    let g = &mut Generator::new(19);
    each_combination(N).iter().for_each(|net| boards(g, *net).iter().for_each(try_session));
}

#[test]
fn own_receivers() {
    let board = on_a_stack_of(OTHER_STACK_BYTES, || Board::of(N));
    assert_eq!(board.receivers(), (0..N).collect::<Vec<u64>>());
}

#[test]
fn turning() {
    for net in each_combination(N) {
        let vectors = largest_set(&mut Generator::new(18), net);
        let words = on_a_stack_of(OTHER_STACK_BYTES, || turn(N, &vectors)).unwrap();
        let back = on_a_stack_of(OTHER_STACK_BYTES, || turn_back(N, MOST_VECTORS as u64, &words));
        assert_eq!(back, Ok(vectors));
    }
    let full = on_a_stack_of(OTHER_STACK_BYTES, || turn(N, &[u64::MAX >> 16; MOST_VECTORS]));
    assert_eq!(full, Ok(vec![u64::MAX; MOST_NETS]));
}

/// The longest chain, with a board in it.
#[test]
fn clocks_of_a_chain() {
    let g = &mut Generator::new(21);
    for net in each_combination(N) {
        let vectors = largest_set(g, net);
        for board in boards(g, net) {
            let (reaches, chain) = (state(g, &board, N), random_chain(g, &board, MOST_CELLS as u64));
            for said in said_in_each_way(&board) {
                let of_library = chain_of_library(&chain);
                let clocks = on_a_stack_of(OTHER_STACK_BYTES, || write_clocks(&said, &of_library, &vectors)).unwrap();
                assert_eq!(clocks.len(), MOST_CLOCKS);
                let tdo = Bench::new(&board, &reaches, &chain, 22).play(&clocks).tdo;
                let count = MOST_VECTORS as u64;
                let read = on_a_stack_of(OTHER_STACK_BYTES, || read_clocks(&said, &of_library, count, &tdo));
                assert_eq!(read, respond(&said, N, &vectors, &reaches));
            }
        }
    }
}

#[test]
fn job_file() {
    for (net, kind) in each_combination(N).into_iter().flat_map(|net| [(net, PARALLEL), (net, SEQUENTIAL)]) {
        let vectors = largest_set(&mut Generator::new(17), net);
        let job = Job { network: of_library(net), class: N, kind, responses: vectors.clone(), vectors };
        let file = on_a_stack_of(OTHER_STACK_BYTES, || job.write()).unwrap();
        assert_eq!(on_a_stack_of(OTHER_STACK_BYTES, || Job::read(&file)), Ok(job));
    }
}
