//! Four nets with one receiver each, of each gate and soft level: seeded cases of every class, with responses of
//! states, turned bits and any words.

mod support;

use model::checker::verdict;
use model::diagnosis::{fitting_among, only};
use model::network::{all_states, response};
use model::{Board, Network, Verdict};
use support::boards::walking_set;
use support::calls::*;
use support::generator::Generator;
use support::networks::each_combination;

const CASES: usize = 10_000;
const N: u64 = 4;

/// A test set: all that walk among others, some of those, or any words.
fn test_set(g: &mut Generator, net: Network) -> Vec<u64> {
    let mut walking = walking_set(g, net);
    match g.below(3) {
        0 => walking,
        1 => {
            walking.truncate(4 + g.below(6));
            walking
        }
        _ => (0..1 + g.below(9)).map(|_| g.word() % 16).collect(),
    }
}

fn responses(g: &mut Generator, net: Network, vectors: &[u64], state: &[u64]) -> Vec<u64> {
    let right = response(net, vectors, state);
    match g.below(4) {
        0 => g.one_bit_turned(&right, N as usize),
        1 => vectors.iter().map(|_| g.word() % 16).collect(),
        _ => right,
    }
}

fn reading(net: Network, states: &[Vec<u64>], k: u64, vectors: &[u64], responses: &[u64]) -> Result<Vec<u64>, u64> {
    if verdict(net, k, vectors) != Verdict::Pass {
        return Err(13);
    }
    let fitting = fitting_among(net, states, vectors, responses);
    if fitting.is_empty() {
        Err(14)
    } else {
        Ok(only(fitting))
    }
}

/// One case of a class, by all its states. Gives what the diagnosis gave.
fn try_case(g: &mut Generator, net: Network, k: u64, class: &[Vec<u64>]) -> Result<Vec<u64>, u64> {
    let (board, vectors, longer) = (Board::from(net), test_set(g, net), g.below(5));
    let state = g.pick(class);
    check_gives(net, k, &vectors, &Ok(verdict(net, k, &vectors)));
    respond_gives(&board, k, &vectors, state, vectors.len() + longer, &Ok(response(net, &vectors, state)));
    findings_gives(&board, state, 12 + longer, &model::findings(&board, state, 4));
    let answered = responses(g, net, &vectors, state);
    let reading = reading(net, class, k, &vectors, &answered);
    diagnose_gives(&board, k, &vectors, &answered, 4 + longer, &reading);
    reading
}

#[test]
fn seeded_cases() {
    let g = &mut Generator::new(4);
    let states: Vec<_> = (1..=N).map(|k| all_states(N, N as usize, k)).collect();
    for net in each_combination(N) {
        let mut seen = [0; 3];
        for _ in 0..CASES {
            let k = 1 + g.below(4);
            seen[match try_case(g, net, k as u64, &states[k - 1]) {
                Ok(_) => 0,
                Err(13) => 1,
                Err(_) => 2,
            }] += 1;
        }
        println!("{net:?}: {CASES} cases, of them {} read back, {} times 13, {} times 14", seen[0], seen[1], seen[2]);
        assert!(seen.iter().all(|count| *count > CASES / 20), "each outcome is met often: {seen:?}");
    }
}
