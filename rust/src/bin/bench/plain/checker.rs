//! The checker, with three ways to look for sets that read alike.

use super::{admit_set, all_drivers, code, dominant, extra_vector, turned};
use fontarelga::{Network, OR};
use std::collections::HashMap;

/// The sets of at most k of n drivers, ascending.
pub fn sets_of_class(n: u64, k: u64) -> Vec<u64> {
    // at_most[j] has those of at most j drivers, among the drivers seen so far.
    let mut at_most = vec![vec![0u64]; k as usize + 1];
    for driver in 0..n {
        for j in (1..at_most.len()).rev() {
            let (fewer, these) = at_most.split_at_mut(j);
            these[0].extend(fewer[j - 1].iter().map(|set| set | 1 << driver));
        }
    }
    at_most.pop().expect("k + 1 lists")
}

/// What a receiver that floats reads along all vectors.
pub fn floating(network: Network, vectors: usize) -> u64 {
    match network.level() {
        0 => 0,
        _ => u64::MAX >> (64 - vectors),
    }
}

/// The words of a set's drivers put together.
fn together(set: u64, driven: &[u64], none: u64, join: impl Fn(u64, u64) -> u64) -> u64 {
    let mut left = set;
    let mut word = none;
    while left != 0 {
        word = join(word, driven[left.trailing_zeros() as usize]);
        left &= left - 1;
    }
    word
}

/// What a set reads along all vectors, from what each driver drives along them.
pub fn reading(gate: u64, set: u64, driven: &[u64], floating: u64) -> u64 {
    match (set, gate) {
        (0, _) => floating,
        (_, OR) => together(set, driven, 0, |word, driver| word | driver),
        _ => together(set, driven, u64::MAX, |word, driver| word & driver),
    }
}

/// The readings of all sets of the class, worked out once.
fn readings(network: Network, k: u64, vectors: &[u64]) -> (Vec<u64>, Vec<u64>) {
    let sets = sets_of_class(network.nets(), k);
    let (driven, floating) = (turned(network.nets(), vectors), floating(network, vectors.len()));
    let readings = sets.iter().map(|set| reading(network.gate(), *set, &driven, floating)).collect();
    (sets, readings)
}

type Pair = Option<(u64, u64)>;

/// All pairs of stored readings compared.
pub fn pairs(network: Network, k: u64, vectors: &[u64]) -> Pair {
    let (sets, readings) = readings(network, k, vectors);
    for (b, word) in readings.iter().enumerate() {
        if let Some(a) = readings[..b].iter().position(|other| other == word) {
            return Some((sets[a], sets[b]));
        }
    }
    None
}

/// All driver sets, whatever the class: what each reads is worked out once, and then all pairs are gone over.
pub fn all_sets(network: Network, k: u64, vectors: &[u64]) -> Pair {
    let (driven, floating) = (turned(network.nets(), vectors), floating(network, vectors.len()));
    let of_class = |set: usize| u64::from(set.count_ones()) <= k;
    let sets = 0..=all_drivers(network);
    let readings: Vec<u64> = sets.map(|set| reading(network.gate(), set, &driven, floating)).collect();
    for (b, word) in readings.iter().enumerate().filter(|(b, _)| of_class(*b)) {
        if let Some(a) = (0..b).find(|a| readings[*a] == *word && of_class(*a)) {
            return Some((a as u64, b as u64));
        }
    }
    None
}

/// A hash map of readings.
pub fn hash(network: Network, k: u64, vectors: &[u64]) -> Pair {
    let (sets, readings) = readings(network, k, vectors);
    let mut seen = HashMap::with_capacity(sets.len());
    for (set, word) in sets.iter().zip(readings) {
        if let Some(smaller) = seen.insert(word, *set) {
            return Some((smaller, *set));
        }
    }
    None
}

/// The rule for k = n.
pub fn walking(network: Network, vectors: &[u64]) -> Pair {
    let all = all_drivers(network);
    if extra_vector(network).is_some_and(|extra| !vectors.contains(&extra)) {
        return Some((0, all));
    }
    let single = vectors.iter().map(|vector| dominant(network, *vector)).filter(|drivers| drivers.is_power_of_two());
    let missing = all & !single.fold(0, |walked, driver| walked | driver);
    match missing {
        0 => None,
        _ => Some((all & !(missing & missing.wrapping_neg()), all)),
    }
}

/// One of the searches for k below n.
pub type Search = fn(Network, u64, &[u64]) -> Pair;

/// The pair, if there is one: by the rule for k = n, else by the search.
pub fn pair(search: Search, network: Network, k: u64, vectors: &[u64]) -> Pair {
    if k == network.nets() {
        walking(network, vectors)
    } else {
        search(network, k, vectors)
    }
}

/// The call, with one of the searches.
pub fn check(search: Search, network: Network, k: u64, vectors: &[u64], verdict: &mut [u64]) -> u64 {
    let answer = admit_set(network, k, vectors).map(|()| {
        let pair = pair(search, network, k, vectors);
        verdict.copy_from_slice(&pair.map_or([0; 3], |(a, b)| [1, a, b]));
    });
    code(answer)
}
