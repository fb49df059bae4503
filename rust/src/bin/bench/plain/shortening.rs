//! Shorter sets: a check of the whole set for every trial, with one of the searches.

use super::checker::{pair, Search};
use super::{admit_set_to_shorten, code};
use fontarelga::Network;

/// The smallest q with 2^q at least the number of sets of at most k of n drivers.
fn floor(n: u64, k: u64) -> u64 {
    let (mut sets, mut of_this_size) = (1u64, 1);
    for size in 1..=k {
        of_this_size = of_this_size * (n + 1 - size) / size;
        sets += of_this_size;
    }
    u64::from(sets.next_power_of_two().trailing_zeros())
}

/// What is kept, and how many checks that takes.
fn kept_of(
    search: Search,
    network: Network,
    k: u64,
    vectors: &[u64],
    allowed: u64,
    room: usize,
) -> Result<(Vec<u64>, u64), u64> {
    admit_set_to_shorten(network, k, vectors)?;
    if room < vectors.len() {
        return Err(12);
    }
    if pair(search, network, k, vectors).is_some() {
        return Err(13);
    }
    let checks = allowed.min(vectors.len() as u64);
    let mut kept = vectors.to_vec();
    for place in (0..vectors.len()).rev().take(checks as usize) {
        let vector = kept.remove(place);
        if pair(search, network, k, &kept).is_some() {
            kept.insert(place, vector);
        }
    }
    Ok((kept, checks))
}

/// The call, with one of the searches.
pub fn shorten(
    search: Search,
    network: Network,
    k: u64,
    vectors: &[u64],
    allowed: u64,
    kept: &mut [u64],
    shortened: &mut [u64],
) -> u64 {
    let answer = kept_of(search, network, k, vectors, allowed, kept.len());
    code(answer.map(|(left, checks)| {
        kept[..left.len()].copy_from_slice(&left);
        shortened.copy_from_slice(&[left.len() as u64, checks, floor(network.nets(), k)]);
    }))
}
