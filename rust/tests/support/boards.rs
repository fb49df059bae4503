//! Random boards, wiring states and test sets.

use super::generator::Generator;
use super::networks::extra_at_some_level;
use model::network::{extra_vector, is_state, walking_vectors};
use model::{Board, Network, AND};

/// The network with m receivers: one on each net, the others on any, in any order.
pub fn with_receivers(g: &mut Generator, network: Network, m: usize) -> Board {
    let n = network.nets;
    let mut owners: Vec<u64> = (0..n).collect();
    owners.resize_with(m, || g.below(n as usize) as u64);
    g.shuffle(&mut owners);
    Board { network, owners }
}

/// The same with n to 64 receivers, and with 64 on every third board.
pub fn with_some_receivers(g: &mut Generator, network: Network) -> Board {
    let n = network.nets as usize;
    let m = if g.once_in(3) { 64 } else { n + g.below(65 - n) };
    with_receivers(g, network, m)
}

/// A wiring state of class k: drivers in groups of at most k, and for each receiver a group, often that of its net's
/// driver, or none.
pub fn state(g: &mut Generator, board: &Board, k: u64) -> Vec<u64> {
    let n = board.network.nets;
    let groups = groups(g, n, k);
    let of = |net: u64| *groups.iter().find(|group| *group >> net & 1 == 1).expect("each driver has a group");
    let reach = |owner: u64, g: &mut Generator| match g.below(8) {
        0 => 0,
        1 | 2 => *g.pick(&groups),
        _ => of(owner),
    };
    let state: Vec<u64> = board.owners.iter().map(|owner| reach(*owner, g)).collect();
    assert!(is_state(n, board.receivers(), k, &state));
    state
}

/// All drivers in groups of at most k. Some boards have many groups and some few.
fn groups(g: &mut Generator, n: u64, k: u64) -> Vec<u64> {
    let joining = 1 + g.below(8);
    let mut groups: Vec<u64> = Vec::new();
    for driver in 0..n {
        let place = if groups.is_empty() { 0 } else { g.below(groups.len()) };
        let joins = g.below(8) < joining && groups.get(place).is_some_and(|group| u64::from(group.count_ones()) < k);
        if joins {
            groups[place] |= 1 << driver;
        } else {
            groups.push(1 << driver);
        }
    }
    groups
}

/// The walking vectors in any order, the extra vector among them where it is wanted and else on every second board, and
/// a few more, some of them twice.
pub fn walking_set(g: &mut Generator, net: Network) -> Vec<u64> {
    let mut vectors = walking_vectors(net);
    if extra_vector(net).is_some() || g.once_in(2) {
        vectors.push(extra_at_some_level(net));
    }
    for _ in 0..g.below(65 - vectors.len()) {
        let again = *g.pick(&vectors);
        vectors.push(if g.once_in(2) { again } else { g.word() & low_bits(net.nets) });
    }
    g.shuffle(&mut vectors);
    vectors
}

/// `length` vectors, each driver driving 1 once in `times`.
pub fn sparse_set(g: &mut Generator, n: u64, length: usize, times: usize) -> Vec<u64> {
    (0..length).map(|_| (0..n).map(|i| u64::from(g.once_in(times)) << i).sum()).collect()
}

/// A set that tells much with OR, as it is for OR and with every bit turned for AND.
pub fn for_gate(net: Network, vectors: &[u64]) -> Vec<u64> {
    match net.gate {
        AND => vectors.iter().map(|vector| !vector & low_bits(net.nets)).collect(),
        _ => vectors.to_vec(),
    }
}

/// The word of this many ones, of all n drivers or of all m receivers.
pub fn low_bits(count: u64) -> u64 {
    match count {
        64 => u64::MAX,
        _ => (1 << count) - 1,
    }
}
