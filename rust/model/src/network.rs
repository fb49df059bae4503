//! The network: what receivers read, and wiring states.

use crate::words::{bit, word_of};

/// The gate of a wired OR.
pub const OR: u64 = 0;
/// The gate of a wired AND.
pub const AND: u64 = 1;

/// A network, of any numbers: how many nets it has, the level that a floating receiver reads, and the gate.
#[derive(Clone, Copy, Debug, PartialEq, Eq, Hash)]
pub struct Network {
    pub nets: u64,
    pub level: u64,
    pub gate: u64,
}

/// The networks of this many nets, one for each combination of gate and soft level. What is tried on one is tried on
/// all.
pub fn each_combination(nets: u64) -> [Network; 4] {
    [(OR, 0), (OR, 1), (AND, 0), (AND, 1)].map(|(gate, level)| Network { nets, level, gate })
}

/// What a receiver with this reach reads on a vector. One with an empty reach floats and reads the soft level. With OR
/// another reads 1 if a driver in its reach drives 1, else 0; with AND it reads 0 if a driver in its reach drives 0,
/// else 1.
pub fn reads(net: Network, reach: u64, vector: u64) -> bool {
    let floats = reach == 0;
    let driven_to_1 = reach & vector != 0;
    let driven_to_0 = reach & !vector != 0;
    match net.gate {
        _ if floats => net.level == 1,
        AND => !driven_to_0,
        _ => driven_to_1,
    }
}

/// What a receiver with this reach reads on every vector, as a sequential word.
pub fn read_along(net: Network, reach: u64, vectors: &[u64]) -> u64 {
    assert!(vectors.len() <= 64, "a sequential word has 64 bits");
    word_of(vectors.iter().map(|vector| reads(net, reach, *vector)))
}

/// The response of a state: a parallel word a vector.
pub fn response(net: Network, vectors: &[u64], state: &[u64]) -> Vec<u64> {
    vectors.iter().map(|vector| word_of(state.iter().map(|reach| reads(net, *reach, *vector)))).collect()
}

/// The set of all n drivers, and the vector of all ones.
pub fn all_drivers(n: u64) -> u64 {
    word_of((0..n).map(|_| true))
}

/// The walking vector of net i: with OR it has the single 1 there, with AND the single 0.
pub fn walking_vector(net: Network, i: u64) -> u64 {
    match net.gate {
        AND => word_of((0..net.nets).map(|driver| driver != i)),
        _ => word_of((0..net.nets).map(|driver| driver == i)),
    }
}

/// The walking vectors, net 0 first.
pub fn walking_vectors(net: Network) -> Vec<u64> {
    (0..net.nets).map(|i| walking_vector(net, i)).collect()
}

/// Does a receiver that reads this on a net's walking vector, and does not float, have that net's driver in its reach?
/// With OR it reads 1 only by the one driver that drives 1, with AND it reads 0 only by the one that drives 0.
pub fn shows_driver(net: Network, read: bool) -> bool {
    match net.gate {
        AND => !read,
        _ => read,
    }
}

/// The vector that class n and step two want beside the walking ones, to tell a receiver that floats from one that all
/// drivers reach: with OR vector 0 at soft level 1, with AND all ones at soft level 0, else none.
pub fn extra_vector(net: Network) -> Option<u64> {
    match (net.gate, net.level) {
        (OR, 1) => Some(0),
        (AND, 0) => Some(all_drivers(net.nets)),
        _ => None,
    }
}

/// Do two reaches break the rule on states: neither empty, a driver in common, and different?
pub fn meet_and_differ(one: u64, other: u64) -> bool {
    one != 0 && other != 0 && one & other != 0 && one != other
}

/// Is the list a wiring state of class k: a reach for each of m receivers?
pub fn is_state(n: u64, m: usize, k: u64, state: &[u64]) -> bool {
    state.len() == m
        && state.iter().all(|reach| (0..64).all(|i| i < n || !bit(*reach, i)))
        && state.iter().all(|reach| u64::from(reach.count_ones()) <= k)
        && state.iter().all(|one| state.iter().all(|other| !meet_and_differ(*one, *other)))
}

/// All wiring states of class k, from all ways to give each of m receivers a set of the n drivers. For few of them.
pub fn all_states(n: u64, m: usize, k: u64) -> Vec<Vec<u64>> {
    assert!(n * m as u64 <= 16, "too many assignments");
    all_lists(1 << n, m).into_iter().filter(|state| is_state(n, m, k, state)).collect()
}

/// A list and one word more.
pub fn extended(front: &[u64], word: u64) -> Vec<u64> {
    let mut list = front.to_vec();
    list.push(word);
    list
}

/// All lists of `length` words below `limit`.
pub fn all_lists(limit: u64, length: usize) -> Vec<Vec<u64>> {
    let mut lists = vec![Vec::new()];
    for _ in 0..length {
        lists = lists.iter().flat_map(|front| (0..limit).map(|word| extended(front, word))).collect();
    }
    lists
}

#[cfg(test)]
mod tests {
    use super::*;

    #[test]
    fn the_example_state_answers_as_the_paper_says() {
        let net = Network { nets: 4, level: 1, gate: OR };
        assert_eq!(response(net, &[0, 1, 2, 4, 8], &[3, 3, 0, 8]), [4, 7, 7, 4, 12]);
        assert_eq!(response(net, &[11, 5, 6, 8], &[3, 3, 0, 8]), [15, 7, 7, 12]);
        let pull_down = Network { level: 0, ..net };
        assert_eq!(response(pull_down, &[0, 1, 2, 4, 8], &[3, 3, 0, 8]), [0, 3, 3, 0, 8]);
        assert_eq!(response(pull_down, &[11, 5, 6, 8], &[3, 3, 0, 8]), [11, 3, 3, 8]);
    }

    #[test]
    fn states_answer_a_wired_and() {
        let net = Network { nets: 4, level: 1, gate: AND };
        let pull_down = Network { level: 0, ..net };
        assert_eq!(response(net, &[11, 5, 6, 8, 14, 13, 11], &[3, 3, 0, 8]), [15, 4, 4, 12, 12, 12, 15]);
        assert_eq!(response(pull_down, &[11, 5, 6, 8, 15, 14, 13, 11], &[3, 3, 0, 8]), [11, 0, 0, 8, 11, 8, 8, 11]);
        assert_eq!(response(Network { nets: 3, ..net }, &[6, 5, 3], &[6, 6, 0]), [7, 4, 4]);
        assert_eq!(response(Network { nets: 3, ..pull_down }, &[7, 6, 5, 3], &[6, 6, 0]), [3, 3, 0, 0]);
    }

    #[test]
    fn an_empty_reach_reads_the_soft_level() {
        for net in each_combination(2) {
            assert_eq!([0, 1, 2, 3].map(|vector| reads(net, 0, vector)), [net.level == 1; 4]);
            assert_eq!([0, 1, 2, 3].map(|vector| reads(net, 1, vector)), [false, true, false, true]);
            let tied = if net.gate == AND { [false, false, false, true] } else { [false, true, true, true] };
            assert_eq!([0, 1, 2, 3].map(|vector| reads(net, 3, vector)), tied);
        }
    }

    #[test]
    fn walking_and_extra_vectors_by_hand() {
        let vectors = each_combination(3).map(|net| (walking_vectors(net), extra_vector(net)));
        let (ones, zeros) = (vec![1, 2, 4], vec![6, 5, 3]);
        assert_eq!(vectors, [(ones.clone(), None), (ones, Some(0)), (zeros.clone(), Some(7)), (zeros, None)]);
        let [.., most, _] = each_combination(48);
        assert_eq!((walking_vector(most, 47), extra_vector(most)), ((1 << 47) - 1, Some((1 << 48) - 1)));
    }

    #[test]
    fn states_of_two_nets_counted_by_hand() {
        // Each receiver has one of 0, 1, 2, 3. Of the 16 pairs, 3 beside 1 or 2, in either order, is no state.
        assert_eq!(all_states(2, 2, 2).len(), 12);
        // Without 3, all 9 pairs of 0, 1, 2.
        assert_eq!(all_states(2, 2, 1).len(), 9);
        // Of m receivers, each one of 0, 1, 2, or each one of 0, 3; all of them 0 is in both.
        assert_eq!([3, 4].map(|m| all_states(2, m, 2).len()), [27 + 8 - 1, 81 + 16 - 1]);
        assert_eq!([3, 4].map(|m| all_states(2, m, 1).len()), [27, 81]);
    }
}
