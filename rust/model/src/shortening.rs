//! Shorter sets within a budget: the rule as it stands.

use crate::checker::{passes, rows_of_check, sets_of_class};
use crate::network::Network;
use crate::rows::{rows_of_set_to_shorten, Rows};

/// The vectors kept, the checks made, and the floor.
#[derive(Clone, Debug, PartialEq, Eq)]
pub struct Shorter {
    pub kept: Vec<u64>,
    pub checks: u64,
    pub floor: u64,
}

/// The smallest q with 2^q at least the number of sets of at most k drivers, the empty one among them.
pub fn floor(n: u64, k: u64) -> u64 {
    let sets = sets_of_class(n, k).len();
    (0..64).find(|q| 1 << q >= sets).expect("no class has so many sets")
}

/// The list without the word at this place.
fn without(list: &[u64], place: usize) -> Vec<u64> {
    [&list[..place], &list[place + 1..]].concat()
}

/// What is left of a passed set. The places are tried from the last to the first, so those not yet tried stay where
/// they are.
fn shortened(net: Network, k: u64, vectors: &[u64], allowed: u64) -> Shorter {
    let (mut kept, mut checks) = (vectors.to_vec(), 0);
    for place in (0..vectors.len()).rev() {
        if checks == allowed {
            break;
        }
        checks += 1;
        let tried = without(&kept, place);
        if passes(net, k, &tried) {
            kept = tried;
        }
    }
    Shorter { kept, checks, floor: floor(net.nets, k) }
}

/// Row 12 is on the whole set given, and row 13 on what check says of it.
pub fn rows_of_shorten(net: Network, k: u64, vectors: &[u64], room: usize) -> Rows<'_> {
    let turned_down = move || rows_of_check(net, k, vectors).admit().is_err() || !passes(net, k, vectors);
    rows_of_set_to_shorten(net, k, vectors).row(12, move || room < vectors.len()).row(13, turned_down)
}

/// The call *shorten*.
pub fn shorten(net: Network, k: u64, vectors: &[u64], allowed: u64, room: usize) -> Result<Shorter, u64> {
    rows_of_shorten(net, k, vectors, room).admit()?;
    Ok(shortened(net, k, vectors, allowed))
}

#[cfg(test)]
mod tests {
    use super::*;
    use crate::network::{each_combination, extra_vector, walking_vectors, AND, OR};

    const PULL_UP: Network = Network { nets: 4, level: 1, gate: OR };

    /// The call with room for the set given, as its vectors kept, checks and floor.
    fn shorter(net: Network, k: u64, vectors: &[u64], allowed: u64) -> (Vec<u64>, u64, u64) {
        let Shorter { kept, checks, floor } = shorten(net, k, vectors, allowed, vectors.len()).unwrap();
        (kept, checks, floor)
    }

    /// Four nets and class 2. Of 0 1 2 4 8 3 5 each of 5, 3 and 0 can be left out, and no walking one.
    #[test]
    fn four_nets_by_hand() {
        let vectors = [0, 1, 2, 4, 8, 3, 5];
        assert_eq!(shorter(PULL_UP, 2, &vectors, 7), (vec![1, 2, 4, 8], 7, 4));
        assert_eq!(shorter(PULL_UP, 2, &vectors, 6), (vec![0, 1, 2, 4, 8], 6, 4));
        assert_eq!(shorter(PULL_UP, 2, &vectors, 2), (vec![0, 1, 2, 4, 8], 2, 4));
        assert_eq!(shorter(PULL_UP, 2, &vectors, 1), (vec![0, 1, 2, 4, 8, 3], 1, 4));
        assert_eq!(shorter(PULL_UP, 2, &vectors, 0), (vectors.to_vec(), 0, 4));
        assert_eq!(shorter(PULL_UP, 2, &vectors, u64::MAX), (vec![1, 2, 4, 8], 7, 4));
    }

    /// Two nets, class n: with OR at level 1 and AND at level 0 the extra vector is kept, else it is left out. Of two
    /// equal vectors the later one is left out.
    #[test]
    fn two_nets_by_hand() {
        for net in each_combination(2) {
            let extra = if net.gate == AND { 3 } else { 0 };
            let kept = if extra_vector(net).is_some() { vec![2, extra, 1] } else { vec![2, 1] };
            assert_eq!(shorter(net, 2, &[2, extra, 2, 1, extra, 1], 6), (kept, 6, 2));
        }
    }

    /// What is left out is tried without what was left out before: each of two equal vectors alone could be.
    #[test]
    fn a_trial_is_of_what_is_kept_so_far() {
        let twice = [1, 2, 4, 8, 8, 4, 2, 1];
        assert_eq!(shorter(PULL_UP, 3, &twice, 8), (vec![1, 2, 4, 8], 8, 4));
        assert_eq!(shorter(PULL_UP, 3, &twice, 3), (vec![1, 2, 4, 8, 8], 3, 4));
    }

    /// 1 + 48, 1 + 48 + 1,128 and 1 + 48 + 1,128 + 17,296 sets; and numbers of sets at a power of two and above it.
    #[test]
    fn floors_by_hand() {
        assert_eq!([1, 2, 3].map(|k| floor(48, k)), [6, 11, 15]);
        assert_eq!([2, 3, 4, 7, 8, 15, 16, 31, 32].map(|n| floor(n, 1)), [2, 2, 3, 3, 4, 4, 5, 5, 6]);
        assert_eq!([(2, 2), (3, 2), (3, 3), (4, 2), (5, 2), (6, 2)].map(|(n, k)| floor(n, k)), [2, 3, 3, 4, 4, 5]);
    }

    #[test]
    fn rows_by_hand() {
        let refused =
            |net: Network, k: u64, vectors: &[u64], room: usize| shorten(net, k, vectors, 9, room).unwrap_err();
        let (walking, bad) = (walking_vectors(PULL_UP), Network { nets: 1, level: 2, gate: 2 });
        assert_eq!(refused(bad, 4, &[], 0), 5);
        assert_eq!(refused(Network { nets: 4, ..bad }, 4, &[], 0), 6);
        assert_eq!(refused(Network { nets: 4, ..bad }, 3, &[], 0), 17);
        assert_eq!(refused(Network { gate: 2, ..PULL_UP }, 3, &[], 0), 20);
        assert_eq!(refused(PULL_UP, 3, &[], 0), 7);
        assert_eq!(refused(PULL_UP, 3, &[16], 0), 8);
        assert_eq!(refused(PULL_UP, 3, &walking[1..], 2), 12);
        assert_eq!(refused(PULL_UP, 3, &walking[1..], 3), 13);
        assert_eq!(refused(PULL_UP, 4, &walking, 4), 6);
    }
}
