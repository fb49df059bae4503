//! The checker, by the rule as it stands.

use crate::network::{all_drivers, extra_vector, read_along, walking_vector, Network};
use crate::rows::{rows_of_set, Rows};
use std::collections::HashSet;

#[derive(Clone, Copy, Debug, PartialEq, Eq)]
pub enum Verdict {
    Pass,
    Pair(u64, u64),
}

/// The most nets for which sets are taken from all numbers below 2^n.
const ALL_NUMBERS: u64 = 12;

/// The sets of at most k of n drivers, as numbers, ascending.
pub fn sets_of_class(n: u64, k: u64) -> Vec<u64> {
    if n <= ALL_NUMBERS {
        return (0..1u64 << n).filter(|set| u64::from(set.count_ones()) <= k).collect();
    }
    chosen_sets(n, k)
}

/// The same for more nets: sets grown a driver at a time, and put in order.
fn chosen_sets(n: u64, k: u64) -> Vec<u64> {
    assert!(n <= 48 && k <= 3, "too many sets");
    let mut sets = vec![0u64];
    let mut grown = vec![0u64];
    for _ in 0..k {
        grown = grown.iter().flat_map(|set| with_a_higher_driver(*set, n)).collect();
        sets.extend(&grown);
    }
    sets.sort_unstable();
    sets
}

/// The set with one driver more, above all that it has.
fn with_a_higher_driver(set: u64, n: u64) -> Vec<u64> {
    let first = u64::from(64 - set.leading_zeros());
    (first..n).map(|driver| set | 1 << driver).collect()
}

/// k below n: the smallest B for which a smaller set reads the same, with the smallest such set.
pub fn search(net: Network, k: u64, vectors: &[u64]) -> Verdict {
    let sets = sets_of_class(net.nets, k);
    let readings: Vec<u64> = sets.iter().map(|set| read_along(net, *set, vectors)).collect();
    for b in 0..sets.len() {
        for a in 0..b {
            if readings[a] == readings[b] {
                return Verdict::Pair(sets[a], sets[b]);
            }
        }
    }
    Verdict::Pass
}

/// k = n: the extra vector, if there is one, and a walking vector for each net.
fn walking_rule(net: Network, vectors: &[u64]) -> Verdict {
    let all = all_drivers(net.nets);
    if extra_vector(net).is_some_and(|extra| !vectors.contains(&extra)) {
        return Verdict::Pair(0, all);
    }
    match (0..net.nets).find(|i| !vectors.contains(&walking_vector(net, *i))) {
        Some(i) => Verdict::Pair(all - (1u64 << i), all),
        None => Verdict::Pass,
    }
}

/// The verdict on a test set that the rows of check admit.
pub fn verdict(net: Network, k: u64, vectors: &[u64]) -> Verdict {
    if k == net.nets {
        walking_rule(net, vectors)
    } else {
        search(net, k, vectors)
    }
}

/// Does the verdict say pass? Without the pair it is enough to count what the sets of the class read: as many different
/// words as there are sets. That takes less time where there are many; for class n of many nets the rule is used.
pub fn passes(net: Network, k: u64, vectors: &[u64]) -> bool {
    if k == net.nets && net.nets > ALL_NUMBERS {
        return walking_rule(net, vectors) == Verdict::Pass;
    }
    let sets = sets_of_class(net.nets, k);
    let readings: HashSet<u64> = sets.iter().map(|set| read_along(net, *set, vectors)).collect();
    readings.len() == sets.len()
}

pub fn rows_of_check(net: Network, k: u64, vectors: &[u64]) -> Rows<'_> {
    rows_of_set(net, k, vectors)
}

/// The call *check*.
pub fn check(net: Network, k: u64, vectors: &[u64]) -> Result<Verdict, u64> {
    rows_of_check(net, k, vectors).admit()?;
    Ok(verdict(net, k, vectors))
}

#[cfg(test)]
mod tests {
    use super::*;
    use crate::network::{all_lists, all_states, each_combination, response, walking_vectors, AND, OR};

    /// Source document 004, table II.
    const TABLE_TWO: [u64; 7] = [34, 9, 49, 6, 76, 86, 96];

    /// Nets, class and vectors, and the verdict on them.
    type Case = (u64, u64, &'static [u64], Verdict);

    fn assert_verdicts(gate: u64, level: u64, cases: &[Case]) {
        for (nets, k, vectors, expected) in cases {
            let net = Network { nets: *nets, level, gate };
            assert_eq!(check(net, *k, vectors), Ok(*expected), "{net:?} {k} {vectors:?}");
            assert_eq!(passes(net, *k, vectors), *expected == Verdict::Pass, "{net:?} {k} {vectors:?}");
        }
    }

    #[test]
    fn the_papers_verdicts() {
        let cases: [Case; 9] = [
            (4, 4, &[0, 1, 2, 4, 8], Verdict::Pass),
            (4, 4, &[1, 2, 4, 8], Verdict::Pair(0, 15)),
            (4, 4, &[0, 1, 2, 4], Verdict::Pair(7, 15)),
            (4, 1, &[8, 6, 5], Verdict::Pass),
            (4, 2, &[8, 6, 5], Verdict::Pair(3, 4)),
            (4, 1, &[3, 5, 12, 10], Verdict::Pass),
            (4, 2, &[3, 5, 12, 10], Verdict::Pair(0, 6)),
            (7, 2, &TABLE_TWO, Verdict::Pass),
            (2, 2, &[1, 2, 0], Verdict::Pass),
        ];
        assert_verdicts(OR, 1, &cases);
        assert_ne!(check(Network { nets: 7, level: 1, gate: OR }, 3, &TABLE_TWO), Ok(Verdict::Pass));
    }

    #[test]
    fn verdicts_at_soft_level_0() {
        let cases: [Case; 4] = [
            (4, 4, &[1, 2, 4, 8], Verdict::Pass),
            (4, 4, &[0, 1, 2, 4], Verdict::Pair(7, 15)),
            (4, 2, &[3, 5, 12, 10], Verdict::Pair(6, 9)),
            (2, 1, &[1], Verdict::Pair(0, 2)),
        ];
        assert_verdicts(OR, 0, &cases);
    }

    #[test]
    fn verdicts_on_a_wired_and() {
        let at_level_0: [Case; 7] = [
            (7, 1, &TABLE_TWO, Verdict::Pass),
            (7, 2, &TABLE_TWO, Verdict::Pair(0, 3)),
            (7, 3, &TABLE_TWO, Verdict::Pair(0, 3)),
            (4, 4, &[15, 14, 13, 11, 7], Verdict::Pass),
            (4, 4, &[14, 13, 11, 7], Verdict::Pair(0, 15)),
            (4, 4, &[15, 14, 11, 7], Verdict::Pair(13, 15)),
            (2, 1, &[2], Verdict::Pair(0, 1)),
        ];
        assert_verdicts(AND, 0, &at_level_0);
        let at_level_1: [Case; 6] = [
            (7, 1, &TABLE_TWO, Verdict::Pass),
            (7, 2, &TABLE_TWO, Verdict::Pair(3, 5)),
            (7, 3, &TABLE_TWO, Verdict::Pair(3, 5)),
            (4, 4, &[14, 13, 11, 7], Verdict::Pass),
            (4, 4, &[15, 14, 13, 11], Verdict::Pair(7, 15)),
            (2, 1, &[2], Verdict::Pair(0, 2)),
        ];
        assert_verdicts(AND, 1, &at_level_1);
    }

    /// Five nets: drivers 0, 1, 3 and 4 each have a vector of their own, and driver 2 drives beside 4, beside 0, and
    /// beside 1 and 3 (on 20, 5 and 14). So it is not seen in a reach with 4, 0, and 1 or 3, and has then three others
    /// beside it: 19 with it is 23. Of all sets of at most four drivers only 27, which is 0, 1, 3 and 4, reads as a
    /// floating receiver does.
    ///
    /// Six nets: all drivers but 1 have a vector of their own, and that one drives beside 5, beside 2, and beside 3 (on
    /// 34, 6 and 10). So it is not seen with those three: 44 with it is 46. What reads as a floating receiver does has
    /// all five others.
    #[test]
    fn sets_that_pass_for_class_3_and_not_for_class_4() {
        let (of_five, of_six): (&[u64], &[u64]) = (&[16, 1, 20, 5, 8, 2, 14], &[34, 1, 6, 4, 8, 16, 32, 10]);
        let cases: [Case; 4] = [
            (5, 3, of_five, Verdict::Pass),
            (5, 4, of_five, Verdict::Pair(19, 23)),
            (6, 3, of_six, Verdict::Pass),
            (6, 4, of_six, Verdict::Pair(44, 46)),
        ];
        assert_verdicts(OR, 1, &cases);
        let eleven = Network { nets: 11, level: 1, gate: OR };
        assert_eq!(check(eleven, 4, of_five), Err(6));
    }

    /// Ten nets and walking ones without vector 0: at level 1 only all ten drivers read as a floating receiver does,
    /// and class 9 does not have them. Without that of net 9 the other nine drivers do, and up to class 8 driver 9 is
    /// not seen beside driver 0; at level 0 it reads as a floating receiver does.
    #[test]
    fn walking_ones_of_ten_nets() {
        let walking: Vec<u64> = (0..10).map(|i| 1 << i).collect();
        for k in 4..=9 {
            let at = |level: u64, vectors: &[u64]| check(Network { nets: 10, level, gate: OR }, k, vectors);
            assert_eq!([1, 0].map(|level| at(level, &walking)), [Ok(Verdict::Pass); 2]);
            let at_level_1 = if k == 9 { Verdict::Pair(0, 511) } else { Verdict::Pair(1, 513) };
            assert_eq!([1, 0].map(|level| at(level, &walking[..9])), [Ok(at_level_1), Ok(Verdict::Pair(0, 512))]);
        }
        let whole = [1, 0].map(|level| check(Network { nets: 10, level, gate: OR }, 10, &walking));
        assert_eq!(whole, [Ok(Verdict::Pair(0, 1023)), Ok(Verdict::Pass)]);
    }

    #[test]
    fn grown_sets_are_those_among_all_numbers() {
        for n in 2..=ALL_NUMBERS {
            for k in 1..=3 {
                assert_eq!(chosen_sets(n, k), sets_of_class(n, k));
            }
        }
        assert_eq!(chosen_sets(48, 3).len(), 1 + 48 + 48 * 47 / 2 + 48 * 47 * 46 / 6);
    }

    /// Tries every set of up to `longest` vectors for one class, by the rule and by the answers of all states of m
    /// receivers, and gives how many pass.
    fn passing(net: Network, m: usize, k: u64, longest: usize) -> usize {
        let states = all_states(net.nets, m, k);
        let told_apart = |vectors: &Vec<u64>| {
            let answers: HashSet<_> = states.iter().map(|state| response(net, vectors, state)).collect();
            let passed = verdict(net, k, vectors) == Verdict::Pass;
            assert_eq!(passed, answers.len() == states.len(), "{net:?} {k} {vectors:?}");
            assert_eq!(passed, passes(net, k, vectors), "{net:?} {k} {vectors:?}");
            passed
        };
        (1..=longest).flat_map(|length| all_lists(1 << net.nets, length)).filter(told_apart).count()
    }

    /// Demand 3: pass exactly when no two states of the class answer alike, however many receivers they have.
    #[test]
    fn pass_means_that_no_two_states_answer_alike() {
        for (nets, receivers, longest) in [(2, 2..=4, 4), (3, 3..=4, 3)] {
            for net in each_combination(nets) {
                for m in receivers.clone() {
                    (1..=nets).for_each(|k| _ = passing(net, m, k, longest));
                }
            }
        }
    }

    /// For more nets than those of which all numbers are gone over, with all walking vectors and without two.
    #[test]
    fn passes_says_what_the_verdict_says() {
        for net in each_combination(13) {
            let walking = walking_vectors(net);
            for (k, vectors) in [1, 2, 3, 13].into_iter().flat_map(|k| [(k, &walking[..]), (k, &walking[2..])]) {
                assert_eq!(passes(net, k, vectors), verdict(net, k, vectors) == Verdict::Pass, "{net:?} {k}");
            }
        }
    }

    /// A set that passes for class n has at least n + 1 vectors with OR at soft level 1 and with AND at 0, else n. With
    /// that many it is the extra vector, if there is one, and the walking ones, in any of their orders.
    #[test]
    fn the_fewest_vectors_of_class_n() {
        let fewest_of_two = [(2, 2), (3, 6), (3, 6), (2, 2)];
        let fewest_of_three = [(3, 6), (4, 24), (4, 24), (3, 6)];
        for (nets, expected) in [(2, fewest_of_two), (3, fewest_of_three)] {
            for (net, (fewest, orders)) in each_combination(nets).into_iter().zip(expected) {
                let passing = |longest: usize| passing(net, nets as usize, nets, longest);
                assert_eq!((passing(fewest - 1), passing(fewest)), (0, orders));
            }
        }
    }
}
