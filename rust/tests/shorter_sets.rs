//! Shorter sets within a budget, of each gate and soft level: every set of a few vectors on two and three nets, random
//! sets of up to 12 nets and of 48, the floor of every number of nets, both sides of each row's bound, and the order of
//! the rows. Compared with the model; and what must hold of any shortened set, by the library's checks.

mod support;

use fontarelga::{check, raw, shorten, Verdict, SHORTENED_WORDS};
use model::network::{all_lists, walking_vectors};
use model::shortening::{floor, Shorter};
use model::Network;
use support::boards::*;
use support::calls::*;
use support::generator::Generator;
use support::networks::{each_combination, of_library, whole_walking_set};

/// The classes of which sets of n nets are shortened.
fn classes(n: u64) -> std::ops::RangeInclusive<u64> {
    1..=n.min(3)
}

/// The numbers of checks to allow for a set of this many vectors. The last is more than enough.
fn budgets(count: usize) -> [u64; 6] {
    let count = count as u64;
    [0, 1, count - 1, count, count + 1, u64::MAX]
}

/// The call with each budget and `longer` words of room beyond the set, compared with the model. Gives the last answer.
fn try_budgets(net: Network, k: u64, vectors: &[u64], budgets: &[u64], longer: usize) -> Answer<Shorter> {
    let mut last = Err(0);
    for allowed in budgets {
        last = model::shorten(net, k, vectors, *allowed, vectors.len() + longer);
        shorten_gives(net, k, vectors, *allowed, vectors.len() + longer, &last);
    }
    last
}

/// The list without the word at this place.
fn without(list: &[u64], place: usize) -> Vec<u64> {
    [&list[..place], &list[place + 1..]].concat()
}

/// Does the library's checker pass the set?
fn passes(net: Network, k: u64, vectors: &[u64]) -> bool {
    check(of_library(net), k, vectors) == Ok(Verdict::Pass)
}

/// Are the words of `part` among those of `list`, in the same order?
fn is_part_in_order(part: &[u64], list: &[u64]) -> bool {
    let mut left = list.iter();
    part.iter().all(|word| left.any(|other| other == word))
}

/// What must hold of any shortened set, said without the model: it is passed, it is part of the set given, it has at
/// least as many vectors as the floor says, and all that were not tried are in it. If all were tried, none of its
/// vectors can be left out.
fn assert_shortened(net: Network, k: u64, vectors: &[u64], allowed: u64) {
    let what = (net, k, vectors, allowed);
    let fontarelga::Shorter { kept, checks, floor } = shorten(of_library(net), k, vectors, allowed).unwrap();
    assert_eq!(checks, allowed.min(vectors.len() as u64), "{what:?}");
    assert!(passes(net, k, &kept), "{what:?}");
    assert!(is_part_in_order(&kept, vectors) && kept.len() as u64 >= floor, "{what:?}");
    let untried = vectors.len() - checks as usize;
    assert_eq!(kept[..untried], vectors[..untried], "{what:?}");
    let can_be_left_out = |place: usize| passes(net, k, &without(&kept, place));
    assert!(untried > 0 || !(0..kept.len()).any(can_be_left_out), "{what:?}");
}

/// How many sets were turned down, and of those that passed how many were shortened, how many were not, and how many
/// ended with as many vectors as the floor.
#[derive(Debug, Default, PartialEq, Eq)]
struct Seen {
    turned_down: usize,
    shortened: usize,
    whole: usize,
    at_floor: usize,
}

impl Seen {
    fn count(&mut self, vectors: &[u64], answer: &Answer<Shorter>) {
        match answer {
            Ok(shorter) => {
                let whole = shorter.kept.len() == vectors.len();
                *(if whole { &mut self.whole } else { &mut self.shortened }) += 1;
                self.at_floor += usize::from(shorter.kept.len() as u64 == shorter.floor);
            }
            Err(number) => {
                assert_eq!(*number, 13);
                self.turned_down += 1;
            }
        }
    }

    fn sets(&self) -> usize {
        self.turned_down + self.shortened + self.whole
    }
}

/// Every set of up to `longest` vectors for every class, with every budget.
fn try_all_sets(net: Network, longest: usize) -> Seen {
    let mut seen = Seen::default();
    for k in classes(net.nets) {
        let sets = (1..=longest).flat_map(|length| all_lists(1 << net.nets, length));
        for (i, vectors) in sets.enumerate() {
            let answer = try_budgets(net, k, &vectors, &budgets(vectors.len()), i % 3);
            seen.count(&vectors, &answer);
        }
    }
    println!("{net:?}, sets of up to {longest} vectors with 6 budgets each: {seen:?}");
    seen
}

#[test]
fn every_set_of_up_to_5_vectors_on_2_nets() {
    for net in each_combination(2) {
        let seen = try_all_sets(net, 5);
        assert_eq!(seen.sets(), 2 * (4 + 16 + 64 + 256 + 1024));
        assert!(seen.turned_down > 400 && seen.shortened > 400 && seen.at_floor > 400, "{seen:?}");
    }
}

#[test]
fn every_set_of_up_to_4_vectors_on_3_nets() {
    for net in each_combination(3) {
        let seen = try_all_sets(net, 4);
        assert_eq!(seen.sets(), 3 * (8 + 64 + 512 + 4096));
        assert!(seen.shortened > 1000 && seen.whole > 100 && seen.at_floor > 1000, "{seen:?}");
    }
}

/// A set for this network: all that walks among others, the walking vectors alone, some of them beside random ones,
/// sparse ones, or any.
fn test_set(g: &mut Generator, net: Network) -> Vec<u64> {
    let (n, mut walking) = (net.nets, walking_vectors(net));
    g.shuffle(&mut walking);
    match g.below(5) {
        0 => walking_set(g, net),
        1 => walking,
        2 => {
            let (some, more, times) = (g.below(n as usize), 64 - n as usize, 3 + g.below(3));
            let mut vectors = [&walking[..some], &for_gate(net, &sparse_set(g, n, more, times))].concat();
            g.shuffle(&mut vectors);
            vectors
        }
        3 => {
            let (length, times) = (4 + g.below(60), 2 + g.below(4));
            for_gate(net, &sparse_set(g, n, length, times))
        }
        _ => (0..1 + g.below(24)).map(|_| g.word() & low_bits(n)).collect(),
    }
}

/// One random set: by the model with the budgets and one more, and if it passes by the library's checks.
fn try_random(g: &mut Generator, net: Network, k: u64, vectors: &[u64], budgets: &[u64]) -> Answer<Shorter> {
    let (between, longer) = (g.below(vectors.len()) as u64, g.below(4));
    let answer = try_budgets(net, k, vectors, &[&[between], budgets].concat(), longer);
    if answer.is_ok() {
        [between, u64::MAX].iter().for_each(|allowed| assert_shortened(net, k, vectors, *allowed));
    }
    answer
}

#[test]
fn random_sets_of_up_to_12_nets() {
    let g = &mut Generator::new(51);
    let mut seen: [Seen; 4] = Default::default();
    for (n, k) in (2..=12).flat_map(|n| classes(n).map(move |k| (n, k))) {
        for (net, seen) in each_combination(n).into_iter().zip(&mut seen) {
            for _ in 0..8 {
                let vectors = test_set(g, net);
                let answer = try_random(g, net, k, &vectors, &budgets(vectors.len()));
                seen.count(&vectors, &answer);
            }
        }
    }
    println!("random sets with OR and AND at levels 0 and 1: {seen:?}");
    for seen in seen {
        assert_eq!(seen.sets(), 8 * 32);
        assert!(seen.turned_down > 40 && seen.shortened > 100 && seen.whole > 15 && seen.at_floor > 5, "{seen:?}");
    }
}

/// The rule with the library's checks: what is kept, and how many checks that takes.
fn by_checks(net: Network, k: u64, vectors: &[u64], allowed: usize) -> (Vec<u64>, u64) {
    let mut is_kept = vec![true; vectors.len()];
    let chosen = |is_kept: &[bool]| -> Vec<u64> {
        vectors.iter().zip(is_kept).filter(|(_, kept)| **kept).map(|(vector, _)| *vector).collect()
    };
    let mut checks = 0;
    for place in (0..vectors.len()).rev().take(allowed) {
        is_kept[place] = false;
        is_kept[place] = !passes(net, k, &chosen(&is_kept));
        checks += 1;
    }
    (chosen(&is_kept), checks)
}

/// 48 nets. Each of five drivers drives 1 beside three others, one at a time, with AND all that turned: for a class up
/// to 3 these three vectors can stand for its walking vector. Gives the 15 vectors, and the five walking ones.
fn pairs_and_hidden(g: &mut Generator, net: Network) -> (Vec<u64>, Vec<u64>) {
    let mut drivers: Vec<u64> = (0..48).map(|i| 1 << i).collect();
    g.shuffle(&mut drivers);
    let (hidden, others) = (&drivers[..5], &drivers[5..20]);
    let pairs: Vec<u64> = others.iter().enumerate().map(|(i, other)| other | hidden[i / 3]).collect();
    (for_gate(net, &pairs), for_gate(net, hidden))
}

/// The walking vectors before such pairs, and after them, by the model.
#[test]
fn sets_of_48_nets() {
    let g = &mut Generator::new(52);
    for (net, k) in each_combination(48).into_iter().flat_map(|net| classes(48).map(move |k| (net, k))) {
        let (walking, (pairs, hidden)) = (walking_vectors(net), pairs_and_hidden(g, net));
        let mut kept_of = |lists: [&[u64]; 2]| try_random(g, net, k, &lists.concat(), &[u64::MAX]).unwrap().kept;
        let (before, after) = (kept_of([&walking, &pairs]), kept_of([&pairs, &walking]));
        assert!(is_part_in_order(&before, &walking) && before.len() >= if k == 1 { 47 } else { 48 });
        assert!(!hidden.iter().any(|vector| after.contains(vector)), "{net:?} {k}");
    }
}

/// The same vectors in any order, and often without one or two of them.
fn large_set(g: &mut Generator, net: Network) -> Vec<u64> {
    let mut vectors = [walking_vectors(net), pairs_and_hidden(g, net).0, vec![g.word() & low_bits(48)]].concat();
    g.shuffle(&mut vectors);
    vectors.truncate(64 - g.below(3));
    vectors
}

/// More of them, by the rule with the library's checks.
#[test]
fn sets_of_48_nets_by_checks() {
    let g = &mut Generator::new(53);
    let mut seen: [Seen; 3] = Default::default();
    for _ in 0..10 {
        for (net, k) in each_combination(48).into_iter().flat_map(|net| classes(48).map(move |k| (net, k))) {
            let (vectors, allowed) = (large_set(g, net), g.below(96));
            let answer = if passes(net, k, &vectors) {
                let (kept, checks) = by_checks(net, k, &vectors, allowed);
                Ok(Shorter { kept, checks, floor: [6, 11, 15][k as usize - 1] })
            } else {
                Err(13)
            };
            shorten_gives(net, k, &vectors, allowed as u64, 64, &answer);
            seen[k as usize - 1].count(&vectors, &answer);
        }
    }
    println!("sets of up to 64 vectors on 48 nets, for classes 1, 2 and 3: {seen:?}");
    assert!(seen.iter().all(|seen| seen.shortened > 10 && seen.turned_down > 2), "{seen:?}");
}

/// Numbers of which the low bits are a smaller budget.
#[test]
fn budgets_of_any_size() {
    for net in each_combination(4) {
        let vectors = [whole_walking_set(net), walking_vectors(net)].concat();
        for k in classes(4) {
            let whole = model::shorten(net, k, &vectors, 9, 9).unwrap();
            for power in [8, 16, 31, 32, 33, 63] {
                for allowed in [(1 << power) - 1, 1 << power, (1 << power) + 2, u64::MAX - (1 << power)] {
                    shorten_gives(net, k, &vectors, allowed, 9, &Ok(whole.clone()));
                }
            }
        }
    }
}

/// A set and then the same again: the second is left out, with as many checks as it has vectors, and then the first is
/// shortened as it would be alone.
#[test]
fn a_set_twice() {
    let g = &mut Generator::new(54);
    for net in [2, 3, 4, 9, 16].into_iter().flat_map(each_combination) {
        let mut once = whole_walking_set(net);
        g.shuffle(&mut once);
        let (count, twice) = (once.len() as u64, [&once[..], &once].concat());
        for k in classes(net.nets) {
            let shorter = |vectors: &[u64], allowed: u64| shorten(of_library(net), k, vectors, allowed).unwrap();
            assert_eq!(shorter(&twice, count).kept, once);
            for more in [1, count / 2, count] {
                assert_eq!(shorter(&twice, count + more).kept, shorter(&once, more).kept);
            }
        }
    }
}

/// Two sets that pass for class 1, one after the other: walking vectors, and a number for each net in base two, which
/// is as short as a set can be. The later one is left out.
#[test]
fn the_order_decides() {
    let nets_and_bits = [(6, 3), (14, 4), (30, 5)];
    for (net, bits) in nets_and_bits.into_iter().flat_map(|(n, bits)| each_combination(n).map(|net| (net, bits))) {
        let number_bit = |t: u64| (0..net.nets).map(|i| ((i + 1) >> t & 1) << i).sum::<u64>();
        let (numbers, walking): (Vec<u64>, _) = ((0..bits).map(number_bit).collect(), walking_vectors(net));
        let shorter = |lists: [&[u64]; 2]| shorten(of_library(net), 1, &lists.concat(), u64::MAX).unwrap();
        let (first, second) = (shorter([&numbers, &walking]), shorter([&walking, &numbers]));
        assert_eq!((first.kept, first.checks, first.floor), (numbers, net.nets + bits, bits));
        assert!(is_part_in_order(&second.kept, &walking) && second.kept.len() as u64 >= net.nets - 1);
    }
}

/// How many sets of at most k of n drivers there are, counted one by one: the empty one, and for each driver those that
/// have no higher one.
fn count_of_sets(n: u64, k: u64) -> u64 {
    match k {
        0 => 1,
        _ => 1 + (0..n).map(|highest| count_of_sets(highest, k - 1)).sum::<u64>(),
    }
}

/// Every number of nets: the floor is the smallest q with 2^q at least the number of sets, by the library and by the
/// model.
#[test]
fn every_floor() {
    for n in 2..=48 {
        for k in classes(n) {
            let sets = count_of_sets(n, k);
            let q = (0..).find(|q| 1 << q >= sets).unwrap();
            assert_eq!(floor(n, k), q, "{n} {k}");
            for net in each_combination(n) {
                let vectors = whole_walking_set(net);
                let all = Shorter { kept: vectors.clone(), checks: 0, floor: q };
                shorten_gives(net, k, &vectors, 0, vectors.len(), &Ok(all));
            }
        }
    }
    assert_eq!([1, 2, 3].map(|k| count_of_sets(48, k)), [49, 1_177, 18_473]);
    assert_eq!([1, 2, 3].map(|k| floor(48, k)), [6, 11, 15]);
}

/// The words between those kept and the end of the set given are left as they were, and so is what follows.
#[test]
fn the_tail_of_the_lent_list() {
    let vectors = [0, 1, 2, 4, 8, 3, 5];
    let lent_after = |allowed: u64| {
        let (mut kept, mut shortened) = ([90, 91, 92, 93, 94, 95, 96, 97, 98], [99; SHORTENED_WORDS]);
        assert_eq!(raw::shorten(4, 2, &vectors, allowed, &mut kept, &mut shortened), 0);
        (kept, shortened)
    };
    assert_eq!(lent_after(7), ([1, 2, 4, 8, 94, 95, 96, 97, 98], [4, 7, 4]));
    assert_eq!(lent_after(2), ([0, 1, 2, 4, 8, 95, 96, 97, 98], [5, 2, 4]));
    assert_eq!(lent_after(0), ([0, 1, 2, 4, 8, 3, 5, 97, 98], [7, 0, 4]));
}

/// Makes the call, compares it with the model, and gives its number.
fn number(net: Network, k: u64, vectors: &[u64], room: usize) -> u64 {
    let answers = [0, 2, u64::MAX].map(|allowed| {
        let answer = model::shorten(net, k, vectors, allowed, room);
        shorten_gives(net, k, vectors, allowed, room, &answer);
        code(&answer)
    });
    assert!(answers.iter().all(|number| *number == answers[0]), "the budget turns nothing away");
    answers[0]
}

/// The same with as much room as is asked for.
fn number_of(net: Network, k: u64, vectors: &[u64]) -> u64 {
    number(net, k, vectors, vectors.len())
}

/// Row 5 at its two bounds, and the classes of row 6 for every number of nets.
#[test]
fn bounds_of_nets_and_class() {
    for net in each_combination(2) {
        for nets in [0, 1, 49, 50, 64, 1 << 32, (1 << 32) + 2, u64::MAX] {
            assert_eq!(number_of(Network { nets, ..net }, 1, &whole_walking_set(net)), 5);
        }
    }
    for net in (2..=48).flat_map(each_combination) {
        let vectors = whole_walking_set(net);
        let greatest = net.nets.min(3);
        assert_eq!([1, greatest].map(|k| number_of(net, k, &vectors)), [0; 2], "{net:?}");
        for k in [0, greatest + 1, 4, 5, 9, 10, net.nets + 1, (1 << 32) + 1, u64::MAX] {
            assert_eq!(number_of(net, k, &vectors), 6, "{net:?} {k}");
        }
        assert_eq!(number_of(net, net.nets, &vectors), if net.nets <= 3 { 0 } else { 6 }, "{net:?}");
    }
}

#[test]
fn bounds_of_level_and_gate() {
    for net in each_combination(4) {
        let vectors = whole_walking_set(net);
        for other in [2, 3, 256, 1 << 32, (1 << 32) + 1, u64::MAX] {
            assert_eq!(number_of(Network { level: other, ..net }, 2, &vectors), 17);
            assert_eq!(number_of(Network { gate: other, ..net }, 2, &vectors), 20);
        }
    }
}

/// One vector is enough for row 7, and passes for no class: the fewest that do are two.
#[test]
fn bounds_of_the_vectors() {
    for net in each_combination(2) {
        let walking = walking_vectors(net);
        assert_eq!([0, 1, 2].map(|count| number_of(net, 1, &walking[..count])), [7, 13, 0]);
        for (count, expected) in [(64, 0), (65, 7), (66, 7), (200, 7)] {
            let vectors: Vec<u64> = walking.iter().copied().cycle().take(count).collect();
            assert_eq!(number_of(net, 1, &vectors), expected);
        }
    }
    for net in [2, 4, 47, 48].into_iter().flat_map(each_combination) {
        for place in [0, net.nets as usize] {
            let mut vectors = whole_walking_set(net);
            vectors.insert(place, 1 << (net.nets - 1));
            assert_eq!(number_of(net, 1, &vectors), 0);
            for bit in [net.nets, 63] {
                vectors[place] = 1 << bit;
                assert_eq!(number_of(net, 1, &vectors), 8);
            }
        }
    }
}

/// Row 12 is on the set given, also if less is kept. Row 13 is on it too.
#[test]
fn bounds_of_the_room_and_of_the_set() {
    for net in each_combination(4) {
        let (whole, walking) = (whole_walking_set(net), walking_vectors(net));
        let twice = [&whole[..], &whole].concat();
        for k in classes(4) {
            assert_eq!(number(net, k, &whole, 5), 0);
            assert_eq!([0, 1, 4].map(|room| number(net, k, &whole, room)), [12; 3]);
            assert_eq!([0, 5, 9, 10, 11].map(|room| number(net, k, &twice, room)), [12, 12, 12, 0, 0]);
            assert_eq!([0, 2].map(|first| number_of(net, k, &[&walking[first..], &walking[2..]].concat())), [0, 13]);
        }
    }
}

/// All rows at once, and then without the first, without the first two, and so on: the first that is left is answered.
#[test]
fn the_order_of_the_rows() {
    for good in each_combination(4) {
        let walking = walking_vectors(good);
        let (too_high, passed) = (vec![walking[0] | 1 << 4; 65], whole_walking_set(good));
        let no_nets = Network { nets: 1, level: 2, gate: 2 };
        let (no_level, no_gate) = (Network { nets: 4, ..no_nets }, Network { gate: 2, ..good });
        assert_eq!(number(no_nets, 4, &too_high, 0), 5);
        assert_eq!(number(no_level, 4, &too_high, 0), 6);
        assert_eq!(number(no_level, 3, &too_high, 0), 17);
        assert_eq!(number(no_gate, 3, &too_high, 0), 20);
        assert_eq!(number(good, 3, &too_high, 0), 7);
        assert_eq!(number(good, 3, &too_high[1..], 0), 8);
        assert_eq!(number(good, 3, &walking[1..], 2), 12);
        assert_eq!(number(good, 3, &walking[1..], 3), 13);
        assert_eq!(number(good, 3, &passed, 5), 0);
    }
}
