//! Classes below n; up to 3 the library looks up what a set reads. Readings that share a slot, pairs that come early
//! and late, the most sets, and the numbers of nets at which the library changes the size of its lists. All of each
//! gate and soft level and by the model, which compares all pairs.

mod support;

use model::checker::{sets_of_class, verdict};
use model::network::{read_along, response};
use model::rows::bad_class;
use model::{Network, Verdict};
use support::boards::*;
use support::calls::*;
use support::generator::Generator;
use support::networks::each_combination;

/// The remainder by this number gives the slot in which the library keeps a reading.
const SLOT_PRIME: u64 = 32749;

/// The classes below n that n nets have.
fn classes_below(n: u64) -> Vec<u64> {
    (1..n).filter(|k| !bad_class(n, *k)).collect()
}

/// The vectors along which net i drives word i, a bit a vector.
fn vectors_of(words: &[u64], length: usize) -> Vec<u64> {
    let vector = |t: usize| words.iter().enumerate().map(|(i, word)| (word >> t & 1) << i).sum();
    (0..length).map(vector).collect()
}

/// Words without a bit in common, each a multiple of the prime: so is every word of several of them together.
fn sharing_words(g: &mut Generator, length: usize, bits: usize) -> Vec<u64> {
    let mut free: Vec<u64> = (0..length as u64).collect();
    let mut words = Vec::new();
    while free.len() >= bits {
        let found = (0..400_000).any(|_| {
            g.shuffle(&mut free);
            let word: u64 = free[..bits].iter().map(|bit| 1 << bit).sum();
            if word % SLOT_PRIME == 0 {
                words.push(word);
                free.drain(..bits);
            }
            word % SLOT_PRIME == 0
        });
        if !found {
            break;
        }
    }
    words
}

/// Words each with a bit of its own, and some more among the highest 16: what up to three drivers drive tells them.
fn words_apart(g: &mut Generator, n: u64) -> Vec<u64> {
    (0..n).map(|i| 1 << i | (g.word() & g.word()) << 48).collect()
}

/// The verdict compared with the model's; a state of the class, read back where the set passes, of one receiver a net
/// and of more.
fn try_set(g: &mut Generator, net: Network, k: u64, vectors: &[u64]) -> Verdict {
    let shown = verdict(net, k, vectors);
    check_gives(net, k, vectors, &Ok(shown));
    for board in [net.into(), with_some_receivers(g, net)] {
        let state = state(g, &board, k);
        let right = response(net, vectors, &state);
        let read = if shown == Verdict::Pass { Ok(state) } else { Err(13) };
        diagnose_gives(&board, k, vectors, &right, board.receivers(), &read);
    }
    shown
}

/// The verdicts with OR and then with AND, at levels 0 and 1, tried as above. For AND the set has every bit turned.
fn try_each(g: &mut Generator, n: u64, k: u64, vectors: &[u64]) -> [Verdict; 4] {
    each_combination(n).map(|net| try_set(g, net, k, &for_gate(net, vectors)))
}

#[test]
fn all_readings_share_a_slot() {
    let g = &mut Generator::new(21);
    for bits in [5, 6, 8] {
        let words = sharing_words(g, 64, bits);
        let n = words.len() as u64;
        assert!(n >= 5, "{n} words of {bits} bits");
        let vectors = vectors_of(&words, 64);
        let classes = classes_below(n);
        let sets = sets_of_class(n, classes[classes.len() - 1]);
        for net in each_combination(n) {
            let vectors = for_gate(net, &vectors);
            let slot = |set: u64| read_along(net, set, &vectors) % SLOT_PRIME;
            assert!(sets[1..].iter().all(|set| slot(*set) == slot(sets[1])));
        }
        for k in classes {
            assert_eq!(try_each(g, n, k, &vectors), [Verdict::Pass; 4]);
        }
    }
}

/// One net more, which drives what one, two or three others together do: every class from 3 on shows a pair.
#[test]
fn pairs_in_a_shared_slot() {
    let g = &mut Generator::new(22);
    for case in 0..45 {
        let mut words = sharing_words(g, 64, 6);
        let together = (0..1 + case % 3).map(|_| *g.pick(&words)).fold(0, |all, word| all | word);
        let place = g.below(words.len() + 1);
        words.insert(place, together);
        let (n, vectors) = (words.len() as u64, vectors_of(&words, 64));
        for k in classes_below(n) {
            let shown = try_each(g, n, k, &vectors);
            assert!(k < 3 || !shown.contains(&Verdict::Pass), "{k} {words:?}");
        }
    }
}

/// Nets 42 to 44 drive the rows of a square of nine vectors and nets 45 to 47 its columns, all others a vector of their
/// own: three rows read as three columns do, and the three columns are the last set of all.
fn rows_and_columns() -> Vec<u64> {
    let rows = (0..3).map(|row| 0b111 << (42 + 3 * row));
    let columns = (0..3).map(|column| 0b001_001_001 << (42 + column));
    (0..42).map(|i| 1 << i).chain(rows).chain(columns).collect()
}

/// The pairs with OR at levels 0 and 1, and with AND at levels 1 and 0, from numbers.
fn pairs(at_0: (u64, u64), at_1: (u64, u64)) -> [Verdict; 4] {
    [at_0, at_1, at_1, at_0].map(|(a, b)| Verdict::Pair(a, b))
}

/// 48 nets, class 3: a pair with the first set, with the last, and between. With OR a net that always drives 1 reads as
/// one that floats at level 1, and at level 0 as itself with any other; with a net that never does it is the other way
/// round. With AND it is so of a net that always drives 0, and of one that never does, at the other level.
#[test]
fn early_and_late_pairs_of_48_nets() {
    let g = &mut Generator::new(23);
    let apart = words_apart(g, 48);
    let (first, last) = (1, 1 << 47);
    let with = |place: usize, word: u64| {
        let mut words = apart.clone();
        words[place] = word;
        vectors_of(&words, 64)
    };
    let together = |drivers: [usize; 3]| drivers.iter().fold(0, |all, driver| all | apart[*driver]);
    let at_both = |a: u64, b: u64| pairs((a, b), (a, b));
    let expected = [
        (with(0, u64::MAX), pairs((first, 3), (0, first))),
        (with(47, u64::MAX), pairs((last, first | last), (0, last))),
        (with(0, 0), pairs((0, first), (2, 3))),
        (with(47, 0), pairs((0, last), (first, first | last))),
        (with(20, 0), pairs((0, 1 << 20), (first, first | 1 << 20))),
        (with(1, apart[0]), at_both(1, 2)),
        (with(47, apart[46]), at_both(1 << 46, last)),
        (with(47, together([0, 1, 2])), at_both(7, last)),
        (with(47, together([44, 45, 46])), at_both(7 << 44, last)),
        (with(0, together([45, 46, 47])), at_both(first, first | 1 << 45)),
        (vectors_of(&rows_and_columns(), 64), at_both(7 << 42, 7 << 45)),
    ];
    for (vectors, pair) in expected {
        assert_eq!(try_each(g, 48, 3, &vectors), pair);
    }
}

/// All 18,473 sets of at most 3 of 48 drivers, and fewer with fewer nets or a smaller class.
#[test]
fn the_most_sets_pass() {
    let g = &mut Generator::new(24);
    for (n, k, sets) in [(48, 3, 18_473), (48, 2, 1_177), (20, 3, 1_351), (19, 3, 1_160)] {
        assert_eq!(sets_of_class(n, k).len(), sets);
        let vectors = vectors_of(&words_apart(g, n), 64);
        assert_eq!(try_each(g, n, k, &vectors), [Verdict::Pass; 4]);
    }
}

/// Every number of nets up to 24, with sets that often pass and sets that seldom do.
#[test]
fn every_number_of_nets() {
    let g = &mut Generator::new(25);
    let (mut passed, mut differing) = ([0; 4], 0);
    for case in 0..1000 {
        let (n, k) = (2 + case % 23, 1 + case / 23 % 3);
        if k < n {
            let (length, times) = (1 + g.below(64), 2 + g.below(6));
            let vectors = sparse_set(g, n, length, times);
            let shown = try_each(g, n, k, &vectors);
            passed.iter_mut().zip(shown).for_each(|(count, shown)| *count += u32::from(shown == Verdict::Pass));
            differing += u32::from(shown[0] != shown[1]);
            assert_eq!([shown[2], shown[3]], [shown[1], shown[0]], "a turned set tells with AND what it told with OR");
        }
    }
    println!(
        "random sets that pass with OR and AND at levels 0 and 1: {passed:?}; on which levels differ: {differing}"
    );
    assert!(passed.iter().all(|count| (140..860).contains(count)) && differing > 35);
}
