//! Turning and turning back: every small set and every small list of sequential words, random ones of every number of
//! nets and vectors, both sides of each row's bound, and the order of the rows. Compared with the model, and with what
//! must hold of any turning, bit by bit; and each call after the other.

mod support;

use fontarelga::raw;
use model::network::all_lists;
use model::{turn, turn_back};
use support::boards::low_bits;
use support::calls::*;
use support::generator::Generator;

/// Bit `place` of a word.
fn bit(word: u64, place: usize) -> u64 {
    word >> place & 1
}

/// Said without the model: bit t of sequential word i is bit i of vector t, and no word has another.
fn assert_exchanged(n: u64, vectors: &[u64], words: &[u64]) {
    assert_eq!(words.len() as u64, n);
    for (i, word) in words.iter().enumerate() {
        let same = |t: usize| bit(*word, t) == vectors.get(t).map_or(0, |vector| bit(*vector, i));
        assert!((0..64).all(same), "{n} {vectors:?} {words:?}");
    }
    assert!(vectors.iter().all(|vector| vector & !low_bits(n) == 0));
}

/// The sequential words of a set that is admitted, by the library and by the model, with `longer` words of room beyond
/// them; and the set back from them.
fn try_set(n: u64, vectors: &[u64], longer: usize) -> Vec<u64> {
    let words = turn(n, vectors, n as usize + longer).expect("an admitted set");
    turn_gives(n, vectors, n as usize + longer, &Ok(words.clone()));
    assert_exchanged(n, vectors, &words);
    turn_back_gives(n, vectors.len() as u64, &words, vectors.len() + longer, &Ok(vectors.to_vec()));
    words
}

/// The set of sequential words that are admitted, by the library and by the model, with `longer` words of room beyond
/// it; and the words back from it.
fn try_words(count: u64, words: &[u64], longer: usize) -> Vec<u64> {
    let (n, room) = (words.len() as u64, count as usize + longer);
    let vectors = turn_back(n, count, words, room).expect("admitted words");
    turn_back_gives(n, count, words, room, &Ok(vectors.clone()));
    assert_eq!(vectors.len() as u64, count);
    assert_exchanged(n, &vectors, words);
    turn_gives(n, &vectors, n as usize + longer, &Ok(words.to_vec()));
    vectors
}

#[test]
fn every_small_set() {
    let mut sets = 0;
    for (n, longest) in [(2, 6), (3, 4), (4, 3), (5, 2)] {
        for (i, vectors) in (1..=longest).flat_map(|length| all_lists(1 << n, length)).enumerate() {
            try_set(n, &vectors, i % 3);
            sets += 1;
        }
    }
    println!("sets turned and turned back: {sets}");
    assert_eq!(sets, 4 * (4096 - 1) / 3 + 8 * (4096 - 1) / 7 + 16 * (4096 - 1) / 15 + 32 + 1024);
}

#[test]
fn every_small_list_of_sequential_words() {
    let mut lists = 0;
    for (n, most) in [(2, 6), (3, 4), (4, 3), (5, 2), (6, 2)] {
        for count in 1..=most {
            for (i, words) in all_lists(1 << count, n).iter().enumerate() {
                try_words(count, words, i % 3);
                lists += 1;
            }
        }
    }
    println!("lists of sequential words turned back and turned: {lists}");
    assert_eq!(lists, 4 * (4096 - 1) / 3 + 8 * (4096 - 1) / 7 + 16 * (4096 - 1) / 15 + 32 + 1024 + 64 + 4096);
}

/// Words of this many bits: any, with few ones, with few zeros, or with the highest bit set.
fn random_words(g: &mut Generator, bits: u64, length: usize) -> Vec<u64> {
    let style = g.below(4);
    let word = |g: &mut Generator| match style {
        0 => g.word(),
        1 => g.word() & g.word() & g.word(),
        2 => g.word() | g.word() | g.word(),
        _ => g.word() | 1 << (bits - 1),
    };
    (0..length).map(|_| word(g) & low_bits(bits)).collect()
}

/// Every number of nets with every number of vectors.
#[test]
fn random_sets_and_words_of_every_size() {
    let g = &mut Generator::new(61);
    for (n, count) in (2..=48).flat_map(|n| (1..=64).map(move |count| (n, count))) {
        let (vectors, words) = (random_words(g, n, count), random_words(g, count as u64, n as usize));
        try_set(n, &vectors, g.below(3));
        try_words(count as u64, &words, g.below(3));
    }
}

#[test]
fn random_sets_and_words_of_the_greatest_size() {
    let g = &mut Generator::new(62);
    for _ in 0..1000 {
        let (vectors, words) = (random_words(g, 48, 64), random_words(g, 64, 48));
        try_set(48, &vectors, g.below(3));
        try_words(64, &words, g.below(3));
    }
}

/// A single 1 in every place of every size, and all places but one: the words of a single net and a single vector
/// change.
#[test]
fn every_place_alone() {
    for (n, count) in [(2, 64), (48, 1), (48, 2), (48, 64), (47, 63), (3, 5), (33, 32)] {
        for (i, t) in (0..n).flat_map(|i| (0..count).map(move |t| (i, t))) {
            let (mut vectors, mut words) = (vec![0; count as usize], vec![0; n as usize]);
            (vectors[t as usize], words[i as usize]) = (1 << i, 1 << t);
            assert_eq!(try_set(n, &vectors, 0), words);
            let turned_over =
                |list: &[u64], bits: u64| list.iter().map(|word| !word & low_bits(bits)).collect::<Vec<_>>();
            assert_eq!(try_set(n, &turned_over(&vectors, n), 0), turned_over(&words, count));
        }
    }
}

/// No ones, and nothing else: with 64 vectors every bit of the sequential words is set.
#[test]
fn zeros_and_ones() {
    for (n, count) in [(2, 1), (2, 64), (48, 1), (48, 63), (48, 64)] {
        let (none, all) = (vec![0; count as usize], vec![low_bits(n); count as usize]);
        assert_eq!(try_set(n, &none, 1), vec![0; n as usize]);
        assert_eq!(try_set(n, &all, 1), vec![low_bits(count); n as usize]);
        assert_eq!(try_words(count, &vec![low_bits(count); n as usize], 1), all);
    }
    assert_eq!(fontarelga::turn(48, &[low_bits(48); 64]), Ok(vec![u64::MAX; 48]));
    assert_eq!(fontarelga::turn_back(48, 64, &[u64::MAX; 48]), Ok(vec![low_bits(48); 64]));
}

/// The wrappers give what the calls on lent lists do.
#[test]
fn wrappers() {
    let g = &mut Generator::new(63);
    for _ in 0..500 {
        let (n, count) = (2 + g.below(47) as u64, 1 + g.below(64) as u64);
        let vectors = random_words(g, n, count as usize);
        let words = fontarelga::turn(n, &vectors).unwrap();
        assert_eq!(turn(n, &vectors, 48), Ok(words.clone()));
        assert_eq!(fontarelga::turn_back(n, count, &words), Ok(vectors));
    }
}

/// What follows the words written is left as it was.
#[test]
fn the_tails_of_the_lent_lists() {
    let (mut words, mut vectors) = ([90, 91, 92, 93, 94, 95], [80, 81, 82, 83, 84, 85, 86]);
    assert_eq!(raw::turn(4, &[0, 1, 2, 4, 8], &mut words), 0);
    assert_eq!(words, [2, 4, 8, 16, 94, 95]);
    assert_eq!(raw::turn_back(4, 5, &words[..4], &mut vectors), 0);
    assert_eq!(vectors, [0, 1, 2, 4, 8, 85, 86]);
    assert_eq!([raw::turn(4, &[16], &mut words), raw::turn_back(4, 5, &[32; 4], &mut vectors)], [8; 2]);
    assert_eq!((words, vectors), ([2, 4, 8, 16, 94, 95], [0, 1, 2, 4, 8, 85, 86]));
}

/// Makes *turn*, compares it with the model, and gives its number.
fn turn_number(n: u64, vectors: &[u64], room: usize) -> u64 {
    let answer = turn(n, vectors, room);
    turn_gives(n, vectors, room, &answer);
    code(&answer)
}

/// The same for *turn back*.
fn turn_back_number(n: u64, count: u64, words: &[u64], room: usize) -> u64 {
    let answer = turn_back(n, count, words, room);
    turn_back_gives(n, count, words, room, &answer);
    code(&answer)
}

/// Numbers that are no net count, some of which would be one in fewer bits.
const NO_NETS: [u64; 9] = [0, 1, 49, 50, 64, 256 + 4, 1 << 32, (1 << 32) + 4, u64::MAX];
/// Numbers that are no vector count.
const NO_COUNT: [u64; 8] = [0, 65, 66, 128, 256 + 5, 1 << 32, (1 << 32) + 5, u64::MAX];

#[test]
fn bounds_of_the_net_count() {
    for n in NO_NETS {
        assert_eq!([turn_number(n, &[1], 64), turn_back_number(n, 1, &[1; 4], 64)], [5; 2]);
        let as_many_words = vec![1; n.min(64) as usize];
        assert_eq!(turn_back_number(n, 1, &as_many_words, 64), 5);
    }
    for n in 2..=48 {
        assert_eq!([turn_number(n, &[1], 64), turn_back_number(n, 1, &vec![1; n as usize], 64)], [0; 2]);
    }
}

#[test]
fn bounds_of_the_vector_count() {
    for (length, number) in [(0, 7), (1, 0), (2, 0), (63, 0), (64, 0), (65, 7), (66, 7), (200, 7)] {
        assert_eq!(turn_number(2, &vec![3; length], 64), number);
    }
    for count in 1..=64 {
        assert_eq!(turn_back_number(3, count, &[1, 0, 1], 64), 0);
    }
    for count in NO_COUNT {
        assert_eq!(turn_back_number(3, count, &[1, 0, 1], 64), 7);
    }
}

/// As many sequential words as nets, and no other number.
#[test]
fn bounds_of_the_number_of_words() {
    for n in [2, 3, 5, 47, 48] {
        for length in 0..=66 {
            let expected = if length == n { 0 } else { 7 };
            assert_eq!(turn_back_number(n, 64, &vec![u64::MAX; length as usize], 64), expected);
        }
    }
}

/// A bit at n in each vector, and a bit at the count in each word. With 64 vectors a word can have no such bit.
#[test]
fn bounds_of_the_bits() {
    for n in [2, 3, 47, 48] {
        for place in 0..3 {
            let with_bit = |bit: u64| (0..3).map(|t| if t == place { 1 << bit } else { 0 }).collect::<Vec<u64>>();
            let numbers = [n - 1, n, n + 1, 63].map(|bit| turn_number(n, &with_bit(bit), 64));
            assert_eq!(numbers, [0, 8, 8, 8]);
        }
    }
    for (n, count) in (2..=5).flat_map(|n| (1..=64).map(move |count| (n, count))) {
        for place in 0..n {
            let with_bit = |bit: u64| (0..n).map(|i| if i == place { 1 << bit } else { 0 }).collect::<Vec<u64>>();
            assert_eq!(turn_back_number(n, count, &with_bit(count - 1), 64), 0);
            for bit in count..64 {
                assert_eq!(turn_back_number(n, count, &with_bit(bit), 64), 8);
            }
        }
    }
    assert_eq!(turn_back_number(48, 64, &[u64::MAX; 48], 64), 0);
    assert_eq!(turn_back_number(48, 63, &[u64::MAX; 48], 64), 8);
}

/// Room for a word a net, and for a word a vector.
#[test]
fn bounds_of_the_room() {
    for (n, count) in [(2, 1), (2, 64), (3, 5), (48, 1), (48, 64)] {
        let (vectors, words) = (vec![1; count as usize], vec![1; n as usize]);
        assert_eq!([0, n - 1, n, n + 1].map(|room| turn_number(n, &vectors, room as usize)), [12, 12, 0, 0]);
        let back = |room: u64| turn_back_number(n, count, &words, room as usize);
        assert_eq!([0, count - 1, count, count + 1].map(back), [12, 12, 0, 0]);
    }
}

/// All rows at once, and then without the first, without the first two, and so on: the first that is left is answered.
#[test]
fn the_order_of_the_rows() {
    let too_high = [16; 65];
    assert_eq!(turn_number(1, &too_high, 0), 5);
    assert_eq!(turn_number(4, &too_high, 0), 7);
    assert_eq!(turn_number(4, &too_high[1..], 0), 8);
    assert_eq!(turn_number(4, &[15; 64], 3), 12);
    assert_eq!(turn_number(4, &[15; 64], 4), 0);

    for (count, words) in [(0, &too_high[..4]), (65, &too_high[..4]), (4, &too_high[..3]), (4, &too_high[..5])] {
        assert_eq!(turn_back_number(1, count, words, 0), 5);
        assert_eq!(turn_back_number(4, count, words, 0), 7);
    }
    assert_eq!(turn_back_number(4, 4, &too_high[..4], 0), 8);
    assert_eq!(turn_back_number(4, 5, &too_high[..4], 4), 12);
    assert_eq!(turn_back_number(4, 5, &too_high[..4], 5), 0);
}
