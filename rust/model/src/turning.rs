//! Turning: parallel words into sequential ones and back, by the table of what each driver drives on each vector.

use crate::rows::{row_of_net_count, rows_of_sequential, rows_of_vectors, Rows};
use crate::words::{bit, word_of};

/// A line for each vector: `table[t][i]` is what driver i drives on vector t.
type Table = Vec<Vec<bool>>;

/// A parallel word has the bits of one vector, bit i for net i.
fn table_of_parallel(n: u64, vectors: &[u64]) -> Table {
    vectors.iter().map(|vector| (0..n).map(|i| bit(*vector, i)).collect()).collect()
}

/// A sequential word has the bits of one net, bit t for vector t.
fn table_of_sequential(count: u64, words: &[u64]) -> Table {
    (0..count).map(|t| words.iter().map(|word| bit(*word, t)).collect()).collect()
}

/// The sequential words of these vectors, net 0 first.
pub fn sequential_words(n: u64, vectors: &[u64]) -> Vec<u64> {
    let table = table_of_parallel(n, vectors);
    (0..n as usize).map(|i| word_of(table.iter().map(|line| line[i]))).collect()
}

/// The vectors, this many, that have these sequential words.
pub fn parallel_words(count: u64, words: &[u64]) -> Vec<u64> {
    table_of_sequential(count, words).into_iter().map(|line| word_of(line.into_iter())).collect()
}

pub fn rows_of_turn(n: u64, vectors: &[u64], room: usize) -> Rows<'_> {
    row_of_net_count(n).then(rows_of_vectors(n, vectors)).row(12, move || (room as u64) < n)
}

/// The call *turn*.
pub fn turn(n: u64, vectors: &[u64], room: usize) -> Result<Vec<u64>, u64> {
    rows_of_turn(n, vectors, room).admit()?;
    Ok(sequential_words(n, vectors))
}

pub fn rows_of_turn_back(n: u64, count: u64, words: &[u64], room: usize) -> Rows<'_> {
    row_of_net_count(n).then(rows_of_sequential(n, count, words)).row(12, move || (room as u64) < count)
}

/// The call *turn back*.
pub fn turn_back(n: u64, count: u64, words: &[u64], room: usize) -> Result<Vec<u64>, u64> {
    rows_of_turn_back(n, count, words, room).admit()?;
    Ok(parallel_words(count, words))
}

#[cfg(test)]
mod tests {
    use super::*;

    /// Net 0 is driven to 1 on vector 1, net 1 on vector 2, net 2 on vector 3 and net 3 on vector 4.
    #[test]
    fn the_walking_set_of_four_nets() {
        assert_eq!(turn(4, &[0, 1, 2, 4, 8], 4), Ok(vec![2, 4, 8, 16]));
        assert_eq!(turn_back(4, 5, &[2, 4, 8, 16], 5), Ok(vec![0, 1, 2, 4, 8]));
        assert_eq!(turn_back(4, 6, &[2, 4, 8, 16], 6), Ok(vec![0, 1, 2, 4, 8, 0]));
    }

    /// The counting sequence: nets 0 to 3 are driven to 0 0 1, 0 1 0, 0 1 1 and 1 0 0, first vector first.
    #[test]
    fn a_set_that_is_not_its_own_turning() {
        assert_eq!(turn(4, &[8, 6, 5], 4), Ok(vec![4, 2, 6, 1]));
        assert_eq!(turn_back(4, 3, &[4, 2, 6, 1], 3), Ok(vec![8, 6, 5]));
        assert_eq!(turn(2, &[1, 1, 3], 2), Ok(vec![7, 4]));
    }

    /// The greatest words: 64 vectors, and 48 nets.
    #[test]
    fn the_last_bit_of_a_word() {
        let (mut vectors, mut words) = (vec![0; 64], vec![0; 48]);
        (vectors[63], words[47]) = (1 << 47, 1 << 63);
        assert_eq!(turn(48, &vectors, 48), Ok(words.clone()));
        assert_eq!(turn_back(48, 64, &words, 64), Ok(vectors));
        assert_eq!(turn_back(48, 64, &[u64::MAX; 48], 64), Ok(vec![(1 << 48) - 1; 64]));
        assert_eq!(turn_back(48, 63, &words, 64), Err(8));
    }

    #[test]
    fn rows_by_hand() {
        let turned = |n: u64, vectors: &[u64], room: usize| turn(n, vectors, room).unwrap_err();
        assert_eq!([turned(1, &[], 0), turned(49, &[], 0)], [5; 2]);
        assert_eq!([turned(4, &[], 0), turned(4, &[16; 65], 0)], [7; 2]);
        assert_eq!([turned(4, &[16], 0), turned(4, &[0, 1 << 63], 0)], [8; 2]);
        assert_eq!(turned(4, &[15], 3), 12);

        let back = |n: u64, count: u64, words: &[u64], room: usize| turn_back(n, count, words, room).unwrap_err();
        assert_eq!([back(1, 0, &[], 0), back(49, 0, &[], 0)], [5; 2]);
        assert_eq!([0, 65, 256, u64::MAX].map(|count| back(2, count, &[1, 0], 0)), [7; 4]);
        assert_eq!([back(2, 1, &[2], 0), back(2, 1, &[2, 2, 2], 0)], [7; 2]);
        assert_eq!([back(2, 1, &[0, 2], 0), back(2, 63, &[1 << 63, 0], 0)], [8; 2]);
        assert_eq!([back(2, 1, &[0, 1], 0), back(2, 64, &[0, u64::MAX], 63)], [12; 2]);
    }
}
