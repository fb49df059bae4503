//! Turning and turning back, straight into the lent list.

use super::{admit_nets, admit_sequential, admit_vectors, along, code};

/// A way to write the words along these words, one for each of their lowest bits, as many as the list has room for. No
/// word has a bit beyond.
pub type Put = fn(&[u64], &mut [u64]);

/// Every bit by itself.
pub fn by_bits(words: &[u64], list: &mut [u64]) {
    (0..).zip(list).for_each(|(i, turned)| *turned = along(words, i));
}

/// The ones alone.
pub fn by_ones(words: &[u64], list: &mut [u64]) {
    list.fill(0);
    for (t, word) in words.iter().enumerate() {
        let mut rest = *word;
        while rest != 0 {
            list[rest.trailing_zeros() as usize] |= 1 << t;
            rest &= rest - 1;
        }
    }
}

/// The front of a list, of this many words, or row 12.
fn front(list: &mut [u64], count: u64) -> Result<&mut [u64], u64> {
    list.get_mut(..count as usize).ok_or(12)
}

fn turned(put: Put, nets: u64, vectors: &[u64], words: &mut [u64]) -> Result<(), u64> {
    admit_nets(nets)?;
    admit_vectors(nets, vectors)?;
    put(vectors, front(words, nets)?);
    Ok(())
}

fn turned_back(put: Put, nets: u64, count: u64, words: &[u64], vectors: &mut [u64]) -> Result<(), u64> {
    admit_nets(nets)?;
    admit_sequential(nets, count, words)?;
    put(words, front(vectors, count)?);
    Ok(())
}

/// The call *turn*, in one of the ways.
pub fn turn(put: Put, nets: u64, vectors: &[u64], words: &mut [u64]) -> u64 {
    code(turned(put, nets, vectors, words))
}

/// The call *turn back*, in one of the ways.
pub fn turn_back(put: Put, nets: u64, count: u64, words: &[u64], vectors: &mut [u64]) -> u64 {
    code(turned_back(put, nets, count, words, vectors))
}
