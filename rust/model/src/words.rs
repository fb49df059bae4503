//! The bits of a word.

/// Bit i of a word.
pub fn bit(word: u64, i: u64) -> bool {
    i < 64 && (word >> i) & 1 == 1
}

/// The word with these bits, bit 0 first.
pub fn word_of(bits: impl Iterator<Item = bool>) -> u64 {
    bits.enumerate().map(|(i, bit)| u64::from(bit) << i).sum()
}
