//! Lists lent to a call, and what they must hold after it.

use std::fmt::Debug;

/// A list filled with words that no call writes by chance, and a copy of it as it was lent.
pub struct Lent<T> {
    before: Vec<T>,
    now: Vec<T>,
}

impl Lent<u64> {
    pub fn words(room: usize) -> Self {
        Lent::of((0..room as u64).map(|i| 0xFACE_0000_0000_0000 + i).collect())
    }
}

impl Lent<u8> {
    pub fn bytes(room: usize) -> Self {
        Lent::of((0..room).map(|i| 0xA0 ^ (i as u8)).collect())
    }
}

impl<T: Clone + PartialEq + Debug> Lent<T> {
    pub fn of(before: Vec<T>) -> Self {
        Lent { now: before.clone(), before }
    }

    pub fn lend(&mut self) -> &mut [T] {
        &mut self.now
    }

    /// The front, for a call on a list of fixed length. What follows it is not lent, and must stay as it was.
    pub fn lend_front<const LENGTH: usize>(&mut self) -> &mut [T; LENGTH] {
        self.now.first_chunk_mut().expect("a front of this length")
    }

    /// The front is what was written, and the tail is as it was. After a refusal nothing was written.
    pub fn assert_holds(&self, written: &[T], of: &dyn Debug) {
        assert_eq!(&self.now[..written.len()], written, "written: {of:?}");
        assert_eq!(&self.now[written.len()..], &self.before[written.len()..], "not to be written: {of:?}");
    }
}

/// A list given to a call for reading. The call must leave it.
pub struct Given<'a, T> {
    list: &'a [T],
    copy: Vec<T>,
}

impl<'a, T: Clone + PartialEq + Debug> Given<'a, T> {
    pub fn of(list: &'a [T]) -> Self {
        Given { list, copy: list.to_vec() }
    }

    pub fn give(&self) -> &'a [T] {
        std::hint::black_box(self.list)
    }

    pub fn assert_unchanged(&self) {
        assert_eq!(std::hint::black_box(self.list), self.copy, "given for reading");
    }
}
