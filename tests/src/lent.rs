//! Memory lent to an entry, with elements on either side that show writes outside it.

use std::fmt::LowerHex;

/// Elements kept on either side of a table.
const GUARD: usize = 8;

/// An element that can be made of any bits.
pub trait Element: Copy + PartialEq + LowerHex {
    fn of(bits: u64) -> Self;
}

impl Element for i32 {
    fn of(bits: u64) -> Self {
        bits as i32
    }
}

impl Element for u32 {
    fn of(bits: u64) -> Self {
        bits as u32
    }
}

impl Element for u64 {
    fn of(bits: u64) -> Self {
        bits
    }
}

/// A table with its guards.
#[derive(Clone, PartialEq, Eq)]
pub struct Lent<T>(Vec<T>);

impl<T: Element> Lent<T> {
    /// So many elements, each with a mark of its own; another `mark` gives others.
    pub fn marked(length: usize, mark: u64) -> Self {
        let one = |i: usize| (mark ^ i as u64).wrapping_mul(0x9e37_79b9_7f4a_7c15);
        Lent((0..length + 2 * GUARD).map(|i| T::of(one(i))).collect())
    }

    /// A table that holds just these.
    pub fn holding(table: &[T]) -> Self {
        let mut lent = Lent::marked(table.len(), 0xa5a5_5a5a);
        lent.put(table);
        lent
    }

    /// Writes from the start of the table.
    pub fn put(&mut self, elements: &[T]) {
        self.table_mut()[..elements.len()].copy_from_slice(elements);
    }

    pub fn table(&self) -> &[T] {
        &self.0[GUARD..self.0.len() - GUARD]
    }

    pub fn table_mut(&mut self) -> &mut [T] {
        let end = self.0.len() - GUARD;
        &mut self.0[GUARD..end]
    }

    /// The first element that differs, counted from the start of the table, in words.
    pub fn differs(&self, wanted: &Self) -> Option<String> {
        let mut pairs = self.0.iter().zip(&wanted.0);
        let i = pairs.position(|(got, wanted)| got != wanted)?;
        let (got, wanted) = (self.0[i], wanted.0[i]);
        let element = i as i64 - GUARD as i64;
        Some(format!("{element}: {got:#x}, wanted {wanted:#x}"))
    }
}
