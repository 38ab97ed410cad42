//! Rows by value, for speed: chains, and a filter for the search.
//!
//! A number and its odd part, turned to binary32, have the same mantissa, whether or not they were
//! rounded. Its upper bits are the cell of the filter, which has a mark for each row in it.

use super::call::Row;
use crate::network::{MOST_ROWS, PLUS};
use std::mem::MaybeUninit;

/// The cells of the filter and the chains, at most.
const CELLS: usize = 1 << 16;
const CHAINS: usize = 1 << 13;
/// Rows looked at together.
pub const BLOCK: usize = 8;

/// The memory of an index. Only as much is cleared as the rows may need.
pub struct Room {
    filter: [MaybeUninit<u8>; CELLS],
    heads: [MaybeUninit<u16>; CHAINS],
    links: [MaybeUninit<u16>; MOST_ROWS],
    values: [MaybeUninit<u32>; MOST_ROWS],
}

impl Room {
    #[inline(always)]
    pub fn new() -> Self {
        Room {
            filter: [MaybeUninit::uninit(); CELLS],
            heads: [MaybeUninit::uninit(); CHAINS],
            links: [MaybeUninit::uninit(); MOST_ROWS],
            values: [MaybeUninit::uninit(); MOST_ROWS],
        }
    }
}

pub struct Index<'a> {
    room: &'a mut Room,
    rows: &'a mut [Row],
    pub count: usize,
    pub filter_bits: u32,
    chain_bits: u32,
}

impl<'a> Index<'a> {
    /// Row 0 alone; at most `most` rows will come.
    pub fn new(room: &'a mut Room, rows: &'a mut [Row], most: usize) -> Self {
        let bits = most.next_power_of_two().trailing_zeros();
        let mut index = Index {
            room,
            rows,
            count: 0,
            filter_bits: (bits + 6).min(CELLS.trailing_zeros()),
            chain_bits: (bits + 1).min(CHAINS.trailing_zeros()),
        };
        let (cells, chains) = (1 << index.filter_bits, 1 << index.chain_bits);
        index.room.filter[..cells].fill(MaybeUninit::new(0));
        index.room.heads[..chains].fill(MaybeUninit::new(0));
        index.add([0, 0, 0, PLUS, 1]);
        index
    }

    #[inline(always)]
    fn chain(&self, value: u32) -> usize {
        (value.wrapping_mul(0x9e37_79b1) >> (32 - self.chain_bits)) as usize
    }

    #[inline(always)]
    fn cell(&self, number: i32) -> usize {
        cell(number, self.filter_bits) as usize
    }

    /// The values of all rows, and something to the end of the last block.
    #[inline(always)]
    pub fn values(&self) -> &[u32] {
        let filled = self.count.next_multiple_of(BLOCK);
        // SAFETY: a block that holds a row is filled to its end.
        unsafe { self.room.values[..filled].assume_init_ref() }
    }

    #[inline(always)]
    pub fn value(&self, row: usize) -> u32 {
        // SAFETY: only rows that have been added are asked for.
        unsafe { self.room.values[row].assume_init() }
    }

    #[inline(always)]
    pub fn mark(&self, cell: usize) -> u8 {
        // SAFETY: all cells below 2^filter_bits have been cleared, and a cell is below that.
        unsafe { self.room.filter[cell].assume_init() }
    }

    pub fn add(&mut self, row: Row) {
        let (value, number) = (row[4], self.count);
        self.rows[number] = row;
        if number % BLOCK == 0 {
            // The rest of a block holds something too.
            self.room.values[number..number + BLOCK].fill(MaybeUninit::new(value));
        }
        self.room.values[number].write(value);
        let (cell, chain) = (self.cell(value as i32), self.chain(value));
        let marks = self.mark(cell) | mark(number);
        self.room.filter[cell].write(marks);
        self.room.links[number] = self.room.heads[chain];
        self.room.heads[chain].write(number as u16 + 1);
        self.count += 1;
    }

    #[inline(always)]
    pub fn row_with(&self, value: u32) -> Option<usize> {
        // SAFETY: the heads have been cleared, and the links of rows that are there are filled.
        let mut next = unsafe { self.room.heads[self.chain(value)].assume_init() };
        while next != 0 {
            let row = next as usize - 1;
            if self.value(row) == value {
                return Some(row);
            }
            next = unsafe { self.room.links[row].assume_init() };
        }
        None
    }
}

/// The mark of a row: the earlier the row, the higher the bit.
#[inline(always)]
pub fn mark(row: usize) -> u8 {
    let bits = usize::BITS - row.leading_zeros();
    0x80 >> bits.min(7)
}

/// The cell of a number and of its odd part alike, whatever its sign.
#[inline(always)]
pub fn cell(number: i32, bits: u32) -> u32 {
    ((number as f32).to_bits() << 9) >> ((32 - bits) & 31)
}
