//! Listing and counting written by hand for speed: the core's time is compared with this. One pass
//! over the links, without dead ends and without sorting.

use super::links::{canonical, lowest, Links, Ways};
use super::MOST_FORMS;
use crate::answer::{Answer, ACCEPTED};
use std::mem::MaybeUninit;

#[inline(never)]
pub fn form_count(n: i32, count: &mut u32) -> Answer {
    let links = Links::of(canonical(n));
    let mut left = links.opposite | links.equal;
    let mut ways = Ways::START;
    while left != 0 {
        let bit = lowest(left);
        left ^= bit;
        ways.reach(bit);
        ways.pass(links.opposite & bit != 0);
    }
    *count = ways.not_taken as u32;
    ACCEPTED
}

type Block = [u32; 8];
const BLOCK: usize = 8;
type Buffer = [MaybeUninit<u32>; MOST_FORMS + BLOCK];

/// Writes the first `count` numbers plus `bit` again, from `at` on. The stretches may overlap.
///
/// # Safety
/// `at + count` is at most 1597, and the first `max(count, 8)` elements are filled.
#[inline(always)]
unsafe fn repeat(numbers: *mut u32, at: usize, count: usize, bit: u32) {
    let read = |i| numbers.add(i).cast::<Block>().read_unaligned();
    let write = |i, block: Block| {
        let block = block.map(|number| number + bit);
        numbers.add(at + i).cast::<Block>().write_unaligned(block);
    };
    let first = read(0);
    let mut from = count;
    while from > BLOCK {
        from -= BLOCK;
        write(from, read(from));
    }
    write(0, first);
}

/// Fills the buffer with the sums of links taken, in rising order, and gives their number.
#[inline(always)]
fn sums(links: Links, buffer: &mut Buffer) -> usize {
    let numbers = buffer.as_mut_ptr().cast::<u32>();
    // SAFETY: the buffer has a block of room, and a first one filled. With links that are never
    // taken left out, each sum written is of some form, and there are at most 1597.
    unsafe {
        numbers.cast::<Block>().write_unaligned([0; BLOCK]);
        let mut left = links.ever_taken();
        let mut ways = Ways::START;
        while left != 0 {
            let bit = lowest(left);
            left ^= bit;
            ways.reach(bit);
            repeat(numbers, ways.not_taken, ways.taken, bit);
            ways.pass(links.opposite & bit != 0);
        }
        ways.not_taken
    }
}

/// A mask of the canonical form, and the table for that mask of all forms.
type Target = (u32, *mut u32);

/// Writes `N` elements of both tables, from `at` on: the mask less each number.
///
/// # Safety
/// There are `at + N` numbers, and the tables have as many elements.
#[inline(always)]
unsafe fn write_block<const N: usize>(numbers: *const u32, at: usize, targets: [Target; 2]) {
    let block = numbers.add(at).cast::<[u32; N]>().read_unaligned();
    for (mask, table) in targets {
        let block = block.map(|number| mask - number);
        table.add(at).cast::<[u32; N]>().write_unaligned(block);
    }
}

/// Writes `count` elements of both tables, in blocks of which the last two may overlap.
///
/// # Safety
/// There are `count` numbers, at least `N`, and the tables have as many elements.
#[inline(always)]
unsafe fn write<const N: usize>(numbers: *const u32, count: usize, targets: [Target; 2]) {
    let last = count - N;
    for at in (0..last).step_by(N) {
        write_block::<N>(numbers, at, targets);
    }
    write_block::<N>(numbers, last, targets);
}

#[inline(never)]
pub fn minimal_forms(n: i32, plus: &mut [u32], minus: &mut [u32], count: &mut u32) -> Answer {
    if plus.len() < MOST_FORMS || minus.len() < MOST_FORMS {
        return Answer {
            refusal: 3,
            place: 0,
        };
    }
    let form = canonical(n);
    let mut buffer = [MaybeUninit::uninit(); MOST_FORMS + BLOCK];
    let forms = sums(Links::of(form), &mut buffer);
    let numbers = buffer.as_ptr().cast::<u32>();
    let targets = [
        (form.plus, plus.as_mut_ptr()),
        (form.minus, minus.as_mut_ptr()),
    ];
    // SAFETY: there are so many numbers, at most 1597, and the tables have room for 1597.
    unsafe {
        match forms {
            8.. => write::<8>(numbers, forms, targets),
            4.. => write::<4>(numbers, forms, targets),
            2.. => write::<2>(numbers, forms, targets),
            _ => write::<1>(numbers, forms, targets),
        }
    }
    *count = forms as u32;
    ACCEPTED
}
