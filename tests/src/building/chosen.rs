//! The form that a choice names, without listing those before it.

use crate::forms::links::{canonical, lowest, Links, Ways};
use crate::forms::Form;

/// A link, and how many ways there are to take the links below it where it is not taken.
type Below = (u32, u32);

/// All links, lowest first, and their number.
#[inline(always)]
fn ways_below(links: Links) -> ([Below; 16], usize) {
    let mut list = [(0, 0); 16];
    let mut count = 0;
    let mut left = links.opposite | links.equal;
    let mut ways = Ways::START;
    while left != 0 {
        let bit = lowest(left);
        left ^= bit;
        ways.reach(bit);
        list[count & 15] = (bit, ways.not_taken as u32);
        count += 1;
        ways.pass(links.opposite & bit != 0);
    }
    (list, count)
}

/// The choice is below the number of forms. The forms stand in the rising order of the links taken,
/// so the highest link is settled first.
pub fn form(n: i32, choice: u32) -> Form {
    let first = canonical(n);
    if choice == 0 {
        return first;
    }
    let links = Links::of(first);
    let (list, count) = ways_below(links);
    let [mut rank, mut number, mut last_taken] = [choice, 0, 0];
    for (bit, ways) in list[..count].iter().rev() {
        let free = (links.opposite & bit != 0) != (last_taken == bit << 2);
        if free && rank >= *ways {
            rank -= ways;
            number |= bit;
            last_taken = *bit;
        }
    }
    Form {
        plus: first.plus - number,
        minus: first.minus - number,
    }
}
