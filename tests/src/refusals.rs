//! Which refusals have come up in a test, each counted.

use crate::answer::Answer;
use std::collections::HashSet;
use std::fmt::{Debug, Formatter, Result};

/// Past every refusal number.
const NUMBERS: usize = 15;

#[derive(Default)]
pub struct Refusals {
    pub refused: [usize; NUMBERS],
    /// `beside[a][b]`: a was returned, and b applied as well.
    pub beside: [[usize; NUMBERS]; NUMBERS],
    /// The places at which each was returned.
    pub places: [HashSet<u32>; NUMBERS],
}

/// Each that has come up: how often, and at how many places.
impl Debug for Refusals {
    fn fmt(&self, to: &mut Formatter) -> Result {
        let numbers = (0..NUMBERS).filter(|number| self.refused[*number] != 0);
        let often = numbers.map(|number| {
            let (count, places) = (self.refused[number], self.places[number].len());
            (number, (count, places))
        });
        to.debug_map().entries(often).finish()
    }
}

impl Refusals {
    /// All refusals that apply to a call; the first is returned.
    pub fn count(&mut self, refusals: &[Answer]) {
        let number = refusals[0].refusal as usize;
        self.refused[number] += 1;
        self.places[number].insert(refusals[0].place);
        for other in &refusals[1..] {
            self.beside[number][other.refusal as usize] += 1;
        }
    }

    /// Each of these, such as "3-9", has come up often.
    pub fn assert_pairs(&self, pairs: &str, often: usize) {
        for pair in pairs.split(' ') {
            let (first, second) = pair.split_once('-').unwrap();
            let [first, second] = [first, second].map(|number| number.parse::<usize>().unwrap());
            let count = self.beside[first][second];
            println!("{first} beside {second}: {count}");
            assert!(count > often, "{pair}: {count}");
        }
    }
}
