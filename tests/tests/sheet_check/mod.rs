//! Runs of the sheet program, each compared with the literal sheet, byte for byte.

use fir_tests::sheet::input::Input;
use fir_tests::sheet::literal;
use fir_tests::sheet::program::{run_sheet, Delivery};
use std::collections::HashSet;

/// What came up, counted by the literal version.
#[derive(Default)]
pub struct Tally {
    pub runs: usize,
    pub accepted: usize,
    /// By number.
    pub refused: [usize; 13],
    pub places: HashSet<u32>,
    /// The refusal that was returned, and another that applies too.
    pub beside: [[usize; 13]; 13],
    pub longest: usize,
}

impl Tally {
    fn count(&mut self, input: &Input, size: usize) {
        self.runs += 1;
        self.longest = self.longest.max(size);
        let refusals = literal::refusals(input);
        let Some((first, others)) = refusals.split_first() else {
            self.accepted += 1;
            return;
        };
        self.refused[first.refusal as usize] += 1;
        self.places.insert(first.place);
        for other in others {
            self.beside[first.refusal as usize][other.refusal as usize] += 1;
        }
    }

    pub fn print(&self) {
        println!("{} runs, {} accepted", self.runs, self.accepted);
        println!("refused {:?}", self.refused);
        let places = self.places.len();
        println!("{places} places, longest sheet {} bytes", self.longest);
    }
}

/// The program ends by itself with status 0, says nothing on standard error and prints the sheet.
pub fn check_delivered(input: &Input, delivery: Delivery, tally: &mut Tally) {
    let ended = run_sheet(input, delivery);
    let wanted = literal::sheet(input);
    let shown = input.show();
    assert_eq!(ended.status, Some(0), "{shown}: {}", ended.errors);
    assert_eq!(ended.errors, "", "{shown}");
    if ended.out != wanted {
        let out = String::from_utf8_lossy(&ended.out);
        let wanted = String::from_utf8_lossy(&wanted);
        panic!("{shown}\nprinted:\n{out}\nwanted:\n{wanted}");
    }
    tally.count(input, wanted.len());
}

pub fn check(input: &Input, tally: &mut Tally) {
    check_delivered(input, Delivery::AtOnce, tally);
}
