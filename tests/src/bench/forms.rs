//! Nanoseconds a form and a call for listing, and a call for counting.

use super::{best, print, print_head};
use fir_tests::answer::{Answer, ACCEPTED};
use fir_tests::forms::call::Lister;
use fir_tests::forms::{core, fast, mixture, MOST_FORMS};
use fir_tests::random::Random;
use std::hint::black_box;

const RANDOM_COEFFICIENTS: usize = 20_000;

/// What a lister leaves: its tables, and the number of all forms.
#[derive(PartialEq)]
struct Listed {
    plus: [u32; MOST_FORMS],
    minus: [u32; MOST_FORMS],
    forms: usize,
}

impl Listed {
    const NONE: Listed = Listed {
        plus: [0; MOST_FORMS],
        minus: [0; MOST_FORMS],
        forms: 0,
    };

    /// Lists each coefficient, all in the same tables.
    #[inline(always)]
    fn list(&mut self, coefficients: &[i32], lister: Lister) {
        self.forms = 0;
        for n in coefficients {
            let (plus, minus) = (black_box(&mut self.plus), black_box(&mut self.minus));
            let mut count = 0;
            let answer = lister(black_box(*n), plus, minus, &mut count);
            assert_eq!(answer, ACCEPTED);
            self.forms += count as usize;
        }
    }
}

/// Counts each coefficient's forms and gives the number of all.
#[inline(always)]
fn count(coefficients: &[i32], counter: fn(i32, &mut u32) -> Answer) -> usize {
    let mut forms = 0;
    for n in coefficients {
        let mut count = 0;
        assert_eq!(counter(black_box(*n), &mut count), ACCEPTED);
        forms += count as usize;
    }
    forms
}

fn measure(coefficients: &[i32]) {
    let [mut by_core, mut by_fast] = [Listed::NONE; 2];
    let listing = best([
        &mut || by_core.list(coefficients, core::minimal_forms),
        &mut || by_fast.list(coefficients, fast::minimal_forms),
    ]);
    assert!(by_core == by_fast);
    let (mut counted_by_core, mut counted_by_fast) = (0, 0);
    let counting = best([
        &mut || counted_by_core = count(coefficients, core::form_count),
        &mut || counted_by_fast = count(coefficients, fast::form_count),
    ]);
    assert_eq!([counted_by_core, counted_by_fast], [by_core.forms; 2]);
    print("listing, a form", listing, by_core.forms);
    print("listing, a call", listing, coefficients.len());
    print("counting, a call", counting, coefficients.len());
}

pub fn run() {
    let mut random = Random::new(9);
    let coefficients = (0..RANDOM_COEFFICIENTS).map(|_| mixture::uniform(&mut random));
    print_head("20000 random coefficients", &["fast"]);
    measure(&coefficients.collect::<Vec<i32>>());
    print_head("858993459, 1597 forms", &["fast"]);
    measure(&[858_993_459; 100]);
}
