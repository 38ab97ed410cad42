//! Nanoseconds a call for the weight of a form, kind by kind.

use super::{best_of, print, print_head};
use fir_tests::forms::weights::{self, weigh, Weigher};
use fir_tests::forms::{core, literal, mixture, Form};
use fir_tests::random::Random;
use std::hint::black_box;

pub const FORMS: usize = 1_000_000;
pub const REPETITIONS: usize = 100;

/// Weighs each form and adds up the weights, and the places where it is turned down. All versions
/// are called from this one loop: where a loop lies in memory can cost a call a tenth of its time.
#[inline(never)]
fn weigh_all(forms: &[Form], weigher: Weigher) -> u32 {
    let mut sum = 0;
    for form in forms {
        let mut weight = 0;
        let answer = weigh(weigher, *form, &mut weight);
        sum += weight + answer.place;
    }
    sum
}

fn measure(what: &str, mut form: impl FnMut(&mut Random) -> Form) {
    let mut random = Random::new(12);
    let forms: Vec<Form> = (0..FORMS).map(|_| form(&mut random)).collect();
    let [mut by_core, mut by_table, mut by_count_ones] = [0; 3];
    let times = best_of(
        REPETITIONS,
        [
            &mut || by_core = weigh_all(&forms, black_box(core::FORM_WEIGHT)),
            &mut || by_table = weigh_all(&forms, black_box(weights::by_table)),
            &mut || by_count_ones = weigh_all(&forms, black_box(weights::by_count_ones)),
        ],
    );
    assert_eq!([by_table, by_count_ones], [by_core; 2]);
    print(what, times, FORMS);
}

/// Masks that meet at one place.
fn overlapping(random: &mut Random) -> Form {
    let Form { plus, minus } = mixture::form(random);
    let place = 1 << random.below(32);
    Form {
        plus: plus | place,
        minus: minus | place,
    }
}

pub fn run() {
    print_head("kind", &["table", "count"]);
    measure("random", mixture::form);
    measure("canonical", |random| {
        literal::canonical(mixture::uniform(random))
    });
    measure("no digit 0", |random| {
        let plus = random.bits() as u32;
        Form { plus, minus: !plus }
    });
    measure("all digits 0", |_| Form { plus: 0, minus: 0 });
    measure("turned down", overlapping);
}
