//! The core's minimal forms, and the fast version's, against the literal ones.

mod forms_check;

use fir_tests::forms::call::Call;
use fir_tests::forms::literal::{self, Digits};
use fir_tests::forms::{mixture, pattern, Form, MOST_FORMS};
use fir_tests::random::Random;
use forms_check::{check, check_form, check_listing, check_refused, Tally};
use std::collections::HashSet;

const RANDOM_COEFFICIENTS: usize = 100_000;
const RANDOM_MASKS: usize = 3_000_000;

/// The wanted forms, each as the sum of its terms.
fn figure(n: i32, forms: &[&[i32]]) {
    check(Call::new(n), &mut Tally::default());
    let mask = |terms: &[i32], sign: i32| {
        let of_sign = terms.iter().filter(|term| term.signum() == sign);
        of_sign.map(|term| term.unsigned_abs()).sum()
    };
    let form = |terms: &&[i32]| Form {
        plus: mask(terms, 1),
        minus: mask(terms, -1),
    };
    let forms: Vec<Form> = forms.iter().map(form).collect();
    assert_eq!(literal::minimal_forms(n), forms, "{n}");
    check_listing(Call::new(n), &forms);
}

fn counted(n: i32, forms: usize, weight: u32) {
    let mut tally = Tally::default();
    check(Call::new(n), &mut tally);
    assert_eq!((tally.forms, tally.heaviest), (forms, weight), "{n}");
}

#[test]
fn figures_of_forms() {
    let (a, b, c) = ([64, -16, -4, 1], [64, -16, -2, -1], [32, 16, -4, 1]);
    let (d, e) = ([32, 16, -2, -1], [32, 8, 4, 1]);
    let forms: [&[i32]; 5] = [&a, &b, &c, &d, &e];
    figure(45, &forms);
    let negated = [a, b, c, d, e].map(|form| form.map(|term| -term));
    figure(-45, &negated.each_ref().map(|form| &form[..]));
    let shifted = [a, b, c, d, e].map(|form| form.map(|term| 4 * term));
    figure(180, &shifted.each_ref().map(|form| &form[..]));
    figure(3, &[&[4, -1], &[2, 1]]);
    figure(11, &[&[16, -4, -1], &[8, 4, -1], &[8, 2, 1]]);
    figure(13, &[&[16, -4, 1], &[16, -2, -1], &[8, 4, 1]]);
    figure(0, &[&[]]);
    figure(1, &[&[1]]);
    figure(-1, &[&[-1]]);
    figure(i32::MIN, &[&[i32::MIN]]);
    counted(i32::MAX, 1, 2);
    counted(0x5555_5555, 1, 16);
    counted(858_993_459, 1597, 16);
    counted(-858_993_459, 1597, 16);
}

/// All strings of ten places, by value.
fn short_strings() -> Vec<(i64, Digits)> {
    let string = |code: i64| {
        let mut digits = [0i8; 32];
        for place in 0..10u32 {
            digits[place as usize] = (code / 3i64.pow(place) % 3 - 1) as i8;
        }
        (literal::value(&digits), digits)
    };
    let mut list: Vec<(i64, Digits)> = (0..3i64.pow(10)).map(string).collect();
    list.sort_by_key(|(value, _)| *value);
    list
}

/// The literal listing is what is left of all strings when the heavier ones are dropped.
#[test]
fn literal_listing_of_all_strings() {
    let mut strings = 0;
    for same in short_strings().chunk_by(|a, b| a.0 == b.0) {
        let value = same[0].0;
        if value.abs() >= 1 << 8 {
            continue;
        }
        strings += same.len();
        let least = same.iter().map(|(_, digits)| literal::weight(digits)).min();
        let mut wanted: Vec<Digits> = same.iter().map(|(_, digits)| *digits).collect();
        wanted.retain(|digits| Some(literal::weight(digits)) == least);
        wanted.sort_by(literal::order);
        assert_eq!(literal::minimal_strings(value as i32), wanted);
    }
    assert!(strings > 15_000, "{strings}");
}

#[test]
fn small_coefficients() {
    let mut tally = Tally::default();
    for n in -0xffff..=0xffff {
        check(Call::new(n), &mut tally);
    }
    println!("{tally:?}");
    assert_eq!(tally.coefficients, 131_071);
    assert!(tally.forms == 490_449 && tally.most == 55 && tally.heaviest == 9);
}

#[test]
fn hard_coefficients() {
    let mut tally = Tally::default();
    let ends = pattern::extremes().into_iter().chain(pattern::powers());
    for n in ends.chain(pattern::patterns()) {
        check(Call::new(n), &mut tally);
    }
    println!("{tally:?}");
    assert!(tally.coefficients > 2000 && tally.single > 500 && tally.many > 80);
    assert!(tally.most == 1597 && tally.heaviest == 16);
}

#[test]
fn random_coefficients() {
    let mut random = Random::new(4);
    let mut tallies = [Tally::default(), Tally::default()];
    for i in 0..RANDOM_COEFFICIENTS {
        let n = if i % 2 == 0 {
            mixture::uniform(&mut random)
        } else {
            mixture::uneven(&mut random)
        };
        let mut table = || MOST_FORMS + random.pick(&[0, 0, 0, 1, 3, 400]);
        let call = Call::with_tables(n, table(), table());
        check(call, &mut tallies[i % 2]);
    }
    println!("{tallies:?}");
    let [uniform, uneven] = tallies;
    assert!(uniform.forms > 500_000 && uniform.single > 3000 && uniform.many > 300);
    assert!(uneven.forms > 5_000_000 && uneven.single > 5000 && uneven.many > 5000);
    assert!(uneven.most == 1597 && uneven.heaviest == 16);
}

#[test]
fn short_tables() {
    let mut random = Random::new(5);
    let mut seen = HashSet::new();
    let short = [0, 1, 2, 5, 1000, MOST_FORMS - 2, MOST_FORMS - 1];
    let enough = [MOST_FORMS, MOST_FORMS + 1, 4096];
    let mut coefficients = vec![0, 1, 45, -45, 858_993_459, -858_993_459, i32::MIN, i32::MAX];
    coefficients.extend((0..200).map(|_| mixture::uneven(&mut random)));
    for n in coefficients {
        for (a, b) in short.into_iter().flat_map(|a| enough.map(|b| (a, b))) {
            for (plus, minus) in [(a, b), (b, a), (a, random.pick(&short))] {
                check_refused(Call::with_tables(n, plus, minus));
                seen.insert((n, plus, minus));
            }
        }
        for (a, b) in enough.into_iter().flat_map(|a| enough.map(|b| (a, b))) {
            check_listing(Call::with_tables(n, a, b), &literal::minimal_forms(n));
        }
    }
    assert!(seen.len() > 5000, "{}", seen.len());
}

/// Every mask of 16 places, in the low and in the high half: as either mask, and with the same places of
/// the other half in the other mask.
#[test]
fn masks_of_half_the_places() {
    let mut forms = 0;
    for half in 0..=0xffff_u32 {
        let ones = (0..16).filter(|place| half >> place & 1 == 1).count() as u32;
        for mask in [half, half << 16] {
            let other = mask.rotate_left(16);
            for (plus, minus, weight) in [(mask, 0, ones), (0, mask, ones), (mask, other, 2 * ones)]
            {
                assert_eq!(check_form(Form { plus, minus }), Ok(weight));
                forms += 1;
            }
        }
    }
    assert_eq!(forms, 6 << 16);
}

#[test]
fn random_masks() {
    let mut random = Random::new(6);
    let (mut accepted, mut refused) = ([0; 33], [0; 32]);
    for _ in 0..RANDOM_MASKS {
        let masks = random.pick(&[mixture::form, mixture::masks, mixture::masks]);
        match check_form(masks(&mut random)) {
            Ok(weight) => accepted[weight as usize] += 1,
            Err(place) => refused[place as usize] += 1,
        }
    }
    println!("accepted {accepted:?}, refused {refused:?}");
    assert!(accepted.iter().sum::<usize>() > RANDOM_MASKS / 2);
    assert!(accepted.iter().all(|often| *often > 0));
    assert!(refused.iter().all(|often| *often > RANDOM_MASKS / 100));
    for mask in [u32::MAX, 1 << 31, 1] {
        let fits = |plus, minus| check_form(Form { plus, minus }).is_ok();
        assert!(fits(mask, 0) && fits(0, mask) && fits(mask, !mask) && fits(!mask, mask));
        let place = check_form(Form {
            plus: mask,
            minus: mask,
        });
        assert_eq!(place, Err(mask.trailing_zeros()));
    }
}
