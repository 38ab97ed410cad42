//! One coefficient through the core and the fast version, each compared with the literal one.

use fir_tests::answer::{Answer, ACCEPTED};
use fir_tests::forms::call::{Call, Lister, COUNT_BEFORE};
use fir_tests::forms::literal::{self, Digits};
use fir_tests::forms::weights::{self, weigh, Weigher};
use fir_tests::forms::{core, fast, links, Form};

const LISTERS: [Lister; 2] = [core::minimal_forms, fast::minimal_forms];
const WEIGHERS: [Weigher; 3] = [core::FORM_WEIGHT, weights::by_table, weights::by_count_ones];
const FORM_BEFORE: Form = Form {
    plus: 0x5a5a_1234,
    minus: 0xa5a5_4321,
};
const VALUE_BEFORE: i64 = 0x5a5a_a5a5_1234_4321;
const WEIGHT_BEFORE: u32 = 0x5a5a_a5a5;

/// What came up, counted by the literal version.
#[derive(Default, Debug, PartialEq, Eq)]
pub struct Tally {
    pub coefficients: usize,
    pub forms: usize,
    /// Coefficients with one form.
    pub single: usize,
    /// Coefficients with 100 forms or more.
    pub many: usize,
    pub most: usize,
    pub heaviest: u32,
}

impl Tally {
    fn count(&mut self, forms: usize, weight: u32) {
        self.coefficients += 1;
        self.forms += forms;
        self.single += (forms == 1) as usize;
        self.many += (forms >= 100) as usize;
        self.most = self.most.max(forms);
        self.heaviest = self.heaviest.max(weight);
    }
}

/// Everything about the coefficient of this call, which has tables long enough.
pub fn check(call: Call, tally: &mut Tally) {
    let strings = literal::minimal_strings(call.n);
    let forms: Vec<Form> = strings.iter().map(literal::masks).collect();
    check_listing(call, &forms);
    check_count(call.n, forms.len());
    check_canonical(call.n, forms[0]);
    let weight = literal::weight(&strings[0]);
    for (form, string) in forms.iter().zip(&strings) {
        assert_eq!(literal::value(string), call.n as i64);
        assert_eq!(literal::weight(string), weight, "{}", call.n);
        assert_eq!(check_form(*form), Ok(weight));
    }
    check_order(&strings);
    tally.count(forms.len(), weight);
}

pub fn check_listing(call: Call, forms: &[Form]) {
    let wanted = call.listed(forms);
    for (which, lister) in LISTERS.into_iter().enumerate() {
        let outcome = call.run(lister);
        let differs = || outcome.differs(&wanted);
        assert!(outcome == wanted, "lister {which}, {call:?}: {}", differs());
    }
}

pub fn check_refused(call: Call) {
    let wanted = call.refused();
    for (which, lister) in LISTERS.into_iter().enumerate() {
        let outcome = call.run(lister);
        let differs = || outcome.differs(&wanted);
        assert!(outcome == wanted, "lister {which}, {call:?}: {}", differs());
    }
}

fn check_count(n: i32, wanted: usize) {
    for entry in [core::form_count, fast::form_count] {
        let mut count = COUNT_BEFORE;
        assert_eq!(entry(n, &mut count), ACCEPTED, "{n}");
        assert_eq!(count as usize, wanted, "{n}");
    }
}

fn check_canonical(n: i32, first: Form) {
    let wanted = literal::canonical(n);
    let nonzero = wanted.plus | wanted.minus;
    assert_eq!(nonzero & nonzero << 1, 0, "{n}");
    assert_eq!(first, wanted, "{n}");
    assert_eq!(links::canonical(n), wanted, "{n}");
    let mut form = FORM_BEFORE;
    assert_eq!(core::canonical(n, &mut form), ACCEPTED, "{n}");
    assert_eq!(form, wanted, "{n}");
}

fn check_order(strings: &[Digits]) {
    let ordered = |pair: &[Digits]| literal::order(&pair[0], &pair[1]).is_lt();
    assert!(strings.windows(2).all(ordered));
}

/// Value and weight of any two masks; gives the weight, or the place of the refusal where they
/// overlap.
pub fn check_form(form: Form) -> Result<u32, u32> {
    let digits = literal::digits(form);
    let (answer, wanted_value, wanted_weight) = match digits {
        Ok(digits) => (ACCEPTED, literal::value(&digits), literal::weight(&digits)),
        Err(place) => (Answer { refusal: 8, place }, VALUE_BEFORE, WEIGHT_BEFORE),
    };
    let mut value = VALUE_BEFORE;
    assert_eq!(core::form_value(form, &mut value), answer, "{form:x?}");
    assert_eq!(value, wanted_value, "{form:x?}");
    for (which, weigher) in WEIGHERS.into_iter().enumerate() {
        let mut weight = WEIGHT_BEFORE;
        let got = weigh(weigher, form, &mut weight);
        assert_eq!(got, answer, "weigher {which}, {form:x?}");
        assert_eq!(weight, wanted_weight, "weigher {which}, {form:x?}");
    }
    digits.map(|_| wanted_weight)
}
