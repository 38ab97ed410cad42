//! ./fir forms beside the literal listing.

use fir_tests::commands::printed;
use fir_tests::forms::literal::{digits, minimal_forms, weight, Digits};
use fir_tests::random::Random;

/// Number, digits from the highest nonzero one down, terms, weight.
fn line(number: usize, digits: &Digits) -> Vec<String> {
    let top = (0..32).rev().find(|place| digits[*place] != 0).unwrap_or(0);
    let mark = |place: usize| ["n", "0", "1"][(digits[place] + 1) as usize];
    let marks: String = (0..=top).rev().map(mark).collect();
    let mut terms = String::new();
    for place in (0..32).rev().filter(|place| digits[*place] != 0) {
        let sign = if digits[place] < 0 { "-" } else { "+" };
        terms += &format!("{sign}{}", 1u64 << place);
    }
    let terms = terms.strip_prefix('+').unwrap_or(&terms).to_string();
    let terms = if terms.is_empty() { "0".into() } else { terms };
    vec![number.to_string(), marks, terms, weight(digits).to_string()]
}

fn check(n: i32) {
    let forms = minimal_forms(n);
    let printed = String::from_utf8(printed(&["forms", &n.to_string()], b"")).unwrap();
    let lines: Vec<&str> = printed.lines().collect();
    assert_eq!(lines.len(), forms.len() + 1, "{n}");
    let mut widths = Vec::new();
    for (i, form) in forms.iter().enumerate() {
        let words: Vec<&str> = lines[i].split_whitespace().collect();
        assert_eq!(words, line(i, &digits(*form).unwrap()), "{n}");
        widths.push(lines[i].len());
    }
    assert!(widths.iter().all(|width| *width == widths[0]), "{n}");
    let weight = weight(&digits(forms[0]).unwrap());
    let count = forms.len();
    let plural = if count == 1 { "" } else { "s" };
    let last = format!("{n} has {count} minimal form{plural}, of weight {weight}, and no other");
    assert_eq!(lines[count], last);
}

/// As document 01 lists them.
#[test]
fn forty_five() {
    let lines = "   0  10n0n01  64-16-4+1   4
   1  10n00nn  64-16-2-1   4
   2   110n01  32+16-4+1   4
   3   1100nn  32+16-2-1   4
   4   101101  32+8+4+1    4
45 has 5 minimal forms, of weight 4, and no other
";
    for argument in ["45", "0045"] {
        assert_eq!(printed(&["forms", argument], b""), lines.as_bytes());
    }
}

#[test]
fn coefficients() {
    for n in [
        0,
        1,
        -1,
        3,
        11,
        13,
        180,
        -45,
        i32::MAX,
        i32::MIN,
        i32::MIN + 1,
    ] {
        check(n);
    }
    for n in [0x5555_5555, 858_993_459, -858_993_459, 1_431_655_765] {
        check(n);
    }
    let mut random = Random::new(14);
    for _ in 0..60 {
        let bits = random.bits() as i32;
        check(bits >> random.below(31));
    }
}
