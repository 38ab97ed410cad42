//! The texts of crates/verilog/specs/Samples.antt, as they stand there, with what is proved of them.

use crate::sheet::program::root;
use std::fs::read_to_string;

pub struct Sample {
    pub name: String,
    pub text: String,
    /// The input and the patterns of all nets, the input first; none where there is no meaning.
    pub values: Option<(i16, Vec<u64>)>,
}

/// The quoted texts of some lines, in order.
fn quoted(lines: &str) -> Vec<String> {
    let every_second = lines.split('"').skip(1).step_by(2);
    every_second
        .map(|text| text.replace("\\n", "\n").replace("\\r", "\r"))
        .collect()
}

/// What stands around a text: the two quoted parts of a definition.
fn around(source: &str, name: &str) -> [String; 2] {
    let start = source.find(&format!("\n{name} ")).unwrap();
    let definition = source[start..].split("\n\n").next().unwrap();
    quoted(definition).try_into().unwrap()
}

/// `2 ^ 64 - 12`, in parentheses or not.
fn number(item: &str) -> u64 {
    let power = |term: &str| match term.split_once(" ^ ") {
        Some((base, exponent)) => base.parse::<u128>().unwrap().pow(exponent.parse().unwrap()),
        None => term.parse().unwrap(),
    };
    let mut terms = item.trim_matches(['(', ')']).split(" - ").map(power);
    let first = terms.next().unwrap();
    terms.fold(first, |rest, term| rest - term) as u64
}

/// The input and the values of `shown (neg_ℤ (pos 3)) (..) ≡ .. ∷ []`.
fn values(field: &str) -> Option<(i16, Vec<u64>)> {
    let (_, input) = field.split_once("shown (neg_ℤ (pos ")?;
    let size: i32 = input.split(')').next()?.parse().unwrap();
    let (_, list) = field.rsplit_once('≡')?;
    let items = list.split('∷').map(str::trim).filter(|item| *item != "[]");
    Some((-size as i16, items.map(number).collect()))
}

/// Every field of the record, by its text.
pub fn samples() -> Vec<Sample> {
    let path = root().join("crates/verilog/specs/Samples.antt");
    let source = read_to_string(path).unwrap();
    let forms = ["with_output", "with_lines"].map(|name| (name, around(&source, name)));
    let (_, record) = source.split_once("record RulesAtWork").unwrap();
    let fields = record.split("\n  pub ").skip(1);
    fields.map(|field| sample(field, &forms)).collect()
}

fn sample(field: &str, forms: &[(&str, [String; 2]); 2]) -> Sample {
    let field = field.split("\n  --").next().unwrap();
    let (name, statement) = field.split_once(" : ").unwrap();
    let inner = quoted(statement).concat();
    let form = forms.iter().find(|(name, _)| statement.contains(name));
    Sample {
        name: name.to_string(),
        text: match form {
            Some((_, [before, after])) => [before, inner.as_str(), after].concat(),
            None => inner,
        },
        values: values(statement),
    }
}
