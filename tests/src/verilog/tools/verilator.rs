//! Verilator, which looks a text over.

use super::call;
use crate::commands::Folder;
use std::fs::write;

pub const NAME: &str = "verilator";

/// Turns the warnings of rows that nothing uses off.
const ROWS_LEFT_OVER: &str = "-Wno-UNUSED";

/// What it has to say of a text. `assign n0 = x;` lengthens the sample, which is all that WIDTH is
/// about.
fn said(text: &str, more: &[&str]) -> String {
    let folder = Folder::new();
    write(folder.join("smoother.v"), text).unwrap();
    let usual = ["--lint-only", "-Wall", "-Wno-WIDTH"];
    let language = ["--language", "1364-2005", "smoother.v"];
    let arguments = [&usual[..], more, &language].concat();
    let ended = call(NAME, folder.path(), &arguments);
    let said = String::from_utf8(ended.out).unwrap() + &ended.errors;
    assert_eq!(ended.status == Some(0), said.is_empty(), "{said}");
    said
}

/// The nets that nothing uses; there is no other warning. `is_silent` says whether there are errors.
pub fn left_over(text: &str) -> Vec<String> {
    let name = |line: &str| {
        let rest = line.split_once("Signal is not used: '");
        let rest = rest.unwrap_or_else(|| panic!("{line}")).1;
        rest.trim_end_matches('\'').to_string()
    };
    let said = said(text, &[]);
    let warnings = said.lines().filter(|line| line.starts_with("%Warning"));
    warnings.map(name).collect()
}

/// Nothing at all, but for rows that nothing uses.
pub fn is_silent(text: &str) -> bool {
    said(text, &[ROWS_LEFT_OVER]).is_empty()
}
