//! Bytes to tokens.

use super::keywords::is_keyword;

#[derive(Clone, Copy, Debug, PartialEq, Eq)]
pub enum Token<'a> {
    Keyword(&'a str),
    Name(&'a str),
    /// An unsized decimal number, below 2^31.
    Number(u32),
    /// An operator, a bracket or a separator.
    Mark(&'a str),
}

/// Of two marks that fit, the longer is taken. Those after the first line are in no text that has a
/// meaning; they are here because a part of each is another mark.
const MARKS: [&str; 19] = [
    "<<<", "+", "-", "=", "(", ")", "[", "]", ":", ";", ",", //
    "<<", "<=", "<", "==", "===", "->", "+:", "-:",
];

fn is_white_space(byte: u8) -> bool {
    matches!(byte, b' ' | b'\t' | b'\n' | 0x0c)
}

fn starts_name(byte: u8) -> bool {
    byte.is_ascii_alphabetic() || byte == b'_'
}

fn in_name(byte: u8) -> bool {
    starts_name(byte) || byte.is_ascii_digit() || byte == b'$'
}

/// The front of the bytes, as long as all are of a kind.
fn front(bytes: &[u8], kind: fn(u8) -> bool) -> &str {
    let end = bytes.iter().position(|byte| !kind(*byte));
    std::str::from_utf8(&bytes[..end.unwrap_or(bytes.len())]).unwrap()
}

/// The first token, and how many bytes it takes.
fn first(bytes: &[u8]) -> Option<(Token<'_>, usize)> {
    if starts_name(bytes[0]) {
        let word = front(bytes, in_name);
        let kind = match is_keyword(word) {
            true => Token::Keyword,
            false => Token::Name,
        };
        return Some((kind(word), word.len()));
    }
    if bytes[0].is_ascii_digit() {
        let digits = front(bytes, |byte| byte.is_ascii_digit() || byte == b'_');
        let number: i32 = digits.replace('_', "").parse().ok()?;
        return Some((Token::Number(number as u32), digits.len()));
    }
    let fits = |mark: &&&str| bytes.starts_with(mark.as_bytes());
    let mark = MARKS.iter().filter(fits).max_by_key(|mark| mark.len())?;
    Some((Token::Mark(mark), mark.len()))
}

/// All tokens, with white space between them or none.
pub fn tokens(text: &[u8]) -> Option<Vec<Token<'_>>> {
    let mut tokens = Vec::new();
    let mut at = 0;
    while at < text.len() {
        if is_white_space(text[at]) {
            at += 1;
            continue;
        }
        let (token, length) = first(&text[at..])?;
        tokens.push(token);
        at += length;
    }
    Some(tokens)
}
