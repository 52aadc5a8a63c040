//! What editors leave in a text: in one that is read, with how long it is, and in a token that is no number.

use crate::generate::{MOST_DIGITS, SEPARATORS};
use crate::peer::ranges::LONGEST_FILE;

pub const IN_TEXTS: [&str; 7] = [
    "a tab",
    "a carriage return",
    "a padded number",
    "a padded negative number",
    "a number padded to nine digits",
    "over half of the most bytes",
    "the most bytes",
];
pub const IN_TOKENS: [&str; 4] = [
    "a minus before zeros alone",
    "ten digits with zeros in front",
    "a vertical tab beside digits",
    "a form feed beside digits",
];

/// Which of these a text has all of whose tokens are numbers.
pub fn in_text(text: &[u8]) -> [bool; IN_TEXTS.len()] {
    let padded = || tokens(text).filter(|token| is_padded(token));
    [
        text.contains(&b'\t'),
        text.contains(&b'\r'),
        padded().any(|token| !is_negative(token)),
        padded().any(is_negative),
        padded().any(|token| digits(token).len() == MOST_DIGITS),
        text.len() > LONGEST_FILE / 2,
        text.len() == LONGEST_FILE,
    ]
}

/// Which of these the token at a place has that is no number, where nothing else keeps it from being one.
pub fn in_token(text: &[u8], place: usize) -> [bool; IN_TOKENS.len()] {
    let token = tokens(&text[place..]).next().unwrap_or_default();
    let digits = digits(token);
    let zeros = digits.iter().take_while(|&&byte| byte == b'0').count();
    let minus_zero = is_negative(token) && zeros == digits.len();
    let parted_by = |byte| token.contains(&byte) && token.split(|&other| other == byte).all(are_few_digits);
    [
        is_padded(token) && minus_zero && digits.len() <= MOST_DIGITS,
        is_padded(token) && !minus_zero && digits.len() == MOST_DIGITS + 1 && are_few_digits(&digits[zeros..]),
        parted_by(b'\x0b'),
        parted_by(b'\x0c'),
    ]
}

pub fn tokens(text: &[u8]) -> impl Iterator<Item = &[u8]> {
    text.split(|byte| SEPARATORS.contains(byte))
}

fn is_negative(token: &[u8]) -> bool {
    token.starts_with(b"-")
}

/// A token without its minus.
fn digits(token: &[u8]) -> &[u8] {
    token.strip_prefix(b"-").unwrap_or(token)
}

/// Whether the first of several digits is a zero.
fn is_padded(token: &[u8]) -> bool {
    matches!(digits(token), [b'0', _, ..])
}

/// Whether these are digits, and no more than a number has.
pub fn are_few_digits(bytes: &[u8]) -> bool {
    bytes.len() <= MOST_DIGITS && bytes.iter().all(u8::is_ascii_digit)
}
