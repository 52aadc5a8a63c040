//! Layouts of a text as many editors leave them: what stands between its words, and how wide its numbers are.

use super::random::Random;

pub const SEPARATORS: [u8; 4] = *b" \n\t\r";
/// A number has no more digits than these, zeros in front included.
pub const MOST_DIGITS: usize = 9;

/// What the gaps of one text are made of.
const GAPS: [&[&[u8]]; 6] =
    [&[b" "], &[b" "], &[b" ", b"\n"], &[b"\t", b"\r\n"], &[b"\t", b"\r"], &[b" ", b"\n", b"\t", b"\r"]];
/// The most pieces that stand in a loose gap.
const WIDEST_GAP: i64 = 3;

pub struct Layout {
    pieces: &'static [&'static [u8]],
    /// Whether several pieces may stand in a gap, and some first and last in the text.
    loose: bool,
    /// One number in so many is padded with zeros, or none is.
    padded_one_in: Option<u64>,
}

impl Layout {
    pub fn any(random: &mut Random) -> Layout {
        Layout {
            pieces: random.pick(&GAPS),
            loose: random.one_in(2),
            padded_one_in: random.pick(&[None, None, Some(20), Some(1)]),
        }
    }

    pub fn put_gap(&self, random: &mut Random, text: &mut Vec<u8>) {
        let pieces = if self.loose { random.between(1, WIDEST_GAP) } else { 1 };
        for _ in 0..pieces {
            text.extend(random.pick(self.pieces));
        }
    }

    /// Separators first or last in a loose text, or none.
    pub fn put_margin(&self, random: &mut Random, text: &mut Vec<u8>) {
        if self.loose && random.one_in(2) {
            self.put_gap(random, text);
        }
    }

    pub fn put_number(&self, random: &mut Random, text: &mut Vec<u8>, number: i64) {
        let padded = self.padded_one_in.is_some_and(|times| random.one_in(times));
        let width = if padded { 1 + random.index(MOST_DIGITS) } else { 1 };
        put_padded(text, number, width);
    }
}

/// A number with as many zeros in front as its digits are fewer than `width`, which is at least 1.
pub fn put_padded(text: &mut Vec<u8>, number: i64, width: usize) {
    if number < 0 {
        text.push(b'-');
    }
    let start = text.len();
    let mut rest = number.unsigned_abs();
    while rest > 0 || text.len() < start + width {
        text.push(b'0' + (rest % 10) as u8);
        rest /= 10;
    }
    text[start..].reverse();
}
