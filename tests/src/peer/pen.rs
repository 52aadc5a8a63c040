//! Writes a text from its last byte to its first, as the digits of a number come out of its divisions by ten.

use super::{refusals, refuse};
use crate::calls::Refusal;

/// A text of at most `N` bytes; it starts at `start` and ends with the last.
pub struct Pen<const N: usize> {
    text: [u8; N],
    start: usize,
}

impl<const N: usize> Pen<N> {
    pub fn new() -> Self {
        Pen { text: [0; N], start: N }
    }

    pub fn byte(&mut self, byte: u8) {
        self.start -= 1;
        self.text[self.start] = byte;
    }

    pub fn word(&mut self, word: &str) {
        self.start -= word.len();
        self.text[self.start..][..word.len()].copy_from_slice(word.as_bytes());
    }

    pub fn whole(&mut self, number: u64) {
        let (mut rest, mut start) = (number, self.start);
        loop {
            start -= 1;
            self.text[start] = b'0' + (rest % 10) as u8;
            rest /= 10;
            if rest == 0 {
                break;
            }
        }
        self.start = start;
    }

    pub fn signed(&mut self, number: i64) {
        self.whole(number.unsigned_abs());
        if number < 0 {
            self.byte(b'-');
        }
    }

    /// Copies the text into a lent room, or refuses it as too short; answers the bytes of the text.
    pub fn give(&self, room: &mut [u8]) -> Result<usize, Refusal> {
        let text = &self.text[self.start..];
        if room.len() < text.len() {
            return refuse(refusals::ROOM, text.len());
        }
        room[..text.len()].copy_from_slice(text);
        Ok(text.len())
    }
}
