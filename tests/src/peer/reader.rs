//! Reads an offset file: tokens left to right, into tables of the call's own, copied when nothing is left to refuse.

use super::ranges::{half_breadth_count, is_too_long, Range, HALF_BREADTH, ITEM, PARTICULARS, STATION_SPACING, TANK};
use super::ranges::{HALF_BREADTH_ROOM, ITEM_ROOM, LONGEST_FILE, MOST_ITEMS, MOST_TANKS, TANK_ROOM};
use super::{refusals, refuse, size_is_right, tables};
use crate::calls::{Refusal, Summary};

const MOST_DIGITS: usize = 9;

/// The numbers of a file, in room for the largest.
pub struct OffsetFile {
    pub particulars: [u64; 5],
    half_breadths: [u64; HALF_BREADTH_ROOM],
    items: [i64; ITEM_ROOM],
    tanks: [i64; TANK_ROOM],
    half_breadth_count: usize,
    item_count: usize,
    tank_count: usize,
}

impl OffsetFile {
    pub fn blank() -> Self {
        OffsetFile {
            particulars: [0; 5],
            half_breadths: [0; HALF_BREADTH_ROOM],
            items: [0; ITEM_ROOM],
            tanks: [0; TANK_ROOM],
            half_breadth_count: 0,
            item_count: 0,
            tank_count: 0,
        }
    }

    pub fn half_breadths(&self) -> &[u64] {
        &self.half_breadths[..self.half_breadth_count]
    }

    pub fn items(&self) -> &[i64] {
        &self.items[..self.item_count * ITEM.len()]
    }

    pub fn tanks(&self) -> &[i64] {
        &self.tanks[..self.tank_count * TANK.len()]
    }

    /// Takes the four sections of a text, each after its count.
    pub fn take(&mut self, text: &[u8]) -> Result<(), Refusal> {
        if text.len() > LONGEST_FILE {
            return refuse(refusals::FILE_TOO_LONG, LONGEST_FILE);
        }
        let mut tokens = Tokens { text, next: 0 };
        self.take_particulars(&mut tokens)?;
        let half_breadths = half_breadth_count(&self.particulars);
        self.half_breadth_count = tokens.count(half_breadths, half_breadths)?;
        for number in &mut self.half_breadths[..half_breadths] {
            *number = tokens.number_in(HALF_BREADTH)? as u64;
        }
        self.item_count = tokens.records(&mut self.items, &ITEM, MOST_ITEMS)?;
        self.tank_count = tokens.records(&mut self.tanks, &TANK, MOST_TANKS)?;
        tokens.end()
    }

    /// Takes the first section. The length that it makes is tried when all five numbers are read.
    fn take_particulars(&mut self, tokens: &mut Tokens) -> Result<(), Refusal> {
        tokens.count(PARTICULARS.len(), PARTICULARS.len())?;
        let mut places = [0; PARTICULARS.len()];
        for (i, range) in PARTICULARS.into_iter().enumerate() {
            places[i] = tokens.start();
            self.particulars[i] = tokens.number_in(range)? as u64;
        }
        if is_too_long(&self.particulars) {
            return refuse(refusals::RANGE, places[STATION_SPACING]);
        }
        Ok(())
    }
}

/// The tokens of a text from `next` on.
struct Tokens<'a> {
    text: &'a [u8],
    next: usize,
}

fn is_separator(byte: u8) -> bool {
    matches!(byte, b' ' | b'\n' | b'\t' | b'\r')
}

impl Tokens<'_> {
    /// The first byte of the next token, or the text's length.
    fn start(&mut self) -> usize {
        let separators = self.text[self.next..].iter().take_while(|&&byte| is_separator(byte)).count();
        self.next += separators;
        self.next
    }

    /// The next token as a number, and its place.
    fn number(&mut self) -> Result<(i64, usize), Refusal> {
        let (text, place) = (self.text, self.start());
        let Some(&first) = text.get(place) else {
            return refuse(refusals::ENDS_EARLY, place);
        };
        let negative = first == b'-';
        let first_digit = place + usize::from(negative);
        let (mut at, mut magnitude) = (first_digit, 0_i64);
        let ends = loop {
            let Some(&byte) = text.get(at) else { break true };
            let digit = byte.wrapping_sub(b'0');
            if digit > 9 {
                break is_separator(byte);
            }
            magnitude = magnitude.wrapping_mul(10).wrapping_add(i64::from(digit));
            at += 1;
        };
        let digits = at - first_digit;
        let minus_zero = negative && magnitude == 0;
        if !ends || digits == 0 || digits > MOST_DIGITS || minus_zero {
            return refuse(refusals::NO_NUMBER, place);
        }
        self.next = at;
        Ok((if negative { -magnitude } else { magnitude }, place))
    }

    fn number_in(&mut self, range: Range) -> Result<i64, Refusal> {
        let (number, place) = self.number()?;
        if range.has(number) {
            Ok(number)
        } else {
            refuse(refusals::RANGE, place)
        }
    }

    fn count(&mut self, least: usize, most: usize) -> Result<usize, Refusal> {
        let (number, place) = self.number()?;
        if least as i64 <= number && number <= most as i64 {
            Ok(number as usize)
        } else {
            refuse(refusals::COUNT, place)
        }
    }

    /// A section of records after its count; answers the count.
    fn records<const N: usize>(
        &mut self,
        table: &mut [i64],
        ranges: &[Range; N],
        most: usize,
    ) -> Result<usize, Refusal> {
        let count = self.count(0, most)?;
        for record in table.chunks_exact_mut(N).take(count) {
            for (number, &range) in record.iter_mut().zip(ranges) {
                *number = self.number_in(range)?;
            }
        }
        Ok(count)
    }

    /// Nothing but separators may be left.
    fn end(&mut self) -> Result<(), Refusal> {
        let place = self.start();
        if place == self.text.len() {
            Ok(())
        } else {
            refuse(refusals::AFTER_THE_END, place)
        }
    }
}

/// Reads an offset file into the lent tables, each with room for the largest file.
pub fn read(text: &[u8], half_breadths: &mut [u64], items: &mut [i64], tanks: &mut [i64]) -> Result<Summary, Refusal> {
    size_is_right(half_breadths.len() >= HALF_BREADTH_ROOM, tables::HALF_BREADTHS)?;
    size_is_right(items.len() >= ITEM_ROOM, tables::ITEMS)?;
    size_is_right(tanks.len() >= TANK_ROOM, tables::TANKS)?;
    let mut file = OffsetFile::blank();
    file.take(text)?;
    fill(half_breadths, file.half_breadths());
    fill(items, file.items());
    fill(tanks, file.tanks());
    Ok(Summary { particulars: file.particulars, items: file.item_count as u64, tanks: file.tank_count as u64 })
}

/// Copies into the front of a lent table; the places beyond stay.
fn fill<T: Copy>(table: &mut [T], numbers: &[T]) {
    table[..numbers.len()].copy_from_slice(numbers);
}
