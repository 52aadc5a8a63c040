//! Writes an offset file: every number is tried, then the text is made in memory of the call's own and copied.

use super::pen::Pen;
use super::ranges::{half_breadth_count, try_half_breadths, try_particulars, try_record_sizes, try_records};
use super::ranges::{Range, HALF_BREADTH, ITEM, PARTICULARS, TANK};
use super::ranges::{HALF_BREADTH_ROOM, ITEM_PLACES, MOST_ITEMS, MOST_TANKS, TANK_PLACES};
use super::{size_is_right, tables};
use crate::calls::Refusal;

/// Every number at its greatest length: room that is never too short.
pub const LONGEST_TEXT: usize = longest_section(1, &PARTICULARS)
    + longest_section(HALF_BREADTH_ROOM, &[HALF_BREADTH])
    + longest_section(MOST_ITEMS, &ITEM)
    + longest_section(MOST_TANKS, &TANK);

type FilePen = Pen<LONGEST_TEXT>;

/// The bytes of so many records and of their count.
const fn longest_section(records: usize, ranges: &[Range]) -> usize {
    let mut record = 0;
    let mut i = 0;
    while i < ranges.len() {
        record += longest_number(ranges[i]);
        i += 1;
    }
    records * record + longest_number(Range { least: 0, greatest: records as i64 })
}

/// The bytes of a range's longest number: a minus, if it has one, the digits, and what stands after them.
const fn longest_number(range: Range) -> usize {
    let minus = if range.least < 0 { 1 } else { 0 };
    minus + range.greatest.ilog10() as usize + 1 + 1
}

/// Writes an offset file into the lent room; answers the bytes of its text.
pub fn write(
    particulars: &[u64; 5],
    half_breadths: &[u64],
    items: &[i64],
    tanks: &[i64],
    room: &mut [u8],
) -> Result<usize, Refusal> {
    try_particulars(particulars)?;
    size_is_right(half_breadths.len() == half_breadth_count(particulars), tables::HALF_BREADTHS)?;
    try_record_sizes(items, tanks)?;
    try_half_breadths(half_breadths)?;
    try_records(items, &ITEM, ITEM_PLACES)?;
    try_records(tanks, &TANK, TANK_PLACES)?;
    let mut pen = FilePen::new();
    section(&mut pen, tanks.len() / TANK.len(), tanks, TANK.len(), FilePen::signed);
    section(&mut pen, items.len() / ITEM.len(), items, ITEM.len(), FilePen::signed);
    section(&mut pen, half_breadths.len(), half_breadths, particulars[1] as usize + 1, FilePen::whole);
    section(&mut pen, particulars.len(), particulars, particulars.len(), FilePen::whole);
    pen.give(room)
}

/// The count on its own line and the numbers in lines of `per_line`, from the last to the first.
fn section<T: Copy>(pen: &mut FilePen, count: usize, numbers: &[T], per_line: usize, put: impl Fn(&mut FilePen, T)) {
    for line in numbers.chunks_exact(per_line).rev() {
        let mut after = b'\n';
        for &number in line.iter().rev() {
            pen.byte(after);
            put(pen, number);
            after = b' ';
        }
    }
    pen.byte(b'\n');
    pen.whole(count as u64);
}
