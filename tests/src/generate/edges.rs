//! Numbers at and beyond the ends of a range, and tables of a wrong size.

use super::random::Random;
use crate::peer::ranges::{Range, TANK};
use crate::peer::ranges::{HALF_BREADTH_ROOM, ITEM_ROOM, MOST_ITEMS, MOST_ROWS, MOST_TANKS, ROW_ROOM, TANK_ROOM};

const TWO_TO_THE_32: i64 = 1 << 32;
/// As many records as some table may have, and more.
const RECORDS: [usize; 8] =
    [1, MOST_TANKS, MOST_TANKS + 1, MOST_ROWS, MOST_ROWS + 1, MOST_ITEMS, MOST_ITEMS + 1, MOST_ITEMS + 2];

/// A number at an end of the range or anywhere in it.
pub fn end_or_any(random: &mut Random, range: Range) -> i64 {
    let any = random.between(range.least, range.greatest);
    random.pick(&[range.least, range.greatest, any, any, any, any])
}

/// A number at an end of the range, one beyond it, or far beyond; some agree with the old number in their low bits.
pub fn edge(random: &mut Random, range: Range, number: i64) -> i64 {
    match random.below(10) {
        0 | 1 => range.least - 1,
        2 => range.least,
        3 => range.greatest,
        4 | 5 => range.greatest + 1,
        6 => number.wrapping_add(TWO_TO_THE_32),
        7 => number.wrapping_sub(TWO_TO_THE_32),
        8 => random.pick(&[i64::MIN, i64::MAX, -1, number ^ i64::MIN]),
        _ => random.next() as i64,
    }
}

/// One number of a whole-number table at an edge; the ranges repeat. A negative edge becomes a huge whole number.
pub fn damage_number(random: &mut Random, numbers: &mut [u64], ranges: &[Range]) {
    if !numbers.is_empty() {
        let i = random.index(numbers.len());
        numbers[i] = edge(random, ranges[i % ranges.len()], numbers[i] as i64) as u64;
    }
}

/// One number of a table of records at an edge. An empty table gets a record first.
pub fn damage_records(random: &mut Random, numbers: &mut Vec<i64>, ranges: &[Range]) {
    if numbers.is_empty() {
        numbers.extend(ranges.iter().map(|range| random.between(range.least, range.greatest)));
    }
    let i = random.index(numbers.len());
    numbers[i] = edge(random, ranges[i % ranges.len()], numbers[i]);
}

/// A table with numbers too few or too many: by one, by a record, by many records, or all.
pub fn damage_size<T: Copy + Default>(random: &mut Random, table: &mut Vec<T>, record: usize) {
    let length = table.len();
    let size = match random.below(8) {
        0 | 1 => length + 1,
        2 | 3 => length.saturating_sub(1),
        4 => length + record,
        5 => length.saturating_sub(record),
        6 => record * random.pick(&RECORDS),
        _ => random.pick(&[0, 1, 2 * length, ITEM_ROOM, ROW_ROOM, TANK_ROOM + TANK.len(), HALF_BREADTH_ROOM]),
    };
    let last = table.last().copied().unwrap_or_default();
    table.resize(size, last);
}
