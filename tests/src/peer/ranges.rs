//! The paper's limits, each stated once for all of the tests, and the search of a lent table for its first number outside
//! its range.

use super::{refusals, refuse, size_is_right, tables};
use crate::calls::Refusal;

/// The numbers from `least` to `greatest`, both of them included.
#[derive(Clone, Copy)]
pub struct Range {
    pub least: i64,
    pub greatest: i64,
}

const fn range(least: i64, greatest: i64) -> Range {
    Range { least, greatest }
}

impl Range {
    pub fn has(self, number: i64) -> bool {
        self.least <= number && number <= self.greatest
    }

    /// As `has`, for a number that may be above every signed one. No range of such numbers goes below 0.
    pub fn has_whole(self, number: u64) -> bool {
        self.least as u64 <= number && number <= self.greatest as u64
    }
}

const X: Range = range(0, 100_000);
const Y: Range = range(-10_000, 10_000);
const Z: Range = range(0, 30_000);
const DISPLACEMENT: Range = range(1, 17_600_000);
const KM: Range = range(0, 100_000);
pub const LIQUID_DENSITY: Range = range(1, 1_500);

/// Intervals of length and of draft, mm between stations and between waterlines, water density.
pub const PARTICULARS: [Range; 5] = [range(2, 80), range(3, 20), range(50, 2_500), range(10, 500), range(900, 1_100)];
/// Where the two of them stand that make the hull's length, and the most mm that it may have.
pub const INTERVALS: usize = 0;
pub const STATION_SPACING: usize = 2;
pub const LONGEST_HULL: u64 = 100_000;
pub const HALF_BREADTH: Range = range(0, 8_000);
pub const ITEM: [Range; 4] = [range(0, 300_000), X, Y, Z];
/// Contents, capacity, x, y, z, length, breadth, liquid density.
pub const TANK: [Range; 8] =
    [range(0, 400_000), range(1, 400_000), X, Y, Z, range(1, 10_000), range(1, 8_000), LIQUID_DENSITY];
/// Draft, displacement, LCB, KB, BM, KM, waterplane area.
pub const ROW: [Range; 7] = [
    range(20, 10_000),
    DISPLACEMENT,
    range(0, 100_000),
    range(0, 10_000),
    range(0, 100_000),
    KM,
    range(0, 1_600_000_000),
];

/// A width of a hopper tank's surface, to port or to starboard, and the interval between one width and the next.
pub const WIDTH: Range = range(0, 1_500);
pub const WIDTH_INTERVAL: Range = range(50, 1_000);

/// Of an inclining test: W, KM, free surface, pendulum length.
pub const TEST: [Range; 4] = [DISPLACEMENT, KM, range(0, 10_240_000_000), range(500, 10_000)];
/// Weight, distance, deflection.
pub const SHIFT: [Range; 3] = [range(1, 20_000), range(1, 16_000), range(1, 2_000)];

/// Of a supply vessel: KN at each angle, and then KM and KG.
pub const KN: Range = range(0, 20_000);
pub const KM_AND_KG: [Range; 2] = [KM, range(0, 100_000)];

pub const MOST_ITEMS: usize = 32;
pub const MOST_TANKS: usize = 16;
pub const MOST_INTERVALS: usize = PARTICULARS[INTERVALS].greatest as usize;
pub const MOST_WATERLINES: usize = PARTICULARS[1].greatest as usize + 1;
pub const MOST_ROWS: usize = MOST_WATERLINES - 2;
/// Widths to either side of a hopper tank's surface, at 2 to 10 intervals.
pub const FEWEST_WIDTHS: usize = 3;
pub const MOST_WIDTHS: usize = 11;
/// Shifts of an inclining test.
pub const FEWEST_SHIFTS: usize = 2;
pub const MOST_SHIFTS: usize = 12;
/// Angles of a supply vessel's profile, from 0 to 60 degrees.
pub const ANGLES: usize = 13;

/// Bytes that a file may have.
pub const LONGEST_FILE: usize = 32_768;

/// Room that is never too short: for the numbers of a file, for the rows of a hull and, as the header has it, for a sheet.
pub const HALF_BREADTH_ROOM: usize = (MOST_INTERVALS + 1) * MOST_WATERLINES;
pub const ITEM_ROOM: usize = MOST_ITEMS * ITEM.len();
pub const TANK_ROOM: usize = MOST_TANKS * TANK.len();
pub const ROW_ROOM: usize = MOST_ROWS * ROW.len();
pub const SHEET_ROOM: usize = 3_173;

/// Where the numbers of each lent table start among the places of refusal 4.
pub const HALF_BREADTH_PLACES: usize = 5;
pub const ITEM_PLACES: usize = 3_000;
pub const TANK_PLACES: usize = 4_000;

/// How many half-breadths these particulars, within their ranges, ask for.
pub fn half_breadth_count(particulars: &[u64; 5]) -> usize {
    (particulars[INTERVALS] as usize + 1) * (particulars[1] as usize + 1)
}

/// Whether these particulars, within their ranges, make a hull that is too long.
pub fn is_too_long(particulars: &[u64; 5]) -> bool {
    particulars[INTERVALS] * particulars[STATION_SPACING] > LONGEST_HULL
}

/// The index of the first of `numbers` outside its own range.
pub fn first_outside<const N: usize>(numbers: &[u64; N], ranges: &[Range; N]) -> Option<usize> {
    (0..N).find(|&i| !ranges[i].has_whole(numbers[i]))
}

/// Tries the particulars for refusal 4: each by its range, then the length they make, at mm between stations.
pub fn try_particulars(particulars: &[u64; 5]) -> Result<(), Refusal> {
    match first_outside(particulars, &PARTICULARS) {
        Some(i) => refuse(refusals::RANGE, i),
        None if is_too_long(particulars) => refuse(refusals::RANGE, STATION_SPACING),
        None => Ok(()),
    }
}

pub fn try_half_breadths(half_breadths: &[u64]) -> Result<(), Refusal> {
    match half_breadths.iter().position(|&y| !HALF_BREADTH.has_whole(y)) {
        Some(i) => refuse(refusals::RANGE, HALF_BREADTH_PLACES + i),
        None => Ok(()),
    }
}

/// Tries a table of whole records for refusal 4; `first` is the place of its first number.
pub fn try_records<const N: usize>(numbers: &[i64], ranges: &[Range; N], first: usize) -> Result<(), Refusal> {
    for (record, start) in numbers.chunks_exact(N).zip((first..).step_by(N)) {
        if let Some(i) = (0..N).find(|&i| !ranges[i].has(record[i])) {
            return refuse(refusals::RANGE, start + i);
        }
    }
    Ok(())
}

/// Tries items and tanks for refusal 7: whole records, and not too many.
pub fn try_record_sizes(items: &[i64], tanks: &[i64]) -> Result<(), Refusal> {
    let whole = |length: usize, record: usize, most: usize| length.is_multiple_of(record) && length / record <= most;
    size_is_right(whole(items.len(), ITEM.len(), MOST_ITEMS), tables::ITEMS)?;
    size_is_right(whole(tanks.len(), TANK.len(), MOST_TANKS), tables::TANKS)
}
