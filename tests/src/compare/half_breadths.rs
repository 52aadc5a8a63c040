//! Which half-breadths of a hull are out of range, by the order of the table and by that of a sweep over its waterlines.

use crate::generate::Call;
use crate::peer::ranges::{HALF_BREADTH, HALF_BREADTH_PLACES};

/// Of hulls that are refused for a half-breadth.
pub const HALF_BREADTHS: [&str; 5] = [
    "one half-breadth outside",
    "several, swept in order",
    "several, another swept first",
    "the table's first outside",
    "its last alone outside",
];

const OUT_OF_RANGE: usize = 4;
const DRAFT_INTERVALS: usize = 1;

/// Which of them a hull is refused for, whose refusal, or 0, and place these are: with several outside, the table's first
/// is the one that a sweep over the waterlines comes upon, or another is.
pub fn half_breadths(call: &Call, refusal: usize, place: usize) -> [bool; HALF_BREADTHS.len()] {
    let Call::Rows { particulars, half_breadths, .. } = call else { return Default::default() };
    if refusal != OUT_OF_RANGE || place < HALF_BREADTH_PLACES {
        return Default::default();
    }
    let waterlines = particulars[DRAFT_INTERVALS] as usize + 1;
    let outside = (0..half_breadths.len()).filter(|&i| !HALF_BREADTH.has_whole(half_breadths[i]));
    let outside: Vec<usize> = outside.collect();
    let swept_first = outside.iter().min_by_key(|&&i| (i % waterlines, i / waterlines));
    let several = outside.len() > 1;
    let same = swept_first == outside.first();
    [!several, several && same, several && !same, outside.first() == Some(&0), outside == [half_breadths.len() - 1]]
}
