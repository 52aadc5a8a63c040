//! How long the hull of a call is: by its intervals, and by the mm they come to.

use super::spellings::{are_few_digits, tokens};
use crate::generate::Call;
use crate::peer::ranges::{INTERVALS, LONGEST_HULL, MOST_INTERVALS, PARTICULARS, STATION_SPACING};

/// Of answered calls, where many intervals are more than half of the most; then of hulls that are too long, refused for
/// that or for a later particular, which comes first.
pub const LENGTHS: [&str; 8] = [
    "many intervals, even",
    "many intervals, odd",
    "the most intervals",
    "the greatest n·s",
    "n·s too large",
    "n·s too large, 4 first",
    "n·s too large, 2 first",
    "n·s too large, 5 first",
];
/// So many of them a hull has that is handed in by numbers, the others in a text alone.
pub const LENGTHS_BY_NUMBERS: usize = 6;

const NO_NUMBER: usize = 2;
const OUT_OF_RANGE: usize = 4;
const ENDS_EARLY: usize = 5;

/// n and s of a hull, both within their ranges, and the place of s.
struct Length {
    intervals: u64,
    spacing: u64,
    place: usize,
}

/// Which of the lengths a call's hull has, whose refusal, or 0, and place these are.
pub fn lengths(call: &Call, refusal: usize, place: usize) -> [bool; LENGTHS.len()] {
    let Some(length) = Length::of(call) else { return Default::default() };
    let total = length.intervals * length.spacing;
    let answered = refusal == 0;
    let many = answered && length.intervals > MOST_INTERVALS as u64 / 2;
    let too_long = total > LONGEST_HULL;
    let later = |number: usize| too_long && refusal == number && place > length.place;
    [
        many && length.intervals.is_multiple_of(2),
        many && !length.intervals.is_multiple_of(2),
        answered && length.intervals == MOST_INTERVALS as u64,
        answered && total == LONGEST_HULL,
        too_long && refusal == OUT_OF_RANGE && place == length.place,
        later(OUT_OF_RANGE),
        later(NO_NUMBER),
        later(ENDS_EARLY),
    ]
}

impl Length {
    fn of(call: &Call) -> Option<Length> {
        let (intervals, spacing, place) = match call {
            Call::Report { text, .. } | Call::Read { text, .. } => {
                // the count of the particulars stands before them
                let (_, intervals) = token(text, 1 + INTERVALS)?;
                let (place, spacing) = token(text, 1 + STATION_SPACING)?;
                (number(intervals)?, number(spacing)?, place)
            }
            Call::Write { numbers, .. } => of_particulars(&numbers.particulars),
            Call::Rows { particulars, .. } => of_particulars(particulars),
            _ => return None,
        };
        let in_range = PARTICULARS[INTERVALS].has_whole(intervals) && PARTICULARS[STATION_SPACING].has_whole(spacing);
        in_range.then_some(Length { intervals, spacing, place })
    }
}

fn of_particulars(particulars: &[u64; 5]) -> (u64, u64, usize) {
    (particulars[INTERVALS], particulars[STATION_SPACING], STATION_SPACING)
}

/// The token of a text that has so many before it, and its place.
fn token(text: &[u8], before: usize) -> Option<(usize, &[u8])> {
    let mut next = 0;
    let placed = tokens(text).map(|token| {
        let place = next;
        next += token.len() + 1;
        (place, token)
    });
    placed.filter(|(_, token)| !token.is_empty()).nth(before)
}

fn number(token: &[u8]) -> Option<u64> {
    let digits = Some(token).filter(|token| are_few_digits(token))?;
    std::str::from_utf8(digits).ok()?.parse().ok()
}
