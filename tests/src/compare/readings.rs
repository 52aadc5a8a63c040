//! Where a load floats among the rows, and what the two readings of KM make of it.

use super::observation::Observation;
use super::settled::{Row, Settled};
use crate::generate::{Call, DISPLACEMENT, KM};
use std::cmp::Ordering;

pub const FLOTATIONS: [&str; 10] = [
    "at the first row",
    "at a middle row",
    "at the last row",
    "at a row, less KM below it",
    "at a row, less KM above it",
    "a kg above a row",
    "a kg below a row",
    "between rows, KM rising",
    "between rows, KM falling",
    "between rows, KM the same",
];
pub const READINGS: [&str; 4] =
    ["one KM by both readings", "another by each", "another heel by each", "straight line alone passes"];

const ROOM_TOO_SHORT: u64 = 14;

/// Which of the flotations a load's is.
pub fn flotation(settled: &Settled) -> [bool; FLOTATIONS.len()] {
    let (rows, weight) = (&settled.rows, settled.weight());
    let last = rows.len() - 1;
    let own = own_row(settled);
    let beside = |other: u64| own.is_none() && rows.iter().any(|row| row[DISPLACEMENT] == other);
    let between = |order: Ordering| {
        let spans = |pair: &&[Row]| pair[0][DISPLACEMENT] < weight && weight < pair[1][DISPLACEMENT];
        rows.windows(2).find(spans).is_some_and(|pair| pair[0][KM].cmp(&pair[1][KM]) == order)
    };
    [
        own == Some(0),
        own.is_some_and(|r| 0 < r && r < last),
        own == Some(last),
        own.is_some_and(|r| 0 < r && rows[r - 1][KM] < rows[r][KM]),
        own.is_some_and(|r| r < last && rows[r + 1][KM] < rows[r][KM]),
        beside(weight - 1),
        beside(weight + 1),
        between(Ordering::Less),
        between(Ordering::Greater),
        between(Ordering::Equal),
    ]
}

/// The row whose own weight this is.
fn own_row(settled: &Settled) -> Option<usize> {
    settled.rows.iter().position(|row| row[DISPLACEMENT] == settled.weight())
}

/// Holds what the library makes of a call by the lesser KM to what it makes of it by the straight line; answers which of
/// the readings' outcomes it is.
pub fn examine(
    call: &Call,
    lesser: &Observation,
    straight_line: &Observation,
) -> Result<[bool; READINGS.len()], String> {
    match (Settled::of(call, lesser), Settled::of(call, straight_line)) {
        (Some(Ok(less)), Some(Ok(line))) if own_row(&less).is_none() => {
            let rises = line.km - less.km;
            let in_order = rises >= 0 && line.gm - less.gm == rises && less.passes <= line.passes;
            if less.rows == line.rows && less.without_km == line.without_km && in_order {
                return Ok([rises == 0, rises > 0, less.lies != line.lies, less.passes < line.passes]);
            }
        }
        // the two sheets may differ in length
        _ if [lesser.number, straight_line.number].contains(&ROOM_TOO_SHORT) => return Ok(Default::default()),
        _ if lesser == straight_line => return Ok(Default::default()),
        _ => {}
    }
    Err(format!("the readings do not fit\nlesser KM: {lesser:?}\nstraight line: {straight_line:?}"))
}
