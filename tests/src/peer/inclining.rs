//! The light ship by an inclining test: the vessel of the test is one weight among those taken off and put on.
//!
//! What is taken off is a weight below 0. The sums are signed and of 128 bits: nothing need be tried before the end.

use super::ranges::{FEWEST_SHIFTS, ITEM, MOST_ITEMS, MOST_SHIFTS, SHIFT, TEST};
use super::{refusals, refuse, size_is_right, tables};
use crate::calls::{LightShip, Refusal};
use std::iter::once;
use std::ops::RangeInclusive;
use std::slice::from_ref;

type Shift = [u64; SHIFT.len()];
type Item = [i64; ITEM.len()];

/// The light ship from the numbers of its test, the shifts, and what is to take off and to put on; each shift's own GM
/// goes into the lent table.
pub fn light_ship(
    test: &[u64; 4],
    shifts: &[u64],
    off: &[i64],
    on: &[i64],
    gms: &mut [u64],
) -> Result<LightShip, Refusal> {
    try_sizes(shifts, off, on, gms)?;
    try_numbers(test, shifts, off, on)?;
    let Balance { gm, weight, moment } = Balance::of(test, shifts, off, on);
    if weight <= 0 {
        return refuse(refusals::NO_LIGHT_WEIGHT, 0);
    }
    if moment < 0 {
        return refuse(refusals::MOMENT_BELOW_0, 0);
    }
    for (own, shift) in gms.iter_mut().zip(shifts.as_chunks().0) {
        *own = measured(test, from_ref(shift)) as u64;
    }
    let [gm, weight, vertical_moment] = [gm, weight, moment].map(|number| number as u64);
    Ok(LightShip { gm, weight, vertical_moment, kg: vertical_moment.div_ceil(weight) })
}

/// Tries every table for refusal 7.
fn try_sizes(shifts: &[u64], off: &[i64], on: &[i64], gms: &[u64]) -> Result<(), Refusal> {
    let whole = |length: usize, record: usize, counts: RangeInclusive<usize>| {
        length.is_multiple_of(record) && counts.contains(&(length / record))
    };
    size_is_right(whole(shifts.len(), SHIFT.len(), FEWEST_SHIFTS..=MOST_SHIFTS), tables::SHIFTS)?;
    size_is_right(whole(off.len(), ITEM.len(), 0..=MOST_ITEMS), tables::OFF)?;
    size_is_right(whole(on.len(), ITEM.len(), 0..=MOST_ITEMS), tables::ON)?;
    size_is_right(shifts.len() <= SHIFT.len() * gms.len(), tables::GMS)
}

/// Tries every number for refusal 4, in the sheet's order.
fn try_numbers(test: &[u64; 4], shifts: &[u64], off: &[i64], on: &[i64]) -> Result<(), Refusal> {
    let wholes = test.iter().zip(&TEST).chain(shifts.iter().zip(SHIFT.iter().cycle()));
    let signed = off.iter().chain(on).zip(ITEM.iter().cycle());
    let mut in_range =
        wholes.map(|(&number, range)| range.has_whole(number)).chain(signed.map(|(&number, range)| range.has(number)));
    match in_range.position(|inside| !inside) {
        Some(place) => refuse(refusals::RANGE, place),
        None => Ok(()),
    }
}

/// What a test comes to, before it is tried: measured GM, light weight and its vertical moment.
pub struct Balance {
    pub gm: i128,
    pub weight: i128,
    pub moment: i128,
}

impl Balance {
    /// Of numbers within their ranges.
    pub fn of(test: &[u64; 4], shifts: &[u64], off: &[i64], on: &[i64]) -> Balance {
        let [w, km, free_surface, _] = test.map(i128::from);
        let gm = measured(test, shifts.as_chunks().0);
        let vessel = once((w, km - gm));
        let weights = vessel.chain(heights(off).map(|(kg, z)| (-kg, z))).chain(heights(on));
        let (weight, moment) = weights.fold((0, 0), |(weight, moment), (kg, z)| (weight + kg, moment + kg * z));
        Balance { gm, weight, moment: moment - free_surface }
    }
}

/// The weight and the height of each item.
fn heights(items: &[i64]) -> impl Iterator<Item = (i128, i128)> + '_ {
    items.as_chunks().0.iter().map(|&[kg, _, _, z]: &Item| (kg.into(), z.into()))
}

/// GM as these shifts measure it together.
fn measured(test: &[u64; 4], shifts: &[Shift]) -> i128 {
    let [w, _, _, length] = test.map(i128::from);
    let moment: i128 = shifts.iter().map(|&[weight, distance, _]| i128::from(weight) * i128::from(distance)).sum();
    let deflection: i128 = shifts.iter().map(|&[_, _, deflection]| i128::from(deflection)).sum();
    moment * length / (w * deflection)
}
