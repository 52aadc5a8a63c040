//! A tally that is handed in: its 160 numbers checked against its totals, then one slot changed.
//!
//! Nothing is added up again after the check: the totals change by what leaves the slot and what comes into it.

use super::condition::condition;
use super::ranges::{try_records, ITEM, MOST_ITEMS};
use super::{refusals, refuse};
use crate::calls::{Condition, Reading, Refusal, Tally};

pub const SLOTS: usize = MOST_ITEMS;
/// A mark, and the item's numbers.
pub const SLOT_NUMBERS: usize = 1 + ITEM.len();
const FREED: Slot = [0; SLOT_NUMBERS];

type Slot = [i64; SLOT_NUMBERS];
/// Weight, longitudinal, vertical and transverse moment, in numbers wide enough for any total handed in.
type Figures = [i128; 4];

/// Loads an item into an empty slot.
pub fn load(tally: &mut Tally, slot: usize, item: &[i64; 4]) -> Result<(), Refusal> {
    try_tally(tally)?;
    try_records(item, &ITEM, 0)?;
    if content(tally, slot)?[0] != 0 {
        return refuse(refusals::SLOT_TAKEN, slot);
    }
    let &[kg, x, y, z] = item;
    replace(tally, slot, [1, kg, x, y, z]);
    Ok(())
}

/// Discharges a slot, which holds zeros then.
pub fn discharge(tally: &mut Tally, slot: usize) -> Result<(), Refusal> {
    try_tally(tally)?;
    filled(tally, slot)?;
    replace(tally, slot, FREED);
    Ok(())
}

/// Shifts a slot's item to another place.
pub fn shift(tally: &mut Tally, slot: usize, to: &[i64; 3]) -> Result<(), Refusal> {
    try_tally(tally)?;
    try_place(to)?;
    let kg = filled(tally, slot)?[1];
    let &[x, y, z] = to;
    replace(tally, slot, [1, kg, x, y, z]);
    Ok(())
}

/// The loading condition of the items aboard.
pub fn condition_aboard(tally: &Tally, tanks: &[i64], rows: &[u64]) -> Result<Condition, Refusal> {
    try_tally(tally)?;
    let mut items = [[0; ITEM.len()]; SLOTS];
    let mut count = 0;
    for &[mark, kg, x, y, z] in slots(tally) {
        if mark != 0 {
            items[count] = [kg, x, y, z];
            count += 1;
        }
    }
    condition(Reading::default(), items[..count].as_flattened(), tanks, rows)
}

/// Tries the x, y and z of a shift for refusal 4; their places are those in an item.
pub fn try_place(to: &[i64; 3]) -> Result<(), Refusal> {
    let [_, place @ ..] = ITEM;
    try_records(to, &place, 1)
}

fn slots(tally: &Tally) -> &[Slot] {
    tally.slots.as_chunks().0
}

/// What stands in a slot, or refusal 15.
fn content(tally: &Tally, slot: usize) -> Result<Slot, Refusal> {
    match slots(tally).get(slot) {
        Some(&content) => Ok(content),
        None => refuse(refusals::NO_SLOT, slot),
    }
}

/// What stands in a filled slot, or refusal 15 or 17.
fn filled(tally: &Tally, slot: usize) -> Result<Slot, Refusal> {
    match content(tally, slot)? {
        [0, ..] => refuse(refusals::SLOT_EMPTY, slot),
        content => Ok(content),
    }
}

/// Refuses with 22 unless the filled slots are in range and the totals are theirs.
fn try_tally(tally: &Tally) -> Result<(), Refusal> {
    let in_range = |slot: &Slot| slot[0] == 0 || slot[1..].iter().zip(ITEM).all(|(&number, range)| range.has(number));
    let added_up = || slots(tally).iter().map(figures).fold([0; 4], sum);
    if slots(tally).iter().all(in_range) && added_up() == totals(tally) {
        Ok(())
    } else {
        refuse(refusals::TALLY, 0)
    }
}

/// What a slot brings to the totals; an empty one brings nothing, whatever it holds.
fn figures(slot: &Slot) -> Figures {
    let [mark, kg, x, y, z] = slot.map(i128::from);
    if mark == 0 {
        [0; 4]
    } else {
        [kg, kg * x, kg * z, kg * y]
    }
}

fn sum(one: Figures, other: Figures) -> Figures {
    std::array::from_fn(|i| one[i] + other[i])
}

fn totals(tally: &Tally) -> Figures {
    let [weight, longitudinal, vertical] = tally.totals.map(i128::from);
    [weight, longitudinal, vertical, i128::from(tally.transverse)]
}

/// Puts another content into a slot of a sound tally, and marks every filled slot with 1.
fn replace(tally: &mut Tally, slot: usize, content: Slot) {
    let leaves = figures(&slots(tally)[slot]).map(|figure| -figure);
    let [weight, longitudinal, vertical, transverse] = sum(sum(totals(tally), leaves), figures(&content));
    let (slots, _) = tally.slots.as_chunks_mut();
    slots[slot] = content;
    slots.iter_mut().for_each(|slot: &mut Slot| slot[0] = i64::from(slot[0] != 0));
    tally.totals = [weight, longitudinal, vertical].map(|total| total as u64);
    tally.transverse = transverse as i64;
}
