//! What the inclining tests and their light ships are like that are answered, and that light ships fit their shifts, their
//! KG and their tests altered.

use super::observation::Observation;
use crate::generate::Call;
use crate::inclining::Inclining;
use crate::peer::ranges::{ITEM, ITEM_ROOM, SHIFT, TEST};

/// Of answered ones, what is handed in.
pub const INCLININGS: [&str; 28] = [
    "2 shifts",
    "3 shifts",
    "4 shifts",
    "5 shifts",
    "6 shifts",
    "7 shifts",
    "8 shifts",
    "9 shifts",
    "10 shifts",
    "11 shifts",
    "12 shifts",
    "nothing to take off",
    "nothing to put on",
    "the most items to take off",
    "the most items to put on",
    "room for its GMs alone",
    "room for more",
    "the least W",
    "the greatest W",
    "the least KM",
    "the greatest KM",
    "no free surface",
    "the greatest free surface",
    "the shortest pendulum",
    "the longest pendulum",
    "the greatest weight over the greatest distance",
    "the least deflection",
    "the greatest deflection",
];
/// Of answered ones, what comes out.
pub const LIGHT_SHIPS: [&str; 17] = [
    "a whole GM",
    "a GM rounded down",
    "a GM of 0",
    "GM at KM",
    "GM above KM",
    "a GM above 32 bits",
    "one GM by all shifts",
    "another by the last than by the first",
    "a whole KG",
    "a KG with 1 kg mm beyond whole",
    "a KG 1 kg mm short of whole",
    "a KG above 100,000 mm",
    "a light weight of 1",
    "a moment of 0",
    "a moment of 1",
    "more taken off than W",
    "a moment below 0 but for what is put on",
];
pub const ALTERATIONS: [&str; 3] = ["shifts turned about", "a larger free surface", "the same items on both sides"];

/// Where they stand among the values of a light ship.
const MOMENT: usize = 2;
const KG: usize = 3;
const HIGHEST_KM: u64 = TEST[1].greatest as u64;

/// Which of these an answered test is.
pub fn inclining(inclining: &Inclining, seen: &Observation) -> [bool; INCLININGS.len()] {
    let Inclining { test, shifts, off, on } = inclining;
    let has = |count: usize| shifts.len() == count * SHIFT.len();
    let is_least = |i: usize| test[i] == TEST[i].least as u64;
    let is_greatest = |i: usize| test[i] == TEST[i].greatest as u64;
    let any_shift = |is: fn(&[u64]) -> bool| shifts.chunks(SHIFT.len()).any(is);
    [
        has(2),
        has(3),
        has(4),
        has(5),
        has(6),
        has(7),
        has(8),
        has(9),
        has(10),
        has(11),
        has(12),
        off.is_empty(),
        on.is_empty(),
        off.len() == ITEM_ROOM,
        on.len() == ITEM_ROOM,
        has(seen.wholes.len()),
        !has(seen.wholes.len()),
        is_least(0),
        is_greatest(0),
        is_least(1),
        is_greatest(1),
        is_least(2),
        is_greatest(2),
        is_least(3),
        is_greatest(3),
        any_shift(|shift| (0..2).all(|i| shift[i] == SHIFT[i].greatest as u64)),
        any_shift(|shift| shift[2] == SHIFT[2].least as u64),
        any_shift(|shift| shift[2] == SHIFT[2].greatest as u64),
    ]
}

/// Which of these a light ship is.
pub fn light_ship(inclining: &Inclining, seen: &Observation) -> [bool; LIGHT_SHIPS.len()] {
    let Inclining { test: [w, km, _, length], shifts, off, on } = inclining;
    let [gm, weight, moment, kg, ..] = seen.values;
    let shifted: u64 = shifts.chunks(SHIFT.len()).map(|shift| shift[0] * shift[1]).sum();
    let deflection: u64 = shifts.chunks(SHIFT.len()).map(|shift| shift[2]).sum();
    let whole = shifted * length == gm * w * deflection;
    let own = &seen.wholes[..shifts.len() / SHIFT.len()];
    let taken_off: i64 = off.chunks(ITEM.len()).map(|item| item[0]).sum();
    let put_on: i64 = on.chunks(ITEM.len()).map(|item| item[0] * item[3]).sum();
    [
        gm > 0 && whole,
        !whole,
        gm == 0,
        gm == *km,
        gm > *km,
        gm > u64::from(u32::MAX),
        own.iter().all(|own| *own == gm),
        own.first() != own.last(),
        moment > 0 && moment.is_multiple_of(weight),
        weight > 1 && moment % weight == 1,
        weight > 2 && moment % weight == weight - 1,
        kg > HIGHEST_KM,
        weight == 1,
        moment == 0,
        moment == 1,
        taken_off as u64 > *w,
        moment < put_on as u64,
    ]
}

/// Holds an answered test's GM to its shifts', none of which it may lie beyond, and its KG to weight and moment.
pub fn examine(call: &Call, seen: &Observation) -> Result<(), String> {
    let Call::LightShip { inclining, .. } = call else { return Ok(()) };
    let [gm, ..] = seen.values;
    let [weight, moment, kg] = [1, 2, 3].map(|i| i128::from(seen.values[i]));
    let own = &seen.wholes[..inclining.shifts.len() / SHIFT.len()];
    if !(own.iter().any(|own| *own <= gm) && own.iter().any(|own| *own >= gm)) {
        Err(format!("GM lies beyond all shifts': {seen:?}"))
    } else if !(kg * weight >= moment && moment > (kg - 1) * weight) {
        Err(format!("KG is not that of weight and moment: {seen:?}"))
    } else {
        Ok(())
    }
}

/// Holds what the library makes of a test to what it makes of it altered, in the order of the alterations.
pub fn fits(call: &Call, seen: &Observation, [turned, larger, filled]: [Observation; 3]) -> Result<(), String> {
    let Call::LightShip { inclining, .. } = call else { return Ok(()) };
    let mut turned_back = turned.clone();
    turned_back.wholes[..inclining.shifts.len() / SHIFT.len()].reverse();
    // moment and KG alone may differ, and neither is raised
    let mut with_moment = larger.clone();
    with_moment.values[MOMENT..=KG].copy_from_slice(&seen.values[MOMENT..=KG]);
    let lower = [MOMENT, KG].iter().all(|&i| larger.values[i] <= seen.values[i]);
    let fits = [turned_back == *seen, with_moment == *seen && lower, filled == *seen];
    match fits.iter().position(|fits| !fits) {
        None => Ok(()),
        Some(i) => {
            let altered = [turned, larger, filled];
            Err(format!("no fit with {}\nbefore: {seen:?}\naltered: {:?}", ALTERATIONS[i], altered[i]))
        }
    }
}
