//! Supply vessels damaged in the size of their table and in every number.

use super::edges::{damage_size, edge};
use super::random::Random;
use crate::peer::ranges::{ANGLES, KM_AND_KG, KN};
use crate::vessel::Vessel;

/// As many numbers as no table may have; the last agrees with the right count in its low bits.
const WRONG_COUNTS: [usize; 6] = [0, 1, ANGLES - 1, ANGLES + 1, 2 * ANGLES, ANGLES + (1 << 8)];
/// The numbers of a vessel: its table's, KM and KG.
const NUMBERS: usize = ANGLES + KM_AND_KG.len();

/// Spoils one thing or several, or leaves them at the edge of what is allowed.
pub fn damage(random: &mut Random, vessel: &mut Vessel) {
    match random.below(10) {
        0 => damage_size(random, &mut vessel.kn, 1),
        1 => resize(vessel, random.pick(&WRONG_COUNTS)),
        2 => {
            resize(vessel, random.pick(&WRONG_COUNTS));
            damage_anywhere(random, vessel);
        }
        3..=5 => {
            damage_anywhere(random, vessel);
            damage_anywhere(random, vessel);
        }
        6 => {
            for place in ANGLES..NUMBERS {
                damage_number(random, vessel, place);
            }
        }
        _ => damage_anywhere(random, vessel),
    }
}

fn resize(vessel: &mut Vessel, count: usize) {
    let last = vessel.kn.last().copied().unwrap_or_default();
    vessel.kn.resize(count, last);
}

fn damage_anywhere(random: &mut Random, vessel: &mut Vessel) {
    let place = random.index(NUMBERS);
    damage_number(random, vessel, place);
}

/// The number at a place at an edge, where the table is so long.
fn damage_number(random: &mut Random, vessel: &mut Vessel, place: usize) {
    let (number, range) = match place.checked_sub(ANGLES) {
        None => (vessel.kn.get_mut(place), KN),
        Some(0) => (Some(&mut vessel.km), KM_AND_KG[0]),
        Some(_) => (Some(&mut vessel.kg), KM_AND_KG[1]),
    };
    if let Some(number) = number {
        *number = edge(random, range, *number as i64) as u64;
    }
}
