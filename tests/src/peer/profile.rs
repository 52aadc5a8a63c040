//! The profile of a supply vessel, in signed numbers from the levers on.
//!
//! A lever is KN and the product in one division that is rounded down. A sum goes along the curve one rule after
//! another, and its area is divided out to whole mm·radians, which meet a whole limit where the request's products do.

use super::ranges::{ANGLES, KM_AND_KG, KN};
use super::{refusals, refuse, size_is_right, tables};
use crate::calls::{Profile, Refusal, Rules};

/// The sine of each angle, in millionths.
pub const SINES: [i64; ANGLES] =
    [0, 87_156, 173_648, 258_819, 342_020, 422_618, 500_000, 573_576, 642_788, 707_107, 766_044, 819_152, 866_025];
pub const MILLION: i64 = 1_000_000;
/// From one angle to the next.
const DEGREES: u64 = 5;
/// Where these angles stand in a table.
pub const AT_15: usize = 3;
pub const AT_30: usize = 6;
pub const AT_40: usize = 8;

/// A multiplied sum of mm, in 24ths of 5 degrees, makes so many mm·radians of area times this, divided by that.
pub const AREA_FACTOR: i64 = 5_000;
pub const AREA_DIVISOR: i64 = 24 * 57_296;
/// The least area from 30 to 40 degrees, mm·radians.
pub const LEAST_AREA_FROM_30_TO_40: i64 = 30;
const LEAST_GZ_AT_30: i64 = 200;
const LEAST_GM: i64 = 150;

/// The profile of a supply vessel from its KN table, KM and KG; GZ at each angle goes into the lent table.
pub fn supply_profile(kn: &[u64], km: u64, kg: u64, gz: &mut [i64; ANGLES]) -> Result<Profile, Refusal> {
    size_is_right(kn.len() == ANGLES, tables::KN)?;
    try_numbers(kn, km, kg)?;
    let [km, kg] = [km, kg].map(|height| height as i64);
    *gz = std::array::from_fn(|angle| lever(kn[angle] as i64, kg, angle));
    Ok(against_the_criterion(gz, km - kg))
}

/// Tries every number for refusal 4: the table's, KM, KG.
fn try_numbers(kn: &[u64], km: u64, kg: u64) -> Result<(), Refusal> {
    let table = kn.iter().map(|&number| KN.has_whole(number));
    let heights = [km, kg].into_iter().zip(KM_AND_KG).map(|(number, range)| range.has_whole(number));
    match table.chain(heights).position(|inside| !inside) {
        Some(place) => refuse(refusals::RANGE, place),
        None => Ok(()),
    }
}

/// GZ at an angle.
pub fn lever(kn: i64, kg: i64, angle: usize) -> i64 {
    (MILLION * kn - kg * SINES[angle]).div_euclid(MILLION)
}

fn against_the_criterion(gz: &[i64; ANGLES], gm: i64) -> Profile {
    let peak = peak(gz);
    let t = peak.clamp(AT_15, AT_30);
    let (sum_to_t, sum_from_30_to_40) = (multiplied_sum(&gz[..=t]), multiplied_sum(&gz[AT_30..=AT_40]));
    let rules = Rules {
        peak: peak >= AT_15,
        area_to_t: area(sum_to_t) >= least_area_to(t),
        area_from_30_to_40: area(sum_from_30_to_40) >= LEAST_AREA_FROM_30_TO_40,
        gz_at_30: gz[AT_30] >= LEAST_GZ_AT_30,
        gm: gm >= LEAST_GM,
    };
    Profile { peak: DEGREES * peak as u64, rules, gm, gz_at_30: gz[AT_30], sum_to_t, sum_from_30_to_40 }
}

/// Where the first greatest lever stands.
pub fn peak(gz: &[i64; ANGLES]) -> usize {
    // of equal ones the last is taken, which is the first from behind
    let (peak, _) = gz.iter().enumerate().rev().max_by_key(|(_, lever)| **lever).expect("there are thirteen");
    peak
}

/// The multiplied sum of two or more intervals: the first rule by two, and where three are left the second.
pub fn multiplied_sum(levers: &[i64]) -> i64 {
    match levers {
        [a, b, c, d] => 9 * (a + 3 * b + 3 * c + d),
        [a, b, c, ..] => 8 * (a + 4 * b + c) + multiplied_sum(&levers[2..]),
        _ => 0,
    }
}

/// The area of a multiplied sum, in mm·radians rounded down.
pub fn area(sum: i64) -> i64 {
    (AREA_FACTOR * sum).div_euclid(AREA_DIVISOR)
}

/// The least area from 0 to an angle, mm·radians: 55 to 30 degrees, and 1 more for each degree below.
pub fn least_area_to(angle: usize) -> i64 {
    55 + DEGREES as i64 * (AT_30 - angle) as i64
}
