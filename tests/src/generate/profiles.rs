//! Supply vessels: within the ranges, with levers of either sign and a peak at any angle, aimed at the limits of the
//! criterion, and with KG lowered.

use super::edges::end_or_any;
use super::random::Random;
use crate::peer::profile::{least_area_to, lever, multiplied_sum, peak};
use crate::peer::profile::{AREA_DIVISOR, AREA_FACTOR, AT_15, AT_30, AT_40, LEAST_AREA_FROM_30_TO_40};
use crate::peer::ranges::{Range, ANGLES, KM_AND_KG, KN};
use crate::peer::rows::multipliers;
use crate::vessel::Vessel;
use std::ops::RangeInclusive;

type Levers = [i64; ANGLES];

#[derive(Clone, Copy)]
enum Kind {
    /// A hump with its peak at any angle, and now and then another lever as great or a mm less.
    Humped,
    /// A rise to 15, 20, 25 or 30 degrees with about the area that is wanted there.
    Rising,
    /// Two levers about equal, so that a lower KG may move the peak from one to the other.
    Tipping,
    /// A few mm of levers and of KG: many are equal, and rounding decides.
    Slight,
    /// Any number at each place.
    Ragged,
    /// A number at an end of its range or beside it at each place.
    Ends,
    /// One KN throughout.
    Level,
}

const KINDS: [Kind; 11] = [
    Kind::Humped,
    Kind::Humped,
    Kind::Humped,
    Kind::Rising,
    Kind::Rising,
    Kind::Rising,
    Kind::Tipping,
    Kind::Slight,
    Kind::Ragged,
    Kind::Ends,
    Kind::Level,
];
const KM: Range = KM_AND_KG[0];
const KG: Range = KM_AND_KG[1];
/// A KG whose product is whole at some angle besides 30 degrees, or a millionth above it.
const TELLING_KGS: [i64; 7] = [40_000, 50_000, 62_500, 80_000, 100_000, 20_779, 39_243];
/// No vessel has a higher one that is to have levers above 0 at every angle.
const HIGHEST_KG: i64 = 22_000;
const GREATEST_LEVER: i64 = 1_500;
/// Of a straight rise from nothing the multiplied sum is so much of its greatest lever for every interval.
const OF_A_RISE: i64 = 12;

/// A vessel within its ranges.
pub fn vessel(random: &mut Random) -> Vessel {
    let kind = random.pick(&KINDS);
    let mut vessel = of_kind(random, kind);
    if matches!(kind, Kind::Rising) {
        aim_area_to_t(random, &mut vessel);
    }
    match random.below(6) {
        0 => aim_area_from_30_to_40(random, &mut vessel),
        1 => {
            let wanted = random.pick(&[-1, 199, 200, 201]);
            vessel.kn[AT_30] = within(KN, wanted - lever(0, vessel.kg as i64, AT_30));
        }
        _ => {}
    }
    if random.one_in(2) {
        vessel.km = within(KM, vessel.kg as i64 + random.pick(&[-1, 0, 149, 150, 151]));
    }
    vessel
}

fn of_kind(random: &mut Random, kind: Kind) -> Vessel {
    let kg = kg(random, kind);
    let km = match kind {
        Kind::Ragged | Kind::Ends => number(random, kind, KM),
        _ => kg + random.between(-500, 2_500),
    };
    let level = end_or_any(random, KN);
    let kn: Levers = match kind {
        Kind::Humped => over(kg, humped(random)),
        Kind::Rising => over(kg, rising(random)),
        Kind::Tipping => over(kg, tipping(random)),
        Kind::Slight => over(kg, std::array::from_fn(|_| random.between(-1, 2))),
        Kind::Level => [level; ANGLES],
        _ => std::array::from_fn(|_| number(random, kind, KN)),
    };
    Vessel { kn: kn.map(|kn| within(KN, kn)).to_vec(), km: within(KM, km), kg: kg as u64 }
}

fn kg(random: &mut Random, kind: Kind) -> i64 {
    match kind {
        Kind::Ragged | Kind::Ends => number(random, kind, KG),
        Kind::Slight => random.between(0, 30),
        Kind::Level if random.one_in(4) => KG.least,
        _ if random.one_in(8) => random.pick(&TELLING_KGS) + random.between(-1, 0),
        _ if random.one_in(8) => end_or_any(random, KG),
        _ => random.between(0, HIGHEST_KG),
    }
}

/// A number of a range by itself.
fn number(random: &mut Random, kind: Kind, range: Range) -> i64 {
    match kind {
        Kind::Ends => random.pick(&[range.least, range.least + 1, range.greatest - 1, range.greatest]),
        _ => end_or_any(random, range),
    }
}

/// The KN that these levers take over a KG.
fn over(kg: i64, levers: Levers) -> Levers {
    std::array::from_fn(|angle| levers[angle] - lever(0, kg, angle))
}

/// Levers that fall away from a peak to both sides, one of them now and then as great as it or a mm less.
fn humped(random: &mut Random) -> Levers {
    let peak = random.index(ANGLES);
    let greatest = random.between(1, GREATEST_LEVER);
    let falls = [random.between(0, greatest), random.between(0, greatest / 2)];
    let mut levers = std::array::from_fn(|angle| {
        let fall = falls[usize::from(angle > peak)] * angle.abs_diff(peak) as i64;
        greatest - fall - if angle == peak { 0 } else { random.between(1, 20) }
    });
    if random.one_in(3) {
        levers[random.index(ANGLES)] = greatest - random.between(0, 1);
    }
    levers
}

/// Levers that rise to an angle, so far that the area up to it is about what is wanted, and beyond it are lower; or
/// with the peak, where it is held at 15 or at 30 degrees, on its other side.
fn rising(random: &mut Random) -> Levers {
    let top = AT_15 + random.index(AT_30 - AT_15 + 1);
    let greatest = least_sum(least_area_to(top)) / (OF_A_RISE * top as i64);
    let lowest_beyond = random.pick(&[-greatest, 0, greatest - 20]);
    let mut levers = std::array::from_fn(|angle| match angle {
        0 => random.between(0, 30),
        _ if angle < top => greatest * angle as i64 / top as i64 + random.between(-greatest / 20, greatest / 20),
        _ if angle == top => greatest,
        _ => random.between(lowest_beyond, greatest - 1),
    });
    if random.one_in(2) {
        match top {
            AT_15 => levers[random.index(AT_15)] = greatest,
            AT_30 => {
                let peak = AT_30 + 1 + random.index(ANGLES - AT_30 - 1);
                levers[peak] = random.between(greatest + 1, GREATEST_LEVER);
            }
            _ => {}
        }
    }
    levers
}

/// A peak that a lower KG moves back below 15 degrees, where rounding is for it, or from 15 degrees over a hollow to
/// 30.
fn tipping(random: &mut Random) -> Levers {
    let greatest = random.between(GREATEST_LEVER / 2, GREATEST_LEVER);
    let mut levers = [0; ANGLES];
    if random.one_in(2) {
        levers[1 + random.index(AT_15 - 1)] = greatest - 1;
        levers[AT_15 + random.index(ANGLES - AT_15)] = greatest;
    } else {
        levers[1..AT_15].fill(greatest / 2);
        levers[AT_15..=AT_30].fill(-2 * GREATEST_LEVER);
        (levers[AT_15], levers[AT_30]) = (greatest, greatest);
    }
    levers
}

/// Sets KN at two angles for an area up to t that is just met or just missed, mostly with the peak where it was.
fn aim_area_to_t(random: &mut Random, vessel: &mut Vessel) {
    let t = peak(&vessel.levers()).clamp(AT_15, AT_30);
    let between = 1 + random.index(t - 2);
    aim_sum(random, vessel, 0..=t, least_area_to(t), [between, 0]);
}

fn aim_area_from_30_to_40(random: &mut Random, vessel: &mut Vessel) {
    let end = random.pick(&[AT_30, AT_40]);
    aim_sum(random, vessel, AT_30..=AT_40, LEAST_AREA_FROM_30_TO_40, [AT_30 + 1, end]);
}

/// Sets KN at two angles in turn for a multiplied sum over a part of the curve beside the least that has an area.
fn aim_sum(random: &mut Random, vessel: &mut Vessel, part: RangeInclusive<usize>, area: i64, angles: [usize; 2]) {
    let wanted = least_sum(area) - 1 + random.pick(&[0, 1, 8, 9]);
    let multipliers = multipliers(part.end() - part.start());
    for angle in angles {
        let wanting = wanted - multiplied_sum(&vessel.levers()[part.clone()]);
        let higher = wanting.div_euclid(multipliers[angle - part.start()] as i64);
        vessel.kn[angle] = within(KN, vessel.kn[angle] as i64 + higher);
    }
}

/// The least multiplied sum that has an area of so many mm·radians.
fn least_sum(area: i64) -> i64 {
    (area * AREA_DIVISOR + AREA_FACTOR - 1) / AREA_FACTOR
}

/// The number, or the end of the range that it lies beyond.
fn within(range: Range, number: i64) -> u64 {
    number.clamp(range.least, range.greatest) as u64
}

impl Vessel {
    /// GZ at each angle of a vessel within its ranges.
    fn levers(&self) -> Levers {
        std::array::from_fn(|angle| lever(self.kn[angle] as i64, self.kg as i64, angle))
    }

    /// With KG a mm lower, with half of it, and with none.
    pub fn lowered(&self) -> [Vessel; 3] {
        [self.kg.saturating_sub(1), self.kg / 2, 0].map(|kg| Vessel { kg, ..self.clone() })
    }
}
