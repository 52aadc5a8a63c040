//! Inclining tests: within the ranges, aimed at a light weight, a moment and a KG near the limits, and altered so that their
//! light ships must fit.

use super::edges::end_or_any;
use super::random::Random;
use crate::inclining::Inclining;
use crate::peer::inclining::Balance;
use crate::peer::ranges::{Range, FEWEST_SHIFTS, ITEM, MOST_ITEMS, MOST_SHIFTS, SHIFT, TEST};

#[derive(Clone, Copy)]
enum Kind {
    /// As in a yard: every shift shows about one GM.
    Steady,
    /// Any number at each place.
    Ragged,
    /// A number at an end of its range or beside it at each place.
    Ends,
    /// Round figures, so that every GM is whole, or one shift's is beside it.
    Even,
    /// A few kg, whose GM is very great, with much to put on.
    Dinghy,
    /// As many shifts and items as may be.
    Full,
}

const KINDS: [Kind; 8] =
    [Kind::Steady, Kind::Steady, Kind::Ragged, Kind::Ends, Kind::Even, Kind::Dinghy, Kind::Full, Kind::Full];
/// Where they stand in a test, and the distance in a shift.
const W: usize = 0;
const KM: usize = 1;
const FREE_SURFACE: usize = 2;
const LENGTH: usize = 3;
const DISTANCE: usize = 1;
/// Round figures: a W of so many times the weight that is shifted, and the pendulum as long.
const ROUND: i64 = 1_000;
/// Room whose low bits are 0.
const MUCH_ROOM: usize = 1 << 8;
const HEAVIEST_ITEM: i64 = ITEM[0].greatest;
const HIGHEST: i64 = ITEM[3].greatest;

/// A test within its ranges, answered or refused for its light weight or its moment.
pub fn inclining(random: &mut Random) -> Inclining {
    let kind = random.pick(&KINDS);
    let mut inclining = of_kind(random, kind);
    if random.one_in(4) {
        aim_weight(random, &mut inclining);
    }
    if !random.one_in(4) {
        aim_moment(random, &mut inclining);
    }
    inclining
}

/// How many GMs the table holds that is lent to a test: as many as it has shifts, or more.
pub fn room(random: &mut Random, inclining: &Inclining) -> usize {
    let shifts = inclining.shifts.len() / SHIFT.len();
    let more = shifts + random.index(40);
    random.pick(&[shifts, shifts, shifts + 1, MOST_SHIFTS, more, MUCH_ROOM, MUCH_ROOM + shifts])
}

fn of_kind(random: &mut Random, kind: Kind) -> Inclining {
    let mut test = TEST.map(|range| number(random, kind, range) as u64);
    let heaviest = TEST[W].greatest >> random.below(18);
    test[W] = match kind {
        Kind::Steady | Kind::Full => random.between(heaviest / 2, heaviest) as u64,
        Kind::Dinghy => random.between(1, 50) as u64,
        _ => test[W],
    };
    if matches!(kind, Kind::Steady) {
        test[KM] = random.between(1_000, 12_000) as u64;
        test[FREE_SURFACE] = random.between(0, 500) as u64 * test[W];
    }
    let [count, off, on] = counts(random, kind);
    let shifts = match kind {
        Kind::Steady => steady_shifts(random, &test, count),
        Kind::Even => even_shifts(random, &mut test, count),
        Kind::Dinghy => great_shifts(random, count),
        _ => (0..count).flat_map(|_| SHIFT.map(|range| number(random, kind, range) as u64)).collect(),
    };
    let [off, on] = [off, on].map(|count| items(random, kind, test[W], count));
    Inclining { test, shifts, off, on }
}

/// A number of a range by itself.
fn number(random: &mut Random, kind: Kind, range: Range) -> i64 {
    match kind {
        Kind::Ends => random.pick(&[range.least, range.least + 1, range.greatest - 1, range.greatest]),
        Kind::Ragged => random.between(range.least, range.greatest),
        _ => end_or_any(random, range),
    }
}

/// Shifts, items to take off and items to put on; mostly few items, now and then as many as may be.
fn counts(random: &mut Random, kind: Kind) -> [usize; 3] {
    let any = [FEWEST_SHIFTS + random.index(MOST_SHIFTS - FEWEST_SHIFTS + 1), random.index(4), random.index(4)];
    match kind {
        Kind::Full => [MOST_SHIFTS, MOST_ITEMS, MOST_ITEMS],
        Kind::Dinghy if random.one_in(2) => [any[0], any[1], MOST_ITEMS],
        _ if random.one_in(8) => [any[0], random.index(MOST_ITEMS + 1), random.index(MOST_ITEMS + 1)],
        _ => any,
    }
}

/// Deflections that show a wanted GM as nearly as whole mm can.
fn steady_shifts(random: &mut Random, test: &[u64; 4], count: usize) -> Vec<u64> {
    let gm = random.between(1, 3_000) as u64;
    let shift = |_| {
        let [weight, distance, _] = SHIFT.map(|range| random.between(range.least, range.greatest) as u64);
        let deflection = weight * distance * test[LENGTH] / (test[W] * gm);
        [weight, distance, deflection.clamp(1, SHIFT[2].greatest as u64)]
    };
    (0..count).flat_map(shift).collect()
}

/// One weight, shifted each time as far as a GM times the deflection; half of the time one of them a mm beside.
fn even_shifts(random: &mut Random, test: &mut [u64; 4], count: usize) -> Vec<u64> {
    let weight = random.between(1, TEST[W].greatest / ROUND);
    let greatest = SHIFT[DISTANCE].greatest >> random.below(12);
    let gm = random.between(1, greatest);
    let deflections = SHIFT[2].greatest.min(SHIFT[DISTANCE].greatest / gm);
    (test[W], test[LENGTH]) = ((weight * ROUND) as u64, ROUND as u64);
    let shift = |_| {
        let deflection = random.between(1, deflections);
        [weight, gm * deflection, deflection].map(|number| number as u64)
    };
    let mut shifts: Vec<u64> = (0..count).flat_map(shift).collect();
    if random.one_in(2) {
        let distance = &mut shifts[random.index(count) * SHIFT.len() + DISTANCE];
        *distance = random.pick(&[*distance - 1, *distance + 1]).clamp(1, SHIFT[DISTANCE].greatest as u64);
    }
    shifts
}

/// Weights and distances of any size with small deflections.
fn great_shifts(random: &mut Random, count: usize) -> Vec<u64> {
    let [weights, distances, deflections] = SHIFT.map(|range| range.greatest >> random.below(11));
    let shift = |_| [weights, distances, deflections >> 6].map(|most| random.between(1, most.max(1)) as u64);
    (0..count).flat_map(shift).collect()
}

/// Items that weigh little beside the vessel, or anything.
fn items(random: &mut Random, kind: Kind, w: u64, count: usize) -> Vec<i64> {
    let light = (w as i64 / (2 * count as i64 + 1)).min(HEAVIEST_ITEM);
    let most = if random.one_in(4) || matches!(kind, Kind::Dinghy) { HEAVIEST_ITEM } else { light };
    let item = |_| {
        let [kg, place @ ..] = ITEM.map(|range| number(random, kind, range));
        let kg = if matches!(kind, Kind::Ends) { kg } else { kg.min(random.between(0, most)) };
        [kg, place[0], place[1], place[2]]
    };
    (0..count).flat_map(item).collect()
}

/// Sets W for a wanted light weight about 0, where it is in range.
fn aim_weight(random: &mut Random, inclining: &mut Inclining) {
    let wanted = random.pick(&[-1, 0, 1, 1, 2, 3, 7]);
    let w = i128::from(inclining.test[W]) + wanted - inclining.balance().weight;
    if let Some(w) = i64::try_from(w).ok().filter(|&w| TEST[W].has(w)) {
        inclining.test[W] = w as u64;
    }
}

/// Sets KM and then the free surface for a wanted moment, or near it: about 0, or one whose KG is whole or nearly so.
fn aim_moment(random: &mut Random, inclining: &mut Inclining) {
    let Balance { weight, moment, .. } = inclining.balance();
    let beside = random.pick(&[-1, 0, 0, 1]);
    let kg = i128::from(random.between(0, HIGHEST));
    let part = i128::from(random.below(weight.max(1) as u64));
    let whole = weight.max(0) * kg;
    let excess = moment - random.pick(&[beside, whole + beside, whole + beside, whole + part]);
    let [w, km, free_surface] = [W, KM, FREE_SURFACE].map(|i| i128::from(inclining.test[i]));
    let lower = within(TEST[KM], km - excess.div_euclid(w));
    let larger = within(TEST[FREE_SURFACE], free_surface + excess - (km - lower) * w);
    (inclining.test[KM], inclining.test[FREE_SURFACE]) = (lower as u64, larger as u64);
}

/// The number, or the end of the range that it lies beyond.
fn within(range: Range, number: i128) -> i128 {
    number.clamp(range.least.into(), range.greatest.into())
}

impl Inclining {
    /// What a test within its ranges comes to.
    pub fn balance(&self) -> Balance {
        Balance::of(&self.test, &self.shifts, &self.off, &self.on)
    }

    /// The same shifts, the last one first.
    pub fn turned(&self) -> Inclining {
        let shifts = self.shifts.rchunks(SHIFT.len()).flatten().copied().collect();
        Inclining { shifts, ..self.clone() }
    }

    /// With a free surface that takes so much moment more, or the largest.
    pub fn with_surface_of(&self, moment: u64) -> Inclining {
        let mut inclining = self.clone();
        let free_surface = &mut inclining.test[FREE_SURFACE];
        *free_surface = (*free_surface + moment).min(TEST[FREE_SURFACE].greatest as u64);
        inclining
    }

    /// With the heaviest item, as high as may be, taken off and put on as often as both lists have place for it.
    pub fn filled(&self) -> Inclining {
        let mut inclining = self.clone();
        let longer = self.off.len().max(self.on.len()) / ITEM.len();
        for list in [&mut inclining.off, &mut inclining.on] {
            (longer..MOST_ITEMS).for_each(|_| list.extend(ITEM.map(|range| range.greatest)));
        }
        inclining
    }
}
