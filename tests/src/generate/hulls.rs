//! Hulls within the ranges of a file: ships, boxes, wedges, random lines, and those that rows refuse.

use super::edges::end_or_any;
use super::random::Random;
use crate::peer::ranges::{Range, HALF_BREADTH, INTERVALS, LONGEST_HULL, PARTICULARS, STATION_SPACING};

pub struct Hull {
    pub particulars: [u64; 5],
    pub half_breadths: Vec<u64>,
}

#[derive(Clone, Copy)]
enum Shape {
    Ship,
    Box,
    Wedge,
    /// Any number at each place.
    Ragged,
    /// Least or greatest at each place.
    Extremes,
    /// Full breadth, half of the time as long, as deep and in as dense water as may be.
    Widest,
    /// Nothing but one waterline.
    Ledge,
    /// Narrow below a waterline and wide above it, so that KM jumps there.
    Flared,
    /// Narrow above a waterline, so that the displacement may not rise.
    Tumblehome,
    /// So small that displacements are a few kg, or none.
    Tiny,
    /// A box whose first KM is near the highest allowed.
    HighMetacentre,
    Nothing,
}

const SHAPES: [Shape; 19] = [
    Shape::Ship,
    Shape::Ship,
    Shape::Ship,
    Shape::Ship,
    Shape::Box,
    Shape::Box,
    Shape::Box,
    Shape::Wedge,
    Shape::Wedge,
    Shape::Wedge,
    Shape::Ragged,
    Shape::Extremes,
    Shape::Widest,
    Shape::Ledge,
    Shape::Flared,
    Shape::Tumblehome,
    Shape::Tiny,
    Shape::Tiny,
    Shape::HighMetacentre,
];

pub fn hull(random: &mut Random) -> Hull {
    let [n, m] = intervals(random);
    let [_, _, _, d, density] = PARTICULARS;
    let s = station_spacings(n);
    let mut particulars = [n, m, end_or_any(random, s), end_or_any(random, d), end_or_any(random, density)];
    let shape = if random.one_in(60) { Shape::Nothing } else { random.pick(&SHAPES) };
    let lines = Lines::of(random, shape, &mut particulars);
    let mut half_breadths = Vec::with_capacity(((n + 1) * (m + 1)) as usize);
    for station in 0..=n {
        for waterline in 0..=m {
            let y = lines.half_breadth(random, station, waterline);
            half_breadths.push(y.clamp(HALF_BREADTH.least, HALF_BREADTH.greatest) as u64);
        }
    }
    Hull { particulars: particulars.map(|number| number as u64), half_breadths }
}

/// Intervals of length and of draft: mostly few, some of any number, now and then the most, also of length alone.
fn intervals(random: &mut Random) -> [i64; 2] {
    let [n, m, ..] = PARTICULARS;
    let half = n.greatest / 2;
    match random.below(32) {
        0 => [n.greatest, m.greatest],
        1..=3 => [random.between(n.least, n.greatest), random.between(m.least, m.greatest)],
        4 | 5 => [random.pick(&[half, half + 1, n.greatest - 1, n.greatest]), random.between(m.least, 7)],
        _ => [random.between(n.least, 7), random.between(m.least, 7)],
    }
}

/// The mm between stations at which so many intervals are not too long.
fn station_spacings(intervals: i64) -> Range {
    let spacings = PARTICULARS[STATION_SPACING];
    Range { greatest: spacings.greatest.min(LONGEST_HULL as i64 / intervals), ..spacings }
}

/// Moves the stations of a hull as far apart as may be, or further; with too few intervals for that it gets more.
pub fn stretch(random: &mut Random, particulars: &mut [u64; 5]) {
    let [most, widest] = [INTERVALS, STATION_SPACING].map(|i| PARTICULARS[i].greatest);
    let fewest = LONGEST_HULL as i64 / widest + 1;
    let mut n = particulars[INTERVALS] as i64;
    if !(fewest..=most).contains(&n) {
        n = random.between(fewest, most);
    }
    let longest = station_spacings(n).greatest;
    let any = random.between(longest + 1, widest);
    particulars[INTERVALS] = n as u64;
    particulars[STATION_SPACING] = random.pick(&[longest, longest + 1, longest + 1, any, any, widest]) as u64;
}

/// What gives a shape its numbers.
struct Lines {
    shape: Shape,
    n: i64,
    m: i64,
    breadth: i64,
    /// The waterline where a ledge, a flare or a tumblehome stands.
    level: i64,
}

impl Lines {
    fn of(random: &mut Random, shape: Shape, particulars: &mut [i64; 5]) -> Lines {
        let [n, m, ..] = *particulars;
        let level = random.between(0, m);
        let mut breadth = random.between(1, HALF_BREADTH.greatest);
        match shape {
            Shape::Tiny => {
                particulars[2] = random.between(50, 120);
                particulars[3] = random.between(10, 30);
                breadth = random.between(1, 1_500);
            }
            Shape::HighMetacentre => {
                particulars[3] = random.between(10, 100);
                breadth = (300_000 * particulars[3] * 2).isqrt() + random.between(-2, 2);
            }
            Shape::Widest if random.one_in(2) => {
                particulars[2] = station_spacings(n).greatest;
                particulars[3] = PARTICULARS[3].greatest;
                particulars[4] = PARTICULARS[4].greatest;
            }
            _ => {}
        }
        Lines { shape, n, m, breadth, level }
    }

    fn half_breadth(&self, random: &mut Random, station: i64, waterline: i64) -> i64 {
        let greatest = HALF_BREADTH.greatest;
        match self.shape {
            Shape::Ship => self.ship(station, waterline),
            Shape::Box => self.breadth,
            Shape::Wedge => self.breadth * waterline / self.m,
            Shape::Ragged => random.between(0, greatest),
            Shape::Extremes => random.pick(&[0, greatest]),
            Shape::Widest => greatest,
            Shape::Ledge => self.if_level(waterline == self.level, self.breadth, 0),
            Shape::Flared => self.if_level(waterline > self.level, greatest, self.breadth / 40),
            Shape::Tumblehome => self.if_level(waterline > self.level, self.breadth / 1_000, self.breadth),
            Shape::Tiny => random.between(self.breadth / 2, self.breadth),
            Shape::HighMetacentre => self.breadth + random.pick(&[-1, 0, 0, 0, 0, 1]),
            Shape::Nothing => 0,
        }
    }

    fn if_level(&self, holds: bool, there: i64, elsewhere: i64) -> i64 {
        if holds {
            there
        } else {
            elsewhere
        }
    }

    /// Full amidships and towards the deck, nothing at the ends.
    fn ship(&self, station: i64, waterline: i64) -> i64 {
        let from_the_middle = 2 * station - self.n;
        let along = self.n * self.n - from_the_middle * from_the_middle;
        self.breadth * along / (self.n * self.n) * (waterline + 1) / (self.m + 1)
    }
}
