//! What the surfaces of hopper tanks are like that are answered, what they are refused for, and that they are the same
//! wherever their middle line lies.

use super::observation::Observation;
use crate::hopper::Hopper;
use crate::peer::hopper::{INERTIA_DIVISOR, MOMENT_DIVISOR};
use crate::peer::ranges::{FEWEST_WIDTHS, LIQUID_DENSITY, MOST_WIDTHS, WIDTH, WIDTH_INTERVAL};
use crate::peer::rows::multipliers;

/// Of answered ones.
pub const SURFACES: [&str; 22] = [
    "2 intervals",
    "3 intervals",
    "4 intervals",
    "5 intervals",
    "6 intervals",
    "7 intervals",
    "8 intervals",
    "9 intervals",
    "10 intervals",
    "no area",
    "nothing to port",
    "nothing to starboard",
    "even sides and a whole inertia",
    "even sides and an inertia rounded up",
    "less inertia than about the middle line",
    "a whole moment",
    "a width at its greatest",
    "all widths at their greatest",
    "the least interval",
    "the greatest interval",
    "the least density",
    "the greatest density",
];
/// For its tables, where one thing alone is wrong with their size, and for a number; then with a later one wrong besides.
pub const REFUSED_SURFACES: [&str; 14] = [
    "unequal tables",
    "too few widths",
    "too many widths",
    "a width to port",
    "a width to starboard",
    "the interval",
    "the density",
    "tables before a number",
    "port before starboard",
    "port before the interval",
    "port before the density",
    "starboard before the interval",
    "starboard before the density",
    "the interval before the density",
];
pub const MIDDLE_LINES: [&str; 2] = ["to port", "to starboard"];

/// The parts of a surface in the order in which they are tried.
const PORT: usize = 0;
const STARBOARD: usize = 1;
const INTERVAL: usize = 2;
const DENSITY: usize = 3;

const OUT_OF_RANGE: u64 = 4;
const TABLE_SIZE: u64 = 7;

/// Which of these an answered surface is.
pub fn surface(hopper: &Hopper, seen: &Observation) -> [bool; SURFACES.len()] {
    let Hopper { port, starboard, interval, density } = hopper;
    let [inertia, moment, ..] = seen.values;
    let has = |intervals: usize| port.len() == intervals + 1;
    let [no_port, no_starboard] = [port, starboard].map(|side| side.iter().all(|&width| width == 0));
    let area = !no_port || !no_starboard;
    let cubes = cubes(hopper);
    let about_middle_line = cubes.div_ceil(INERTIA_DIVISOR) * interval;
    let is_even = area && port == starboard && inertia == about_middle_line;
    let is = |number: u64, limit: i64| number == limit as u64;
    let is_greatest = |width: &u64| is(*width, WIDTH.greatest);
    let mut widths = port.iter().chain(starboard);
    [
        has(2),
        has(3),
        has(4),
        has(5),
        has(6),
        has(7),
        has(8),
        has(9),
        has(10),
        !area,
        area && no_port,
        area && no_starboard,
        is_even && cubes.is_multiple_of(INERTIA_DIVISOR),
        is_even && !cubes.is_multiple_of(INERTIA_DIVISOR),
        inertia < about_middle_line,
        area && moment * MOMENT_DIVISOR == inertia * density,
        widths.clone().any(is_greatest),
        widths.all(is_greatest),
        is(*interval, WIDTH_INTERVAL.least),
        is(*interval, WIDTH_INTERVAL.greatest),
        is(*density, LIQUID_DENSITY.least),
        is(*density, LIQUID_DENSITY.greatest),
    ]
}

/// The multiplied sum of the cubes, of which the inertia about the middle line is made.
fn cubes(hopper: &Hopper) -> u64 {
    let strips = hopper.port.iter().zip(&hopper.starboard).zip(multipliers(hopper.port.len() - 1));
    strips.map(|((p, q), u)| u * (p.pow(3) + q.pow(3))).sum()
}

/// Which of these a refused surface is.
pub fn refused_surface(hopper: &Hopper, seen: &Observation) -> [bool; REFUSED_SURFACES.len()] {
    let [port, starboard] = [hopper.port.len(), hopper.starboard.len()];
    let right = |count: usize| (FEWEST_WIDTHS..=MOST_WIDTHS).contains(&count);
    let by_size = seen.number == TABLE_SIZE;
    let outside = parts_outside(hopper);
    let at = |part: usize| seen.number == OUT_OF_RANGE && part_at(port, seen.place) == part;
    let before = |part: usize, later: usize| at(part) && outside[later];
    [
        by_size && port != starboard && right(port) && right(starboard),
        by_size && port == starboard && port < FEWEST_WIDTHS,
        by_size && port == starboard && port > MOST_WIDTHS,
        at(PORT),
        at(STARBOARD),
        at(INTERVAL),
        at(DENSITY),
        by_size && outside.contains(&true),
        before(PORT, STARBOARD),
        before(PORT, INTERVAL),
        before(PORT, DENSITY),
        before(STARBOARD, INTERVAL),
        before(STARBOARD, DENSITY),
        before(INTERVAL, DENSITY),
    ]
}

/// Which parts have a number out of range.
fn parts_outside(hopper: &Hopper) -> [bool; 4] {
    let Hopper { port, starboard, interval, density } = hopper;
    let wide = |side: &[u64]| side.iter().any(|&width| !WIDTH.has_whole(width));
    [wide(port), wide(starboard), !WIDTH_INTERVAL.has_whole(*interval), !LIQUID_DENSITY.has_whole(*density)]
}

/// The part that a place lies in, of a surface with so many widths to each side.
fn part_at(count: usize, place: usize) -> usize {
    match place.checked_sub(2 * count) {
        Some(beyond) => INTERVAL + beyond,
        None => place / count,
    }
}

/// Holds what the library makes of a surface to what it makes of it with its middle line moved.
pub fn same_surface(surface: &Observation, moved: &Observation) -> Result<(), String> {
    if surface == moved {
        Ok(())
    } else {
        Err(format!("the surface differs with its middle line moved\nbefore: {surface:?}\nmoved: {moved:?}"))
    }
}
