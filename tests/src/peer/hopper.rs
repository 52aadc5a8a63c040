//! The free surface of a hopper tank, strip by strip about its own centre.
//!
//! Not by the paper's formula, which takes the centre's part from the inertia about the middle line: each width is
//! measured from the centre itself, in parts of a mm so small that the centre stands on a whole one. So nothing is rounded
//! before the end. The largest sum is about 10³¹, and 128 bits hold it.

use super::ranges::{FEWEST_WIDTHS, LIQUID_DENSITY, MOST_INTERVALS, MOST_WIDTHS, WIDTH, WIDTH_INTERVAL};
use super::rows::multipliers;
use super::{refusals, refuse, size_is_right, tables};
use crate::calls::{Refusal, Surface};

/// A strip's second moment is a third of a cube, and the multipliers are in 24ths of the interval.
pub const INERTIA_DIVISOR: u64 = 3 * 24;
/// From mm⁴ at kg per m³ to kg·mm.
pub const MOMENT_DIVISOR: u64 = 1_000_000_000;

/// The free surface of a hopper tank from its widths to port and to starboard, at equal intervals.
pub fn hopper_surface(port: &[u64], starboard: &[u64], interval: u64, density: u64) -> Result<Surface, Refusal> {
    let right = port.len() == starboard.len() && (FEWEST_WIDTHS..=MOST_WIDTHS).contains(&port.len());
    size_is_right(right, tables::WIDTHS)?;
    try_numbers(port, starboard, interval, density)?;
    let inertia = Strips::of(port, starboard).inertia() * interval;
    Ok(Surface { inertia, moment: (inertia * density).div_ceil(MOMENT_DIVISOR) })
}

/// Tries every number for refusal 4, in the order in which they are handed in.
fn try_numbers(port: &[u64], starboard: &[u64], interval: u64, density: u64) -> Result<(), Refusal> {
    let widths = port.iter().chain(starboard).map(|&width| (width, WIDTH));
    let mut numbers = widths.chain([(interval, WIDTH_INTERVAL), (density, LIQUID_DENSITY)]);
    match numbers.position(|(number, range)| !range.has_whole(number)) {
        Some(place) => refuse(refusals::RANGE, place),
        None => Ok(()),
    }
}

/// A surface as strips across the tank, each with its widths and its multiplier.
struct Strips<'a> {
    port: &'a [u64],
    starboard: &'a [u64],
    multipliers: [u64; MOST_INTERVALS + 1],
}

impl Strips<'_> {
    fn of<'a>(port: &'a [u64], starboard: &'a [u64]) -> Strips<'a> {
        Strips { port, starboard, multipliers: multipliers(port.len() - 1) }
    }

    /// The inertia about the surface's own centre at an interval of 1 mm, rounded up.
    fn inertia(&self) -> u64 {
        // the area is in 24ths, its first moment in 48ths: of parts that are twice the area to a mm, the centre stands as
        // many to starboard as the first moment has
        let area = self.sum(|p, q| p + q);
        let first_moment = self.sum(|p, q| q * q - p * p);
        if area == 0 {
            return 0;
        }
        let (parts, centre) = (2 * area, first_moment);
        let cubes = self.sum(|p, q| (parts * p + centre).pow(3) + (parts * q - centre).pow(3));
        let cubes = u128::try_from(cubes).expect("no second moment is negative");
        cubes.div_ceil(u128::from(INERTIA_DIVISOR) * parts.unsigned_abs().pow(3)) as u64
    }

    /// The multiplied sum of what is made of each strip's widths to port and to starboard.
    fn sum(&self, of: impl Fn(i128, i128) -> i128) -> i128 {
        let widths = self.port.iter().zip(self.starboard);
        widths.zip(&self.multipliers).map(|((&p, &q), &u)| i128::from(u) * of(p.into(), q.into())).sum()
    }
}
