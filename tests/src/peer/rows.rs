//! The hydrostatic rows of a hull.
//!
//! The stations are summed once for each waterline. Over the draft, the first rule grows by two intervals from one even
//! waterline to the next, and an odd waterline adds the second rule to the sum three intervals below it.

use super::ranges::{half_breadth_count, try_half_breadths, try_particulars};
use super::ranges::{MOST_INTERVALS, MOST_WATERLINES, ROW, ROW_ROOM};
use super::{refusals, refuse, size_is_right, tables};
use crate::calls::Refusal;

/// The two rules in 24ths of the interval.
const FIRST_RULE: [u64; 3] = [8, 32, 8];
const SECOND_RULE: [u64; 4] = [9, 27, 27, 9];

/// s·d·S·density is in 24ths of 24ths of half the volume in mm³, at kg per m³.
const DISPLACEMENT_DIVISOR: u64 = 288_000_000_000;
const AREA_DIVISOR: u64 = 12;
const HIGHEST_KM: u64 = ROW[5].greatest as u64;

pub const ROW_NUMBERS: usize = ROW.len();

/// The rows of a hull into the lent table; answers how many rows.
pub fn rows(half_breadths: &[u64], particulars: &[u64; 5], rows: &mut [u64]) -> Result<usize, Refusal> {
    try_particulars(particulars)?;
    let numbers = (particulars[1] as usize - 1) * ROW_NUMBERS;
    size_is_right(half_breadths.len() == half_breadth_count(particulars), tables::HALF_BREADTHS)?;
    size_is_right(rows.len() >= numbers, tables::ROWS)?;
    try_half_breadths(half_breadths)?;
    let mut table = [0; ROW_ROOM];
    let count = fill_rows(half_breadths, particulars, &mut table)?;
    rows[..numbers].copy_from_slice(&table[..numbers]);
    Ok(count)
}

/// The rows of a hull whose numbers are in range, into a table of the caller's own; answers how many rows.
pub fn fill_rows(half_breadths: &[u64], particulars: &[u64; 5], table: &mut [u64; ROW_ROOM]) -> Result<usize, Refusal> {
    let waterlines = waterline_sums(half_breadths, particulars);
    let count = particulars[1] as usize - 1;
    let mut to_even = [Sums::NONE; MOST_WATERLINES];
    let mut displacement_before = 0;
    for (r, row) in table.chunks_exact_mut(ROW_NUMBERS).take(count).enumerate() {
        let k = r + 2;
        let sums = if k.is_multiple_of(2) {
            to_even[k] = to_even[k - 2].with(&FIRST_RULE, &waterlines[k - 2..]);
            to_even[k]
        } else {
            to_even[k - 3].with(&SECOND_RULE, &waterlines[k - 3..])
        };
        let displacement = sums.displacement(particulars);
        if displacement <= displacement_before {
            return refuse(refusals::DISPLACEMENT, r);
        }
        displacement_before = displacement;
        row.copy_from_slice(&one_row(particulars, k as u64, displacement, &sums, &waterlines[k]));
        if row[5] > HIGHEST_KM {
            return refuse(refusals::KM_TOO_HIGH, r);
        }
    }
    Ok(count)
}

/// The seven numbers of the row at waterline k, each rounded down once. S is not 0, for the displacement is not.
fn one_row(particulars: &[u64; 5], k: u64, displacement: u64, sums: &Sums, top: &Waterline) -> [u64; ROW_NUMBERS] {
    let &[_, _, s, d, _] = particulars;
    let metacentre_part = 8 * top.cubes;
    [
        d * k,
        displacement,
        s * sums.lengthwise / sums.volume,
        d * sums.upward / sums.volume,
        metacentre_part / (d * sums.volume),
        (d * d * sums.upward + metacentre_part) / (d * sums.volume),
        s * top.sums.volume / AREA_DIVISOR,
    ]
}

/// Multiplied sums: of y (S, or Q for one waterline), of y by waterline number (Sz), of y by station number (Sx).
#[derive(Clone, Copy)]
struct Sums {
    volume: u64,
    upward: u64,
    lengthwise: u64,
}

impl Sums {
    const NONE: Sums = Sums { volume: 0, upward: 0, lengthwise: 0 };

    /// These sums and one rule's over the waterlines from the first given on.
    fn with(mut self, rule: &[u64], waterlines: &[Waterline]) -> Sums {
        for (v, waterline) in rule.iter().zip(waterlines) {
            self.volume += v * waterline.sums.volume;
            self.upward += v * waterline.sums.upward;
            self.lengthwise += v * waterline.sums.lengthwise;
        }
        self
    }

    fn displacement(&self, particulars: &[u64; 5]) -> u64 {
        let &[_, _, s, d, density] = particulars;
        s * d * self.volume * density / DISPLACEMENT_DIVISOR
    }
}

/// The sums over the stations at one waterline, with that of the cubes (C).
#[derive(Clone, Copy)]
struct Waterline {
    sums: Sums,
    cubes: u64,
}

/// Sums the stations at each waterline.
fn waterline_sums(half_breadths: &[u64], particulars: &[u64; 5]) -> [Waterline; MOST_WATERLINES] {
    let u = multipliers(particulars[0] as usize);
    let mut waterlines = [Waterline { sums: Sums::NONE, cubes: 0 }; MOST_WATERLINES];
    for (i, station) in half_breadths.chunks_exact(particulars[1] as usize + 1).enumerate() {
        for (waterline, &y) in waterlines.iter_mut().zip(station) {
            let multiplied = u[i] * y;
            waterline.sums.volume += multiplied;
            waterline.sums.lengthwise += multiplied * i as u64;
            waterline.cubes += multiplied * y * y;
        }
    }
    for (number, waterline) in waterlines.iter_mut().enumerate() {
        waterline.sums.upward = waterline.sums.volume * number as u64;
    }
    waterlines
}

/// The multipliers over this count of intervals, 2 or more; 0 beyond the last.
pub fn multipliers(intervals: usize) -> [u64; MOST_INTERVALS + 1] {
    let mut multipliers = [0; MOST_INTERVALS + 1];
    let by_first_rule = if intervals.is_multiple_of(2) { intervals } else { intervals - 3 };
    for start in (0..by_first_rule).step_by(2) {
        add_rule(&mut multipliers[start..], &FIRST_RULE);
    }
    if by_first_rule < intervals {
        add_rule(&mut multipliers[by_first_rule..], &SECOND_RULE);
    }
    multipliers
}

fn add_rule(multipliers: &mut [u64], rule: &[u64]) {
    for (multiplier, part) in multipliers.iter_mut().zip(rule) {
        *multiplier += part;
    }
}
