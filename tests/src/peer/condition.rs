//! The loading condition over a table of rows.

use super::ranges::{try_record_sizes, try_records, Range, ITEM, ITEM_PLACES, MOST_ROWS, ROW, TANK, TANK_PLACES};
use super::rows::ROW_NUMBERS;
use super::{refusals, refuse, size_is_right, tables};
use crate::calls::{Condition, Heel, Reading, Refusal};

const LEAST_GM: i64 = 150;
/// The tangent of the greatest heel, 1,763 in 10,000.
const HEEL_LIMIT: i64 = 1_763;
const HEEL_UNIT: i64 = 10_000;
const FREE_SURFACE_DIVISOR: u64 = 12_000_000_000;
/// The filling, in per cent of capacity, from which no free surface is counted.
pub const PRESSED_UP: i64 = 98;
const FEWEST_ROWS: usize = 2;
const SPACING: Range = Range { least: 10, greatest: 500 };

/// The loading condition of items and tanks over a table of rows.
pub fn condition(reading: Reading, items: &[i64], tanks: &[i64], rows: &[u64]) -> Result<Condition, Refusal> {
    try_record_sizes(items, tanks)?;
    let (rows, rest) = rows.as_chunks::<ROW_NUMBERS>();
    size_is_right(rest.is_empty() && (FEWEST_ROWS..=MOST_ROWS).contains(&rows.len()), tables::ROWS)?;
    if let Some(r) = first_bad_row(rows) {
        return refuse(refusals::ROW_TABLE, r);
    }
    try_records(items, &ITEM, ITEM_PLACES)?;
    try_tanks(tanks)?;
    let load = Load::of(items, tanks);
    if load.weight < rows[0][1] {
        return refuse(refusals::WEIGHT_BELOW, 0);
    }
    if load.weight > rows[rows.len() - 1][1] {
        return refuse(refusals::WEIGHT_ABOVE, 0);
    }
    Ok(settle(reading, &load, rows))
}

/// The first row that is not usable: numbers in range, drafts in step, displacements rising, KB + BM beside KM.
fn first_bad_row(rows: &[[u64; ROW_NUMBERS]]) -> Option<usize> {
    let spacing = rows[0][0] / 2;
    if !SPACING.has_whole(spacing) {
        return Some(0);
    }
    let mut displacement_before = 0;
    for (r, row) in rows.iter().enumerate() {
        let &[draft, displacement, _, kb, bm, km, _] = row;
        let in_range = row.iter().zip(&ROW).all(|(&number, range)| range.has_whole(number));
        let in_step = draft == (r as u64 + 2) * spacing;
        if !in_range || !in_step || displacement <= displacement_before || !(kb + bm == km || kb + bm + 1 == km) {
            return Some(r);
        }
        displacement_before = displacement;
    }
    None
}

/// Tries each tank's eight numbers for 4, then its contents for 13.
fn try_tanks(tanks: &[i64]) -> Result<(), Refusal> {
    for (tank, place) in tanks.chunks_exact(TANK.len()).zip((TANK_PLACES..).step_by(TANK.len())) {
        try_records(tank, &TANK, place)?;
        if tank[0] > tank[1] {
            return refuse(refusals::OVERFILLED, place);
        }
    }
    Ok(())
}

/// The weights of a load, their moments, and the free surface of its tanks.
#[derive(Default)]
struct Load {
    weight: u64,
    longitudinal_moment: u64,
    transverse_moment: i64,
    vertical_moment: u64,
    free_surface: u64,
}

impl Load {
    fn of(items: &[i64], tanks: &[i64]) -> Load {
        let mut load = Load::default();
        for item in items.as_chunks::<{ ITEM.len() }>().0 {
            let &[weight, x, y, z] = item;
            load.add(weight, x, y, z);
        }
        for tank in tanks.as_chunks::<{ TANK.len() }>().0 {
            let &[contents, _, x, y, z, ..] = tank;
            load.add(contents, x, y, z);
            load.free_surface += free_surface(tank);
        }
        load
    }

    fn add(&mut self, weight: i64, x: i64, y: i64, z: i64) {
        self.weight += weight as u64;
        self.longitudinal_moment += (weight * x) as u64;
        self.transverse_moment += weight * y;
        self.vertical_moment += (weight * z) as u64;
    }
}

/// The free surface of one tank, in kg·mm; only a slack tank has one.
pub fn free_surface(tank: &[i64; 8]) -> u64 {
    let &[contents, capacity, _, _, _, length, breadth, density] = tank;
    if contents <= 0 || 100 * contents >= PRESSED_UP * capacity {
        return 0;
    }
    ((length * breadth * breadth * breadth * density) as u64).div_ceil(FREE_SURFACE_DIVISOR)
}

/// The condition of a load that the rows can carry.
fn settle(reading: Reading, load: &Load, rows: &[[u64; ROW_NUMBERS]]) -> Condition {
    let (draft, km) = draft_and_km(reading, load.weight, rows);
    let centre = (load.vertical_moment + load.free_surface).div_ceil(load.weight);
    let gm = km as i64 - centre as i64;
    let heel = heel(load.weight as i64, gm, load.transverse_moment);
    Condition {
        weight: load.weight,
        draft,
        km,
        lcg: load.longitudinal_moment / load.weight,
        vertical_moment: load.vertical_moment,
        free_surface: load.free_surface,
        gm,
        transverse_moment: load.transverse_moment,
        heel,
        passes: passes(gm, heel),
    }
}

/// Draft and KM of a row at its own weight. Between two rows the draft is on their straight line, and KM as it is read.
fn draft_and_km(reading: Reading, weight: u64, rows: &[[u64; ROW_NUMBERS]]) -> (u64, u64) {
    let above = rows.iter().position(|row| row[1] > weight).unwrap_or(rows.len());
    let &[lower_draft, lower_weight, _, _, _, lower_km, _] = &rows[above - 1];
    if weight == lower_weight {
        return (lower_draft, lower_km);
    }
    let &[upper_draft, upper_weight, _, _, _, upper_km, _] = &rows[above];
    let (gap, part) = (upper_weight - lower_weight, weight - lower_weight);
    let draft = lower_draft + (upper_draft - lower_draft) * part / gap;
    let km = match reading {
        Reading::Lesser => lower_km.min(upper_km),
        Reading::StraightLine => (lower_km * (gap - part) + upper_km * part) / gap,
    };
    (draft, km)
}

/// How the vessel lies under its transverse moment.
fn heel(weight: i64, gm: i64, transverse_moment: i64) -> Heel {
    if gm <= 0 {
        Heel::Unstable
    } else if transverse_moment == 0 {
        Heel::Upright
    } else if HEEL_UNIT * transverse_moment.abs() <= HEEL_LIMIT * weight * gm {
        Heel::Heeled(transverse_moment as f64 / (weight * gm) as f64)
    } else {
        Heel::Beyond
    }
}

pub fn passes(gm: i64, heel: Heel) -> bool {
    gm >= LEAST_GM && matches!(heel, Heel::Upright | Heel::Heeled(_))
}
