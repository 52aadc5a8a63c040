//! Tables of rows for the condition: of hulls, made up within the rules, and damaged in each way that is not usable.

use super::edges::edge;
use super::hulls::{hull, Hull};
use super::random::Random;
use crate::peer;
use crate::peer::ranges::{ROW, ROW_ROOM};

const NUMBERS: usize = ROW.len();
/// Where the numbers that hang together stand in a row.
const DRAFT: usize = 0;
pub const DISPLACEMENT: usize = 1;
const KB: usize = 3;
const BM: usize = 4;
pub const KM: usize = 5;

/// A table that can be used: of a hull, or with any numbers that fit together.
pub fn usable(random: &mut Random) -> Vec<u64> {
    if random.one_in(2) {
        let Hull { particulars, half_breadths } = hull(random);
        let mut table = [0; ROW_ROOM];
        if let Ok(count) = peer::rows(&half_breadths, &particulars, &mut table) {
            return table[..count * NUMBERS].to_vec();
        }
    }
    made_up(random)
}

fn made_up(random: &mut Random) -> Vec<u64> {
    let count = random.pick(&[2, 2, 3, 4, 5, 8, 18, 19]);
    let spacing = random.between(10, 500);
    let spacing = random.pick(&[10, 500, spacing, spacing]);
    let heaviest = random.pick(&[count, 100, 5_000, 1_000_000, 15_000_000, 17_600_000]);
    let highest = random.pick(&[1, 3_000, 30_000, 100_000]);
    let mut table = Vec::with_capacity(count as usize * NUMBERS);
    for r in 0..count {
        let displacement = heaviest * (r + 1) / count - random.between(0, heaviest / count - 1);
        let km = random.between(0, highest);
        let kb = random.between(0, km.min(ROW[KB].greatest));
        let bm = (km - kb - random.between(0, 1)).max(0);
        let [_, _, lcb, .., area] = ROW.map(|range| random.between(range.least, range.greatest));
        table.extend([(r + 2) * spacing, displacement, lcb, kb, bm, km, area].map(|number| number as u64));
    }
    table
}

/// Spoils one thing in a table, or leaves it at the edge of what can be used.
pub fn damage(random: &mut Random, rows: &mut [u64]) {
    let count = rows.len() / NUMBERS;
    if count == 0 {
        return;
    }
    let row = random.index(count) * NUMBERS;
    match random.below(9) {
        0 => {
            let i = random.index(NUMBERS);
            rows[row + i] = edge(random, ROW[i], rows[row + i] as i64) as u64;
        }
        1 => shift(random, &mut rows[row + DRAFT]),
        2 => shift(random, &mut rows[DRAFT]),
        3 => step_drafts(random, rows),
        4 if row > 0 => rows[row + DISPLACEMENT] = rows[row + DISPLACEMENT - NUMBERS] + random.below(2),
        5 => shift(random, &mut rows[row + KB]),
        6 => shift(random, &mut rows[row + BM]),
        7 => shift(random, &mut rows[row + KM]),
        _ => swap_rows(random, rows),
    }
}

/// A number less or more by one or two.
fn shift(random: &mut Random, number: &mut u64) {
    *number = number.wrapping_add_signed(random.pick(&[-2, -1, 1, 2]));
}

/// Drafts in step, but by a spacing at an end of its range or beyond it.
fn step_drafts(random: &mut Random, rows: &mut [u64]) {
    let spacing = random.pick(&[1, 9, 10, 500, 501, 1_000, 5_000]);
    for (row, k) in rows.chunks_exact_mut(NUMBERS).zip(2..) {
        row[DRAFT] = k * spacing;
    }
}

/// Two rows in each other's place.
fn swap_rows(random: &mut Random, rows: &mut [u64]) {
    let count = rows.len() / NUMBERS;
    let (one, other) = (random.index(count) * NUMBERS, random.index(count) * NUMBERS);
    for i in 0..NUMBERS {
        rows.swap(one + i, other + i);
    }
}
