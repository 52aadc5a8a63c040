//! Inclining tests damaged in the size of every table and in every number.

use super::edges::{damage_number, damage_records, damage_size, edge};
use super::random::Random;
use crate::inclining::Inclining;
use crate::peer::ranges::{ITEM, MOST_ITEMS, MOST_SHIFTS, SHIFT, TEST};

/// As many shifts as no test may have, too few and too many, and as many items as no list may.
const WRONG_SHIFTS: [usize; 8] = [0, 1, 1, 1, MOST_SHIFTS + 1, MOST_SHIFTS + 1, MOST_SHIFTS + 2, 2 * MOST_SHIFTS];
const WRONG_ITEMS: [usize; 4] = [MOST_ITEMS + 1, MOST_ITEMS + 1, MOST_ITEMS + 2, 2 * MOST_ITEMS];
/// So many more agree with a right count in their low bits.
const TWO_TO_THE_8: usize = 1 << 8;

/// Spoils one thing or several, or leaves them at the edge of what is allowed.
pub fn damage(random: &mut Random, inclining: &mut Inclining, room: &mut usize) {
    match random.below(12) {
        0..=2 => damage_tables(random, inclining, room),
        3 => {
            for _ in 0..3 {
                damage_tables(random, inclining, room);
            }
            damage_part(random, inclining, 0);
        }
        4 => {
            for part in 0..4 {
                if random.one_in(2) {
                    damage_part(random, inclining, part);
                }
            }
        }
        5 => {
            let first = random.index(TEST.len());
            for i in [first, (first + 1) % TEST.len()] {
                inclining.test[i] = edge(random, TEST[i], inclining.test[i] as i64) as u64;
            }
        }
        // the last number of the sheet
        6 => {
            if let (Some(last), Some(range)) = (inclining.on.last_mut(), ITEM.last()) {
                *last = edge(random, *range, *last);
            }
        }
        _ => {
            let numbers = TEST.len() + inclining.shifts.len() + inclining.off.len() + inclining.on.len();
            let place = random.index(numbers);
            damage_part(random, inclining, part_at(inclining, place));
        }
    }
}

/// A wrong size, or another right one, of the shifts, of either list, or of the table that is lent.
fn damage_tables(random: &mut Random, inclining: &mut Inclining, room: &mut usize) {
    let Inclining { shifts, off, on, .. } = inclining;
    match random.below(9) {
        0 => damage_size(random, shifts, SHIFT.len()),
        1 => damage_size(random, off, ITEM.len()),
        2 => damage_size(random, on, ITEM.len()),
        3 => resize(shifts, SHIFT.len() * random.pick(&WRONG_SHIFTS)),
        4 => resize(off, ITEM.len() * random.pick(&WRONG_ITEMS)),
        5 => resize(on, ITEM.len() * random.pick(&WRONG_ITEMS)),
        6 => match random.below(3) {
            0 => resize(shifts, shifts.len() + SHIFT.len() * TWO_TO_THE_8),
            1 => resize(off, off.len() + TWO_TO_THE_8),
            _ => resize(on, on.len() + TWO_TO_THE_8),
        },
        _ => {
            let shifts = shifts.len() / SHIFT.len();
            let (short, any) = (shifts.saturating_sub(1), random.index(shifts + 1));
            *room = random.pick(&[0, short, short, any]);
        }
    }
}

fn resize<T: Copy + Default>(table: &mut Vec<T>, size: usize) {
    table.resize(size, table.last().copied().unwrap_or_default());
}

/// The part of a sheet that a place lies in.
fn part_at(inclining: &Inclining, place: usize) -> usize {
    let shifts = TEST.len();
    let off = shifts + inclining.shifts.len();
    let on = off + inclining.off.len();
    [shifts, off, on].iter().filter(|&&start| start <= place).count()
}

/// One number at an edge: of the test, of the shifts, of the items to take off, or of those to put on.
fn damage_part(random: &mut Random, inclining: &mut Inclining, part: usize) {
    match part {
        0 => damage_number(random, &mut inclining.test, &TEST),
        1 => damage_number(random, &mut inclining.shifts, &SHIFT),
        2 => damage_records(random, &mut inclining.off, &ITEM),
        _ => damage_records(random, &mut inclining.on, &ITEM),
    }
}
