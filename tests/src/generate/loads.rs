//! Items and tanks: any within their ranges, or aimed at a weight, a GM and a heel near the paper's limits.

use super::random::Random;
use crate::calls::{Condition, Reading};
use crate::peer;
use crate::peer::condition::PRESSED_UP;
use crate::peer::ranges::{ITEM, MOST_ITEMS, MOST_TANKS, ROW, TANK};

type Tables = (Vec<i64>, Vec<i64>);

const HEAVIEST_ITEM: i64 = ITEM[0].greatest;
const FULLEST_TANK: i64 = TANK[0].greatest;
/// Where y and z stand in a record.
const ITEM_Y: usize = 2;
const ITEM_Z: usize = 3;
const TANK_Y: usize = 3;
const TANK_Z: usize = 4;

/// Any numbers within the ranges; contents may be above capacity.
pub fn any(random: &mut Random) -> Tables {
    let (items, tanks) = counts(random);
    let mut item_table = Vec::with_capacity(items * ITEM.len());
    let mut tank_table = Vec::with_capacity(tanks * TANK.len());
    for _ in 0..items {
        item_table.extend(ITEM.map(|range| random.between(range.least, range.greatest)));
    }
    for _ in 0..tanks {
        tank_table.extend(TANK.map(|range| random.between(range.least, range.greatest)));
    }
    (item_table, tank_table)
}

/// Mostly few records, now and then as many as may be.
fn counts(random: &mut Random) -> (usize, usize) {
    match random.below(24) {
        0 => (MOST_ITEMS, MOST_TANKS),
        1 => (random.index(MOST_ITEMS + 1), random.index(MOST_TANKS + 1)),
        _ => (random.index(5), random.index(4)),
    }
}

/// A load whose weight, GM and transverse moment are aimed by the rows it will lie on, for either reading of KM.
pub fn aimed(random: &mut Random, rows: &[u64]) -> Tables {
    let reading = random.pick(&Reading::BOTH);
    let weight = aimed_weight(random, rows);
    let mut tables = of_weight(random, weight);
    if random.one_in(40) {
        overfill(random, &mut tables.1);
    }
    if !random.one_in(8) {
        aim_height(random, reading, &mut tables, rows);
    }
    if !random.one_in(8) {
        aim_heel(random, reading, &mut tables, rows);
    }
    tables
}

/// A weight on a row, beside it, between rows, or outside the table.
fn aimed_weight(random: &mut Random, rows: &[u64]) -> i64 {
    let count = rows.len() / ROW.len();
    let displacement = |r: usize| rows[r * ROW.len() + 1] as i64;
    let (first, last) = (displacement(0), displacement(count - 1));
    match random.below(16) {
        0 => first - 1,
        1 => last + 1,
        2 => last,
        3 => first,
        4 => random.between(0, 2 * last),
        5 | 6 => displacement(random.index(count)) + random.between(-1, 1),
        _ => random.between(first, last),
    }
}

/// Records that weigh this much together, as far as so many can.
fn of_weight(random: &mut Random, weight: i64) -> Tables {
    let (mut items, tanks) = counts(random);
    let short = weight - items as i64 * HEAVIEST_ITEM - tanks as i64 * FULLEST_TANK;
    if short > 0 {
        items = MOST_ITEMS.min(items + 1 + (short / HEAVIEST_ITEM) as usize);
    }
    let mut shares = Shares { left: weight, most: most_of_each(random, weight, items, tanks) };
    let mut tables = (Vec::with_capacity(items * ITEM.len()), Vec::with_capacity(tanks * TANK.len()));
    for _ in 0..items {
        let weight = shares.next(random);
        tables.0.extend([weight, random.between(0, 100_000), 0, 0]);
    }
    for _ in 0..tanks {
        let contents = shares.next(random);
        tables.1.extend(tank_with(random, contents));
    }
    tables
}

/// The most that each record may weigh, the last record first. Where the others can carry the rest, the first two items
/// may be kept light: moved sideways, they bring a transverse moment to any wanted number.
fn most_of_each(random: &mut Random, weight: i64, items: usize, tanks: usize) -> Vec<i64> {
    let mut most = vec![FULLEST_TANK; tanks];
    most.resize(tanks + items, HEAVIEST_ITEM);
    let others = most.iter().sum::<i64>() - 2 * HEAVIEST_ITEM;
    if items > 2 && weight <= others && random.one_in(2) {
        most[tanks + items - 1] = 1;
        most[tanks + items - 2] = 10_000;
    }
    most
}

/// A weight to be shared out among records.
struct Shares {
    left: i64,
    most: Vec<i64>,
}

impl Shares {
    /// The next record's part: any that leaves the rest to the records after it.
    fn next(&mut self, random: &mut Random) -> i64 {
        let most = self.most.pop().expect("there is a record");
        let least = (self.left - self.most.iter().sum::<i64>()).clamp(0, most);
        let part = random.between(least, self.left.clamp(least, most));
        self.left -= part;
        part
    }
}

/// A tank with these contents: full, or but for a kilogram, or just pressed up or not, or slack by little or much, or empty.
fn tank_with(random: &mut Random, contents: i64) -> [i64; 8] {
    let above = (contents + 1).min(FULLEST_TANK);
    let capacity = match random.below(6) {
        0 => contents.max(1),
        1 => above,
        2 | 3 => (100 * contents / PRESSED_UP + random.between(0, 1)).clamp(contents.max(1), FULLEST_TANK),
        _ => random.between(above, FULLEST_TANK),
    };
    let [_, _, x, _, _, length, breadth, density] = TANK.map(|range| random.between(range.least, range.greatest));
    let narrow = random.pick(&[breadth, breadth / 8 + 1, breadth / 64 + 1]);
    [contents, capacity, x, 0, 0, length, narrow, density]
}

/// One tank with contents above its capacity.
pub fn overfill(random: &mut Random, tanks: &mut [i64]) {
    let count = tanks.len() / TANK.len();
    if count > 0 {
        let tank = random.index(count) * TANK.len();
        tanks[tank + 1] = random.between(1, FULLEST_TANK - 1);
        tanks[tank] = random.pick(&[tanks[tank + 1] + 1, FULLEST_TANK]);
    }
}

/// Puts every centre at the height that gives a wanted GM, or near it.
fn aim_height(random: &mut Random, reading: Reading, tables: &mut Tables, rows: &[u64]) {
    let Ok(low) = peer::condition(reading, &tables.0, &tables.1, rows) else { return };
    let any = random.between(-500, 3_000);
    let even = even_gm(low.weight) * random.between(1, 3);
    let wanted = random.pick(&[-1, 0, 1, 2, 149, 150, 151, even, even, any, any, any]);
    let height = low.gm - wanted;
    set(&mut tables.0, ITEM.len(), ITEM_Z, height);
    set(&mut tables.1, TANK.len(), TANK_Z, height);
}

/// The least GM at which a whole transverse moment lies exactly on the heel limit.
fn even_gm(weight: u64) -> i64 {
    let (mut divisor, mut rest) = (10_000, weight % 10_000);
    while rest > 0 {
        (divisor, rest) = (rest, divisor % rest);
    }
    (10_000 / divisor) as i64
}

/// One number of every record, brought within the range of heights.
fn set(table: &mut [i64], record: usize, place: usize, number: i64) {
    for record in table.chunks_exact_mut(record) {
        record[place] = number.clamp(ITEM[ITEM_Z].least, ITEM[ITEM_Z].greatest);
    }
}

/// Moves the records sideways for a wanted transverse moment: none, any, or one at the heel limit.
fn aim_heel(random: &mut Random, reading: Reading, tables: &mut Tables, rows: &[u64]) {
    let Ok(upright) = peer::condition(reading, &tables.0, &tables.1, rows) else { return };
    let Condition { weight, gm, .. } = upright;
    let limit = 1_763 * weight as i64 * gm.max(1) / 10_000;
    let any = random.between(0, 2 * limit);
    let wanted = random.pick(&[0, 1, limit - 1, limit, limit, limit + 1, limit + 2, any, any]);
    let side = random.pick(&[-1, 1]);
    let mut left = side * wanted;
    let distance = left / weight as i64;
    left -= move_all(&mut tables.0, ITEM.len(), ITEM_Y, distance);
    left -= move_all(&mut tables.1, TANK.len(), TANK_Y, distance);
    left = move_each(&mut tables.1, TANK.len(), TANK_Y, left);
    move_each(&mut tables.0, ITEM.len(), ITEM_Y, left);
}

/// Moves every record by as much; answers the moment that came of it.
fn move_all(table: &mut [i64], record: usize, place: usize, distance: i64) -> i64 {
    let mut moment = 0;
    for record in table.chunks_exact_mut(record) {
        record[place] = distance.clamp(ITEM[ITEM_Y].least, ITEM[ITEM_Y].greatest);
        moment += record[0] * record[place];
    }
    moment
}

/// Moves one record after another, the last first, as far as the moment still wanted asks; answers what is left of it.
fn move_each(table: &mut [i64], record: usize, place: usize, wanted: i64) -> i64 {
    let mut left = wanted;
    for record in table.chunks_exact_mut(record).rev().filter(|record| record[0] > 0) {
        let before = record[place];
        record[place] = (before + left / record[0]).clamp(ITEM[ITEM_Y].least, ITEM[ITEM_Y].greatest);
        left -= record[0] * (record[place] - before);
    }
    left
}
