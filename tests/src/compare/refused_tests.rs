//! What inclining tests are refused for, and before what.

use super::observation::Observation;
use crate::inclining::Inclining;
use crate::peer::ranges::{FEWEST_SHIFTS, ITEM, ITEM_ROOM, MOST_ITEMS, MOST_SHIFTS, SHIFT, TEST};

/// For one thing; of numbers, for the first.
pub const REFUSED_TESTS: [&str; 19] = [
    "shifts that are not whole",
    "too few shifts",
    "too many shifts",
    "items to take off that are not whole",
    "too many to take off",
    "items to put on that are not whole",
    "too many to put on",
    "one GM too few",
    "no room for GMs",
    "W",
    "KM",
    "the free surface",
    "the length",
    "a shift",
    "an item to take off",
    "an item to put on",
    "a light weight of 0",
    "a light weight of -1",
    "a moment of -1",
];
/// For one thing with the one wrong besides that is tried next.
pub const ORDERS: [&str; TRIALS - 1] = [
    "shifts before the list to take off",
    "that list before the list to put on",
    "that list before the room for GMs",
    "the room before W",
    "W before KM",
    "KM before the free surface",
    "the free surface before the length",
    "the length before a shift",
    "a shift before an item to take off",
    "an item to take off before one to put on",
    "an item to put on before the light weight",
    "the light weight before its moment",
];

/// What is tried, in order: four tables, the numbers of the test, those of the other tables, light weight and moment.
const TRIALS: usize = 13;
const FIRST_NUMBER: usize = 4;
const SHIFT_NUMBER: usize = 8;
const LIGHT_WEIGHT: usize = 11;
const LIGHT_MOMENT: usize = 12;

const OUT_OF_RANGE: u64 = 4;
const TABLE_SIZE: u64 = 7;
const NO_LIGHT_WEIGHT: u64 = 20;

/// Which of these a refused test is.
pub fn refused_test(inclining: &Inclining, seen: &Observation) -> [bool; REFUSED_TESTS.len()] {
    let Inclining { shifts, off, on, .. } = inclining;
    let trial = trial(inclining, seen);
    let size = |table: usize, is: bool| trial == table && is;
    let shifts_whole = shifts.len().is_multiple_of(SHIFT.len());
    let [off_whole, on_whole] = [off, on].map(|list| list.len().is_multiple_of(ITEM.len()));
    let [off_fits, on_fits] = [off, on].map(|list| list.len() < ITEM_ROOM);
    let count = shifts.len() / SHIFT.len();
    let at = |number: usize| trial == FIRST_NUMBER + number;
    [
        size(0, !shifts_whole && (FEWEST_SHIFTS..MOST_SHIFTS).contains(&count)),
        size(0, shifts_whole && count < FEWEST_SHIFTS),
        size(0, shifts_whole && count > MOST_SHIFTS),
        size(1, !off_whole && off_fits),
        size(1, off_whole),
        size(2, !on_whole && on_fits),
        size(2, on_whole),
        size(3, seen.wholes.len() + 1 == count),
        size(3, seen.wholes.is_empty()),
        at(0),
        at(1),
        at(2),
        at(3),
        at(4),
        at(5),
        at(6),
        trial == LIGHT_WEIGHT && light_weight(inclining) == 0,
        trial == LIGHT_WEIGHT && light_weight(inclining) == -1,
        trial == LIGHT_MOMENT && inclining.balance().moment == -1,
    ]
}

/// Which of the orders a refused test shows.
pub fn orders(inclining: &Inclining, seen: &Observation) -> [bool; ORDERS.len()] {
    let trial = trial(inclining, seen);
    let faults = faults(inclining, seen.wholes.len());
    std::array::from_fn(|earlier| trial == earlier && faults[earlier + 1])
}

/// The trial that a test is refused by.
fn trial(inclining: &Inclining, seen: &Observation) -> usize {
    match seen.number {
        TABLE_SIZE => seen.place,
        OUT_OF_RANGE if seen.place < TEST.len() => FIRST_NUMBER + seen.place,
        OUT_OF_RANGE => {
            let [shifts, off] = [inclining.shifts.len(), inclining.off.len()];
            let ends = [TEST.len() + shifts, TEST.len() + shifts + off];
            SHIFT_NUMBER + ends.iter().filter(|&&end| end <= seen.place).count()
        }
        NO_LIGHT_WEIGHT => LIGHT_WEIGHT,
        _ => LIGHT_MOMENT,
    }
}

/// Which trials a test with this room does not stand; its moment is tried where all but the light weight stands.
fn faults(inclining: &Inclining, room: usize) -> [bool; TRIALS] {
    let Inclining { test, shifts, off, on } = inclining;
    let wrong = |length: usize, record: usize, least: usize, most: usize| {
        !length.is_multiple_of(record) || !(least..=most).contains(&(length / record))
    };
    let outside = |items: &[i64]| items.iter().zip(ITEM.iter().cycle()).any(|(&number, range)| !range.has(number));
    let [w, km, free_surface, length] = [0, 1, 2, 3].map(|i| !TEST[i].has_whole(test[i]));
    let mut faults = [
        wrong(shifts.len(), SHIFT.len(), FEWEST_SHIFTS, MOST_SHIFTS),
        wrong(off.len(), ITEM.len(), 0, MOST_ITEMS),
        wrong(on.len(), ITEM.len(), 0, MOST_ITEMS),
        room < shifts.len() / SHIFT.len(),
        w,
        km,
        free_surface,
        length,
        shifts.iter().zip(SHIFT.iter().cycle()).any(|(&number, range)| !range.has_whole(number)),
        outside(off),
        outside(on),
        light_weight(inclining) <= 0,
        false,
    ];
    faults[LIGHT_MOMENT] = !faults[..LIGHT_WEIGHT].contains(&true) && inclining.balance().moment < 0;
    faults
}

/// W less what is taken off and with what is put on, in range or not.
fn light_weight(inclining: &Inclining) -> i128 {
    let sum = |items: &[i64]| -> i128 { items.chunks(ITEM.len()).map(|item| i128::from(item[0])).sum() };
    i128::from(inclining.test[0]) - sum(&inclining.off) + sum(&inclining.on)
}
