//! Light ships worked by hand, and the request's rules, over the own calculation.

use super::light_ship;
use super::ranges::{ITEM, SHIFT, TEST};
use crate::calls::{LightShip, Refusal};
use crate::inclining::Inclining;
use crate::samples::largest_inclining;

/// A vessel of 100 t with KM 3 m and no free surface, and a pendulum of 1 m.
const TEST_OF_100_T: [u64; 4] = [100_000, 3_000, 0, 1_000];
/// Two shifts of 1 t over 10 m that deflect it by 100 mm: GM is 1,000 mm.
const SHIFTS: [u64; 6] = [1_000, 10_000, 100, 1_000, 10_000, 100];
/// What stands in a lent table before the call.
const BEFORE: u64 = 77;

fn found(gm: u64, weight: u64, vertical_moment: u64, kg: u64) -> Result<LightShip, Refusal> {
    Ok(LightShip { gm, weight, vertical_moment, kg })
}

fn refused(number: u64, place: usize) -> Result<LightShip, Refusal> {
    Err(Refusal { number, place })
}

/// The light ship with room for twelve GMs, and the room after it.
fn with_room(test: &[u64; 4], shifts: &[u64], off: &[i64], on: &[i64]) -> (Result<LightShip, Refusal>, [u64; 12]) {
    let mut gms = [BEFORE; 12];
    let answer = light_ship(test, shifts, off, on, &mut gms);
    (answer, gms)
}

fn light(test: &[u64; 4], off: &[i64], on: &[i64]) -> Result<LightShip, Refusal> {
    with_room(test, &SHIFTS, off, on).0
}

#[test]
fn light_ships_by_hand() {
    assert_eq!(light(&TEST_OF_100_T, &[], &[]), found(1_000, 100_000, 200_000_000, 2_000));
    // 10 t at 5 m are taken off: 150,000,000 on 90 t, rounded up
    assert_eq!(light(&TEST_OF_100_T, &[10_000, 0, 0, 5_000], &[]), found(1_000, 90_000, 150_000_000, 1_667));
    // 20 t at 1 m are put on, wherever they lie: 220,000,000 on 120 t, rounded up
    assert_eq!(light(&TEST_OF_100_T, &[], &[20_000, 9, -7, 1_000]), found(1_000, 120_000, 220_000_000, 1_834));
    // a kg·mm of free surface, and KG is still rounded up to the same
    assert_eq!(light(&[100_000, 3_000, 1, 1_000], &[], &[]), found(1_000, 100_000, 199_999_999, 2_000));
    // a kg more, and GM is rounded down
    assert_eq!(light(&[100_001, 3_000, 0, 1_000], &[], &[]), found(999, 100_001, 200_102_001, 2_001));
}

#[test]
fn gm_is_of_the_totals_and_the_table_of_each_shift() {
    let shifts = [1_000, 10_000, 100, 2_000, 10_000, 50, 1, 1, 2_000];
    let (answer, gms) = with_room(&TEST_OF_100_T, &shifts, &[], &[]);
    // 30,000,001 kg·mm over 2,150 mm
    assert_eq!(answer, found(139, 100_000, 286_100_000, 2_861));
    assert_eq!(gms[..4], [1_000, 4_000, 0, BEFORE]);
}

#[test]
fn gm_above_km_is_made_up_by_what_is_put_on() {
    let test = [100_000, 999, 0, 1_000];
    // 100,000 kg·mm are wanting
    assert_eq!(light(&test, &[], &[]), refused(21, 0));
    assert_eq!(light(&test, &[], &[4, 0, 0, 24_999]), refused(21, 0));
    assert_eq!(light(&test, &[], &[4, 0, 0, 25_000]), found(1_000, 100_004, 0, 0));
    assert_eq!(light(&test, &[], &[4, 0, 0, 25_000, 1, 0, 0, 1]), found(1_000, 100_005, 1, 1));
}

#[test]
fn greatest_gm_and_kg() {
    let heavy = [300_000, 0, 0, 30_000].repeat(32);
    let shifts = [20_000, 16_000, 1].repeat(12);
    assert_eq!(with_room(&[1, 0, 0, 10_000], &shifts, &[], &heavy).0, refused(21, 0));
    // a twelfth of that GM, for which the 288,000,000,000 kg·mm that are put on make up
    let shifts = [20_000, 16_000, 12].repeat(12);
    let (answer, gms) = with_room(&[1, 0, 0, 10_000], &shifts, &[], &heavy);
    assert_eq!(answer, found(266_666_666_666, 9_600_001, 21_333_333_334, 2_223));
    assert_eq!(gms, [266_666_666_666; 12]);
    // all but a kg is taken off, at the keel
    let test = [300_000, 100_000, 0, 500];
    let shifts = [1, 1, 2_000, 1, 1, 2_000];
    let off = [299_999, 0, 0, 0];
    assert_eq!(with_room(&test, &shifts, &off, &[]).0, found(0, 1, 30_000_000_000, 30_000_000_000));
}

#[test]
fn light_weight_and_then_its_moment_are_refused() {
    for (kg, number) in [(100_001, 20), (100_000, 20), (99_999, 21)] {
        assert_eq!(light(&TEST_OF_100_T, &[kg, 0, 0, 30_000], &[]), refused(number, 0));
    }
    assert_eq!(light(&TEST_OF_100_T, &[100_000, 0, 0, 0], &[]), refused(20, 0));
    assert_eq!(light(&TEST_OF_100_T, &[100_000, 0, 0, 0], &[1, 0, 0, 0]), found(1_000, 1, 200_000_000, 200_000_000));
    assert_eq!(light(&[100_000, 3_000, 199_999_999, 1_000], &[], &[]), found(1_000, 100_000, 1, 1));
    assert_eq!(light(&[100_000, 3_000, 200_000_000, 1_000], &[], &[]), found(1_000, 100_000, 0, 0));
    assert_eq!(light(&[100_000, 3_000, 200_000_001, 1_000], &[], &[]), refused(21, 0));
}

#[test]
fn wrong_tables_are_refused_in_their_order_before_all_else() {
    let bad = [0; 4];
    for shifts in [0, 1, 2, 3, 4, 5, 7, 8, 37, 38, 39, 72, 6 + 3 * 256] {
        assert_eq!(light_ship(&bad, &vec![0; shifts], &[9], &[9], &mut []), refused(7, 0), "{shifts}");
    }
    for items in [1, 2, 3, 5, 127, 129, 132, 256] {
        assert_eq!(light_ship(&bad, &[0; 6], &vec![-1; items], &[9], &mut []), refused(7, 1), "{items}");
        assert_eq!(light_ship(&bad, &[0; 36], &[-1; 128], &vec![-1; items], &mut []), refused(7, 2), "{items}");
    }
    for (shifts, room) in [(2, 0), (2, 1), (12, 0), (12, 11)] {
        assert_eq!(light_ship(&bad, &vec![0; 3 * shifts], &[-1; 128], &[], &mut vec![0; room]), refused(7, 3));
        assert_eq!(light_ship(&bad, &vec![0; 3 * shifts], &[-1; 128], &[], &mut vec![0; room + 12]), refused(4, 0));
    }
}

#[test]
fn every_number_of_the_largest_sheet_is_tried() {
    let Inclining { test, shifts, off, on } = largest_inclining();
    let wholes = test.iter().chain(&shifts).map(|&number| number as i64);
    let mut numbers: Vec<i64> = wholes.chain(off.iter().chain(&on).copied()).collect();
    let ranges = TEST.iter().chain(SHIFT.iter().cycle().take(shifts.len())).chain(ITEM.iter().cycle());
    let answer = |numbers: &[i64]| {
        let (wholes, items) = numbers.split_at(TEST.len() + shifts.len());
        let wholes: Vec<u64> = wholes.iter().map(|&number| number as u64).collect();
        let (test, shifts) = wholes.split_first_chunk().expect("the test's own come first");
        let (off, on) = items.split_at(off.len());
        with_room(test, shifts, off, on)
    };
    assert!(answer(&numbers).0.is_ok());
    assert_eq!(numbers.len(), 4 + 12 * 3 + 2 * 32 * 4);
    for (place, range) in (0..numbers.len()).zip(ranges) {
        let number = numbers[place];
        for inside in [range.least, range.greatest] {
            numbers[place] = inside;
            assert_ne!(answer(&numbers).0, refused(4, place), "{inside}");
        }
        for outside in [range.least - 1, range.greatest + 1, i64::MIN, i64::MAX] {
            numbers[place] = outside;
            assert_eq!(answer(&numbers), (refused(4, place), [BEFORE; 12]), "{outside}");
            let mut several = numbers.clone();
            several[place..].fill(outside);
            assert_eq!(answer(&several).0, refused(4, place), "{outside}");
        }
        numbers[place] = number;
    }
}
