//! The paper's trial figures over the own calculation.

use super::condition::{free_surface, passes};
use super::ranges::{HALF_BREADTH_ROOM, ITEM_ROOM, ROW_ROOM, SHEET_ROOM, TANK_ROOM};
use super::ranges::{ITEM, MOST_INTERVALS, MOST_ITEMS, MOST_TANKS, TANK};
use super::rows::multipliers;
use super::{condition, read, report, rows, write, LONGEST_TEXT};
use crate::calls::{Heel, Reading, Refusal, Summary};
use crate::samples::{file, sample_sheet, NAMES, SAMPLE_FILE};

fn refused<T>(number: u64, place: usize) -> Result<T, Refusal> {
    Err(Refusal { number, place })
}

/// Reads a text into this room for half-breadths.
fn read_into(half_breadths: &mut [u64], text: &[u8]) -> Result<Summary, Refusal> {
    read(text, half_breadths, &mut [0; ITEM_ROOM], &mut [0; TANK_ROOM])
}

fn read_text(text: &str) -> Result<Summary, Refusal> {
    read_into(&mut [0; HALF_BREADTH_ROOM], text.as_bytes())
}

#[test]
fn five_multiplier_rows() {
    assert_eq!(multipliers(2)[..3], [8, 32, 8]);
    assert_eq!(multipliers(3)[..4], [9, 27, 27, 9]);
    assert_eq!(multipliers(4)[..5], [8, 32, 16, 32, 8]);
    assert_eq!(multipliers(5)[..6], [8, 32, 17, 27, 27, 9]);
    assert_eq!(multipliers(7)[..8], [8, 32, 16, 32, 17, 27, 27, 9]);
}

#[test]
fn sums_of_the_cubic() {
    let sum = |n: usize| multipliers(n).iter().zip(0_u64..).map(|(u, i)| u * i * i * i).sum::<u64>();
    assert_eq!([sum(2), sum(3), sum(5)], [96, 486, 3_750]);
}

#[test]
fn every_count_sums_every_cubic() {
    for n in 2..=MOST_INTERVALS {
        let sum = |power: u32| multipliers(n).iter().zip(0_u64..).map(|(u, i)| u * i.pow(power)).sum::<u64>();
        let whole = n as u64;
        assert_eq!([sum(0), sum(1)], [24 * whole, 12 * whole.pow(2)]);
        assert_eq!([sum(2), sum(3)], [8 * whole.pow(3), 6 * whole.pow(4)]);
    }
}

#[test]
fn free_surfaces_of_one_tank() {
    let tank = |contents| [contents, 8_000, 0, 0, 0, 2_000, 2_000, 1_000];
    assert_eq!(free_surface(&tank(5_000)), 1_333_334);
    assert_eq!(free_surface(&tank(8_000)), 0);
    assert_eq!(free_surface(&tank(0)), 0);
    assert_eq!(free_surface(&tank(7_999)), 0);
    assert_eq!(free_surface(&tank(7_840)), 0);
    assert_eq!(free_surface(&tank(7_839)), 1_333_334);
}

#[test]
fn displacement_that_falls() {
    let half_breadths = [0, 8_000, 0, 0].repeat(3);
    assert_eq!(rows(&half_breadths, &[2, 3, 2_500, 500, 1_000], &mut [0; 14]), refused(8, 1));
}

#[test]
fn metacentre_too_high() {
    assert_eq!(rows(&[8_000; 12], &[2, 3, 2_500, 10, 1_000], &mut [0; 14]), refused(9, 0));
}

#[test]
fn shortest_refused_files() {
    assert_eq!(read_text(""), refused(5, 0));
    assert_eq!(read_text("6"), refused(3, 0));
    assert_eq!(read_text("-0"), refused(2, 0));
    assert_eq!(read_text("-000"), refused(2, 0));
    assert_eq!(read_text("-01"), refused(3, 0));
    assert_eq!(read_text("05"), refused(5, 2));
    assert_eq!(read_text("000000005"), refused(5, 9));
    assert_eq!(read_text("0000000005"), refused(2, 0));
    assert_eq!(read_text("\t5\r\n"), refused(5, 4));
}

/// Whether a box of n intervals, s mm each, has rows and can be written; both refuse it alike.
fn try_box(n: usize, s: u64) -> Result<(), Refusal> {
    let half_breadths = vec![2_000; (n + 1) * 4];
    let particulars = [n as u64, 3, s, 500, 1_000];
    let answer = rows(&half_breadths, &particulars, &mut [0; ROW_ROOM]).map(drop);
    assert_eq!(write(&particulars, &half_breadths, &[], &[], &mut [0; LONGEST_TEXT]).map(drop), answer);
    answer
}

#[test]
fn longest_hulls() {
    for (n, s) in [(40, 2_500), (41, 2_439), (50, 2_000), (79, 1_265), (80, 1_250)] {
        assert_eq!((n, try_box(n, s)), (n, Ok(())));
    }
    for (n, s) in [(41, 2_440), (50, 2_001), (79, 1_266), (80, 1_251), (80, 2_500)] {
        assert_eq!((n, try_box(n, s)), (n, refused(4, 2)));
    }
    assert_eq!(try_box(81, 50), refused(4, 0));
}

/// The rows of a box of the greatest length, breadth and depth in so many intervals, in the densest water.
fn greatest_rows(n: usize) -> [u64; ROW_ROOM] {
    let mut table = [0; ROW_ROOM];
    let particulars = [n as u64, 20, 100_000 / n as u64, 500, 1_100];
    assert_eq!(rows(&vec![8_000; (n + 1) * 21], &particulars, &mut table), Ok(19));
    table
}

#[test]
fn greatest_hull_in_any_count_of_intervals() {
    let table = greatest_rows(80);
    assert_eq!(table[18 * 7..], [10_000, 17_600_000, 50_000, 5_000, 2_133, 7_133, 1_600_000_000]);
    assert_eq!((greatest_rows(50), greatest_rows(40)), (table, table));
}

#[test]
fn length_is_tried_after_the_ranges_and_before_the_sizes() {
    let answer = |particulars| rows(&[8_001], particulars, &mut []);
    assert_eq!(answer(&[80, 20, 1_251, 500, 1_000]), refused(4, 2));
    assert_eq!(answer(&[80, 20, 1_250, 500, 1_000]), refused(7, 0));
    assert_eq!(answer(&[80, 20, 1_251, 501, 1_000]), refused(4, 3));
    assert_eq!(answer(&[80, 20, 1_251, 500, 899]), refused(4, 4));
    assert_eq!(answer(&[80, 21, 1_251, 500, 1_000]), refused(4, 1));
    assert_eq!(answer(&[80, 20, u64::MAX, 500, 1_000]), refused(4, 2));
}

#[test]
fn length_is_refused_where_its_spacing_is_read() {
    assert_eq!(read_text("5 80 20 1251 500 1000"), refused(4, 8));
    assert_eq!(read_text("5 80 20 1251 500 1000 no number"), refused(4, 8));
    assert_eq!(read_text("5\t080\r\n20\t0001251 500 1000"), refused(4, 10));
    assert_eq!(read_text("5 80 20 1250 500 1000"), refused(5, 21));
    assert_eq!(read_text("5 80 20 1251 500 "), refused(5, 17));
    assert_eq!(read_text("5 80 20 1251 500 1e3"), refused(2, 17));
    assert_eq!(read_text("5 80 20 1251 500 1101"), refused(4, 17));
    assert_eq!(read_text("5 80 20 1251 9 1000"), refused(4, 13));
    assert_eq!(read_text("5 80 21 1251 500 1000"), refused(4, 5));
    assert_eq!(read_text("5 81 20 1251 500 1000"), refused(4, 2));
}

#[test]
fn longest_file() {
    let sample = |length: usize| format!("{SAMPLE_FILE:length$}");
    assert_eq!(read_text(&sample(32_768)), read_text(SAMPLE_FILE));
    assert_eq!(read_text(&sample(32_769)), refused(1, 32_768));
}

#[test]
fn longest_text() {
    let items = [300_000, 100_000, -10_000, 30_000].repeat(MOST_ITEMS);
    let tanks = [400_000, 400_000, 100_000, -10_000, 30_000, 10_000, 8_000, 1_500].repeat(MOST_TANKS);
    let answer = |room| write(&[80, 20, 1_250, 500, 1_100], &[8_000; 1_701], &items, &tanks, &mut vec![0; room]);
    assert_eq!(LONGEST_TEXT, 10_202);
    assert_eq!(answer(10_202), Ok(10_202));
    assert_eq!(answer(10_201), refused(14, 10_202));
}

#[test]
fn room_for_half_breadths() {
    let sample = SAMPLE_FILE.as_bytes();
    assert_eq!(read_into(&mut [0; 1_701], sample), read_text(SAMPLE_FILE));
    assert_eq!(read_into(&mut [0; 1_700], sample), refused(7, 0));
}

#[test]
fn least_gm() {
    assert!(passes(150, Heel::Upright));
    assert!(!passes(149, Heel::Upright));
}

fn assert_sample_sheet(text: &str) {
    for reading in Reading::BOTH {
        let mut room = [0; SHEET_ROOM];
        let length = report(reading, text.as_bytes(), &mut room).expect("the room is long enough");
        assert_eq!(std::str::from_utf8(&room[..length]), Ok(sample_sheet(reading).as_str()));
    }
}

#[test]
fn sheet_of_the_sample() {
    assert_sample_sheet(SAMPLE_FILE);
}

#[test]
fn sheet_of_the_sample_from_other_editors() {
    assert_sample_sheet(&SAMPLE_FILE.replace('\n', "\r\n"));
    assert_sample_sheet(&SAMPLE_FILE.replace(' ', "\t"));
    assert_sample_sheet(&SAMPLE_FILE.replace('\n', "\r").replace(' ', "\t0"));
    let padded: String = SAMPLE_FILE.split_whitespace().map(|word| format!("{word:0>9}\r\n")).collect();
    assert_sample_sheet(&padded);
}

#[test]
fn named_files_have_conditions() {
    for name in NAMES {
        let text = file(name).expect("the file has a name");
        let mut room = [0; SHEET_ROOM];
        let length = report(Reading::default(), text.as_bytes(), &mut room).expect("the room is long enough");
        assert!(room[..length].windows(2).any(|line| line == b"\nC"), "{name}");
    }
}

#[test]
fn largest_file_is_as_large_as_may_be() {
    let summary = Summary { particulars: [80, 20, 1_250, 500, 1_025], items: 32, tanks: 16 };
    assert_eq!(file("largest").map(|text| read_text(&text)), Some(Ok(summary)));
}

#[test]
fn places_count_numbers_of_a_table() {
    let table = [20, 1, 0, 10, 0, 10, 0, 30, 2, 0, 10, 0, 10, 0];
    let mut items = [0; 2 * ITEM.len()];
    items[6] = 10_001;
    assert_eq!(condition(Reading::default(), &items, &[], &table), refused(4, 3_006));
    let mut tanks = [1; 2 * TANK.len()];
    tanks[8] = 2;
    assert_eq!(condition(Reading::default(), &[], &tanks, &table), refused(13, 4_008));
}

/// Draft and KM of an item on three rows, KM rising from the first to the second and falling to the third.
fn draft_and_km(reading: Reading, weight: i64) -> [u64; 2] {
    let rows = [
        [600, 100_000, 0, 250, 1_750, 2_000, 0],
        [900, 200_000, 0, 400, 2_600, 3_000, 0],
        [1_200, 300_000, 0, 500, 2_000, 2_500, 0],
    ];
    let laden = condition(reading, &[weight, 0, 0, 0], &[], rows.as_flattened()).expect("the rows carry the weight");
    [laden.draft, laden.km]
}

#[test]
fn metacentre_at_a_row() {
    for reading in Reading::BOTH {
        assert_eq!(draft_and_km(reading, 100_000), [600, 2_000]);
        assert_eq!(draft_and_km(reading, 200_000), [900, 3_000]);
        assert_eq!(draft_and_km(reading, 300_000), [1_200, 2_500]);
    }
}

#[test]
fn metacentre_between_rows() {
    assert_eq!(draft_and_km(Reading::Lesser, 100_001), [600, 2_000]);
    assert_eq!(draft_and_km(Reading::Lesser, 199_999), [899, 2_000]);
    assert_eq!(draft_and_km(Reading::Lesser, 200_001), [900, 2_500]);
    assert_eq!(draft_and_km(Reading::Lesser, 299_999), [1_199, 2_500]);
    assert_eq!(draft_and_km(Reading::StraightLine, 199_999), [899, 2_999]);
    assert_eq!(draft_and_km(Reading::StraightLine, 249_999), [1_049, 2_750]);
}
