//! The printed sheet: the rows' lines and the condition's, or the line of a refusal. The pen goes from the end.

use super::condition::condition;
use super::pen::Pen;
use super::ranges::{MOST_ROWS, ROW_ROOM};
use super::reader::OffsetFile;
use super::rows::{fill_rows, ROW_NUMBERS};
use crate::calls::{Condition, Heel, Reading, Refusal};

/// Every number at its greatest length; an E line is shorter than a C line.
const LONGEST_ROW_LINE: usize = "R 10000 17600000 100000 10000 100000 100000 1600000000\n".len();
const LONGEST_CONDITION_LINE: usize =
    "C 16000000 10000 100000 100000 480000000000 10240000000 -10240000000 -160000000000 unstable 0\n".len();
const LONGEST_SHEET: usize = MOST_ROWS * LONGEST_ROW_LINE + LONGEST_CONDITION_LINE;

type SheetPen = Pen<LONGEST_SHEET>;

/// From a file's text to the sheet's lines; answers the bytes of the sheet.
pub fn report(reading: Reading, text: &[u8], room: &mut [u8]) -> Result<usize, Refusal> {
    let mut pen = SheetPen::new();
    if let Err(refusal) = print(reading, text, &mut pen) {
        print_refusal(refusal, &mut pen);
    }
    pen.give(room)
}

/// Prints the sheet, or gives back the refusal that comes before the rows; they need not try again what the reader has.
fn print(reading: Reading, text: &[u8], pen: &mut SheetPen) -> Result<(), Refusal> {
    let mut file = OffsetFile::blank();
    file.take(text)?;
    let mut table = [0; ROW_ROOM];
    let count = fill_rows(file.half_breadths(), &file.particulars, &mut table)?;
    let rows = &table[..count * ROW_NUMBERS];
    match condition(reading, file.items(), file.tanks(), rows) {
        Ok(condition) => print_condition(&condition, pen),
        Err(refusal) => print_refusal(refusal, pen),
    }
    for row in rows.chunks_exact(ROW_NUMBERS).rev() {
        pen.byte(b'\n');
        print_wholes(row, pen);
        pen.byte(b'R');
    }
    Ok(())
}

/// A space and a number for each.
fn print_wholes(numbers: &[u64], pen: &mut SheetPen) {
    for &number in numbers.iter().rev() {
        pen.whole(number);
        pen.byte(b' ');
    }
}

fn print_condition(condition: &Condition, pen: &mut SheetPen) {
    let Condition { weight, draft, km, lcg, vertical_moment, free_surface, .. } = *condition;
    pen.word(if condition.passes { " 1\n" } else { " 0\n" });
    pen.word(heel_word(condition.heel));
    for number in [condition.transverse_moment, condition.gm] {
        pen.byte(b' ');
        pen.signed(number);
    }
    pen.byte(b' ');
    print_wholes(&[weight, draft, km, lcg, vertical_moment, free_surface], pen);
    pen.byte(b'C');
}

fn heel_word(heel: Heel) -> &'static str {
    match heel {
        Heel::Unstable => "unstable",
        Heel::Upright => "upright",
        Heel::Heeled(_) => "heeled",
        Heel::Beyond => "beyond",
    }
}

fn print_refusal(refusal: Refusal, pen: &mut SheetPen) {
    pen.byte(b'\n');
    print_wholes(&[refusal.number, refusal.place as u64], pen);
    pen.byte(b'E');
}
