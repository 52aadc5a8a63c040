//! Answers worked out elsewhere, byte for byte: each `.txt` file's sheet must be its `.out` file, that of a
//! `straight-line-` `.txt` file by the straight line, and so must the totals after each step of a `tally-` `.in` file,
//! the free surface of a `hopper-` `.in` file, the light ship of an `inclining-` `.in` file, and the profile of a
//! `profile-` `.in` file.

mod hoppers;
mod inclining;
mod profiles;
mod steps;

use crate::calculation::{Calculation, CALCULATIONS};
use crate::calls::{Reading, Refusal};
use crate::peer::ranges::SHEET_ROOM;
use std::fs;
use std::io;
use std::path::{Path, PathBuf};
use std::str::FromStr;

/// Runs every calculation over a folder of vectors; answers whether all agree.
pub fn run(folder: &Path) -> io::Result<bool> {
    let sheets = inputs(folder, "", ".txt")?;
    let straight_line_sheets = inputs(folder, "straight-line-", ".txt")?;
    let tallies = inputs(folder, "tally-", ".in")?;
    let hoppers = inputs(folder, "hopper-", ".in")?;
    let tests = inputs(folder, "inclining-", ".in")?;
    let profiles = inputs(folder, "profile-", ".in")?;
    let mut agree = true;
    for calculation in CALCULATIONS {
        let name = calculation.name;
        let by = |reading| move |input: &[u8]| sheet(calculation, reading, input);
        agree &= all_agree(name, "sheets", &sheets, by(Reading::Lesser))?;
        agree &= all_agree(name, "straight-line sheets", &straight_line_sheets, by(Reading::StraightLine))?;
        agree &= all_agree(name, "tallies", &tallies, |input| steps::by_calculation(calculation, input))?;
        agree &= all_agree(name, "hopper tanks", &hoppers, |input| hoppers::by_calculation(calculation, input))?;
        agree &= all_agree(name, "inclining tests", &tests, |input| inclining::by_calculation(calculation, input))?;
        agree &= all_agree(name, "profiles", &profiles, |input| profiles::by_calculation(calculation, input))?;
    }
    agree &= all_agree("peer's list", "tallies", &tallies, steps::by_list)?;
    Ok(agree)
}

/// The folder's files whose names start and end so with a number between, in order.
fn inputs(folder: &Path, start: &str, end: &str) -> io::Result<Vec<PathBuf>> {
    let is_number = |number: &str| number.bytes().all(|byte| byte.is_ascii_digit());
    let mut inputs = Vec::new();
    for entry in fs::read_dir(folder)? {
        let entry = entry?;
        let name = entry.file_name();
        let number = name.to_str().and_then(|name| name.strip_prefix(start)?.strip_suffix(end));
        if number.is_some_and(is_number) {
            inputs.push(entry.path());
        }
    }
    inputs.sort();
    Ok(inputs)
}

/// Holds what is made of each input to the answer beside it; where there is no input, nothing agrees.
fn all_agree(name: &str, kind: &str, inputs: &[PathBuf], make: impl Fn(&[u8]) -> Option<Vec<u8>>) -> io::Result<bool> {
    let mut wrong = 0;
    for input in inputs {
        let answer = fs::read(input.with_extension("out"))?;
        if make(&fs::read(input)?) != Some(answer) {
            println!("{name}: {} differs", input.display());
            wrong += 1;
        }
    }
    println!("{name}: {} {kind}, {wrong} differences", inputs.len());
    Ok(wrong == 0 && !inputs.is_empty())
}

fn sheet(calculation: &Calculation, reading: Reading, text: &[u8]) -> Option<Vec<u8>> {
    let mut room = [0; SHEET_ROOM];
    let length = (calculation.report)(reading, text, &mut room).ok()?;
    Some(room[..length].to_vec())
}

/// The numbers of a line.
fn numbers<T: FromStr>(line: &str) -> Option<Vec<T>> {
    line.split(' ').map(|word| word.parse().ok()).collect()
}

/// The numbers of a line after their count.
fn counted<T: FromStr>(line: &str) -> Option<Vec<T>> {
    let (count, rest) = line.split_once(' ').unwrap_or((line, ""));
    let numbers = if rest.is_empty() { Vec::new() } else { numbers(rest)? };
    (count.parse() == Ok(numbers.len())).then_some(numbers)
}

/// A refusal as the answers have it.
fn refusal_line(Refusal { number, place }: Refusal) -> String {
    format!("E {number} {place}\n")
}
