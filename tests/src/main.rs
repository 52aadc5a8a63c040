//! The outside tests of Rugulosca: its static library beside an own calculation, compared and timed.
//!
//! `tests/run` is the way in. Without the library only the vectors can be run, over the own calculation alone, and the
//! files with a name printed.

#[cfg_attr(not(linked), allow(dead_code))]
mod calculation;
#[cfg_attr(not(linked), allow(dead_code))]
mod calls;
#[cfg(linked)]
mod compare;
#[cfg(linked)]
mod generate;
mod hopper;
mod inclining;
#[cfg(linked)]
mod measure;
mod peer;
#[cfg_attr(not(linked), allow(dead_code))]
mod samples;
mod step;
mod vectors;
mod vessel;

use std::env;
use std::path::Path;
use std::process::ExitCode;

const USAGE: &str = "usage: outside compare SEED CASES | replay SEED CASE | vectors FOLDER | measure
       outside file FILE | repeat library|peer CALL FILE TIMES
       FILE: smallest|sample|forty|largest
       CALL: read|rows|sections|condition|report|write|load|discharge|aboard|hopper|inclining|profile";

fn main() -> ExitCode {
    let arguments: Vec<String> = env::args().skip(1).collect();
    let words: Vec<&str> = arguments.iter().map(String::as_str).collect();
    match run(&words) {
        Some(true) => ExitCode::SUCCESS,
        Some(false) => ExitCode::FAILURE,
        None => {
            eprintln!("{USAGE}");
            ExitCode::from(2)
        }
    }
}

/// Runs a command; answers whether all is well, or nothing where there is no such command.
fn run(words: &[&str]) -> Option<bool> {
    match words {
        ["vectors", folder] => match vectors::run(Path::new(folder)) {
            Ok(agree) => Some(agree),
            Err(error) => {
                eprintln!("{folder}: {error}");
                Some(false)
            }
        },
        ["file", name] => {
            print!("{}", samples::file(name)?);
            Some(true)
        }
        _ => run_linked(words),
    }
}

/// The commands that need the library.
#[cfg(linked)]
fn run_linked(words: &[&str]) -> Option<bool> {
    let number = |word: &str| word.parse().ok();
    match words {
        ["compare", seed, cases] => Some(compare::run(number(seed)?, number(cases)?)),
        ["replay", seed, case] => Some(compare::replay(number(seed)?, number(case)?)),
        ["measure"] => {
            measure::run();
            Some(true)
        }
        ["repeat", calculation, call, file, times] => Some(measure::repeat(calculation, call, file, number(times)?)),
        _ => None,
    }
}

#[cfg(not(linked))]
fn run_linked(_: &[&str]) -> Option<bool> {
    eprintln!("the library is not linked: it is missing, or these tests are not built for its processor, x86-64");
    None
}
