//! Compares the library with the own calculation on generated cases, and counts what came out of them.

mod engines;
mod formulas;
mod half_breadths;
mod history;
mod hoppers;
mod inclining;
mod lengths;
mod observation;
mod outcomes;
mod profiles;
mod readings;
mod refused_profiles;
mod refused_tests;
mod round_trip;
mod settled;
mod spellings;

#[cfg(test)]
mod trial_formulas;

use crate::calculation::{LIBRARY, PEER};
use crate::generate::{Call, Case};
use observation::Observation;
use outcomes::{Outcome, Outcomes};
use std::hint::black_box;
use std::time::Instant;

/// One case in so many also goes through the library's safe wrappers.
const WRAPPED_ONE_IN: u64 = 8;

/// Compares so many cases; answers whether none differed and every kind of outcome was seen.
pub fn run(seed: u64, cases: u64) -> bool {
    let start = Instant::now();
    let mut outcomes = Outcomes::default();
    for number in 0..cases {
        let case = Case::generate(seed, number);
        if let Err(difference) = examine(&case, number % WRAPPED_ONE_IN == 0, &mut outcomes) {
            println!("case {number} of seed {seed}: {difference}\n{case:?}");
            return false;
        }
    }
    outcomes.print();
    let seconds = start.elapsed().as_secs_f64();
    println!("seed {seed}, {seconds:.1} s, {:.0} cases/s", cases as f64 / seconds);
    let complete = outcomes.print_missing();
    println!("{cases} cases, 0 differences");
    complete
}

/// Prints one case with what both calculations made of it; answers whether they agree.
pub fn replay(seed: u64, number: u64) -> bool {
    let case = Case::generate(seed, number);
    println!("{case:?}");
    match &case {
        Case::Call(call) => {
            call.by_straight_line().iter().chain([call]).for_each(show);
            call.rows_by_both_engines().iter().flatten().for_each(show);
            call.rows_by_formula().iter().for_each(show);
            call.with_middle_line_moved().iter().flatten().for_each(show);
            call.with_test_altered().iter().flatten().for_each(show);
            call.with_kg_lowered().iter().flatten().for_each(show);
        }
        Case::History(steps) => {
            for (call, list) in history::calls(steps) {
                show(&call);
                println!("list: {list:?}");
            }
        }
    }
    let answer = examine(&case, true, &mut Outcomes::default());
    if let Err(difference) = &answer {
        println!("{difference}");
    }
    answer.is_ok()
}

fn show(call: &Call) {
    let before = Observation::before(call);
    println!("library: {:?}", before.clone().by_library(call));
    println!("peer: {:?}", before.by_calculation(&PEER, call));
}

/// Examines each call of a case; the steps of a history must also be the list's, the two readings of KM must fit, both
/// engines must make the same of a hull, a hull by formula must have its integrals, a surface must be the same with its
/// middle line moved, a light ship must fit its test altered, and a profile its KG lowered.
fn examine(case: &Case, wrapped: bool, outcomes: &mut Outcomes) -> Result<(), String> {
    match case {
        Case::Call(call) => {
            let library = examine_call(call, wrapped)?;
            let mut outcome = Outcome::of(call, &library);
            if let Some(other) = call.by_straight_line() {
                outcome.readings = readings::examine(call, &library, &examine_call(&other, wrapped)?)?;
            }
            if let Some([waterplanes, sections]) = call.rows_by_both_engines() {
                let by_sections = examine_call(&sections, wrapped)?;
                outcome.engines = engines::examine(&examine_call(&waterplanes, wrapped)?, &by_sections)?;
                outcomes.add(&Outcome::of(&sections, &by_sections));
            }
            if let Some(by_formula) = call.rows_by_formula() {
                outcome.formula = formulas::formula(&by_formula, &examine_call(&by_formula, wrapped)?);
            }
            for (side, moved) in call.with_middle_line_moved().into_iter().flatten().enumerate() {
                hoppers::same_surface(&library, &examine_call(&moved, wrapped)?)?;
                outcome.middle_line[side] = moved != *call;
            }
            if let Some(altered) = call.with_test_altered() {
                let [turned, larger, filled] = altered.each_ref().map(|altered| examine_call(altered, wrapped));
                inclining::fits(call, &library, [turned?, larger?, filled?])?;
                outcome.altered = altered.map(|altered| altered != *call);
            }
            for (i, lower) in call.with_kg_lowered().into_iter().flatten().enumerate() {
                let turned = profiles::examine_lower(&library, &examine_call(&lower, wrapped)?)?;
                outcome.turned = std::array::from_fn(|rule| outcome.turned[rule] || turned[rule]);
                outcome.lowered[i] = lower != *call;
            }
            outcomes.add(&outcome);
        }
        Case::History(steps) => {
            for (i, (call, list)) in history::calls(steps).iter().enumerate() {
                let library =
                    examine_step(call, list, wrapped).map_err(|difference| format!("step {i}: {difference}"))?;
                outcomes.add(&Outcome::of(call, &library));
            }
        }
    }
    Ok(())
}

fn examine_step(call: &Call, list: &Observation, wrapped: bool) -> Result<Observation, String> {
    let library = examine_call(call, wrapped)?;
    library.same_as(list)?;
    Ok(library)
}

/// Runs a call through both calculations on equal copies of all that is lent; answers what the library made of it.
fn examine_call(call: &Call, wrapped: bool) -> Result<Observation, String> {
    let before = Observation::before(call);
    let lent = call.clone();
    let library = before.clone().by_library(black_box(&lent));
    let peer = before.clone().by_calculation(&PEER, call);
    library.same_as(&peer)?;
    library.leaves_what_it_must(&before)?;
    if lent != *call {
        return Err("what was lent for reading is changed".to_string());
    }
    if wrapped {
        before.by_calculation(&LIBRARY, call).same_as(&peer)?;
    }
    if library.number == 0 {
        round_trip::examine(call, &library)?;
        formulas::examine(call, &library)?;
        inclining::examine(call, &library)?;
        profiles::examine(call, &library)?;
    }
    Ok(library)
}
