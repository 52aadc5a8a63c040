//! Counts of outcomes by call, and what the papers let come out that never did.

use super::engines::ENGINES;
use super::formulas::FORMULAS;
use super::half_breadths::{half_breadths, HALF_BREADTHS};
use super::hoppers::{refused_surface, surface, MIDDLE_LINES, REFUSED_SURFACES, SURFACES};
use super::inclining::{inclining, light_ship, ALTERATIONS, INCLININGS, LIGHT_SHIPS};
use super::lengths::{lengths, LENGTHS, LENGTHS_BY_NUMBERS};
use super::observation::Observation;
use super::profiles::{peak, profile, rules, vessel, LOWERED, PEAKS, PROFILES, RULES, TURNED, VESSELS};
use super::readings::{flotation, FLOTATIONS, READINGS};
use super::refused_profiles::{refused_profile, REFUSED_PROFILES};
use super::refused_tests::{orders, refused_test, ORDERS, REFUSED_TESTS};
use super::settled::{Settled, HEELS};
use super::spellings::{in_text, in_token, IN_TEXTS, IN_TOKENS};
use crate::calls::{Engine, Refusal, Tally};
use crate::generate::Call;
use crate::peer::condition::PRESSED_UP;
use crate::peer::ranges::{ANGLES, ITEM, ITEM_PLACES, ITEM_ROOM, KM_AND_KG, LONGEST_FILE, MOST_SHIFTS, MOST_WIDTHS};
use crate::peer::ranges::{SHIFT, TANK, TANK_PLACES, TEST};
use crate::peer::tally::SLOT_NUMBERS;
use crate::step::Step;
use std::cmp::Ordering;
use std::collections::BTreeSet;

/// Sections are counted of every hull, whichever call it stands in.
const CALLS: [&str; 14] = [
    "report",
    "read",
    "write",
    "rows",
    "sections",
    "display",
    "condition",
    "load",
    "discharge",
    "shift",
    "aboard",
    "hopper",
    "inclining",
    "profile",
];
const REPORT: usize = 0;
const READ: usize = 1;
const WRITE: usize = 2;
const ROWS: usize = 3;
const SECTIONS: usize = 4;
const CONDITION: usize = 6;
const ABOARD: usize = 10;
const NO_NUMBER: usize = 2;
/// The refusals the papers let each call give; the report's own is 14, the others are its sheet's E lines.
const ALLOWED: [&[usize]; CALLS.len()] = [
    &[1, 2, 3, 4, 5, 6, 8, 9, 11, 12, 13, 14],
    &[1, 2, 3, 4, 5, 6, 7],
    &[4, 7, 14],
    ROWS_ALLOWED,
    ROWS_ALLOWED,
    &[4],
    &[4, 7, 10, 11, 12, 13],
    &[4, 15, 16, 22],
    &[15, 17, 22],
    &[4, 15, 17, 22],
    &[4, 7, 10, 11, 12, 13, 22],
    &[4, 7],
    &[4, 7, 20, 21],
    &[4, 7],
];
const ROWS_ALLOWED: &[usize] = &[4, 7, 8, 9];
/// Places that must be seen: of a file too long, of every table whose size a call may refuse, of the first item and
/// tank, of every number of a step, of the first slot, the last and the first beyond, of the first number of a hopper
/// tank and of an inclining test and the last of the largest, and of every number of a supply vessel.
const PLACES: [&[(usize, usize)]; CALLS.len()] = [
    &[(1, LONGEST_FILE), (13, TANK_PLACES)],
    &[(1, LONGEST_FILE), (7, 0), (7, 1), (7, 2)],
    &[(4, ITEM_PLACES), (4, TANK_PLACES), (7, 0), (7, 1), (7, 2)],
    ROWS_PLACES,
    ROWS_PLACES,
    &[],
    &[(4, ITEM_PLACES), (4, TANK_PLACES), (7, 1), (7, 2), (7, 3), (13, TANK_PLACES)],
    &[(4, 0), (4, 1), (4, 2), (4, 3), (15, 32), (16, 0), (16, 31), (22, 0)],
    &[(15, 32), (17, 0), (17, 31), (22, 0)],
    &[(4, 1), (4, 2), (4, 3), (15, 32), (17, 0), (17, 31), (22, 0)],
    &[(4, TANK_PLACES), (7, 2), (7, 3), (13, TANK_PLACES), (22, 0)],
    &[(4, 0), (4, 2 * MOST_WIDTHS + 1), (7, 0)],
    &[(4, 0), (4, LAST_OF_INCLINING), (7, 0), (7, 1), (7, 2), (7, 3), (20, 0), (21, 0)],
    &PROFILE_PLACES,
];
const ROWS_PLACES: &[(usize, usize)] = &[(7, 0), (7, 3)];
const LAST_OF_INCLINING: usize = TEST.len() + MOST_SHIFTS * SHIFT.len() + 2 * ITEM_ROOM - 1;
const PROFILE_PLACES: [(usize, usize); ANGLES + 3] = {
    let mut places = [(7, 0); ANGLES + 3];
    let mut place = 0;
    while place < ANGLES + KM_AND_KG.len() {
        places[place] = (4, place);
        place += 1;
    }
    places
};
/// By number; those without a name are no call's.
const REFUSALS: [&str; 23] = [
    "answered",
    "1 file too long",
    "2 no number",
    "3 count",
    "4 range",
    "5 ends too early",
    "6 after the last section",
    "7 table size",
    "8 displacement",
    "9 KM too high",
    "10 row table",
    "11 weight below",
    "12 weight above",
    "13 contents above capacity",
    "14 room",
    "15 no such slot",
    "16 slot taken",
    "17 slot empty",
    "",
    "",
    "20 no light weight",
    "21 light moment below 0",
    "22 tally not sound",
];
const VERDICTS: [&str; 2] = ["does not pass", "passes"];
const SETTLING_CALLS: [usize; 3] = [REPORT, CONDITION, ABOARD];
const CALLS_BY_READING: [usize; 2] = [REPORT, CONDITION];
const CALLS_WITH_HULL: [usize; 4] = [REPORT, READ, WRITE, ROWS];
const CALLS_WITH_TEXT: [usize; 2] = [REPORT, READ];
const CALLS_WITH_PARTICULARS: [usize; 3] = [WRITE, ROWS, SECTIONS];
const CALLS_FOR_ROWS: [usize; 2] = [ROWS, SECTIONS];
const FILLINGS: [&str; 5] = ["empty", "slack", "at 98 per cent", "above it", "full"];
const STATES: [&str; 4] = ["empty", "full", "with another mark than 1", "with something in an empty slot"];

/// What came out of one call: 0 or the refusal's number, how the vessel lies and where it floats where that was found,
/// what the other reading of KM made of it, what both engines made of its hull, what a hull by formula with its
/// particulars is like, how long its own is, which of its half-breadths it is refused for, how many of the condition's
/// tanks are filled how, in which states the tally was that a step was answered on, what editors left in the text that
/// was read or in its token that is no number, what a hopper tank's surface is like or is refused for, and to which
/// sides its middle line was moved, what an inclining test and its light ship are like or are refused for, before what,
/// and how the test was altered, and where the peak of a profile stands, what its vessel, it and its rules are like or
/// the vessel is refused for, how its KG was lowered, and what that turned.
pub struct Outcome {
    call: usize,
    refusal: usize,
    place: usize,
    lies: Option<(usize, usize)>,
    flotation: [bool; FLOTATIONS.len()],
    pub readings: [bool; READINGS.len()],
    pub engines: [bool; ENGINES.len()],
    pub formula: [bool; FORMULAS.len()],
    lengths: [bool; LENGTHS.len()],
    half_breadths: [bool; HALF_BREADTHS.len()],
    fillings: [u64; FILLINGS.len()],
    states: [bool; STATES.len()],
    in_text: [bool; IN_TEXTS.len()],
    in_token: [bool; IN_TOKENS.len()],
    surface: [bool; SURFACES.len()],
    refused_surface: [bool; REFUSED_SURFACES.len()],
    pub middle_line: [bool; MIDDLE_LINES.len()],
    inclining: [bool; INCLININGS.len()],
    light_ship: [bool; LIGHT_SHIPS.len()],
    refused_test: [bool; REFUSED_TESTS.len()],
    order: [bool; ORDERS.len()],
    pub altered: [bool; ALTERATIONS.len()],
    peak: [bool; PEAKS.len()],
    vessel: [bool; VESSELS.len()],
    profile: [bool; PROFILES.len()],
    rules: [bool; RULES.len()],
    refused_profile: [bool; REFUSED_PROFILES.len()],
    pub lowered: [bool; LOWERED.len()],
    pub turned: [bool; TURNED.len()],
}

impl Outcome {
    pub fn of(call: &Call, seen: &Observation) -> Outcome {
        let mut outcome = Outcome {
            call: index(call),
            refusal: seen.number as usize,
            place: seen.place,
            lies: None,
            flotation: Default::default(),
            readings: Default::default(),
            engines: Default::default(),
            formula: Default::default(),
            lengths: Default::default(),
            half_breadths: Default::default(),
            fillings: Default::default(),
            states: Default::default(),
            in_text: Default::default(),
            in_token: Default::default(),
            surface: Default::default(),
            refused_surface: Default::default(),
            middle_line: Default::default(),
            inclining: Default::default(),
            light_ship: Default::default(),
            refused_test: Default::default(),
            order: Default::default(),
            altered: Default::default(),
            peak: Default::default(),
            vessel: Default::default(),
            profile: Default::default(),
            rules: Default::default(),
            refused_profile: Default::default(),
            lowered: Default::default(),
            turned: Default::default(),
        };
        match Settled::of(call, seen) {
            Some(Ok(settled)) => {
                outcome.lies = Some((settled.lies, settled.passes));
                outcome.flotation = flotation(&settled);
            }
            Some(Err(Refusal { number, place })) => (outcome.refusal, outcome.place) = (number as usize, place),
            None => {}
        }
        outcome.lengths = lengths(call, outcome.refusal, outcome.place);
        outcome.half_breadths = half_breadths(call, outcome.refusal, outcome.place);
        if seen.number == 0 {
            match call {
                Call::Condition { tanks, .. } => {
                    tanks.chunks(TANK.len()).for_each(|tank| outcome.fillings[filling(tank[0], tank[1])] += 1);
                }
                Call::Step { tally, .. } => outcome.states = states(tally),
                Call::Read { text, .. } => outcome.in_text = in_text(text),
                Call::Surface { hopper } => outcome.surface = surface(hopper, seen),
                Call::LightShip { inclining: test, .. } => {
                    outcome.inclining = inclining(test, seen);
                    outcome.light_ship = light_ship(test, seen);
                }
                Call::Profile { vessel: of } => {
                    outcome.vessel = vessel(of);
                    outcome.peak = peak(seen);
                    outcome.profile = profile(seen);
                    outcome.rules = rules(seen);
                }
                _ => {}
            }
        } else {
            match call {
                Call::Surface { hopper } => outcome.refused_surface = refused_surface(hopper, seen),
                Call::LightShip { inclining: test, .. } => {
                    outcome.refused_test = refused_test(test, seen);
                    outcome.order = orders(test, seen);
                }
                Call::Profile { vessel } => outcome.refused_profile = refused_profile(vessel, seen),
                _ => {}
            }
        }
        if let (Call::Read { text, .. }, NO_NUMBER) = (call, outcome.refusal) {
            outcome.in_token = in_token(text, seen.place);
        }
        outcome
    }
}

/// Where a call stands among the names.
fn index(call: &Call) -> usize {
    match call {
        Call::Report { .. } => REPORT,
        Call::Read { .. } => READ,
        Call::Write { .. } => WRITE,
        Call::Rows { engine: Engine::Waterplanes, .. } => ROWS,
        Call::Rows { engine: Engine::Sections, .. } => SECTIONS,
        Call::Display { .. } => 5,
        Call::Condition { .. } => CONDITION,
        Call::Step { step: Step::Load { .. }, .. } => 7,
        Call::Step { step: Step::Discharge { .. }, .. } => 8,
        Call::Step { step: Step::Shift { .. }, .. } => 9,
        Call::Aboard { .. } => ABOARD,
        Call::Surface { .. } => 11,
        Call::LightShip { .. } => 12,
        Call::Profile { .. } => 13,
    }
}

/// Which of the states a tally is in.
fn states(tally: &Tally) -> [bool; STATES.len()] {
    let slots = tally.slots.as_chunks::<SLOT_NUMBERS>().0;
    [
        slots.iter().all(|slot| slot[0] == 0),
        slots.iter().all(|slot| slot[0] != 0),
        slots.iter().any(|slot| slot[0] != 0 && slot[0] != 1),
        slots.iter().any(|slot| slot[0] == 0 && slot[1..] != [0; ITEM.len()]),
    ]
}

/// Which of the fillings a tank's contents are.
fn filling(contents: i64, capacity: i64) -> usize {
    match (100 * contents).cmp(&(PRESSED_UP * capacity)) {
        Ordering::Less => usize::from(contents > 0),
        Ordering::Equal => 2,
        Ordering::Greater => 3 + usize::from(contents == capacity),
    }
}

#[derive(Default)]
pub struct Outcomes {
    refusals: [[u64; REFUSALS.len()]; CALLS.len()],
    heels: [[u64; HEELS.len()]; CALLS.len()],
    verdicts: [[u64; VERDICTS.len()]; CALLS.len()],
    flotations: [[u64; FLOTATIONS.len()]; CALLS.len()],
    readings: [[u64; READINGS.len()]; CALLS.len()],
    engines: [[u64; ENGINES.len()]; CALLS.len()],
    lengths: [[u64; LENGTHS.len()]; CALLS.len()],
    half_breadths: [[u64; HALF_BREADTHS.len()]; CALLS.len()],
    formulas: [u64; FORMULAS.len()],
    /// Those of the places to be seen that were.
    places: BTreeSet<(usize, usize, usize)>,
    fillings: [u64; FILLINGS.len()],
    states: [u64; STATES.len()],
    in_texts: [u64; IN_TEXTS.len()],
    in_tokens: [u64; IN_TOKENS.len()],
    surfaces: [u64; SURFACES.len()],
    refused_surfaces: [u64; REFUSED_SURFACES.len()],
    middle_lines: [u64; MIDDLE_LINES.len()],
    inclinings: [u64; INCLININGS.len()],
    light_ships: [u64; LIGHT_SHIPS.len()],
    refused_tests: [u64; REFUSED_TESTS.len()],
    orders: [u64; ORDERS.len()],
    altered: [u64; ALTERATIONS.len()],
    peaks: [u64; PEAKS.len()],
    vessels: [u64; VESSELS.len()],
    profiles: [u64; PROFILES.len()],
    rules: [u64; RULES.len()],
    refused_profiles: [u64; REFUSED_PROFILES.len()],
    lowered: [u64; LOWERED.len()],
    turned: [u64; TURNED.len()],
}

impl Outcomes {
    pub fn add(&mut self, outcome: &Outcome) {
        let Outcome { call, refusal, place, .. } = *outcome;
        self.refusals[call][refusal] += 1;
        if PLACES[call].contains(&(refusal, place)) {
            self.places.insert((call, refusal, place));
        }
        if let Some((heel, verdict)) = outcome.lies {
            self.heels[call][heel] += 1;
            self.verdicts[call][verdict] += 1;
        }
        count(&mut self.flotations[call], outcome.flotation);
        count(&mut self.readings[call], outcome.readings);
        count(&mut self.engines[call], outcome.engines);
        count(&mut self.formulas, outcome.formula);
        count(&mut self.lengths[call], outcome.lengths);
        count(&mut self.half_breadths[call], outcome.half_breadths);
        for (all, here) in self.fillings.iter_mut().zip(outcome.fillings) {
            *all += here;
        }
        count(&mut self.states, outcome.states);
        count(&mut self.in_texts, outcome.in_text);
        count(&mut self.in_tokens, outcome.in_token);
        count(&mut self.surfaces, outcome.surface);
        count(&mut self.refused_surfaces, outcome.refused_surface);
        count(&mut self.middle_lines, outcome.middle_line);
        count(&mut self.inclinings, outcome.inclining);
        count(&mut self.light_ships, outcome.light_ship);
        count(&mut self.refused_tests, outcome.refused_test);
        count(&mut self.orders, outcome.order);
        count(&mut self.altered, outcome.altered);
        count(&mut self.peaks, outcome.peak);
        count(&mut self.vessels, outcome.vessel);
        count(&mut self.profiles, outcome.profile);
        count(&mut self.rules, outcome.rules);
        count(&mut self.refused_profiles, outcome.refused_profile);
        count(&mut self.lowered, outcome.lowered);
        count(&mut self.turned, outcome.turned);
    }

    pub fn print(&self) {
        print_line("", &CALLS.map(str::to_string));
        print_group(&REFUSALS, &self.refusals);
        print_group(&HEELS, &self.heels);
        print_group(&VERDICTS, &self.verdicts);
        print_group(&FLOTATIONS, &self.flotations);
        print_group(&READINGS, &self.readings);
        print_group(&ENGINES, &self.engines);
        print_group(&LENGTHS, &self.lengths);
        print_group(&HALF_BREADTHS, &self.half_breadths);
        println!("hulls by formula {}", listed(&FORMULAS, &self.formulas));
        println!("tanks of conditions: {}", listed(&FILLINGS, &self.fillings));
        println!("tallies of answered steps: {}", listed(&STATES, &self.states));
        println!("texts read with {}", listed(&IN_TEXTS, &self.in_texts));
        println!("tokens that are no number with {}", listed(&IN_TOKENS, &self.in_tokens));
        println!("surfaces answered with {}", listed(&SURFACES, &self.surfaces));
        println!("surfaces refused for {}", listed(&REFUSED_SURFACES, &self.refused_surfaces));
        println!("surfaces with their middle line moved {}", listed(&MIDDLE_LINES, &self.middle_lines));
        println!("inclining tests answered with {}", listed(&INCLININGS, &self.inclinings));
        println!("light ships with {}", listed(&LIGHT_SHIPS, &self.light_ships));
        println!("inclining tests refused for {}", listed(&REFUSED_TESTS, &self.refused_tests));
        println!("inclining tests refused for {}", listed(&ORDERS, &self.orders));
        println!("inclining tests with {}", listed(&ALTERATIONS, &self.altered));
        println!("profiles with their peak {}", listed(&PEAKS, &self.peaks));
        println!("profiles answered with {}", listed(&VESSELS, &self.vessels));
        println!("profiles with {}", listed(&PROFILES, &self.profiles));
        println!("profiles with {}", listed(&RULES, &self.rules));
        println!("profiles refused for {}", listed(&REFUSED_PROFILES, &self.refused_profiles));
        println!("profiles with {}", listed(&LOWERED, &self.lowered));
        println!("profiles that a lower KG turned to {}", listed(&TURNED, &self.turned));
        for (call, name) in CALLS.iter().enumerate() {
            let seen = ALLOWED[call].iter().filter(|&&refusal| self.refusals[call][refusal] > 0).count();
            println!("{name}: refusals allowed {:?}, {seen} of {} seen", ALLOWED[call], ALLOWED[call].len());
        }
    }

    /// Names what was never seen, or never should be; answers whether there is no such thing.
    pub fn print_missing(&self) -> bool {
        let mut missing = Vec::new();
        for (call, name) in CALLS.iter().enumerate() {
            for (refusal, &count) in self.refusals[call].iter().enumerate() {
                let allowed = refusal == 0 || ALLOWED[call].contains(&refusal);
                if allowed != (count > 0) {
                    missing.push(format!("{name}: {refusal} {count} times"));
                }
            }
            for &(refusal, place) in PLACES[call].iter() {
                if !self.places.contains(&(call, refusal, place)) {
                    missing.push(format!("{name}: never {refusal} at {place}"));
                }
            }
        }
        for call in SETTLING_CALLS {
            missing.extend(never(CALLS[call], &HEELS, &self.heels[call]));
            missing.extend(never(CALLS[call], &VERDICTS, &self.verdicts[call]));
            missing.extend(never(CALLS[call], &FLOTATIONS, &self.flotations[call]));
        }
        for call in CALLS_BY_READING {
            missing.extend(never(CALLS[call], &READINGS, &self.readings[call]));
        }
        for call in CALLS_WITH_HULL {
            missing.extend(never(CALLS[call], &ENGINES, &self.engines[call]));
        }
        for call in CALLS_WITH_TEXT {
            missing.extend(never(CALLS[call], &LENGTHS, &self.lengths[call]));
        }
        for call in CALLS_WITH_PARTICULARS {
            missing.extend(never(CALLS[call], &LENGTHS[..LENGTHS_BY_NUMBERS], &self.lengths[call]));
        }
        for call in CALLS_FOR_ROWS {
            missing.extend(never(CALLS[call], &HALF_BREADTHS, &self.half_breadths[call]));
        }
        missing.extend(never("hull by formula", &FORMULAS, &self.formulas));
        missing.extend(never("tank", &FILLINGS, &self.fillings));
        missing.extend(never("tally", &STATES, &self.states));
        missing.extend(never("text read", &IN_TEXTS, &self.in_texts));
        missing.extend(never("token that is no number", &IN_TOKENS, &self.in_tokens));
        missing.extend(never("surface answered", &SURFACES, &self.surfaces));
        missing.extend(never("surface refused", &REFUSED_SURFACES, &self.refused_surfaces));
        missing.extend(never("middle line moved", &MIDDLE_LINES, &self.middle_lines));
        missing.extend(never("inclining test answered", &INCLININGS, &self.inclinings));
        missing.extend(never("light ship", &LIGHT_SHIPS, &self.light_ships));
        missing.extend(never("inclining test refused", &REFUSED_TESTS, &self.refused_tests));
        missing.extend(never("inclining test refused", &ORDERS, &self.orders));
        missing.extend(never("inclining test altered", &ALTERATIONS, &self.altered));
        missing.extend(never("peak of a profile", &PEAKS, &self.peaks));
        missing.extend(never("profile answered", &VESSELS, &self.vessels));
        missing.extend(never("profile", &PROFILES, &self.profiles));
        missing.extend(never("rules of a profile", &RULES, &self.rules));
        missing.extend(never("profile refused", &REFUSED_PROFILES, &self.refused_profiles));
        missing.extend(never("profile altered", &LOWERED, &self.lowered));
        missing.extend(never("profile with a lower KG", &TURNED, &self.turned));
        missing.iter().for_each(|line| println!("NOT AS THE PAPER ALLOWS: {line}"));
        missing.is_empty()
    }
}

/// Counts what holds.
fn count<const N: usize>(counts: &mut [u64; N], holds: [bool; N]) {
    for (count, holds) in counts.iter_mut().zip(holds) {
        *count += u64::from(holds);
    }
}

fn never<'a>(whose: &'a str, names: &'a [&str], counts: &'a [u64]) -> impl Iterator<Item = String> + 'a {
    let unseen = names.iter().zip(counts).filter(|(_, &count)| count == 0);
    unseen.map(move |(name, _)| format!("{whose}: never {name}"))
}

/// Names with their counts, in a line.
fn listed(names: &[&str], counts: &[u64]) -> String {
    let parts: Vec<String> = names.iter().zip(counts).map(|(name, count)| format!("{name} {count}")).collect();
    parts.join(", ")
}

fn print_group<const N: usize>(names: &[&str; N], counts: &[[u64; N]; CALLS.len()]) {
    for (i, name) in names.iter().enumerate().filter(|(_, name)| !name.is_empty()) {
        print_line(name, &counts.map(|counts| counts[i].to_string()));
    }
}

fn print_line(name: &str, cells: &[String]) {
    print!("{name:28}");
    cells.iter().for_each(|cell| print!("{cell:>11}"));
    println!();
}
