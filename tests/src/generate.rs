//! Cases for the comparison, drawn from a seed: each case depends on the seed and its own number alone.

mod damaged_profiles;
mod damaged_tests;
mod edges;
mod formulas;
mod hoppers;
mod hulls;
mod inclining;
mod layouts;
mod loads;
mod profiles;
mod random;
mod row_tables;
mod tallies;
mod texts;

#[cfg(test)]
mod trial_hoppers;
#[cfg(test)]
mod trial_inclining;
#[cfg(test)]
mod trial_profiles;
#[cfg(test)]
mod trial_texts;

use crate::calculation::PEER;
use crate::calls::{Engine, Reading, Summary, Tally};
use crate::hopper::Hopper;
use crate::inclining::Inclining;
use crate::peer;
use crate::peer::ranges::{half_breadth_count, try_particulars, ANGLES, HALF_BREADTH, ITEM, PARTICULARS, ROW, TANK};
use crate::peer::ranges::{HALF_BREADTH_ROOM, ITEM_ROOM, ROW_ROOM, SHEET_ROOM, TANK_ROOM};
use crate::peer::ranges::{MOST_INTERVALS, MOST_WATERLINES};
use crate::peer::tally::SLOTS;
use crate::step::Step;
use crate::vessel::Vessel;
use edges::{damage_number, damage_records, damage_size, edge};
use hulls::Hull;
pub use layouts::{MOST_DIGITS, SEPARATORS};
use random::{mixed, Random};
pub use row_tables::{DISPLACEMENT, KM};

/// Rooms for reading that are never too short.
const READ_ROOMS: [usize; 3] = [HALF_BREADTH_ROOM, ITEM_ROOM, TANK_ROOM];
/// Room for the half-breadths of half as many intervals, which is too short for a file of any size.
const SHORTER_HULL_ROOM: usize = (MOST_INTERVALS / 2 + 1) * MOST_WATERLINES;

/// One call, or steps from an empty tally, one after another.
#[derive(Debug)]
pub enum Case {
    Call(Call),
    History(Vec<Step>),
}

/// One call with all that is lent to it; rooms by their lengths.
#[derive(Clone, Debug, PartialEq)]
pub enum Call {
    Report { reading: Reading, text: Vec<u8>, room: usize },
    Read { text: Vec<u8>, rooms: [usize; 3] },
    Write { numbers: FileNumbers, room: usize },
    Rows { engine: Engine, particulars: [u64; 5], half_breadths: Vec<u64>, room: usize },
    Display { row: [u64; 7] },
    Condition { reading: Reading, items: Vec<i64>, tanks: Vec<i64>, rows: Vec<u64> },
    Step { tally: Box<Tally>, step: Step },
    Aboard { tally: Box<Tally>, tanks: Vec<i64>, rows: Vec<u64> },
    Surface { hopper: Hopper },
    LightShip { inclining: Inclining, room: usize },
    Profile { vessel: Vessel },
}

/// The numbers of an offset file.
#[derive(Clone, Debug, PartialEq)]
pub struct FileNumbers {
    pub particulars: [u64; 5],
    pub half_breadths: Vec<u64>,
    pub items: Vec<i64>,
    pub tanks: Vec<i64>,
}

impl FileNumbers {
    /// What a reader says of a text and left in its tables.
    pub fn of(summary: &Summary, half_breadths: &[u64], items: &[i64], tanks: &[i64]) -> FileNumbers {
        FileNumbers {
            particulars: summary.particulars,
            half_breadths: half_breadths[..half_breadth_count(&summary.particulars)].to_vec(),
            items: items[..summary.items as usize * ITEM.len()].to_vec(),
            tanks: tanks[..summary.tanks as usize * TANK.len()].to_vec(),
        }
    }

    /// The numbers of a text, where the own reader reads it.
    pub fn of_text(text: &[u8]) -> Option<FileNumbers> {
        let [half_breadths, items, tanks] = READ_ROOMS;
        let (mut half_breadths, mut items, mut tanks) = (vec![0; half_breadths], vec![0; items], vec![0; tanks]);
        let summary = peer::read(text, &mut half_breadths, &mut items, &mut tanks).ok()?;
        Some(FileNumbers::of(&summary, &half_breadths, &items, &tanks))
    }
}

impl Case {
    pub fn generate(seed: u64, number: u64) -> Case {
        let random = &mut Random::for_case(seed, number);
        Case::Call(match random.below(26) {
            0..=4 => report(random),
            5..=7 => read(random),
            8..=9 => write(random),
            10..=11 => rows(random),
            12 => display(random),
            13..=15 => condition(random),
            16..=17 => step(random),
            18 => aboard(random),
            19..=20 => surface(random),
            21..=22 => light_ship(random),
            23..=24 => profile(random),
            _ => return Case::History(tallies::history(random)),
        })
    }
}

impl Call {
    /// The same call by the straight line, of those that ask for a reading.
    pub fn by_straight_line(&self) -> Option<Call> {
        let reading = Reading::StraightLine;
        match self.clone() {
            Call::Report { text, room, .. } => Some(Call::Report { reading, text, room }),
            Call::Condition { items, tanks, rows, .. } => Some(Call::Condition { reading, items, tanks, rows }),
            _ => None,
        }
    }

    /// The call's hull, with room for its rows: its own, or a file's, where its text is read.
    fn hull(&self) -> Option<(Hull, usize)> {
        let of_file = |FileNumbers { particulars, half_breadths, .. }| (Hull { particulars, half_breadths }, ROW_ROOM);
        match self {
            Call::Report { text, .. } | Call::Read { text, .. } => FileNumbers::of_text(text).map(of_file),
            Call::Write { numbers, .. } => Some(of_file(numbers.clone())),
            Call::Rows { particulars, half_breadths, room, .. } => {
                Some((Hull { particulars: *particulars, half_breadths: half_breadths.clone() }, *room))
            }
            _ => None,
        }
    }

    /// The rows of the call's hull by each engine.
    pub fn rows_by_both_engines(&self) -> Option<[Call; 2]> {
        let (Hull { particulars, half_breadths }, room) = self.hull()?;
        Some(Engine::BOTH.map(|engine| Call::Rows { engine, particulars, half_breadths: half_breadths.clone(), room }))
    }

    /// The rows of a hull with the particulars of the call's own, where they are in range, and half-breadths by formula.
    pub fn rows_by_formula(&self) -> Option<Call> {
        let (Hull { particulars, half_breadths }, _) = self.hull()?;
        try_particulars(&particulars).ok()?;
        let random = &mut Random::for_numbers(&half_breadths);
        let half_breadths = formulas::half_breadths(random, &particulars);
        Some(Call::Rows { engine: random.pick(&Engine::BOTH), particulars, half_breadths, room: ROW_ROOM })
    }

    /// The call's surface, where it is answered, with its middle line as far to port and as far to starboard as may be.
    pub fn with_middle_line_moved(&self) -> Option<[Call; 2]> {
        match self {
            Call::Surface { hopper } if hopper.by(&PEER).is_ok() => {
                Some(hopper.moves().map(|width| Call::Surface { hopper: hopper.moved(width) }))
            }
            _ => None,
        }
    }

    /// The call's inclining test, where it is answered: with its shifts turned about, with as large a free surface as is
    /// still answered, and with the same items besides on both sides.
    pub fn with_test_altered(&self) -> Option<[Call; 3]> {
        match self {
            Call::LightShip { inclining, room } => {
                let light_ship = inclining.by(&PEER, &mut vec![0; *room]).ok()?;
                let altered =
                    [inclining.turned(), inclining.with_surface_of(light_ship.vertical_moment), inclining.filled()];
                Some(altered.map(|inclining| Call::LightShip { inclining, room: *room }))
            }
            _ => None,
        }
    }

    /// The call's supply vessel, where it is answered, with a lower KG.
    pub fn with_kg_lowered(&self) -> Option<[Call; 3]> {
        match self {
            Call::Profile { vessel } if vessel.by(&PEER, &mut [0; ANGLES]).is_ok() => {
                Some(vessel.lowered().map(|vessel| Call::Profile { vessel }))
            }
            _ => None,
        }
    }
}

/// What stands at place `i` of a lent table before a call.
pub fn pattern(i: usize) -> u64 {
    mixed(!(i as u64)) >> 1
}

/// How many things are wrong with a case: none, mostly, or one, or more.
fn damages(random: &mut Random) -> u64 {
    random.pick(&[0, 0, 0, 0, 1, 1, 1, 2])
}

/// A file with nothing out of range, mostly loaded so that its condition is near a limit.
fn file_numbers(random: &mut Random) -> FileNumbers {
    let Hull { particulars, half_breadths } = hulls::hull(random);
    let mut table = [0; ROW_ROOM];
    let (items, tanks) = match peer::rows(&half_breadths, &particulars, &mut table) {
        Ok(count) => loads::aimed(random, &table[..count * ROW.len()]),
        Err(_) => loads::any(random),
    };
    FileNumbers { particulars, half_breadths, items, tanks }
}

fn report(random: &mut Random) -> Call {
    let text = file_text(random);
    let room = match random.below(16) {
        0 | 1 => {
            let reading = random.pick(&Reading::BOTH);
            near(random, needed(peer::report(reading, &text, &mut [])))
        }
        2 if random.one_in(4) => 0,
        3 => SHEET_ROOM + random.index(100),
        _ => SHEET_ROOM,
    };
    Call::Report { reading: Reading::default(), text, room }
}

fn read(random: &mut Random) -> Call {
    let text = file_text(random);
    let mut rooms = READ_ROOMS;
    for room in &mut rooms {
        *room = match random.below(32) {
            0 => *room - 1,
            1 => random.index(*room),
            2..=5 => *room + random.index(20),
            _ => *room,
        };
    }
    if random.one_in(32) {
        rooms[0] = SHORTER_HULL_ROOM - random.index(2);
    }
    Call::Read { text, rooms }
}

fn file_text(random: &mut Random) -> Vec<u8> {
    let mut numbers = file_numbers(random);
    let damages = damages(random);
    if damages > 0 && random.one_in(8) {
        hulls::stretch(random, &mut numbers.particulars);
    }
    texts::text(random, &numbers, damages)
}

fn write(random: &mut Random) -> Call {
    let mut numbers = file_numbers(random);
    for _ in 0..damages(random) {
        match random.below(9) {
            0 => damage_number(random, &mut numbers.particulars, &PARTICULARS),
            1 => damage_number(random, &mut numbers.half_breadths, &[HALF_BREADTH]),
            2 => damage_records(random, &mut numbers.items, &ITEM),
            3 | 4 => damage_records(random, &mut numbers.tanks, &TANK),
            5 => damage_size(random, &mut numbers.half_breadths, 1),
            6 => damage_size(random, &mut numbers.items, ITEM.len()),
            7 => damage_size(random, &mut numbers.tanks, TANK.len()),
            _ => damage_length(random, &mut numbers.particulars),
        }
    }
    let room = match random.below(8) {
        0..=3 => {
            let FileNumbers { particulars, half_breadths, items, tanks } = &numbers;
            near(random, needed(peer::write(particulars, half_breadths, items, tanks, &mut [])))
        }
        4 => 0,
        5 => peer::LONGEST_TEXT - 1,
        _ => peer::LONGEST_TEXT,
    };
    Call::Write { numbers, room }
}

/// A hull as long as may be or longer, half of the time with a particular at an edge besides.
fn damage_length(random: &mut Random, particulars: &mut [u64; 5]) {
    hulls::stretch(random, particulars);
    if random.one_in(2) {
        damage_number(random, particulars, &PARTICULARS);
    }
}

/// The length that a call without room asks for.
fn needed(answer: Result<usize, crate::calls::Refusal>) -> usize {
    answer.unwrap_or_else(|refusal| refusal.place)
}

/// The length itself, one less, or a little more.
fn near(random: &mut Random, length: usize) -> usize {
    match random.below(4) {
        0 => length.saturating_sub(1),
        1 => length + 1 + random.index(40),
        2 => random.index(length + 1),
        _ => length,
    }
}

fn rows(random: &mut Random) -> Call {
    let Hull { mut particulars, mut half_breadths } = hulls::hull(random);
    let exact = (particulars[1] as usize - 1) * ROW.len();
    let mut room = random.pick(&[exact, exact, exact + 1, ROW_ROOM, ROW_ROOM + 9]);
    for _ in 0..damages(random) {
        match random.below(7) {
            0 | 1 => damage_number(random, &mut particulars, &PARTICULARS),
            2 | 3 => {
                for _ in 0..random.pick(&[1, 1, 2, 3, 9]) {
                    damage_number(random, &mut half_breadths, &[HALF_BREADTH]);
                }
            }
            4 => damage_size(random, &mut half_breadths, 1),
            5 => damage_length(random, &mut particulars),
            _ => room = random.pick(&[0, exact - 1, exact - ROW.len(), room]),
        }
    }
    Call::Rows { engine: Engine::default(), particulars, half_breadths, room }
}

fn display(random: &mut Random) -> Call {
    let mut row = ROW.map(|range| random.between(range.least, range.greatest) as u64);
    for _ in 0..random.below(4) {
        let i = random.index(row.len());
        row[i] = edge(random, ROW[i], row[i] as i64) as u64;
    }
    Call::Display { row }
}

/// Items and tanks, mostly aimed by the rows they will lie on.
fn load(random: &mut Random, rows: &[u64]) -> (Vec<i64>, Vec<i64>) {
    if random.one_in(8) {
        loads::any(random)
    } else {
        loads::aimed(random, rows)
    }
}

fn condition(random: &mut Random) -> Call {
    let mut rows = row_tables::usable(random);
    let (mut items, mut tanks) = load(random, &rows);
    for _ in 0..damages(random) {
        match random.below(10) {
            0 => damage_records(random, &mut items, &ITEM),
            1 => damage_records(random, &mut tanks, &TANK),
            2 => loads::overfill(random, &mut tanks),
            3 => damage_size(random, &mut items, ITEM.len()),
            4 => damage_size(random, &mut tanks, TANK.len()),
            5 => damage_size(random, &mut rows, ROW.len()),
            _ => row_tables::damage(random, &mut rows),
        }
    }
    Call::Condition { reading: Reading::default(), items, tanks, rows }
}

/// A step of a tally that is handed in, chosen before the tally is spoilt.
fn step(random: &mut Random) -> Call {
    let mut tally = tallies::sound(random);
    let slot = random.index(SLOTS);
    let step = tallies::step(random, &tally, slot);
    for _ in 0..damages(random) {
        tallies::damage(random, &mut tally);
    }
    Call::Step { tally: Box::new(tally), step }
}

fn aboard(random: &mut Random) -> Call {
    let mut rows = row_tables::usable(random);
    let (items, mut tanks) = load(random, &rows);
    let mut tally = tallies::stowed(random, &items);
    for _ in 0..damages(random) {
        match random.below(8) {
            0..=2 => tallies::damage(random, &mut tally),
            3 => damage_records(random, &mut tanks, &TANK),
            4 => loads::overfill(random, &mut tanks),
            5 => damage_size(random, &mut tanks, TANK.len()),
            6 => damage_size(random, &mut rows, ROW.len()),
            _ => row_tables::damage(random, &mut rows),
        }
    }
    Call::Aboard { tally: Box::new(tally), tanks, rows }
}

fn surface(random: &mut Random) -> Call {
    let mut hopper = hoppers::hopper(random);
    for _ in 0..damages(random) {
        hoppers::damage(random, &mut hopper);
    }
    Call::Surface { hopper }
}

fn light_ship(random: &mut Random) -> Call {
    let mut inclining = inclining::inclining(random);
    let mut room = inclining::room(random, &inclining);
    for _ in 0..damages(random) {
        damaged_tests::damage(random, &mut inclining, &mut room);
    }
    Call::LightShip { inclining, room }
}

fn profile(random: &mut Random) -> Call {
    let mut vessel = profiles::vessel(random);
    for _ in 0..damages(random) {
        damaged_profiles::damage(random, &mut vessel);
    }
    Call::Profile { vessel }
}
