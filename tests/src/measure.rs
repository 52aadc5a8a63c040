//! Times the library beside the own calculation, call by call, on the files with a name.

use crate::calculation::{Calculation, LIBRARY, PEER};
use crate::calls::{Engine, Reading, Tally};
use crate::generate::FileNumbers;
use crate::hopper::Hopper;
use crate::inclining::Inclining;
use crate::peer::ranges::{ANGLES, HALF_BREADTH_ROOM, ITEM_ROOM, MOST_SHIFTS, ROW, ROW_ROOM, TANK_ROOM};
use crate::peer::tally::SLOT_NUMBERS;
use crate::peer::LONGEST_TEXT;
use crate::samples;
use crate::vessel::Vessel;
use std::hint::black_box;
use std::time::{Duration, Instant};

const ROUNDS: usize = 40;
const ROUND_TIME: Duration = Duration::from_millis(5);
const CALLS: [&str; 12] = [
    "read",
    "rows",
    "sections",
    "condition",
    "report",
    "write",
    "load",
    "discharge",
    "aboard",
    "hopper",
    "inclining",
    "profile",
];

/// Prints the times of every call on every file.
pub fn run() {
    println!("ns per call: the median and the least of {ROUNDS} rounds of about {ROUND_TIME:?}, the two in turn.");
    println!("Tables and rooms are lent again as the call before left them; they are not cleared between calls.");
    println!("A tally has the file's items, one a slot; load and discharge are of the last of them, put back by hand.");
    println!("A hopper tank, an inclining test and a profile are no part of a file: they are the largest beside each.");
    println!("{:10} {:9} {:>19} {:>19} {:>13}", "call", "file", "library", "peer", "library/peer");
    for file in samples::NAMES {
        let mut lent = Lent::of(file).expect("the file has a name");
        for call in CALLS {
            let (library, peer) = measure(call, &mut lent);
            let ratio = library.median / peer.median;
            let least = library.least / peer.least;
            println!("{call:10} {file:9} {library} {peer} {ratio:>6.2} {least:>6.2}");
        }
    }
}

/// Makes one calculation's call so many times on a named file; answers whether there are such.
pub fn repeat(calculation: &str, call: &str, file: &str, times: u64) -> bool {
    let calculation = [LIBRARY, PEER].into_iter().find(|known| known.name == calculation);
    match (calculation, Lent::of(file)) {
        (Some(calculation), Some(mut lent)) if CALLS.contains(&call) => {
            lent.call(&calculation, call, times);
            true
        }
        _ => false,
    }
}

/// The median and the least time of a call, in ns.
struct Times {
    median: f64,
    least: f64,
}

impl Times {
    fn of(mut rounds: Vec<f64>) -> Times {
        rounds.sort_by(f64::total_cmp);
        Times { median: rounds[rounds.len() / 2], least: rounds[0] }
    }
}

impl std::fmt::Display for Times {
    fn fmt(&self, line: &mut std::fmt::Formatter) -> std::fmt::Result {
        write!(line, "{:>9.1} {:>9.1}", self.median, self.least)
    }
}

/// Times both calculations in turn; which goes first changes from round to round.
fn measure(call: &str, lent: &mut Lent) -> (Times, Times) {
    let times = calls_in_a_round(call, lent);
    let mut rounds = [Vec::new(), Vec::new()];
    for round in 0..ROUNDS {
        for turn in [round % 2, 1 - round % 2] {
            let calculation = [LIBRARY, PEER][turn].name;
            let nanoseconds = time(calculation, call, lent, times).as_nanos() as f64;
            rounds[turn].push(nanoseconds / times as f64);
        }
    }
    let [library, peer] = rounds;
    (Times::of(library), Times::of(peer))
}

fn time(calculation: &str, call: &str, lent: &mut Lent, times: u64) -> Duration {
    let calculation = if calculation == LIBRARY.name { &LIBRARY } else { &PEER };
    let start = Instant::now();
    lent.call(calculation, call, times);
    start.elapsed()
}

/// So many calls that the own calculation fills a round.
fn calls_in_a_round(call: &str, lent: &mut Lent) -> u64 {
    let mut times = 1;
    while time(PEER.name, call, lent, times) < ROUND_TIME {
        times *= 2;
    }
    times
}

/// A file with its numbers, a tally of its items, the largest hopper tank, inclining test and supply vessel, and the
/// tables and rooms that are lent.
struct Lent {
    text: Vec<u8>,
    particulars: [u64; 5],
    half_breadths: Vec<u64>,
    items: Vec<i64>,
    tanks: Vec<i64>,
    rows: Vec<u64>,
    lift: Lift,
    hopper: Hopper,
    inclining: Inclining,
    vessel: Vessel,
    room: Vec<u8>,
    gms: [u64; MOST_SHIFTS],
    gz: [i64; ANGLES],
    tables: (Vec<u64>, Vec<i64>, Vec<i64>, Vec<u64>),
}

impl Lent {
    fn of(file: &str) -> Option<Lent> {
        let text = samples::file(file)?;
        let FileNumbers { particulars, half_breadths, items, tanks } = FileNumbers::of_text(text.as_bytes())?;
        let mut tables = (vec![0; HALF_BREADTH_ROOM], vec![0; ITEM_ROOM], vec![0; TANK_ROOM], vec![0; ROW_ROOM]);
        let count = (PEER.rows)(Engine::default(), &half_breadths, &particulars, &mut tables.3).ok()?;
        let rows = tables.3[..ROW.len() * count].to_vec();
        (PEER.condition)(Reading::default(), &items, &tanks, &rows).ok()?;
        let lift = Lift::of(&items)?;
        Some(Lent {
            text: text.into_bytes(),
            particulars,
            half_breadths,
            items,
            tanks,
            rows,
            lift,
            hopper: samples::largest_hopper(),
            inclining: samples::largest_inclining(),
            vessel: samples::largest_vessel(),
            room: vec![0; LONGEST_TEXT],
            gms: [0; MOST_SHIFTS],
            gz: [0; ANGLES],
            tables,
        })
    }

    fn call(&mut self, calculation: &Calculation, call: &str, times: u64) {
        let Lent { text, particulars, half_breadths, items, tanks, rows, lift, .. } = self;
        let Lent { hopper, inclining, vessel, room, gms, gz, tables, .. } = self;
        let Lift { slot, item, before, after } = lift;
        let (read_half_breadths, read_items, read_tanks, made_rows) = tables;
        let reading = Reading::default();
        match call {
            "read" => repeatedly(times, || {
                let answer = (calculation.read)(black_box(text), read_half_breadths, read_items, read_tanks);
                black_box((&read_half_breadths, &read_items, &read_tanks));
                answer.is_ok()
            }),
            "rows" | "sections" => {
                let engine = if call == "rows" { Engine::Waterplanes } else { Engine::Sections };
                repeatedly(times, || {
                    let answer =
                        (calculation.rows)(engine, black_box(half_breadths), black_box(particulars), made_rows);
                    black_box(&made_rows);
                    answer.is_ok()
                })
            }
            "condition" => repeatedly(times, || {
                black_box((calculation.condition)(reading, black_box(items), black_box(tanks), black_box(rows))).is_ok()
            }),
            "report" => repeatedly(times, || {
                let answer = (calculation.report)(reading, black_box(text), room);
                black_box(&room);
                answer.is_ok()
            }),
            "load" => {
                let mut tally = *before;
                repeatedly(times, || {
                    let answer = (calculation.load)(black_box(&mut tally), *slot, black_box(item));
                    put_back(&mut tally, before, *slot);
                    answer.is_ok()
                })
            }
            "discharge" => {
                let mut tally = *after;
                repeatedly(times, || {
                    let answer = (calculation.discharge)(black_box(&mut tally), *slot);
                    put_back(&mut tally, after, *slot);
                    answer.is_ok()
                })
            }
            "aboard" => repeatedly(times, || {
                black_box((calculation.condition_aboard)(black_box(after), black_box(tanks), black_box(rows))).is_ok()
            }),
            "hopper" => repeatedly(times, || black_box(black_box(&*hopper).by(calculation)).is_ok()),
            "inclining" => repeatedly(times, || {
                let answer = black_box(black_box(&*inclining).by(calculation, gms));
                black_box(&gms);
                answer.is_ok()
            }),
            "profile" => repeatedly(times, || {
                let answer = black_box(black_box(&*vessel).by(calculation, gz));
                black_box(&gz);
                answer.is_ok()
            }),
            _ => repeatedly(times, || {
                let numbers = black_box((&particulars, &half_breadths, &items, &tanks));
                let answer = (calculation.write)(numbers.0, numbers.1, numbers.2, numbers.3, room);
                black_box(&room);
                answer.is_ok()
            }),
        }
    }
}

/// The last of a file's items, with the tallies before and after it is loaded.
struct Lift {
    slot: usize,
    item: [i64; 4],
    before: Tally,
    after: Tally,
}

impl Lift {
    fn of(items: &[i64]) -> Option<Lift> {
        let (item, others) = items.as_chunks().0.split_last()?;
        let mut before = Tally::EMPTY;
        for (slot, item) in others.iter().enumerate() {
            (PEER.load)(&mut before, slot, item).ok()?;
        }
        let (slot, mut after) = (others.len(), before);
        (PEER.load)(&mut after, slot, item).ok()?;
        Some(Lift { slot, item: *item, before, after })
    }
}

/// Undoes a step on a slot: the nine numbers it changed, as they were.
fn put_back(tally: &mut Tally, before: &Tally, slot: usize) {
    let numbers = slot * SLOT_NUMBERS..(slot + 1) * SLOT_NUMBERS;
    tally.slots[numbers.clone()].copy_from_slice(&before.slots[numbers]);
    tally.totals = before.totals;
    tally.transverse = before.transverse;
}

/// Makes a call so many times; each must be answered.
fn repeatedly(times: u64, mut call: impl FnMut() -> bool) {
    for _ in 0..times {
        assert!(black_box(call()), "the call is refused");
    }
}
