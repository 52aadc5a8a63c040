//! What a load comes to, as a condition's values or a sheet's last line give it, and the rows it lies on.

use super::observation::{Observation, GM, TRANSVERSE_MOMENT};
use crate::calls::Refusal;
use crate::generate::Call;
use crate::peer::ranges::ROW;

pub const HEELS: [&str; 4] = ["unstable", "upright", "heeled", "beyond"];

pub type Row = [u64; ROW.len()];

pub struct Settled {
    pub rows: Vec<Row>,
    /// Weight, draft, LCG, vertical moment, free surface and transverse moment, on which KM has no bearing.
    pub without_km: [i64; 6],
    pub km: i64,
    pub gm: i64,
    /// Which of the heels it is, and 1 for a pass.
    pub lies: usize,
    pub passes: usize,
}

impl Settled {
    /// Of an answered condition or a sheet, whose E line is a refusal; other calls settle no load.
    pub fn of(call: &Call, seen: &Observation) -> Option<Result<Settled, Refusal>> {
        match call {
            _ if seen.number != 0 => None,
            Call::Report { .. } => Some(Settled::of_sheet(&seen.room[..seen.values[0] as usize])),
            Call::Condition { rows, .. } | Call::Aboard { rows, .. } => {
                let [weight, draft, km, lcg, vertical, surface, lies, passes, ..] = seen.values;
                let numbers =
                    [weight, draft, km, lcg, vertical, surface, seen.values[GM], seen.values[TRANSVERSE_MOMENT]];
                let rows = rows.as_chunks().0.to_vec();
                Some(Ok(Settled::new(rows, numbers.map(|number| number as i64), lies as usize, passes as usize)))
            }
            _ => None,
        }
    }

    fn of_sheet(sheet: &[u8]) -> Result<Settled, Refusal> {
        let sheet = std::str::from_utf8(sheet).expect("the sheet is plain text");
        let mut rows = Vec::new();
        for line in sheet.lines() {
            let words: Vec<&str> = line.split(' ').collect();
            match words[0] {
                "R" => rows.push(numbers(&words[1..]).map(|number| number as u64)),
                "C" => {
                    let lies = HEELS.iter().position(|heel| *heel == words[9]).expect("the line has a heel's word");
                    let [passes] = numbers(&words[10..]);
                    return Ok(Settled::new(rows, numbers(&words[1..9]), lies, passes as usize));
                }
                _ => {
                    let [number, place] = numbers(&words[1..]);
                    return Err(Refusal { number: number as u64, place: place as usize });
                }
            }
        }
        panic!("the sheet has no last line")
    }

    /// From the numbers in the order of a C line.
    fn new(rows: Vec<Row>, numbers: [i64; 8], lies: usize, passes: usize) -> Settled {
        let [weight, draft, km, lcg, vertical_moment, free_surface, gm, transverse_moment] = numbers;
        let without_km = [weight, draft, lcg, vertical_moment, free_surface, transverse_moment];
        Settled { rows, without_km, km, gm, lies, passes }
    }

    pub fn weight(&self) -> u64 {
        self.without_km[0] as u64
    }
}

/// The numbers that these words are, so many.
fn numbers<const N: usize>(words: &[&str]) -> [i64; N] {
    let words: &[&str; N] = words.try_into().expect("the line has so many words");
    words.map(|word| word.parse().expect("the word is a number"))
}
