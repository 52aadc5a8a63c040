//! Steps of a tally as a text: how many, then a line each, "L slot kg x y z", "D slot" or "S slot x y z". The answer has a
//! line a step: "A" and the totals after it, or "E" and the refusal.

use super::refusal_line;
use crate::calculation::Calculation;
use crate::calls::{Refusal, Tally};
use crate::peer::History;
use crate::step::Step;

/// The answer of a calculation's calls, each step on the tally that the one before it left; none where the text is none.
pub fn by_calculation(calculation: &Calculation, text: &[u8]) -> Option<Vec<u8>> {
    let mut tally = Tally::EMPTY;
    answer(text, |step| (step.by(calculation, &mut tally), tally))
}

/// The answer of the own calculation's list of what is aboard.
pub fn by_list(text: &[u8]) -> Option<Vec<u8>> {
    let mut history = History::default();
    answer(text, |step| (history.take(step), history.tally()))
}

fn answer(text: &[u8], mut take: impl FnMut(&Step) -> (Result<(), Refusal>, Tally)) -> Option<Vec<u8>> {
    let mut answer = String::new();
    for step in read(text)? {
        answer += &match take(&step) {
            (Ok(()), Tally { totals: [weight, longitudinal, vertical], transverse, .. }) => {
                format!("A {weight} {longitudinal} {vertical} {transverse}\n")
            }
            (Err(refusal), _) => refusal_line(refusal),
        };
    }
    Some(answer.into_bytes())
}

/// The steps of a text, as many as its first line says.
fn read(text: &[u8]) -> Option<Vec<Step>> {
    let mut lines = std::str::from_utf8(text).ok()?.lines();
    let count: usize = lines.next()?.parse().ok()?;
    let steps: Vec<Step> = lines.map(read_step).collect::<Option<_>>()?;
    (steps.len() == count).then_some(steps)
}

fn read_step(line: &str) -> Option<Step> {
    let words: Vec<&str> = line.split(' ').collect();
    let (&[kind, slot], numbers) = words.split_first_chunk()?;
    let slot = slot.parse().ok()?;
    let numbers: Vec<i64> = numbers.iter().map(|word| word.parse().ok()).collect::<Option<_>>()?;
    match (kind, &numbers[..]) {
        ("L", &[kg, x, y, z]) => Some(Step::Load { slot, item: [kg, x, y, z] }),
        ("D", []) => Some(Step::Discharge { slot }),
        ("S", &[x, y, z]) => Some(Step::Shift { slot, to: [x, y, z] }),
        _ => None,
    }
}
