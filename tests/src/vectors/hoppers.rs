//! The surface of a hopper tank as a text: how many widths to port and the widths, the same to starboard, then the
//! interval and the liquid density, a line each. The answer is a line: "A", inertia and moment, or "E" and the refusal.

use super::{counted, numbers, refusal_line};
use crate::calculation::Calculation;
use crate::calls::Surface;
use crate::hopper::Hopper;

/// The answer of a calculation's call; none where the text is none.
pub fn by_calculation(calculation: &Calculation, text: &[u8]) -> Option<Vec<u8>> {
    let answer = match read(text)?.by(calculation) {
        Ok(Surface { inertia, moment }) => format!("A {inertia} {moment}\n"),
        Err(refusal) => refusal_line(refusal),
    };
    Some(answer.into_bytes())
}

fn read(text: &[u8]) -> Option<Hopper> {
    let lines: Vec<&str> = std::str::from_utf8(text).ok()?.lines().collect();
    let [port, starboard, rest] = lines.try_into().ok()?;
    let [interval, density] = numbers(rest)?.try_into().ok()?;
    Some(Hopper { port: counted(port)?, starboard: counted(starboard)?, interval, density })
}
