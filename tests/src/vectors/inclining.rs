//! An inclining test as a text: W, KM, free surface and pendulum length; how many numbers the shifts have and the numbers,
//! the same of the items to take off and of those to put on; how many GMs are lent; a line each. The answer is a line "G"
//! and each shift's own GM and a line "A", measured GM, light weight, its moment and KG, or "E" and the refusal.

use super::{counted, numbers, refusal_line};
use crate::calculation::Calculation;
use crate::calls::LightShip;
use crate::inclining::Inclining;
use crate::peer::ranges::SHIFT;

/// The answer of a calculation's call; none where the text is none.
pub fn by_calculation(calculation: &Calculation, text: &[u8]) -> Option<Vec<u8>> {
    let (inclining, room) = read(text)?;
    let mut gms = vec![0; room];
    let answer = match inclining.by(calculation, &mut gms) {
        Ok(LightShip { gm, weight, vertical_moment, kg }) => {
            let shifts = inclining.shifts.len() / SHIFT.len();
            let own: String = gms[..shifts].iter().map(|gm| format!(" {gm}")).collect();
            format!("G{own}\nA {gm} {weight} {vertical_moment} {kg}\n")
        }
        Err(refusal) => refusal_line(refusal),
    };
    Some(answer.into_bytes())
}

/// A test and how many GMs are lent to it.
fn read(text: &[u8]) -> Option<(Inclining, usize)> {
    let lines: Vec<&str> = std::str::from_utf8(text).ok()?.lines().collect();
    let [test, shifts, off, on, room] = lines.try_into().ok()?;
    let test = numbers(test)?.try_into().ok()?;
    let inclining = Inclining { test, shifts: counted(shifts)?, off: counted(off)?, on: counted(on)? };
    Some((inclining, room.parse().ok()?))
}
