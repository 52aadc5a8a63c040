//! What was written reads back to the same numbers, and what was read and written again does too.

use super::observation::Observation;
use crate::calculation::{Calculation, CALCULATIONS};
use crate::calls::Summary;
use crate::generate::{Call, FileNumbers};
use crate::peer::ranges::{HALF_BREADTH_ROOM, ITEM, ITEM_ROOM, TANK, TANK_ROOM};
use crate::peer::LONGEST_TEXT;

/// Follows an answered call of reading or writing; others have no way back.
pub fn examine(call: &Call, answered: &Observation) -> Result<(), String> {
    match call {
        Call::Write { numbers, .. } => {
            let text = &answered.room[..answered.values[0] as usize];
            CALCULATIONS.iter().try_for_each(|reader| reads_back(reader, text, numbers))
        }
        Call::Read { .. } => {
            let numbers = numbers_read(answered);
            CALCULATIONS.iter().try_for_each(|writer| writes_and_reads_back(writer, &numbers))
        }
        _ => Ok(()),
    }
}

/// The numbers that a reader left in its tables.
fn numbers_read(answered: &Observation) -> FileNumbers {
    let [n, m, s, d, density, items, tanks, ..] = answered.values;
    let summary = Summary { particulars: [n, m, s, d, density], items, tanks };
    FileNumbers::of(&summary, &answered.wholes, &answered.items, &answered.tanks)
}

fn writes_and_reads_back(writer: &Calculation, numbers: &FileNumbers) -> Result<(), String> {
    let FileNumbers { particulars, half_breadths, items, tanks } = numbers;
    let mut room = [0; LONGEST_TEXT];
    match (writer.write)(particulars, half_breadths, items, tanks, &mut room) {
        Ok(length) => CALCULATIONS.iter().try_for_each(|reader| reads_back(reader, &room[..length], numbers)),
        Err(refusal) => Err(format!("{} does not write what was read: {refusal:?}", writer.name)),
    }
}

fn reads_back(reader: &Calculation, text: &[u8], numbers: &FileNumbers) -> Result<(), String> {
    let mut half_breadths = [0; HALF_BREADTH_ROOM];
    let (mut items, mut tanks) = ([0; ITEM_ROOM], [0; TANK_ROOM]);
    let summary = (reader.read)(text, &mut half_breadths, &mut items, &mut tanks)
        .map_err(|refusal| format!("{} does not read what was written: {refusal:?}", reader.name))?;
    let same = summary.particulars == numbers.particulars
        && summary.items as usize * ITEM.len() == numbers.items.len()
        && summary.tanks as usize * TANK.len() == numbers.tanks.len()
        && half_breadths.starts_with(&numbers.half_breadths)
        && items.starts_with(&numbers.items)
        && tanks.starts_with(&numbers.tanks);
    if same {
        Ok(())
    } else {
        Err(format!("{} reads other numbers than were written", reader.name))
    }
}
