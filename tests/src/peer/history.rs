//! A history of steps from an empty tally, as the list of what was loaded and not discharged, each at its last place.
//!
//! The list alone decides every refusal, and what it comes to is added up from it afresh.

use super::ranges::{try_records, ITEM};
use super::tally::{try_place, SLOTS, SLOT_NUMBERS};
use super::{refusals, refuse};
use crate::calls::{Refusal, Tally};
use crate::step::Step;

#[derive(Default)]
pub struct History {
    aboard: Vec<Loaded>,
}

struct Loaded {
    slot: usize,
    item: [i64; 4],
}

impl History {
    /// Takes a step, or refuses it and keeps the list.
    pub fn take(&mut self, step: &Step) -> Result<(), Refusal> {
        match *step {
            Step::Load { slot, item } => {
                try_records(&item, &ITEM, 0)?;
                if self.find(slot)?.is_some() {
                    return refuse(refusals::SLOT_TAKEN, slot);
                }
                self.aboard.push(Loaded { slot, item });
            }
            Step::Discharge { slot } => {
                let at = self.find_loaded(slot)?;
                self.aboard.swap_remove(at);
            }
            Step::Shift { slot, to } => {
                try_place(&to)?;
                let at = self.find_loaded(slot)?;
                self.aboard[at].item[1..].copy_from_slice(&to);
            }
        }
        Ok(())
    }

    /// Where in the list a slot's item is, if it is.
    fn find(&self, slot: usize) -> Result<Option<usize>, Refusal> {
        if slot >= SLOTS {
            return refuse(refusals::NO_SLOT, slot);
        }
        Ok(self.aboard.iter().position(|loaded| loaded.slot == slot))
    }

    /// Where in the list a slot's item is.
    fn find_loaded(&self, slot: usize) -> Result<usize, Refusal> {
        match self.find(slot)? {
            Some(at) => Ok(at),
            None => refuse(refusals::SLOT_EMPTY, slot),
        }
    }

    /// The tally of what is aboard: zeros in every other slot.
    pub fn tally(&self) -> Tally {
        let mut tally = Tally::EMPTY;
        for &Loaded { slot, item: [kg, x, y, z] } in &self.aboard {
            tally.slots[slot * SLOT_NUMBERS..][..SLOT_NUMBERS].copy_from_slice(&[1, kg, x, y, z]);
        }
        let total = |moment: fn([i64; 4]) -> i64| self.aboard.iter().map(|loaded| moment(loaded.item)).sum::<i64>();
        tally.totals[0] = total(|[kg, ..]| kg) as u64;
        tally.totals[1] = total(|[kg, x, ..]| kg * x) as u64;
        tally.totals[2] = total(|[kg, .., z]| kg * z) as u64;
        tally.transverse = total(|[kg, _, y, _]| kg * y);
        tally
    }
}
