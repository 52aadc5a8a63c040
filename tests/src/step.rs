//! A step of a tally, as a history, a case or a vector has it.

use crate::calculation::Calculation;
use crate::calls::{Refusal, Tally};

#[derive(Clone, Copy, Debug, PartialEq)]
pub enum Step {
    Load { slot: usize, item: [i64; 4] },
    Discharge { slot: usize },
    Shift { slot: usize, to: [i64; 3] },
}

impl Step {
    /// Takes the step by a calculation's call of its name.
    pub fn by(&self, calculation: &Calculation, tally: &mut Tally) -> Result<(), Refusal> {
        match self {
            Step::Load { slot, item } => (calculation.load)(tally, *slot, item),
            Step::Discharge { slot } => (calculation.discharge)(tally, *slot),
            Step::Shift { slot, to } => (calculation.shift)(tally, *slot, to),
        }
    }
}
