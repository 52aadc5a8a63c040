//! An inclining test with its lists, as a case, a vector or a measurement has it.

use crate::calculation::Calculation;
use crate::calls::{LightShip, Refusal};

#[derive(Clone, Debug, PartialEq)]
pub struct Inclining {
    /// W, KM, free surface and pendulum length.
    pub test: [u64; 4],
    /// Weight, distance and deflection of each.
    pub shifts: Vec<u64>,
    /// The items to take off, and those to put on.
    pub off: Vec<i64>,
    pub on: Vec<i64>,
}

impl Inclining {
    /// The light ship by a calculation's call, with each shift's own GM in the lent table.
    pub fn by(&self, calculation: &Calculation, gms: &mut [u64]) -> Result<LightShip, Refusal> {
        (calculation.light_ship)(&self.test, &self.shifts, &self.off, &self.on, gms)
    }
}
