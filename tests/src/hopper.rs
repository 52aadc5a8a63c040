//! The surface of a hopper tank, as a case, a vector or a measurement has it.

use crate::calculation::Calculation;
use crate::calls::{Refusal, Surface};

#[derive(Clone, Debug, PartialEq)]
pub struct Hopper {
    pub port: Vec<u64>,
    pub starboard: Vec<u64>,
    pub interval: u64,
    pub density: u64,
}

impl Hopper {
    /// The free surface by a calculation's call.
    pub fn by(&self, calculation: &Calculation) -> Result<Surface, Refusal> {
        (calculation.hopper_surface)(&self.port, &self.starboard, self.interval, self.density)
    }
}
