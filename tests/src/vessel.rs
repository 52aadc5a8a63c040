//! A supply vessel with its KN table, as a case, a vector or a measurement has it.

use crate::calculation::Calculation;
use crate::calls::{Profile, Refusal};
use crate::peer::ranges::ANGLES;

#[derive(Clone, Debug, PartialEq)]
pub struct Vessel {
    pub kn: Vec<u64>,
    pub km: u64,
    pub kg: u64,
}

impl Vessel {
    /// The profile by a calculation's call, with GZ at each angle in the lent table.
    pub fn by(&self, calculation: &Calculation, gz: &mut [i64; ANGLES]) -> Result<Profile, Refusal> {
        (calculation.supply_profile)(&self.kn, self.km, self.kg, gz)
    }
}
