//! What the two engines for rows make of a hull, which is the same.

use super::observation::Observation;

pub const ENGINES: [&str; 2] = ["hull answered by both", "hull refused by both"];

/// Holds what the library makes of a hull by waterplanes to what it makes of it by sections; answers which of the
/// engines' outcomes it is.
pub fn examine(waterplanes: &Observation, sections: &Observation) -> Result<[bool; ENGINES.len()], String> {
    if waterplanes == sections {
        Ok([sections.number == 0, sections.number != 0])
    } else {
        Err(format!("the engines differ\nby waterplanes: {waterplanes:?}\nby sections: {sections:?}"))
    }
}
