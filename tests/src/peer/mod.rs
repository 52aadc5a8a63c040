//! The own calculation: the paper's rules once more, written by hand from the paper alone.
//!
//! One function for each call of the library, with the same refusals and the same behaviour on what is lent. Nothing is
//! allocated; what could be refused halfway is worked out in tables of the call's own and then copied. A history of a
//! tally's steps is worked out a second time, as a list.

pub mod condition;
mod display;
mod history;
pub mod hopper;
pub mod inclining;
mod pen;
pub mod profile;
pub mod ranges;
mod reader;
pub mod rows;
mod sheet;
pub mod tally;
mod writer;

#[cfg(test)]
mod trial_figures;
#[cfg(test)]
mod trial_light_ships;
#[cfg(test)]
mod trial_profiles;
#[cfg(test)]
mod trial_steps;
#[cfg(test)]
mod trial_surfaces;

pub use condition::condition;
pub use display::display;
pub use history::History;
pub use hopper::hopper_surface;
pub use inclining::light_ship;
pub use profile::supply_profile;
pub use reader::read;
pub use rows::rows;
pub use sheet::report;
pub use tally::{condition_aboard, discharge, load, shift};
pub use writer::{write, LONGEST_TEXT};

use crate::calls::Refusal;

/// The paper's refusals, by number.
mod refusals {
    pub const FILE_TOO_LONG: u64 = 1;
    pub const NO_NUMBER: u64 = 2;
    pub const COUNT: u64 = 3;
    pub const RANGE: u64 = 4;
    pub const ENDS_EARLY: u64 = 5;
    pub const AFTER_THE_END: u64 = 6;
    pub const TABLE_SIZE: u64 = 7;
    pub const DISPLACEMENT: u64 = 8;
    pub const KM_TOO_HIGH: u64 = 9;
    pub const ROW_TABLE: u64 = 10;
    pub const WEIGHT_BELOW: u64 = 11;
    pub const WEIGHT_ABOVE: u64 = 12;
    pub const OVERFILLED: u64 = 13;
    pub const ROOM: u64 = 14;
    pub const NO_SLOT: u64 = 15;
    pub const SLOT_TAKEN: u64 = 16;
    pub const SLOT_EMPTY: u64 = 17;
    pub const NO_LIGHT_WEIGHT: u64 = 20;
    pub const MOMENT_BELOW_0: u64 = 21;
    pub const TALLY: u64 = 22;
}

/// The places of refusal 7, one for each kind of lent table.
mod tables {
    pub const HALF_BREADTHS: usize = 0;
    pub const ITEMS: usize = 1;
    pub const TANKS: usize = 2;
    pub const ROWS: usize = 3;
    pub const WIDTHS: usize = 0;
    pub const SHIFTS: usize = 0;
    pub const OFF: usize = 1;
    pub const ON: usize = 2;
    pub const GMS: usize = 3;
    pub const KN: usize = 0;
}

/// Refuses with this number at this place.
fn refuse<T>(number: u64, place: usize) -> Result<T, Refusal> {
    Err(Refusal { number, place })
}

/// Refuses with 7 at `table` unless its size is right.
fn size_is_right(right: bool, table: usize) -> Result<(), Refusal> {
    if right {
        Ok(())
    } else {
        refuse(refusals::TABLE_SIZE, table)
    }
}
