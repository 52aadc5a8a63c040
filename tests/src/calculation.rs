//! A calculation as the tests see it: the paper's calls by name, the library's or the own ones.

#[cfg(linked)]
use crate::calls;
use crate::calls::{Condition, Engine, LightShip, Profile, Reading, Refusal, Summary, Surface, Tally};
use crate::peer;
use crate::peer::ranges::ANGLES;

type Report = fn(Reading, &[u8], &mut [u8]) -> Result<usize, Refusal>;
type Read = fn(&[u8], &mut [u64], &mut [i64], &mut [i64]) -> Result<Summary, Refusal>;
type Write = fn(&[u64; 5], &[u64], &[i64], &[i64], &mut [u8]) -> Result<usize, Refusal>;
type Rows = fn(Engine, &[u64], &[u64; 5], &mut [u64]) -> Result<usize, Refusal>;
type Display = fn(&[u64; 7]) -> Result<[f64; 7], Refusal>;
type Answer = fn(Reading, &[i64], &[i64], &[u64]) -> Result<Condition, Refusal>;
type Load = fn(&mut Tally, usize, &[i64; 4]) -> Result<(), Refusal>;
type Discharge = fn(&mut Tally, usize) -> Result<(), Refusal>;
type Shift = fn(&mut Tally, usize, &[i64; 3]) -> Result<(), Refusal>;
type AnswerAboard = fn(&Tally, &[i64], &[u64]) -> Result<Condition, Refusal>;
type HopperSurface = fn(&[u64], &[u64], u64, u64) -> Result<Surface, Refusal>;
type Incline = fn(&[u64; 4], &[u64], &[i64], &[i64], &mut [u64]) -> Result<LightShip, Refusal>;
type SupplyProfile = fn(&[u64], u64, u64, &mut [i64; ANGLES]) -> Result<Profile, Refusal>;

/// One calculation's calls. They are called through pointers, so that neither is drawn into the loop that times it.
pub struct Calculation {
    pub name: &'static str,
    pub report: Report,
    pub read: Read,
    pub write: Write,
    pub rows: Rows,
    pub display: Display,
    pub condition: Answer,
    pub load: Load,
    pub discharge: Discharge,
    pub shift: Shift,
    pub condition_aboard: AnswerAboard,
    pub hopper_surface: HopperSurface,
    pub light_ship: Incline,
    pub supply_profile: SupplyProfile,
}

pub const PEER: Calculation = Calculation {
    name: "peer",
    report: peer::report,
    read: peer::read,
    write: peer::write,
    // it has one engine, whichever is asked for
    rows: |_, half_breadths, particulars, rows| peer::rows(half_breadths, particulars, rows),
    display: peer::display,
    condition: peer::condition,
    load: peer::load,
    discharge: peer::discharge,
    shift: peer::shift,
    condition_aboard: peer::condition_aboard,
    hopper_surface: peer::hopper_surface,
    light_ship: peer::light_ship,
    supply_profile: peer::supply_profile,
};

#[cfg(linked)]
pub const LIBRARY: Calculation = Calculation {
    name: "library",
    report: calls::report,
    read: calls::read,
    write: calls::write,
    rows: calls::rows,
    display: calls::display,
    condition: calls::condition,
    load: calls::load,
    discharge: calls::discharge,
    shift: calls::shift,
    condition_aboard: calls::condition_aboard,
    hopper_surface: calls::hopper_surface,
    light_ship: calls::light_ship,
    supply_profile: calls::supply_profile,
};

/// What is to be tested: the own calculation, and the library's where it is linked.
pub const CALCULATIONS: &[Calculation] = &[
    #[cfg(linked)]
    LIBRARY,
    PEER,
];
