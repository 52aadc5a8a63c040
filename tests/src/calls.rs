//! Rugulosca for Rust: the sixteen calls of `include/rugulosca.h` over slices, with a refusal as the error.
//!
//! This file stands alone: a program that links `librugulosca.a` can take it as it is. Nothing is allocated or kept,
//! and no call has a condition on its numbers, lengths or bytes.

/// A call that was refused: the refusal's number, 1 to 22, and the place it names. Nothing lent was written.
#[derive(Clone, Copy, Debug, PartialEq, Eq)]
pub struct Refusal {
    pub number: u64,
    pub place: usize,
}

/// What a read file says besides its tables. The counts are of records.
#[derive(Clone, Copy, Debug, PartialEq, Eq)]
pub struct Summary {
    pub particulars: [u64; 5],
    pub items: u64,
    pub tanks: u64,
}

/// How KM is read where the weight lies strictly between two rows; at a row's own weight that row's KM stands.
#[derive(Clone, Copy, Debug, Default, PartialEq, Eq)]
pub enum Reading {
    /// The lesser KM of the two rows.
    #[default]
    Lesser,
    /// The KM on the straight line between them.
    StraightLine,
}

impl Reading {
    pub const BOTH: [Reading; 2] = [Reading::Lesser, Reading::StraightLine];
}

/// What works out the rows of a hull; what comes out is the same.
#[derive(Clone, Copy, Debug, Default, PartialEq, Eq)]
pub enum Engine {
    /// Each waterline along the length first, then over the draft.
    #[default]
    Waterplanes,
    /// Each station over the draft first, then along the length.
    Sections,
}

impl Engine {
    pub const BOTH: [Engine; 2] = [Engine::Waterplanes, Engine::Sections];
}

/// How the vessel lies; heeled carries the tangent of the angle.
#[derive(Clone, Copy, Debug, PartialEq)]
pub enum Heel {
    Unstable,
    Upright,
    Heeled(f64),
    Beyond,
}

/// A loading condition in kg, mm and kg·mm.
#[derive(Clone, Copy, Debug, PartialEq)]
pub struct Condition {
    pub weight: u64,
    pub draft: u64,
    pub km: u64,
    pub lcg: u64,
    pub vertical_moment: u64,
    pub free_surface: u64,
    pub gm: i64,
    pub transverse_moment: i64,
    pub heel: Heel,
    pub passes: bool,
}

/// A tally of 32 slots: five numbers a slot, 0 where it is empty and any other where it is filled, then kg, x, y and z of
/// its item; and the totals of what is aboard: weight, longitudinal and vertical moment, and the transverse moment.
#[derive(Clone, Copy, Debug, PartialEq, Eq)]
pub struct Tally {
    pub slots: [i64; 160],
    pub totals: [u64; 3],
    pub transverse: i64,
}

impl Tally {
    /// Nothing aboard.
    pub const EMPTY: Tally = Tally { slots: [0; 160], totals: [0; 3], transverse: 0 };
}

/// The free surface of a hopper tank: its inertia about its own centre in mm⁴, and its moment in kg·mm.
#[derive(Clone, Copy, Debug, PartialEq, Eq)]
pub struct Surface {
    pub inertia: u64,
    pub moment: u64,
}

/// A light ship as its inclining test gives it: measured GM in mm, light weight in kg, its vertical moment in kg·mm, and
/// its KG in mm.
#[derive(Clone, Copy, Debug, PartialEq, Eq)]
pub struct LightShip {
    pub gm: u64,
    pub weight: u64,
    pub vertical_moment: u64,
    pub kg: u64,
}

/// How a supply vessel stands against the criterion of its profile: the peak's angle in degrees, GM and GZ at 30
/// degrees in mm, and the multiplied sums of GZ from 0 to t, which is the peak's angle held from 15 to 30 degrees, and
/// from 30 to 40 degrees, in 24ths of 5 mm·degrees.
#[derive(Clone, Copy, Debug, PartialEq, Eq)]
pub struct Profile {
    pub peak: u64,
    pub rules: Rules,
    pub gm: i64,
    pub gz_at_30: i64,
    pub sum_to_t: i64,
    pub sum_from_30_to_40: i64,
}

/// Which rules of the criterion are met.
#[derive(Clone, Copy, Debug, PartialEq, Eq)]
pub struct Rules {
    pub peak: bool,
    pub area_to_t: bool,
    pub area_from_30_to_40: bool,
    pub gz_at_30: bool,
    pub gm: bool,
}

/// The header's declarations, for those who want the numbers as C sees them.
pub mod raw {
    use super::{Engine, Reading};

    pub type Report = unsafe extern "C" fn(*const u8, usize, *mut u8, usize, *mut usize, *mut usize) -> u64;
    pub type Rows =
        unsafe extern "C" fn(*const u64, usize, *const [u64; 5], *mut u64, usize, *mut usize, *mut usize) -> u64;
    pub type Condition = unsafe extern "C" fn(
        *const i64,
        usize,
        *const i64,
        usize,
        *const u64,
        usize,
        *mut [u64; 8],
        *mut [i64; 2],
        *mut f64,
        *mut usize,
    ) -> u64;

    /// The call that makes a sheet by this reading.
    pub fn report(reading: Reading) -> Report {
        match reading {
            Reading::Lesser => rugulosca_report,
            Reading::StraightLine => rugulosca_report_straight_line,
        }
    }

    /// The call that makes rows by this engine.
    pub fn rows(engine: Engine) -> Rows {
        match engine {
            Engine::Waterplanes => rugulosca_rows,
            Engine::Sections => rugulosca_rows_by_sections,
        }
    }

    /// The call that makes a condition by this reading.
    pub fn condition(reading: Reading) -> Condition {
        match reading {
            Reading::Lesser => rugulosca_condition,
            Reading::StraightLine => rugulosca_condition_straight_line,
        }
    }

    extern "C" {
        pub fn rugulosca_report(
            text: *const u8,
            text_length: usize,
            room: *mut u8,
            room_length: usize,
            count: *mut usize,
            place: *mut usize,
        ) -> u64;

        pub fn rugulosca_report_straight_line(
            text: *const u8,
            text_length: usize,
            room: *mut u8,
            room_length: usize,
            count: *mut usize,
            place: *mut usize,
        ) -> u64;

        pub fn rugulosca_read(
            text: *const u8,
            text_length: usize,
            half_breadths: *mut u64,
            half_breadths_length: usize,
            items: *mut i64,
            items_length: usize,
            tanks: *mut i64,
            tanks_length: usize,
            summary: *mut [u64; 7],
            place: *mut usize,
        ) -> u64;

        pub fn rugulosca_write(
            particulars: *const [u64; 5],
            half_breadths: *const u64,
            half_breadths_length: usize,
            items: *const i64,
            items_length: usize,
            tanks: *const i64,
            tanks_length: usize,
            room: *mut u8,
            room_length: usize,
            count: *mut usize,
            place: *mut usize,
        ) -> u64;

        pub fn rugulosca_rows(
            half_breadths: *const u64,
            half_breadths_length: usize,
            particulars: *const [u64; 5],
            rows: *mut u64,
            rows_length: usize,
            count: *mut usize,
            place: *mut usize,
        ) -> u64;

        pub fn rugulosca_rows_by_sections(
            half_breadths: *const u64,
            half_breadths_length: usize,
            particulars: *const [u64; 5],
            rows: *mut u64,
            rows_length: usize,
            count: *mut usize,
            place: *mut usize,
        ) -> u64;

        pub fn rugulosca_display(row: *const [u64; 7], figures: *mut [f64; 7], place: *mut usize) -> u64;

        pub fn rugulosca_condition(
            items: *const i64,
            items_length: usize,
            tanks: *const i64,
            tanks_length: usize,
            rows: *const u64,
            rows_length: usize,
            wholes: *mut [u64; 8],
            signed_numbers: *mut [i64; 2],
            tangent: *mut f64,
            place: *mut usize,
        ) -> u64;

        pub fn rugulosca_condition_straight_line(
            items: *const i64,
            items_length: usize,
            tanks: *const i64,
            tanks_length: usize,
            rows: *const u64,
            rows_length: usize,
            wholes: *mut [u64; 8],
            signed_numbers: *mut [i64; 2],
            tangent: *mut f64,
            place: *mut usize,
        ) -> u64;

        pub fn rugulosca_load(
            slots: *mut [i64; 160],
            totals: *mut [u64; 3],
            transverse: *mut i64,
            slot: usize,
            item: *const [i64; 4],
            place: *mut usize,
        ) -> u64;

        pub fn rugulosca_discharge(
            slots: *mut [i64; 160],
            totals: *mut [u64; 3],
            transverse: *mut i64,
            slot: usize,
            place: *mut usize,
        ) -> u64;

        pub fn rugulosca_shift(
            slots: *mut [i64; 160],
            totals: *mut [u64; 3],
            transverse: *mut i64,
            slot: usize,
            to: *const [i64; 3],
            place: *mut usize,
        ) -> u64;

        pub fn rugulosca_condition_aboard(
            slots: *const [i64; 160],
            totals: *const [u64; 3],
            transverse: i64,
            tanks: *const i64,
            tanks_length: usize,
            rows: *const u64,
            rows_length: usize,
            wholes: *mut [u64; 8],
            signed_numbers: *mut [i64; 2],
            tangent: *mut f64,
            place: *mut usize,
        ) -> u64;

        pub fn rugulosca_hopper_surface(
            port: *const u64,
            port_length: usize,
            starboard: *const u64,
            starboard_length: usize,
            interval: u64,
            density: u64,
            surface: *mut [u64; 2],
            place: *mut usize,
        ) -> u64;

        pub fn rugulosca_light_ship(
            test: *const [u64; 4],
            shifts: *const u64,
            shifts_length: usize,
            off: *const i64,
            off_length: usize,
            on: *const i64,
            on_length: usize,
            gms: *mut u64,
            gms_length: usize,
            light_ship: *mut [u64; 4],
            place: *mut usize,
        ) -> u64;

        pub fn rugulosca_supply_profile(
            kn: *const u64,
            kn_length: usize,
            km: u64,
            kg: u64,
            gz: *mut [i64; 13],
            wholes: *mut [u64; 6],
            signed_numbers: *mut [i64; 4],
            place: *mut usize,
        ) -> u64;
    }
}

/// From a file's text to the sheet's lines; answers the bytes of the sheet.
pub fn report(reading: Reading, text: &[u8], room: &mut [u8]) -> Result<usize, Refusal> {
    let call = raw::report(reading);
    let (mut count, mut place) = (0, 0);
    // SAFETY: each pointer comes from a live slice with its length, and the borrows keep them apart.
    let number = unsafe { call(text.as_ptr(), text.len(), room.as_mut_ptr(), room.len(), &mut count, &mut place) };
    answer(number, place, count)
}

/// Reads an offset file into the lent tables.
pub fn read(text: &[u8], half_breadths: &mut [u64], items: &mut [i64], tanks: &mut [i64]) -> Result<Summary, Refusal> {
    let (mut summary, mut place) = ([0; 7], 0);
    // SAFETY: as in `report`.
    let number = unsafe {
        raw::rugulosca_read(
            text.as_ptr(),
            text.len(),
            half_breadths.as_mut_ptr(),
            half_breadths.len(),
            items.as_mut_ptr(),
            items.len(),
            tanks.as_mut_ptr(),
            tanks.len(),
            &mut summary,
            &mut place,
        )
    };
    let [n, m, s, d, density, items, tanks] = summary;
    answer(number, place, Summary { particulars: [n, m, s, d, density], items, tanks })
}

/// Writes an offset file into the lent room; answers the bytes of its text.
pub fn write(
    particulars: &[u64; 5],
    half_breadths: &[u64],
    items: &[i64],
    tanks: &[i64],
    room: &mut [u8],
) -> Result<usize, Refusal> {
    let (mut count, mut place) = (0, 0);
    // SAFETY: as in `report`.
    let number = unsafe {
        raw::rugulosca_write(
            particulars,
            half_breadths.as_ptr(),
            half_breadths.len(),
            items.as_ptr(),
            items.len(),
            tanks.as_ptr(),
            tanks.len(),
            room.as_mut_ptr(),
            room.len(),
            &mut count,
            &mut place,
        )
    };
    answer(number, place, count)
}

/// The rows of a hull into the lent table, seven numbers each; answers how many rows.
pub fn rows(engine: Engine, half_breadths: &[u64], particulars: &[u64; 5], rows: &mut [u64]) -> Result<usize, Refusal> {
    let call = raw::rows(engine);
    let (mut count, mut place) = (0, 0);
    // SAFETY: as in `report`.
    let number = unsafe {
        call(
            half_breadths.as_ptr(),
            half_breadths.len(),
            particulars,
            rows.as_mut_ptr(),
            rows.len(),
            &mut count,
            &mut place,
        )
    };
    answer(number, place, count)
}

/// One row in metres, tonnes and square metres.
pub fn display(row: &[u64; 7]) -> Result<[f64; 7], Refusal> {
    let (mut figures, mut place) = ([0.0; 7], 0);
    // SAFETY: as in `report`.
    let number = unsafe { raw::rugulosca_display(row, &mut figures, &mut place) };
    answer(number, place, figures)
}

/// The loading condition of items and tanks over a table of rows.
pub fn condition(reading: Reading, items: &[i64], tanks: &[i64], rows: &[u64]) -> Result<Condition, Refusal> {
    let call = raw::condition(reading);
    let (mut wholes, mut signed_numbers, mut tangent, mut place) = ([0; 8], [0; 2], 0.0, 0);
    // SAFETY: as in `report`.
    let number = unsafe {
        call(
            items.as_ptr(),
            items.len(),
            tanks.as_ptr(),
            tanks.len(),
            rows.as_ptr(),
            rows.len(),
            &mut wholes,
            &mut signed_numbers,
            &mut tangent,
            &mut place,
        )
    };
    answer(number, place, condition_of(wholes, signed_numbers, tangent))
}

/// Loads an item, kg and x, y, z, into an empty slot of the lent tally.
pub fn load(tally: &mut Tally, slot: usize, item: &[i64; 4]) -> Result<(), Refusal> {
    let Tally { slots, totals, transverse } = tally;
    let mut place = 0;
    // SAFETY: as in `report`.
    let number = unsafe { raw::rugulosca_load(slots, totals, transverse, slot, item, &mut place) };
    answer(number, place, ())
}

/// Discharges a slot of the lent tally.
pub fn discharge(tally: &mut Tally, slot: usize) -> Result<(), Refusal> {
    let Tally { slots, totals, transverse } = tally;
    let mut place = 0;
    // SAFETY: as in `report`.
    let number = unsafe { raw::rugulosca_discharge(slots, totals, transverse, slot, &mut place) };
    answer(number, place, ())
}

/// Shifts the item in a slot of the lent tally to x, y, z.
pub fn shift(tally: &mut Tally, slot: usize, to: &[i64; 3]) -> Result<(), Refusal> {
    let Tally { slots, totals, transverse } = tally;
    let mut place = 0;
    // SAFETY: as in `report`.
    let number = unsafe { raw::rugulosca_shift(slots, totals, transverse, slot, to, &mut place) };
    answer(number, place, ())
}

/// The loading condition of a tally's items and tanks over a table of rows, by the lesser KM.
pub fn condition_aboard(tally: &Tally, tanks: &[i64], rows: &[u64]) -> Result<Condition, Refusal> {
    let (mut wholes, mut signed_numbers, mut tangent, mut place) = ([0; 8], [0; 2], 0.0, 0);
    // SAFETY: as in `report`.
    let number = unsafe {
        raw::rugulosca_condition_aboard(
            &tally.slots,
            &tally.totals,
            tally.transverse,
            tanks.as_ptr(),
            tanks.len(),
            rows.as_ptr(),
            rows.len(),
            &mut wholes,
            &mut signed_numbers,
            &mut tangent,
            &mut place,
        )
    };
    answer(number, place, condition_of(wholes, signed_numbers, tangent))
}

/// The free surface of a hopper tank from its widths to port and to starboard, at equal intervals.
pub fn hopper_surface(port: &[u64], starboard: &[u64], interval: u64, density: u64) -> Result<Surface, Refusal> {
    let (mut surface, mut place) = ([0; 2], 0);
    // SAFETY: as in `report`.
    let number = unsafe {
        raw::rugulosca_hopper_surface(
            port.as_ptr(),
            port.len(),
            starboard.as_ptr(),
            starboard.len(),
            interval,
            density,
            &mut surface,
            &mut place,
        )
    };
    let [inertia, moment] = surface;
    answer(number, place, Surface { inertia, moment })
}

/// The light ship from W, KM, free surface and pendulum length of an inclining test, its shifts, and the items to take off
/// and to put on; each shift's own GM goes into the lent table.
pub fn light_ship(
    test: &[u64; 4],
    shifts: &[u64],
    off: &[i64],
    on: &[i64],
    gms: &mut [u64],
) -> Result<LightShip, Refusal> {
    let (mut light_ship, mut place) = ([0; 4], 0);
    // SAFETY: as in `report`.
    let number = unsafe {
        raw::rugulosca_light_ship(
            test,
            shifts.as_ptr(),
            shifts.len(),
            off.as_ptr(),
            off.len(),
            on.as_ptr(),
            on.len(),
            gms.as_mut_ptr(),
            gms.len(),
            &mut light_ship,
            &mut place,
        )
    };
    let [gm, weight, vertical_moment, kg] = light_ship;
    answer(number, place, LightShip { gm, weight, vertical_moment, kg })
}

/// The profile of a supply vessel from its KN table, KM and KG; GZ at each of the thirteen angles goes into the lent
/// table.
pub fn supply_profile(kn: &[u64], km: u64, kg: u64, gz: &mut [i64; 13]) -> Result<Profile, Refusal> {
    let (mut wholes, mut signed_numbers, mut place) = ([0; 6], [0; 4], 0);
    // SAFETY: as in `report`.
    let number = unsafe {
        raw::rugulosca_supply_profile(kn.as_ptr(), kn.len(), km, kg, gz, &mut wholes, &mut signed_numbers, &mut place)
    };
    answer(number, place, profile_of(wholes, signed_numbers))
}

/// The answer where the number is 0, and the refusal otherwise.
fn answer<T>(number: u64, place: usize, value: T) -> Result<T, Refusal> {
    match number {
        0 => Ok(value),
        _ => Err(Refusal { number, place }),
    }
}

/// The record of a condition from the header's three groups of numbers.
fn condition_of(wholes: [u64; 8], signed_numbers: [i64; 2], tangent: f64) -> Condition {
    let [weight, draft, km, lcg, vertical_moment, free_surface, lies, pass] = wholes;
    let [gm, transverse_moment] = signed_numbers;
    let heel = match lies {
        0 => Heel::Unstable,
        1 => Heel::Upright,
        2 => Heel::Heeled(tangent),
        _ => Heel::Beyond,
    };
    Condition { weight, draft, km, lcg, vertical_moment, free_surface, gm, transverse_moment, heel, passes: pass == 1 }
}

/// The record of a profile from the header's two groups of numbers.
fn profile_of(wholes: [u64; 6], signed_numbers: [i64; 4]) -> Profile {
    let [peak, rules @ ..] = wholes;
    let [peak_met, area_to_t, area_from_30_to_40, gz_at_30_met, gm_met] = rules.map(|met| met == 1);
    let rules = Rules { peak: peak_met, area_to_t, area_from_30_to_40, gz_at_30: gz_at_30_met, gm: gm_met };
    let [gm, gz_at_30, sum_to_t, sum_from_30_to_40] = signed_numbers;
    Profile { peak, rules, gm, gz_at_30, sum_to_t, sum_from_30_to_40 }
}
