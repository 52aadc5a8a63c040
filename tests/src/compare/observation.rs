//! All that can be seen of a call: its number, place and values, and every lent table and room afterwards.

use crate::calculation::Calculation;
use crate::calls::{raw, Condition, Engine, Heel, LightShip, Profile, Reading, Refusal, Rules, Tally};
use crate::generate::{pattern, Call, FileNumbers};
use crate::hopper::Hopper;
use crate::inclining::Inclining;
use crate::peer::ranges::ANGLES;
use crate::peer::History;
use crate::step::Step;
use crate::vessel::Vessel;

/// The numbers a call answers with, floats by their bits: at most the eleven of a condition.
type Values = [u64; 11];
/// Where a condition's signed numbers and its tangent stand among its values.
pub const GM: usize = 8;
pub const TRANSVERSE_MOMENT: usize = 9;
const TANGENT: usize = 10;
/// Where a profile's signed numbers stand, after its wholes.
pub const PROFILE_SIGNED: usize = 6;

#[derive(Clone, Debug, PartialEq)]
pub struct Observation {
    pub number: u64,
    pub place: usize,
    pub values: Values,
    /// The room of a sheet or of a file.
    pub room: Vec<u8>,
    /// Half-breadths that are read, or rows, or GMs.
    pub wholes: Vec<u64>,
    pub items: Vec<i64>,
    pub tanks: Vec<i64>,
    /// The tally of a step.
    pub tally: Tally,
    /// The levers of a profile.
    pub gz: [i64; ANGLES],
}

impl Observation {
    /// What a call is lent for writing, filled with a pattern that shows what stays.
    pub fn before(call: &Call) -> Observation {
        let (room, wholes, [items, tanks]) = match *call {
            Call::Report { room, .. } | Call::Write { room, .. } => (room, 0, [0, 0]),
            Call::Read { rooms: [half_breadths, items, tanks], .. } => (0, half_breadths, [items, tanks]),
            Call::Rows { room, .. } | Call::LightShip { room, .. } => (0, room, [0, 0]),
            _ => (0, 0, [0, 0]),
        };
        let tally = match call {
            Call::Step { tally, .. } => **tally,
            _ => Tally::EMPTY,
        };
        Observation {
            number: 0,
            place: pattern(0) as usize,
            values: std::array::from_fn(pattern),
            room: (0..room).map(|i| pattern(i) as u8).collect(),
            wholes: (0..wholes).map(pattern).collect(),
            items: (0..items).map(|i| pattern(i) as i64).collect(),
            tanks: (0..tanks).map(|i| pattern(i) as i64).collect(),
            tally,
            gz: std::array::from_fn(|i| pattern(i) as i64),
        }
    }

    /// The call as the header declares it.
    pub fn by_library(mut self, call: &Call) -> Observation {
        self.number = match call {
            Call::Report { reading, text, .. } => self.raw_report(*reading, text),
            Call::Read { text, .. } => self.raw_read(text),
            Call::Write { numbers, .. } => self.raw_write(numbers),
            Call::Rows { engine, particulars, half_breadths, .. } => self.raw_rows(*engine, particulars, half_breadths),
            Call::Display { row } => self.raw_display(row),
            Call::Condition { reading, items, tanks, rows } => self.raw_condition(*reading, items, tanks, rows),
            Call::Step { step, .. } => self.raw_step(step),
            Call::Aboard { tally, tanks, rows } => self.raw_aboard(tally, tanks, rows),
            Call::Surface { hopper } => self.raw_surface(hopper),
            Call::LightShip { inclining, .. } => self.raw_light_ship(inclining),
            Call::Profile { vessel } => self.raw_profile(vessel),
        };
        self
    }

    fn raw_report(&mut self, reading: Reading, text: &[u8]) -> u64 {
        let call = raw::report(reading);
        let (room, length) = (self.room.as_mut_ptr(), self.room.len());
        let mut written = self.values[0] as usize;
        // SAFETY, here and below: every pointer comes from a live slice, vector or array with its length.
        let number = unsafe { call(text.as_ptr(), text.len(), room, length, &mut written, &mut self.place) };
        self.values[0] = written as u64;
        number
    }

    fn raw_read(&mut self, text: &[u8]) -> u64 {
        let summary = self.values.first_chunk_mut::<7>().expect("seven of eleven");
        unsafe {
            raw::rugulosca_read(
                text.as_ptr(),
                text.len(),
                self.wholes.as_mut_ptr(),
                self.wholes.len(),
                self.items.as_mut_ptr(),
                self.items.len(),
                self.tanks.as_mut_ptr(),
                self.tanks.len(),
                summary,
                &mut self.place,
            )
        }
    }

    fn raw_write(&mut self, numbers: &FileNumbers) -> u64 {
        let FileNumbers { particulars, half_breadths, items, tanks } = numbers;
        let mut written = self.values[0] as usize;
        let number = unsafe {
            raw::rugulosca_write(
                particulars,
                half_breadths.as_ptr(),
                half_breadths.len(),
                items.as_ptr(),
                items.len(),
                tanks.as_ptr(),
                tanks.len(),
                self.room.as_mut_ptr(),
                self.room.len(),
                &mut written,
                &mut self.place,
            )
        };
        self.values[0] = written as u64;
        number
    }

    fn raw_rows(&mut self, engine: Engine, particulars: &[u64; 5], half_breadths: &[u64]) -> u64 {
        let call = raw::rows(engine);
        let mut count = self.values[0] as usize;
        let number = unsafe {
            call(
                half_breadths.as_ptr(),
                half_breadths.len(),
                particulars,
                self.wholes.as_mut_ptr(),
                self.wholes.len(),
                &mut count,
                &mut self.place,
            )
        };
        self.values[0] = count as u64;
        number
    }

    fn raw_display(&mut self, row: &[u64; 7]) -> u64 {
        let mut figures = std::array::from_fn(|i| f64::from_bits(self.values[i]));
        let number = unsafe { raw::rugulosca_display(row, &mut figures, &mut self.place) };
        self.values[..7].copy_from_slice(&figures.map(f64::to_bits));
        number
    }

    fn raw_condition(&mut self, reading: Reading, items: &[i64], tanks: &[i64], rows: &[u64]) -> u64 {
        let call = raw::condition(reading);
        self.settle(|wholes, signed, tangent, place| unsafe {
            call(
                items.as_ptr(),
                items.len(),
                tanks.as_ptr(),
                tanks.len(),
                rows.as_ptr(),
                rows.len(),
                wholes,
                signed,
                tangent,
                place,
            )
        })
    }

    fn raw_step(&mut self, step: &Step) -> u64 {
        let Tally { slots, totals, transverse } = &mut self.tally;
        let place = &mut self.place;
        match step {
            Step::Load { slot, item } => unsafe { raw::rugulosca_load(slots, totals, transverse, *slot, item, place) },
            Step::Discharge { slot } => unsafe { raw::rugulosca_discharge(slots, totals, transverse, *slot, place) },
            Step::Shift { slot, to } => unsafe { raw::rugulosca_shift(slots, totals, transverse, *slot, to, place) },
        }
    }

    fn raw_aboard(&mut self, tally: &Tally, tanks: &[i64], rows: &[u64]) -> u64 {
        self.settle(|wholes, signed, tangent, place| unsafe {
            raw::rugulosca_condition_aboard(
                &tally.slots,
                &tally.totals,
                tally.transverse,
                tanks.as_ptr(),
                tanks.len(),
                rows.as_ptr(),
                rows.len(),
                wholes,
                signed,
                tangent,
                place,
            )
        })
    }

    fn raw_surface(&mut self, hopper: &Hopper) -> u64 {
        let Hopper { port, starboard, interval, density } = hopper;
        let surface = self.values.first_chunk_mut::<2>().expect("two of eleven");
        unsafe {
            raw::rugulosca_hopper_surface(
                port.as_ptr(),
                port.len(),
                starboard.as_ptr(),
                starboard.len(),
                *interval,
                *density,
                surface,
                &mut self.place,
            )
        }
    }

    fn raw_light_ship(&mut self, inclining: &Inclining) -> u64 {
        let Inclining { test, shifts, off, on } = inclining;
        let light_ship = self.values.first_chunk_mut::<4>().expect("four of eleven");
        unsafe {
            raw::rugulosca_light_ship(
                test,
                shifts.as_ptr(),
                shifts.len(),
                off.as_ptr(),
                off.len(),
                on.as_ptr(),
                on.len(),
                self.wholes.as_mut_ptr(),
                self.wholes.len(),
                light_ship,
                &mut self.place,
            )
        }
    }

    fn raw_profile(&mut self, vessel: &Vessel) -> u64 {
        let Vessel { kn, km, kg } = vessel;
        let (wholes, rest) = self.values.split_first_chunk_mut::<PROFILE_SIGNED>().expect("six of eleven");
        let mut signed = std::array::from_fn(|i| rest[i] as i64);
        let number = unsafe {
            raw::rugulosca_supply_profile(
                kn.as_ptr(),
                kn.len(),
                *km,
                *kg,
                &mut self.gz,
                wholes,
                &mut signed,
                &mut self.place,
            )
        };
        rest[..signed.len()].copy_from_slice(&signed.map(|number| number as u64));
        number
    }

    /// Lends a condition's values to a call, and takes them back in the header's order.
    fn settle(&mut self, call: impl Fn(&mut [u64; 8], &mut [i64; 2], &mut f64, &mut usize) -> u64) -> u64 {
        let mut signed = [self.values[GM] as i64, self.values[TRANSVERSE_MOMENT] as i64];
        let mut tangent = f64::from_bits(self.values[TANGENT]);
        let wholes = self.values.first_chunk_mut().expect("eight of eleven");
        let number = call(wholes, &mut signed, &mut tangent, &mut self.place);
        self.values[GM..].copy_from_slice(&[signed[0] as u64, signed[1] as u64, tangent.to_bits()]);
        number
    }

    /// The call through a calculation, over slices.
    pub fn by_calculation(mut self, calculation: &Calculation, call: &Call) -> Observation {
        match call {
            Call::Report { reading, text, .. } => {
                let answer = (calculation.report)(*reading, text, &mut self.room);
                self.note(answer, |length, values| values[0] = length as u64);
            }
            Call::Read { text, .. } => {
                let answer = (calculation.read)(text, &mut self.wholes, &mut self.items, &mut self.tanks);
                self.note(answer, |summary, values| {
                    values[..5].copy_from_slice(&summary.particulars);
                    values[5..7].copy_from_slice(&[summary.items, summary.tanks]);
                });
            }
            Call::Write { numbers: FileNumbers { particulars, half_breadths, items, tanks }, .. } => {
                let answer = (calculation.write)(particulars, half_breadths, items, tanks, &mut self.room);
                self.note(answer, |length, values| values[0] = length as u64);
            }
            Call::Rows { engine, particulars, half_breadths, .. } => {
                let answer = (calculation.rows)(*engine, half_breadths, particulars, &mut self.wholes);
                self.note(answer, |count, values| values[0] = count as u64);
            }
            Call::Display { row } => {
                let answer = (calculation.display)(row);
                self.note(answer, |figures, values| values[..7].copy_from_slice(&figures.map(f64::to_bits)));
            }
            Call::Condition { reading, items, tanks, rows } => {
                let answer = (calculation.condition)(*reading, items, tanks, rows);
                self.note(answer, note_condition);
            }
            Call::Step { step, .. } => {
                let answer = step.by(calculation, &mut self.tally);
                self.note(answer, |(), _| ());
            }
            Call::Aboard { tally, tanks, rows } => {
                let answer = (calculation.condition_aboard)(tally, tanks, rows);
                self.note(answer, note_condition);
            }
            Call::Surface { hopper } => {
                let answer = hopper.by(calculation);
                self.note(answer, |surface, values| values[..2].copy_from_slice(&[surface.inertia, surface.moment]));
            }
            Call::LightShip { inclining, .. } => {
                let answer = inclining.by(calculation, &mut self.wholes);
                self.note(answer, |LightShip { gm, weight, vertical_moment, kg }, values| {
                    values[..4].copy_from_slice(&[gm, weight, vertical_moment, kg]);
                });
            }
            Call::Profile { vessel } => {
                let answer = vessel.by(calculation, &mut self.gz);
                self.note(answer, note_profile);
            }
        }
        self
    }

    /// The next step of a history through the list of what is aboard.
    pub fn by_list(mut self, history: &mut History, step: &Step) -> Observation {
        let answer = history.take(step);
        self.note(answer, |(), _| ());
        self.tally = history.tally();
        self
    }

    /// Notes the values of an answer, or the number and place of a refusal.
    fn note<T>(&mut self, answer: Result<T, Refusal>, note: impl Fn(T, &mut Values)) {
        match answer {
            Ok(value) => note(value, &mut self.values),
            Err(refusal) => (self.number, self.place) = (refusal.number, refusal.place),
        }
    }

    /// Compares two observations of one call.
    pub fn same_as(&self, peer: &Observation) -> Result<(), String> {
        let parts = [
            ("numbers", self.number == peer.number),
            ("places", self.place == peer.place),
            ("values", self.values == peer.values),
            ("rooms", self.room == peer.room),
            ("half-breadths, rows or GMs", self.wholes == peer.wholes),
            ("items", self.items == peer.items),
            ("tanks", self.tanks == peer.tanks),
            ("tallies", self.tally == peer.tally),
            ("levers", self.gz == peer.gz),
        ];
        match parts.iter().find(|(_, same)| !same) {
            None => Ok(()),
            Some((part, _)) => Err(format!("the {part} differ\nlibrary: {self:?}\npeer: {peer:?}")),
        }
    }

    /// A refusal leaves everything but number and place; an answer leaves the place.
    pub fn leaves_what_it_must(&self, before: &Observation) -> Result<(), String> {
        let left = if self.number == 0 {
            self.place == before.place
        } else {
            Observation { number: self.number, place: self.place, ..before.clone() } == *self
        };
        if left {
            Ok(())
        } else {
            Err(format!("something that must stay is changed: {self:?}"))
        }
    }
}

/// A condition's values in the header's order; the tangent stays unless the vessel is heeled.
fn note_condition(condition: Condition, values: &mut Values) {
    let Condition { weight, draft, km, lcg, vertical_moment, free_surface, gm, transverse_moment, heel, passes } =
        condition;
    let lies = match heel {
        Heel::Unstable => 0,
        Heel::Upright => 1,
        Heel::Heeled(_) => 2,
        Heel::Beyond => 3,
    };
    let wholes = [weight, draft, km, lcg, vertical_moment, free_surface, lies, u64::from(passes)];
    values[..GM].copy_from_slice(&wholes);
    values[GM] = gm as u64;
    values[TRANSVERSE_MOMENT] = transverse_moment as u64;
    if let Heel::Heeled(tangent) = heel {
        values[TANGENT] = tangent.to_bits();
    }
}

/// A profile's values in the header's order.
fn note_profile(profile: Profile, values: &mut Values) {
    let Profile { peak, rules, gm, gz_at_30, sum_to_t, sum_from_30_to_40 } = profile;
    let Rules { peak: peak_met, area_to_t, area_from_30_to_40, gz_at_30: gz_met, gm: gm_met } = rules;
    let met = [peak_met, area_to_t, area_from_30_to_40, gz_met, gm_met];
    let signed = [gm, gz_at_30, sum_to_t, sum_from_30_to_40];
    values[0] = peak;
    values[1..PROFILE_SIGNED].copy_from_slice(&met.map(u64::from));
    values[PROFILE_SIGNED..PROFILE_SIGNED + signed.len()].copy_from_slice(&signed.map(|number| number as u64));
}
