//! What the profiles are like that are answered, that they are as the request's formulas say, and that a lower KG takes
//! none of the rules that it must not.

use super::observation::{Observation, PROFILE_SIGNED};
use crate::generate::Call;
use crate::peer::profile::{AREA_DIVISOR, AREA_FACTOR, AT_30, MILLION, SINES};
use crate::peer::ranges::{ANGLES, KM_AND_KG, KN};
use crate::vessel::Vessel;

/// Of answered ones, the angle of the peak in degrees.
pub const PEAKS: [&str; ANGLES] =
    ["at 0", "at 5", "at 10", "at 15", "at 20", "at 25", "at 30", "at 35", "at 40", "at 45", "at 50", "at 55", "at 60"];
/// Of answered ones, what is handed in.
pub const VESSELS: [&str; 10] = [
    "no KN at all",
    "every KN at its greatest",
    "no KM",
    "the greatest KM",
    "no KG",
    "the greatest KG",
    "a whole product at 30 degrees",
    "half a mm more there",
    "a whole product at another angle",
    "a product a millionth above whole",
];
/// Of answered ones, what comes out.
pub const PROFILES: [&str; 24] = [
    "another lever as great as the peak",
    "all levers alike",
    "a lever below 0",
    "every lever but the first below 0",
    "the area to 15 just missed",
    "the area to 15 just met",
    "the area to 20 just missed",
    "the area to 20 just met",
    "the area to 25 just missed",
    "the area to 25 just met",
    "the area to 30 just missed",
    "the area to 30 just met",
    "a peak below 15 and its area just missed",
    "a peak below 15 and its area just met",
    "a peak beyond 30 and its area just missed",
    "a peak beyond 30 and its area just met",
    "the area from 30 to 40 just missed",
    "the area from 30 to 40 just met",
    "GZ at 30 of 199",
    "GZ at 30 of 200",
    "GZ at 30 below 0",
    "GM of 149",
    "GM of 150",
    "GM below 0",
];
/// Each rule met and missed; then missed alone; then all of them.
pub const RULES: [&str; 17] = [
    "the peak met",
    "missed",
    "the area to t met",
    "missed",
    "the area from 30 to 40 met",
    "missed",
    "GZ at 30 met",
    "missed",
    "GM met",
    "missed",
    "the peak alone missed",
    "the area to t alone",
    "the area from 30 to 40 alone",
    "GZ at 30 alone",
    "GM alone",
    "all met",
    "all missed",
];
pub const LOWERED: [&str; 3] = ["KG a mm lower", "half of KG", "no KG"];
/// What a lower KG turns: three rules met that were missed, and two missed that were met, for which it is free.
pub const TURNED: [&str; 5] =
    ["GM met", "the area from 30 to 40 met", "GZ at 30 met", "the peak missed", "the area to t missed"];

/// Where the rules stand that a lower KG must leave met, and those that it may turn.
const KEPT: [usize; 3] = [4, 2, 3];
const FREE: [usize; 2] = [0, 1];
/// What every multiplied sum to 15, 20, 25 and 30 degrees is a multiple of, and from 30 to 40.
const STEPS_TO_T: [i64; 4] = [9, 8, 1, 8];
const STEP_FROM_30_TO_40: i64 = 8;

/// The values of a profile.
struct Figures {
    peak: i64,
    met: [bool; 5],
    gm: i64,
    gz_at_30: i64,
    sum_to_t: i64,
    sum_from_30_to_40: i64,
}

impl Figures {
    fn of(seen: &Observation) -> Figures {
        let [peak, peak_met, to_t, from_30_to_40, gz, gm, ..] = seen.values;
        let signed = |i: usize| seen.values[PROFILE_SIGNED + i] as i64;
        Figures {
            peak: peak as i64,
            met: [peak_met, to_t, from_30_to_40, gz, gm].map(|met| met == 1),
            gm: signed(0),
            gz_at_30: signed(1),
            sum_to_t: signed(2),
            sum_from_30_to_40: signed(3),
        }
    }

    /// The peak's angle, but 15 if below and 30 if beyond.
    fn t(&self) -> i64 {
        self.peak.clamp(15, 30)
    }
}

/// Whether a multiplied sum meets a limit, as the request has it.
fn meets(sum: i64, limit: i64) -> bool {
    AREA_FACTOR * sum >= AREA_DIVISOR * limit
}

/// Whether a sum that changes by these steps is the last that misses a limit, and whether it is the first that meets
/// it.
fn just(sum: i64, step: i64, limit: i64) -> [bool; 2] {
    [!meets(sum, limit) && meets(sum + step, limit), meets(sum, limit) && !meets(sum - step, limit)]
}

/// Where the peak of an answered profile stands.
pub fn peak(seen: &Observation) -> [bool; PEAKS.len()] {
    std::array::from_fn(|angle| seen.values[0] == 5 * angle as u64)
}

/// Which of these an answered vessel is.
pub fn vessel(vessel: &Vessel) -> [bool; VESSELS.len()] {
    let Vessel { kn, km, kg } = vessel;
    let [highest_km, highest_kg] = KM_AND_KG.map(|range| range.greatest as u64);
    let above_whole = |angle: usize| *kg as i64 * SINES[angle] % MILLION;
    let mut others = (1..ANGLES).filter(|&angle| angle != AT_30);
    [
        kn.iter().all(|&kn| kn == 0),
        kn.iter().all(|&kn| kn == KN.greatest as u64),
        *km == 0,
        *km == highest_km,
        *kg == 0,
        *kg == highest_kg,
        *kg > 0 && above_whole(AT_30) == 0,
        above_whole(AT_30) == MILLION / 2,
        *kg > 0 && others.any(|angle| above_whole(angle) == 0),
        (1..ANGLES).any(|angle| above_whole(angle) == 1),
    ]
}

/// Which of these an answered profile is.
pub fn profile(seen: &Observation) -> [bool; PROFILES.len()] {
    let figures = Figures::of(seen);
    let Figures { peak, gm, gz_at_30, .. } = figures;
    let gz = &seen.gz;
    let t = figures.t();
    let [missed, met] = just(figures.sum_to_t, STEPS_TO_T[(t / 5 - 3) as usize], 85 - t);
    let [missed_from_30, met_from_30] = just(figures.sum_from_30_to_40, STEP_FROM_30_TO_40, 30);
    [
        gz.iter().filter(|&&lever| lever == gz[peak as usize / 5]).count() > 1,
        gz.iter().all(|&lever| lever == gz[0]),
        gz.iter().any(|&lever| lever < 0),
        gz[1..].iter().all(|&lever| lever < 0),
        peak == 15 && missed,
        peak == 15 && met,
        peak == 20 && missed,
        peak == 20 && met,
        peak == 25 && missed,
        peak == 25 && met,
        peak == 30 && missed,
        peak == 30 && met,
        peak < 15 && missed,
        peak < 15 && met,
        peak > 30 && missed,
        peak > 30 && met,
        missed_from_30,
        met_from_30,
        gz_at_30 == 199,
        gz_at_30 == 200,
        gz_at_30 < 0,
        gm == 149,
        gm == 150,
        gm < 0,
    ]
}

/// Which of these the rules of an answered profile are.
pub fn rules(seen: &Observation) -> [bool; RULES.len()] {
    let met = Figures::of(seen).met;
    let count = met.iter().filter(|&&met| met).count();
    let alone = |rule: usize| !met[rule] && count + 1 == met.len();
    std::array::from_fn(|i| match i {
        0..10 => met[i / 2] == i.is_multiple_of(2),
        10..15 => alone(i - 10),
        15 => count == met.len(),
        _ => count == 0,
    })
}

/// Holds an answered profile to the request's formulas over its own levers.
pub fn examine(call: &Call, seen: &Observation) -> Result<(), String> {
    let Call::Profile { vessel: Vessel { kn, km, kg } } = call else { return Ok(()) };
    let figures = Figures::of(seen);
    let Figures { peak, gm, gz_at_30, sum_to_t, sum_from_30_to_40, .. } = figures;
    let [km, kg] = [*km as i64, *kg as i64];
    // a product is rounded up where what is taken off is no less, and less than 1 more
    let is_lever = |angle: usize| {
        let off = kn[angle] as i64 - seen.gz[angle];
        (0..MILLION).contains(&(off * MILLION - kg * SINES[angle]))
    };
    let to_t = meets(sum_to_t, 85 - figures.t());
    let met = [peak >= 15, to_t, meets(sum_from_30_to_40, 30), gz_at_30 >= 200, gm >= 150];
    if !(0..ANGLES).all(is_lever) || gz_at_30 != seen.gz[AT_30] || gm != km - kg {
        Err(format!("a lever or GM is not that of KN, KM and KG: {seen:?}"))
    } else if met != figures.met {
        Err(format!("a rule is not met as its number says: {seen:?}"))
    } else {
        Ok(())
    }
}

/// Holds what the library makes of a vessel to what it makes of it with a lower KG; answers what that turns.
pub fn examine_lower(seen: &Observation, lower: &Observation) -> Result<[bool; TURNED.len()], String> {
    let [before, after] = [seen, lower].map(|seen| Figures::of(seen).met);
    let falls = seen.gz.iter().zip(&lower.gz).any(|(before, after)| after < before);
    if lower.number != 0 || falls || KEPT.iter().any(|&rule| before[rule] && !after[rule]) {
        return Err(format!("a lower KG lowers a lever or takes a rule\nbefore: {seen:?}\nlower: {lower:?}"));
    }
    let [gm, from_30_to_40, gz_at_30] = KEPT.map(|rule| after[rule] && !before[rule]);
    let [peak, to_t] = FREE.map(|rule| before[rule] && !after[rule]);
    Ok([gm, from_30_to_40, gz_at_30, peak, to_t])
}
