//! A supply vessel as a text: how many numbers its KN table has and the numbers, then KM and KG, a line each. The
//! answer is a line "A", the peak's angle, GM, GZ at 30 degrees and the two sums, and then 1 or 0 for each rule, and a
//! line of GZ at each angle, or "E" and the refusal.

use super::{counted, numbers, refusal_line};
use crate::calculation::Calculation;
use crate::calls::{Profile, Rules};
use crate::peer::ranges::ANGLES;
use crate::vessel::Vessel;

/// The answer of a calculation's call; none where the text is none.
pub fn by_calculation(calculation: &Calculation, text: &[u8]) -> Option<Vec<u8>> {
    let mut gz = [0; ANGLES];
    let answer = match read(text)?.by(calculation, &mut gz) {
        Ok(profile) => profile_line(&profile) + &gz.map(|lever| lever.to_string()).join(" ") + "\n",
        Err(refusal) => refusal_line(refusal),
    };
    Some(answer.into_bytes())
}

fn profile_line(profile: &Profile) -> String {
    let Profile { peak, rules, gm, gz_at_30, sum_to_t, sum_from_30_to_40 } = profile;
    let Rules { peak: peak_met, area_to_t, area_from_30_to_40, gz_at_30: gz_met, gm: gm_met } = *rules;
    let rules = [peak_met, area_to_t, area_from_30_to_40, gz_met, gm_met].map(|met| u8::from(met).to_string());
    format!("A {peak} {gm} {gz_at_30} {sum_to_t} {sum_from_30_to_40} {}\n", rules.join(" "))
}

fn read(text: &[u8]) -> Option<Vessel> {
    let lines: Vec<&str> = std::str::from_utf8(text).ok()?.lines().collect();
    let [kn, heights] = lines.try_into().ok()?;
    let [km, kg] = numbers(heights)?.try_into().ok()?;
    Some(Vessel { kn: counted(kn)?, km, kg })
}
