//! What supply vessels are refused for, and before what.

use super::observation::Observation;
use crate::peer::ranges::{ANGLES, KM_AND_KG, KN};
use crate::vessel::Vessel;

/// For its table, or for one number with nothing else wrong; then with a later one wrong besides.
pub const REFUSED_PROFILES: [&str; 14] = [
    "no table",
    "a number too few",
    "a number too many",
    "256 too many",
    "a KN too great by 1",
    "the greatest number of all as a KN",
    "KM too great by 1",
    "KG too great by 1",
    "the table before a KN",
    "the table before KM or KG",
    "a KN before another",
    "a KN before KM",
    "a KN before KG",
    "KM before KG",
];

const OUT_OF_RANGE: u64 = 4;
const TABLE_SIZE: u64 = 7;
/// Where they stand after the table.
const KM: usize = ANGLES;
const KG: usize = ANGLES + 1;

/// Which of these a refused vessel is.
pub fn refused_profile(vessel: &Vessel, seen: &Observation) -> [bool; REFUSED_PROFILES.len()] {
    let Vessel { kn, km, kg } = vessel;
    let by_size = seen.number == TABLE_SIZE;
    let [km_outside, kg_outside] = [(*km, KM_AND_KG[0]), (*kg, KM_AND_KG[1])].map(|(n, range)| !range.has_whole(n));
    let outside = |kn: &[u64]| kn.iter().any(|&kn| !KN.has_whole(kn));
    let at = |place: usize| seen.number == OUT_OF_RANGE && seen.place == place;
    let in_table = seen.number == OUT_OF_RANGE && seen.place < ANGLES;
    let is = |number: u64| in_table && kn[seen.place] == number;
    let sound = !outside(kn) && !km_outside && !kg_outside;
    [
        by_size && sound && kn.is_empty(),
        by_size && sound && kn.len() == ANGLES - 1,
        by_size && sound && kn.len() == ANGLES + 1,
        by_size && sound && kn.len() == ANGLES + (1 << 8),
        is(KN.greatest as u64 + 1),
        is(u64::MAX),
        at(KM) && *km == KM_AND_KG[0].greatest as u64 + 1,
        at(KG) && *kg == KM_AND_KG[1].greatest as u64 + 1,
        by_size && outside(kn),
        by_size && (km_outside || kg_outside),
        in_table && outside(&kn[seen.place + 1..]),
        in_table && km_outside,
        in_table && kg_outside,
        at(KM) && kg_outside,
    ]
}
