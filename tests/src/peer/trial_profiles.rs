//! Profiles worked by hand, and the request's rules, over the own calculation.

use super::profile::{lever, multiplied_sum};
use super::ranges::ANGLES;
use super::rows::multipliers;
use super::supply_profile;
use crate::calls::{Profile, Refusal, Rules};
use crate::samples::largest_vessel;
use crate::vessel::Vessel;

/// What stands in a lent table before the call.
const BEFORE: i64 = 77;

/// A table that starts with these and has nothing beyond.
fn table(start: &[u64]) -> [u64; ANGLES] {
    let mut kn = [0; ANGLES];
    kn[..start.len()].copy_from_slice(start);
    kn
}

/// The profile and the levers of a vessel in range.
fn profile(kn: &[u64; ANGLES], km: u64, kg: u64) -> (Profile, [i64; ANGLES]) {
    let mut gz = [BEFORE; ANGLES];
    let profile = supply_profile(kn, km, kg, &mut gz).expect("the vessel is in range");
    (profile, gz)
}

/// The profile of a vessel with its centre of gravity at the keel, so that its levers are KN.
fn at_the_keel(kn: &[u64; ANGLES]) -> Profile {
    profile(kn, 0, 0).0
}

fn refused(number: u64, place: usize) -> Result<Profile, Refusal> {
    Err(Refusal { number, place })
}

fn rules([peak, area_to_t, area_from_30_to_40, gz_at_30, gm]: [u8; 5]) -> Rules {
    let [area_to_t, area_from_30_to_40] = [area_to_t, area_from_30_to_40].map(|met| met == 1);
    Rules { peak: peak == 1, area_to_t, area_from_30_to_40, gz_at_30: gz_at_30 == 1, gm: gm == 1 }
}

#[test]
fn profiles_by_hand() {
    // nothing: the first of thirteen equal levers is the peak
    let nothing = Profile { peak: 0, rules: rules([0; 5]), gm: 0, gz_at_30: 0, sum_to_t: 0, sum_from_30_to_40: 0 };
    assert_eq!(profile(&[0; ANGLES], 0, 0), (nothing, [0; ANGLES]));
    // KG 1: every product but the first is rounded up to 1; 63 and 48 are the multipliers without the first's 9, and all
    let lever_of_1 = Profile { gm: -1, gz_at_30: -1, sum_to_t: -63, sum_from_30_to_40: -48, ..nothing };
    let levers = [0, -1, -1, -1, -1, -1, -1, -1, -1, -1, -1, -1, -1];
    assert_eq!(profile(&[0; ANGLES], 0, 1), (lever_of_1, levers));
    // KN 1,000 throughout is 72 times 1,000 to 15 degrees, and 48 times from 30 to 40; the peak alone is missed
    let level = Profile {
        peak: 0,
        rules: rules([0, 1, 1, 1, 1]),
        gm: 150,
        gz_at_30: 1_000,
        sum_to_t: 72_000,
        sum_from_30_to_40: 48_000,
    };
    assert_eq!(profile(&[1_000; ANGLES], 150, 0), (level, [1_000; ANGLES]));
}

#[test]
fn products_are_rounded_up() {
    // the greatest KG has a tenth of the sines' millionths
    let levers = [0, 8_716, 17_365, 25_882, 34_202, 42_262, 50_000, 57_358, 64_279, 70_711, 76_605, 81_916, 86_603];
    assert_eq!(profile(&[0; ANGLES], 0, 100_000).1, levers.map(|product: i64| -product));
    // at 30 degrees: half, exact or not
    for (kg, product) in [(0, 0), (1, 1), (2, 1), (3, 2), (4_000, 2_000), (4_001, 2_001), (99_999, 50_000)] {
        assert_eq!(lever(20_000, kg, 6), 20_000 - product, "{kg}");
    }
    // whole products elsewhere, and a mm more of KG
    let whole = [(2, 62_500, 10_853), (4, 50_000, 17_101), (11, 62_500, 51_197), (12, 40_000, 34_641)];
    for (angle, kg, product) in whole {
        assert_eq!([lever(0, kg, angle), lever(0, kg + 1, angle)], [-product, -product - 1], "{angle}");
    }
    // a millionth above whole
    assert_eq!([lever(0, 20_779, 3), lever(0, 39_243, 9)], [-5_379, -27_750]);
}

#[test]
fn sines_are_those_of_the_angles() {
    for angle in 0..ANGLES {
        let sine = (1e6 * (5.0 * angle as f64).to_radians().sin()).round() as i64;
        assert_eq!(lever(0, 1_000_000, angle), -sine, "{angle}");
    }
}

#[test]
fn first_greatest_lever_is_the_peak() {
    for first in 0..ANGLES {
        let mut kn = [499; ANGLES];
        for last in (first..ANGLES).rev() {
            kn[last] = 500;
            kn[first] = 500;
            let profile = at_the_keel(&kn);
            assert_eq!((profile.peak, profile.rules.peak), (5 * first as u64, first >= 3), "{kn:?}");
        }
    }
    // rounding makes the levers at 10 and at 15 degrees equal for KG 5, and the one at 15 the greater for KG 6
    let kn = table(&[0, 200, 401, 402, 400]);
    assert_eq!([5, 6].map(|kg| profile(&kn, 0, kg).0.peak), [10, 15]);
}

#[test]
fn areas_just_met_and_just_missed() {
    // 19,251.456 is wanted to 15 degrees, 17,876.352 to 20, 16,501.248 to 25, 15,126.144 to 30
    let tables: [(&[u64], u64, i64, bool); 8] = [
        (&[0, 200, 350, 489], 15, 19_251, false),
        (&[0, 200, 350, 490], 15, 19_260, true),
        (&[0, 120, 200, 200, 554], 20, 17_872, false),
        (&[0, 120, 200, 200, 555], 20, 17_880, true),
        (&[0, 91, 100, 150, 200, 271], 25, 16_501, false),
        (&[0, 93, 100, 150, 200, 264], 25, 16_502, true),
        (&[0, 50, 80, 100, 130, 150, 270], 30, 15_120, false),
        (&[0, 50, 80, 100, 130, 150, 271], 30, 15_128, true),
    ];
    for (start, peak, sum_to_t, met) in tables {
        let profile = at_the_keel(&table(start));
        assert_eq!((profile.peak, profile.sum_to_t, profile.rules.area_to_t), (peak, sum_to_t, met));
    }
    // 8,250.624 is wanted from 30 to 40: 8 times 1,031.328
    for (at_40, sum, met) in [(199, 8_248, false), (200, 8_256, true)] {
        let profile = at_the_keel(&table(&[0, 0, 0, 0, 0, 0, 200, 158, at_40]));
        assert_eq!((profile.sum_from_30_to_40, profile.rules.area_from_30_to_40), (sum, met));
    }
}

#[test]
fn area_is_taken_to_a_peak_held_from_15_to_30() {
    // a peak below 15 degrees: the sum is to 15, and as much as is wanted there
    for (first, sum_to_t, met) in [(9, 19_251, false), (10, 19_260, true)] {
        let profile = at_the_keel(&table(&[first, 500, 210, 0]));
        assert_eq!((profile.peak, profile.sum_to_t, profile.rules.area_to_t), (5, sum_to_t, met));
    }
    // a peak beyond 30 degrees: the sum is to 30, and what stands beyond has no part in it
    for (first, sum_to_t, met) in [(0, 15_120, false), (1, 15_128, true)] {
        for peak in 7..ANGLES {
            let mut kn = table(&[first, 50, 80, 100, 130, 150, 270]);
            kn[peak] = 20_000;
            let profile = at_the_keel(&kn);
            assert_eq!((profile.peak, profile.sum_to_t), (5 * peak as u64, sum_to_t));
            assert_eq!(profile.rules.area_to_t, met);
        }
    }
}

#[test]
fn sums_by_the_multipliers_of_rows() {
    let levers: Vec<i64> = (0..7).map(|i| i * i * 7_919 % 1_021 - 400).collect();
    for intervals in 2..=6 {
        let multiplied = levers.iter().zip(multipliers(intervals)).map(|(lever, u)| lever * u as i64);
        assert_eq!(multiplied_sum(&levers[..=intervals]), multiplied.sum::<i64>(), "{intervals}");
    }
}

#[test]
fn least_gz_and_gm() {
    for (at_30, met) in [(199, false), (200, true), (201, true)] {
        let profile = at_the_keel(&table(&[0, 0, 0, 0, 0, 0, at_30]));
        assert_eq!((profile.gz_at_30, profile.rules.gz_at_30), (at_30 as i64, met));
    }
    for (km, gm, met) in [(0, -4_000, false), (4_149, 149, false), (4_150, 150, true), (100_000, 96_000, true)] {
        let (profile, _) = profile(&[0; ANGLES], km, 4_000);
        assert_eq!((profile.gm, profile.rules.gm), (gm, met));
    }
}

#[test]
fn wrong_table_is_refused_before_all_else() {
    for count in [0, 1, 12, 14, 26, ANGLES + (1 << 8), ANGLES + (1 << 16)] {
        let mut gz = [BEFORE; ANGLES];
        assert_eq!(supply_profile(&vec![20_001; count], 100_001, u64::MAX, &mut gz), refused(7, 0), "{count}");
        assert_eq!(gz, [BEFORE; ANGLES]);
    }
}

#[test]
fn every_number_is_tried_in_its_order() {
    let Vessel { kn, km, kg } = largest_vessel();
    let mut numbers = [kn, vec![km, kg]].concat();
    let answer = |numbers: &[u64]| {
        let mut gz = [BEFORE; ANGLES];
        let profile = supply_profile(&numbers[..ANGLES], numbers[ANGLES], numbers[ANGLES + 1], &mut gz);
        assert!(profile.is_ok() || gz == [BEFORE; ANGLES]);
        profile
    };
    for place in 0..numbers.len() {
        let number = numbers[place];
        let greatest = if place < ANGLES { 20_000 } else { 100_000 };
        for inside in [number, 0, greatest] {
            numbers[place] = inside;
            assert!(answer(&numbers).is_ok(), "{place} {inside}");
        }
        for outside in [greatest + 1, 1 << 32, u64::MAX] {
            numbers[place] = outside;
            assert_eq!(answer(&numbers), refused(4, place), "{outside}");
            let mut several = numbers.clone();
            several[place..].fill(outside);
            assert_eq!(answer(&several), refused(4, place), "{outside}");
        }
        numbers[place] = number;
    }
}
