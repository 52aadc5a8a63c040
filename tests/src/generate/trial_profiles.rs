//! A vessel with nothing wrong is answered, near every limit, and a damaged one refused in every way; a lower KG fits.

use super::damaged_profiles::damage;
use super::profiles::vessel;
use super::random::Random;
use crate::calculation::PEER;
use crate::calls::Profile;
use crate::peer::ranges::ANGLES;
use crate::vessel::Vessel;
use std::collections::BTreeSet;

const VESSELS: u64 = 20_000;

fn profile(vessel: &Vessel) -> Profile {
    vessel.by(&PEER, &mut [0; ANGLES]).expect("the vessel is in range")
}

#[test]
fn undamaged_vessels_are_near_every_limit() {
    let (mut to_t, mut from_30_to_40) = (BTreeSet::new(), BTreeSet::new());
    let (mut peaks, mut levers_at_30, mut gms) = (BTreeSet::new(), BTreeSet::new(), BTreeSet::new());
    for number in 0..VESSELS {
        let profile = profile(&vessel(&mut Random::for_case(1, number)));
        to_t.insert((profile.peak.clamp(15, 30), profile.sum_to_t));
        from_30_to_40.insert(profile.sum_from_30_to_40);
        peaks.insert(profile.peak);
        levers_at_30.insert(profile.gz_at_30);
        gms.insert(profile.gm);
    }
    for (t, missed, met) in [(15, 19_251, 19_260), (20, 17_872, 17_880), (25, 16_501, 16_502), (30, 15_120, 15_128)] {
        assert!(to_t.contains(&(t, missed)) && to_t.contains(&(t, met)), "{t}");
    }
    assert!(from_30_to_40.contains(&8_248) && from_30_to_40.contains(&8_256));
    assert_eq!(peaks, (0..=60).step_by(5).collect());
    assert!([-1, 199, 200, 201].iter().all(|lever| levers_at_30.contains(lever)));
    assert!([-1, 0, 149, 150, 151].iter().all(|gm| gms.contains(gm)));
}

#[test]
fn damaged_vessels_are_refused_in_every_way() {
    let mut seen = BTreeSet::new();
    for number in 0..VESSELS {
        let random = &mut Random::for_case(2, number);
        let mut vessel = vessel(random);
        damage(random, &mut vessel);
        let answer = vessel.by(&PEER, &mut [0; ANGLES]);
        seen.insert(answer.map_or_else(|refusal| (refusal.number, refusal.place), |_| (0, 0)));
    }
    let numbers = (0..ANGLES + 2).map(|place| (4, place));
    assert_eq!(seen, numbers.chain([(0, 0), (7, 0)]).collect());
}

#[test]
fn lower_kg_takes_no_rule_that_it_must_not() {
    for number in 0..VESSELS {
        let vessel = vessel(&mut Random::for_case(3, number));
        let met = |vessel: &Vessel| {
            let rules = profile(vessel).rules;
            [rules.gm, rules.area_from_30_to_40, rules.gz_at_30]
        };
        let before = met(&vessel);
        for lower in vessel.lowered() {
            assert!(before.iter().zip(met(&lower)).all(|(before, after)| after || !before), "{vessel:?}");
        }
    }
}
