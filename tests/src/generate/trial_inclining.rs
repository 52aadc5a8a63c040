//! A test with nothing wrong is answered or refused for what it comes to, near every limit, and a damaged one in every
//! way; altered tests fit.

use super::damaged_tests::damage;
use super::inclining::{inclining, room};
use super::random::Random;
use crate::calculation::PEER;
use crate::peer::inclining::Balance;
use std::collections::BTreeSet;

const TESTS: u64 = 20_000;

#[test]
fn undamaged_tests_are_near_every_limit() {
    let (mut weights, mut moments) = (BTreeSet::new(), BTreeSet::new());
    for number in 0..TESTS {
        let random = &mut Random::for_case(1, number);
        let inclining = inclining(random);
        let mut gms = vec![0; room(random, &inclining)];
        let Balance { weight, moment, .. } = inclining.balance();
        let expected = match (weight, moment) {
            (..=0, _) => 20,
            (_, ..0) => 21,
            _ => 0,
        };
        let number = inclining.by(&PEER, &mut gms).map_or_else(|refusal| refusal.number, |_| 0);
        assert_eq!(number, expected, "{inclining:?}");
        weights.insert((weight, number));
        moments.insert((moment, number));
    }
    for near in [(-1, 20), (0, 20), (1, 0), (1, 21)] {
        assert!(weights.contains(&near), "{near:?}");
    }
    for near in [(-1, 20), (-1, 21), (0, 0), (1, 0)] {
        assert!(moments.contains(&near), "{near:?}");
    }
}

#[test]
fn damaged_tests_are_refused_in_every_way() {
    let mut seen = BTreeSet::new();
    for number in 0..TESTS {
        let random = &mut Random::for_case(2, number);
        let mut inclining = inclining(random);
        let mut room = room(random, &inclining);
        damage(random, &mut inclining, &mut room);
        let answer = inclining.by(&PEER, &mut vec![0; room]);
        seen.insert(answer.map_or_else(|refusal| (refusal.number, refusal.place), |_| (0, 0)));
    }
    for refusal in [(0, 0), (7, 0), (7, 1), (7, 2), (7, 3), (20, 0), (21, 0)] {
        assert!(seen.contains(&refusal), "{refusal:?}");
    }
    for place in 0..296 {
        assert!(seen.contains(&(4, place)), "{place}");
    }
}

#[test]
fn altered_tests_fit() {
    for number in 0..TESTS {
        let inclining = inclining(&mut Random::for_case(3, number));
        let Ok(light_ship) = inclining.by(&PEER, &mut [0; 12]) else { continue };
        assert_eq!(inclining.turned().by(&PEER, &mut [0; 12]), Ok(light_ship));
        assert_eq!(inclining.filled().by(&PEER, &mut [0; 12]), Ok(light_ship));
        let larger = inclining.with_surface_of(light_ship.vertical_moment).by(&PEER, &mut [0; 12]);
        assert!(larger.is_ok_and(|larger| larger.kg <= light_ship.kg), "{inclining:?}");
    }
}
