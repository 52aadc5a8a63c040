//! A surface with nothing wrong is answered, and its middle line moves as far as its widths allow.

use super::hoppers::hopper;
use super::random::Random;
use crate::calculation::PEER;

const SURFACES: u64 = 1_000;

#[test]
fn undamaged_surfaces_are_answered() {
    for number in 0..SURFACES {
        let hopper = hopper(&mut Random::for_case(1, number));
        let surface = hopper.by(&PEER);
        assert!(surface.is_ok(), "{hopper:?}");
        let [to_port, to_starboard] = hopper.moves();
        assert_eq!([to_port, to_starboard].map(|width| hopper.moved(width).by(&PEER)), [surface; 2]);
        for width in [to_port - 1, to_starboard + 1] {
            assert!(hopper.moved(width).by(&PEER).is_err(), "{hopper:?}");
        }
    }
}
