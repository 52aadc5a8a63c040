//! Surfaces of hopper tanks worked by hand, and the request's rules, over the own calculation.

use super::hopper_surface;
use super::rows::multipliers;
use crate::calls::{Refusal, Surface};

fn surface(inertia: u64, moment: u64) -> Result<Surface, Refusal> {
    Ok(Surface { inertia, moment })
}

fn refused(number: u64, place: usize) -> Result<Surface, Refusal> {
    Err(Refusal { number, place })
}

/// The inertia at an interval of 50 mm, for 1 mm of it.
fn inertia(port: &[u64], starboard: &[u64]) -> u64 {
    hopper_surface(port, starboard, 50, 1_000).expect("the surface is in range").inertia / 50
}

/// Widths of any kind, so many to each side, none above `widest`.
fn ragged(count: usize, widest: u64) -> [Vec<u64>; 2] {
    let width = |i: usize| (i + 17 * count) as u64 * 7_919 % 1_021 * (widest + 1) / 1_021;
    [(0..count).map(width).collect(), (count..2 * count).map(width).collect()]
}

/// By the request's formula.
fn inertia_by_formula(port: &[u64], starboard: &[u64]) -> u64 {
    let sum = |of: fn(i128, i128) -> i128| -> i128 {
        let strips = port.iter().zip(starboard).map(|(&p, &q)| of(p.into(), q.into()));
        strips.zip(multipliers(port.len() - 1)).map(|(strip, u)| strip * i128::from(u)).sum()
    };
    let (a, m, i) = (sum(|p, q| p + q), sum(|p, q| q * q - p * p), sum(|p, q| p.pow(3) + q.pow(3)));
    ((4 * a * i - 3 * m * m) as u64).div_ceil(288 * a as u64)
}

#[test]
fn rectangle_wherever_the_middle_line_lies() {
    for n in 2..=10 {
        for breadth in [1, 7, 12, 1_000, 1_499, 1_500] {
            for p in [0, 1, breadth / 3, breadth / 2, breadth - 1, breadth] {
                let (port, starboard) = (vec![p; n + 1], vec![breadth - p; n + 1]);
                assert_eq!(inertia(&port, &starboard), (n as u64 * breadth.pow(3)).div_ceil(12), "{n} {breadth} {p}");
            }
        }
    }
}

#[test]
fn triangle_has_a_36th_on_either_side() {
    for n in 2..=10 {
        let widths: Vec<u64> = (0..=n).map(|i| 150 * i).collect();
        let nothing = vec![0; widths.len()];
        let expected = (n * (150 * n).pow(3)).div_ceil(36);
        assert_eq!([inertia(&widths, &nothing), inertia(&nothing, &widths)], [expected; 2]);
    }
}

#[test]
fn surfaces_by_hand() {
    // the rectangular tank of the trial figures, 2,000 by 2,000 mm
    assert_eq!(hopper_surface(&[1_000; 3], &[1_000; 3], 1_000, 1_000), surface(1_333_333_334_000, 1_333_334));
    // A, M and I are 8 each: 64/2304 is rounded up before it is multiplied
    assert_eq!(hopper_surface(&[1, 0, 0], &[0; 3], 777, 1_500), surface(777, 1));
    // one width alone has u·w³/288: 3 is not rounded, 64/9 is
    assert_eq!(hopper_surface(&[0, 3, 0], &[0; 3], 60, 1), surface(180, 1));
    assert_eq!(hopper_surface(&[0; 3], &[0, 4, 0], 60, 1), surface(480, 1));
    // a whole moment is not rounded: 2·300³/12 mm⁴, and 1000 times that
    assert_eq!(hopper_surface(&[300; 3], &[0; 3], 1_000, 1_000), surface(4_500_000_000, 4_500));
    assert_eq!(hopper_surface(&[0; 11], &[0; 11], 1_000, 1_500), surface(0, 0));
}

#[test]
fn greatest_surface() {
    assert_eq!(hopper_surface(&[1_500; 11], &[1_500; 11], 1_000, 1_500), surface(22_500_000_000_000, 33_750_000));
    assert_eq!(inertia(&[1_500; 11], &[0; 11]), 2_812_500_000);
    assert_eq!(inertia(&[0; 11], &[1_500; 11]), 2_812_500_000);
}

#[test]
fn formula_of_the_request() {
    for count in 3..=11 {
        for widest in [1, 2, 10, 700, 1_500] {
            let [port, starboard] = ragged(count, widest);
            assert_eq!(inertia(&port, &starboard), inertia_by_formula(&port, &starboard), "{port:?} {starboard:?}");
        }
    }
}

#[test]
fn one_width_added_to_port_and_taken_from_starboard() {
    for count in 3..=11 {
        let [port, starboard] = ragged(count, 700);
        let from = |widths: &[u64], width: u64| widths.iter().map(|w| w + width).collect::<Vec<u64>>();
        let expected = inertia(&from(&port, 0), &from(&starboard, 800));
        for width in [1, 2, 399, 799, 800] {
            assert_eq!(inertia(&from(&port, width), &from(&starboard, 800 - width)), expected);
        }
    }
}

#[test]
fn wrong_tables_are_refused_before_all_else() {
    for (port, starboard) in [(0, 0), (1, 1), (2, 2), (12, 12), (22, 22), (3, 4), (4, 3), (11, 0), (2, 3), (12, 11)] {
        assert_eq!(hopper_surface(&vec![1_501; port], &vec![9; starboard], 49, 0), refused(7, 0));
    }
}

#[test]
fn numbers_are_refused_in_their_order() {
    let good = [1_500; 4];
    let bad = [0, 1_500, 1_501, u64::MAX];
    assert_eq!(hopper_surface(&bad, &bad, 49, 0), refused(4, 2));
    assert_eq!(hopper_surface(&good, &bad, 49, 0), refused(4, 6));
    for interval in [0, 49, 1_001, u64::MAX] {
        assert_eq!(hopper_surface(&good, &good, interval, 1_501), refused(4, 8));
    }
    for density in [0, 1_501, u64::MAX] {
        assert_eq!(hopper_surface(&good, &good, 50, density), refused(4, 9));
    }
    assert_eq!(hopper_surface(&[0; 11], &[0; 11], 1_000, 1_501), refused(4, 23));
}
