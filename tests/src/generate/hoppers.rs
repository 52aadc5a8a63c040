//! Surfaces of hopper tanks: within the ranges, with their middle line moved, and damaged in size and in every number.

use super::edges::{damage_number, damage_size, end_or_any};
use super::random::Random;
use crate::hopper::Hopper;
use crate::peer::ranges::{Range, FEWEST_WIDTHS, LIQUID_DENSITY, MOST_WIDTHS, WIDTH, WIDTH_INTERVAL};
use std::slice::from_mut;

#[derive(Clone, Copy)]
enum Shape {
    /// Any width at each place.
    Ragged,
    /// A width at an end of the range or beside it at each place.
    Ends,
    /// A few mm wide at most.
    Sliver,
    /// Wider amidships, by another curve to each side.
    Curved,
    /// The same to both sides by multiples of 3, so that the inertia is often whole before it is rounded.
    Even,
    /// One breadth all along.
    Rectangle,
    /// A rectangle of round figures, so that the moment is whole too.
    Round,
    PortAlone,
    StarboardAlone,
    /// A single width.
    Speck,
    Nothing,
}

const SHAPES: [Shape; 16] = [
    Shape::Ragged,
    Shape::Ragged,
    Shape::Ends,
    Shape::Sliver,
    Shape::Curved,
    Shape::Curved,
    Shape::Curved,
    Shape::Even,
    Shape::Even,
    Shape::Rectangle,
    Shape::Rectangle,
    Shape::Round,
    Shape::PortAlone,
    Shape::StarboardAlone,
    Shape::Speck,
    Shape::Nothing,
];
/// Round figures: with such widths, intervals and density the inertia and the moment of a rectangle are whole.
const ROUND_WIDTH: i64 = 300;
const ROUND_INTERVALS: [u64; 3] = [100, 500, 1_000];
const ROUND_DENSITY: u64 = 1_000;
const EVEN_STEP: i64 = 3;
/// As many widths as no side may have: too few, and too many.
const WRONG_COUNTS: [usize; 8] = [0, 1, 2, 2, MOST_WIDTHS + 1, MOST_WIDTHS + 1, MOST_WIDTHS + 2, 2 * MOST_WIDTHS];
/// So many more agree with a right count in their low bits.
const TWO_TO_THE_8: usize = 1 << 8;

/// A surface within its ranges.
pub fn hopper(random: &mut Random) -> Hopper {
    let count = FEWEST_WIDTHS + random.index(MOST_WIDTHS - FEWEST_WIDTHS + 1);
    let shape = random.pick(&SHAPES);
    let [port, starboard] = sides(random, shape, count);
    let [interval, density] = [WIDTH_INTERVAL, LIQUID_DENSITY].map(|range| end_or_any(random, range) as u64);
    let mut hopper = Hopper { port, starboard, interval, density };
    if matches!(shape, Shape::Round) {
        (hopper.interval, hopper.density) = (random.pick(&ROUND_INTERVALS), ROUND_DENSITY);
    }
    if random.one_in(2) {
        let [least, greatest] = hopper.moves();
        hopper = hopper.moved(random.between(least, greatest));
    }
    hopper
}

/// The widths to port and to starboard.
fn sides(random: &mut Random, shape: Shape, count: usize) -> [Vec<u64>; 2] {
    let mut sides = [side(random, shape, count), side(random, shape, count)];
    match shape {
        Shape::Even => sides[1] = sides[0].clone(),
        Shape::PortAlone => sides[1].fill(0),
        Shape::StarboardAlone => sides[0].fill(0),
        Shape::Speck => {
            let any = random.between(WIDTH.least, WIDTH.greatest) as u64;
            sides[random.index(2)][random.index(count)] = random.pick(&[1, 1, 2, 3, any]);
        }
        _ => {}
    }
    sides
}

fn side(random: &mut Random, shape: Shape, count: usize) -> Vec<u64> {
    let Range { least, greatest } = WIDTH;
    let n = count as i64 - 1;
    let breadth = end_or_any(random, WIDTH);
    let mut width = |i: i64| match shape {
        Shape::Ragged | Shape::PortAlone | Shape::StarboardAlone => random.between(least, greatest),
        Shape::Even => random.between(breadth, greatest) / EVEN_STEP * EVEN_STEP,
        Shape::Ends => random.pick(&[least, least + 1, greatest - 1, greatest]),
        Shape::Sliver => random.between(least, least + 3),
        Shape::Curved => breadth / 2 + 2 * breadth * i * (n - i) / (n * n),
        Shape::Rectangle => breadth,
        Shape::Round => breadth / ROUND_WIDTH * ROUND_WIDTH,
        Shape::Speck | Shape::Nothing => 0,
    };
    (0..=n).map(|i| width(i) as u64).collect()
}

/// Spoils one thing or several, or leaves them at the edge of what is allowed.
pub fn damage(random: &mut Random, hopper: &mut Hopper) {
    match random.below(9) {
        0 => damage_size(random, &mut hopper.port, 1),
        1 => damage_size(random, &mut hopper.starboard, 1),
        2 => {
            let count = random.pick(&WRONG_COUNTS);
            resize(&mut hopper.port, count);
            resize(&mut hopper.starboard, count);
        }
        3 => {
            for side in [&mut hopper.port, &mut hopper.starboard] {
                if random.one_in(2) {
                    resize(side, side.len() + TWO_TO_THE_8);
                }
            }
        }
        4 => {
            for part in 0..4 {
                if random.one_in(2) {
                    damage_part(random, hopper, part);
                }
            }
        }
        _ => {
            let part = random.below(4);
            damage_part(random, hopper, part);
        }
    }
}

fn resize(side: &mut Vec<u64>, count: usize) {
    side.resize(count, side.last().copied().unwrap_or_default());
}

/// One number at an edge: of the widths to port, of those to starboard, the interval, or the density.
fn damage_part(random: &mut Random, hopper: &mut Hopper, part: u64) {
    match part {
        0 => damage_number(random, &mut hopper.port, &[WIDTH]),
        1 => damage_number(random, &mut hopper.starboard, &[WIDTH]),
        2 => damage_number(random, from_mut(&mut hopper.interval), &[WIDTH_INTERVAL]),
        _ => damage_number(random, from_mut(&mut hopper.density), &[LIQUID_DENSITY]),
    }
}

impl Hopper {
    /// How far the middle line can be moved with all widths in range: to port, below 0, and to starboard.
    pub fn moves(&self) -> [i64; 2] {
        let room = |taken: &[u64], given: &[u64]| {
            let least = taken.iter().min().map_or(0, |&width| width as i64);
            let widest = given.iter().max().map_or(0, |&width| width as i64);
            least.min(WIDTH.greatest - widest)
        };
        [-room(&self.port, &self.starboard), room(&self.starboard, &self.port)]
    }

    /// The same surface with its middle line so far to starboard: one width added to every p and taken from every q.
    pub fn moved(&self, width: i64) -> Hopper {
        let mut hopper = self.clone();
        hopper.port.iter_mut().for_each(|p| *p = p.wrapping_add_signed(width));
        hopper.starboard.iter_mut().for_each(|q| *q = q.wrapping_sub_signed(width));
        hopper
    }
}
