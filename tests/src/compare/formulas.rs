//! Hulls given by formula: where the half-breadths of a row are those of a polynomial of third degree or less each way,
//! its displacement is the integral's, rounded down once, and so are its centres where the half-breadths times their
//! station or waterline numbers are such a polynomial too. Whether they are is told by differences, and the integral is
//! made of them: no multiplier has a part in it.

use super::observation::Observation;
use crate::generate::Call;
use crate::peer::ranges::{MOST_INTERVALS, ROW};

/// Answered or refused; of the answered, what the highest row is like.
pub const FORMULAS: [&str; 9] = [
    "answered",
    "refused",
    "of third degree along",
    "of third degree up",
    "of third degree each way",
    "with an LCB of second degree along",
    "with a KB of second degree up",
    "of third degree each way over more than three intervals",
    "of second degree along over many intervals",
];

/// The least order at which no polynomial of third degree has differences. Over fewer intervals there are none to see.
const NO_DIFFERENCES: usize = 4;
/// The integral is made in 24ths each way.
const PARTS: i128 = 24 * 24;
/// Both sides of the hull, in mm³ at kg per m³.
const SIDES: i128 = 2;
const CUBIC_METRE: i128 = 1_000_000_000;

/// Half-breadths up to waterline k.
#[derive(Clone, Copy)]
struct Surface<'a> {
    half_breadths: &'a [u64],
    waterlines: usize,
    n: usize,
    k: usize,
}

impl Surface<'_> {
    fn at(&self, station: usize, waterline: usize) -> i128 {
        i128::from(self.half_breadths[station * self.waterlines + waterline])
    }

    fn volume(&self) -> Option<i128> {
        integral(self.n, self.k, |i, j| self.at(i, j))
    }

    fn longitudinal_moment(&self) -> Option<i128> {
        integral(self.n, self.k, |i, j| self.at(i, j) * i as i128)
    }

    fn vertical_moment(&self) -> Option<i128> {
        integral(self.n, self.k, |i, j| self.at(i, j) * j as i128)
    }

    /// Whether all differences along of this order are none.
    fn is_below_along(&self, order: usize) -> bool {
        (0..=self.k).all(|j| vanishes(self.n, order, |i| self.at(i, j)))
    }

    fn is_below_up(&self, order: usize) -> bool {
        (0..=self.n).all(|i| vanishes(self.k, order, |j| self.at(i, j)))
    }
}

/// 576 times the double integral over 0..n and 0..k of the polynomial of third degree or less each way through these
/// numbers, where there is one.
pub fn integral(n: usize, k: usize, y: impl Fn(usize, usize) -> i128) -> Option<i128> {
    let along = (0..=k).all(|j| vanishes(n, NO_DIFFERENCES, |i| y(i, j)));
    let up = (0..=n).all(|i| vanishes(k, NO_DIFFERENCES, |j| y(i, j)));
    (along && up).then(|| through(n, |i| through(k, |j| y(i, j))))
}

/// 24 times the integral over 0..n of the polynomial of third degree or less through these numbers, by Newton's
/// differences at 0.
fn through(n: usize, y: impl Fn(usize) -> i128) -> i128 {
    let x = n as i128;
    let binomials = [24 * x, 12 * x.pow(2), 4 * x.pow(3) - 6 * x.pow(2), x.pow(4) - 4 * x.pow(3) + 4 * x.pow(2)];
    let orders = binomials.into_iter().enumerate().take(n + 1);
    orders.map(|(order, integral)| integral * difference(order, &y)).sum()
}

/// Whether all differences of this order are none among the numbers at 0..n.
fn vanishes(n: usize, order: usize, y: impl Fn(usize) -> i128) -> bool {
    (order..=n).all(|last| difference(order, |i| y(last - order + i)) == 0)
}

/// The difference at 0 of this order.
fn difference(order: usize, y: impl Fn(usize) -> i128) -> i128 {
    let mut numbers: [i128; NO_DIFFERENCES + 1] = std::array::from_fn(|i| if i <= order { y(i) } else { 0 });
    for taken in 0..order {
        for i in 0..order - taken {
            numbers[i] = numbers[i + 1] - numbers[i];
        }
    }
    numbers[0]
}

/// Holds the rows of an answered hull to the integrals, wherever its half-breadths are a polynomial's.
pub fn examine(call: &Call, seen: &Observation) -> Result<(), String> {
    let Call::Rows { particulars, half_breadths, .. } = call else { return Ok(()) };
    let [n, m, s, d, density] = particulars.map(i128::from);
    let highest = Surface { half_breadths, waterlines: m as usize + 1, n: n as usize, k: m as usize };
    for (k, row) in (2..=highest.k).zip(seen.wholes.chunks(ROW.len())) {
        let surface = Surface { k, ..highest };
        let Some(volume) = surface.volume() else { break };
        let displacement = SIDES * s * d * volume * density / (PARTS * CUBIC_METRE);
        let lcb = surface.longitudinal_moment().map(|moment| s * moment / volume);
        let kb = surface.vertical_moment().map(|moment| d * moment / volume);
        let [_, row_displacement, row_lcb, row_kb, ..] = *row else { return Err("half a row".to_string()) };
        let differs = |by_formula: Option<i128>, in_row: u64| by_formula.is_some_and(|it| it != i128::from(in_row));
        if differs(Some(displacement), row_displacement) || differs(lcb, row_lcb) || differs(kb, row_kb) {
            return Err(format!("row {row:?} and by formula {displacement} kg, LCB {lcb:?}, KB {kb:?}"));
        }
    }
    Ok(())
}

/// Which of them a hull by formula is.
pub fn formula(call: &Call, seen: &Observation) -> [bool; FORMULAS.len()] {
    let Call::Rows { particulars, half_breadths, .. } = call else { return Default::default() };
    let [n, m] = [particulars[0] as usize, particulars[1] as usize];
    let surface = Surface { half_breadths, waterlines: m + 1, n, k: m };
    let answered = seen.number == 0;
    let [first_along, second_along] = [2, 3].map(|order| answered && surface.is_below_along(order));
    let [first_up, second_up] = [2, 3].map(|order| answered && surface.is_below_up(order));
    let [third_along, third_up] = [answered && !second_along, answered && !second_up];
    [
        answered,
        !answered,
        third_along,
        third_up,
        third_along && third_up,
        second_along && !first_along,
        second_up && !first_up,
        third_along && third_up && n.min(m) >= NO_DIFFERENCES,
        second_along && !first_along && n > MOST_INTERVALS / 2,
    ]
}
