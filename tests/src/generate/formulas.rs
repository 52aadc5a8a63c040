//! Half-breadths by formula: products of factors in station number and in waterline number, at most three of each, so
//! that a polynomial of third degree or less each way is drawn, with coefficients of either sign.

use super::random::Random;
use crate::peer::ranges::HALF_BREADTH;

/// As many as the highest degree.
const MOST_FACTORS: usize = 3;
const MOST_PRODUCTS: usize = 3;

struct Product {
    scale: i64,
    along: Factors,
    up: Factors,
}

/// Each factor is a number of 0 to the most of them, or what is left of the most, and something more.
struct Factors {
    most: i64,
    factors: Vec<Factor>,
}

struct Factor {
    backwards: bool,
    more: i64,
}

/// The half-breadths of a hull with these particulars, all within their range.
pub fn half_breadths(random: &mut Random, particulars: &[u64; 5]) -> Vec<u64> {
    let [n, m] = [particulars[0] as i64, particulars[1] as i64];
    let products = products(random, n, m);
    let y = |i, j| products.iter().map(|product| product.at(i, j)).sum::<i64>() as u64;
    (0..=n).flat_map(|i| (0..=m).map(move |j| (i, j))).map(|(i, j)| y(i, j)).collect()
}

/// Products that are together within the range of a half-breadth, one at the least.
fn products(random: &mut Random, n: i64, m: i64) -> Vec<Product> {
    let mut products = Vec::new();
    let mut left = HALF_BREADTH.greatest;
    let mut draws = random.index(MOST_PRODUCTS) + 1;
    while draws > 0 || products.is_empty() {
        let [along, up] = [n, m].map(|most| Factors::of(random, most));
        let greatest = along.greatest() * up.greatest();
        if (1..=left).contains(&greatest) {
            let scale = random.between(1, left / greatest);
            left -= scale * greatest;
            products.push(Product { scale, along, up });
        }
        draws = draws.saturating_sub(1);
    }
    products
}

impl Product {
    fn at(&self, station: i64, waterline: i64) -> i64 {
        self.scale * self.along.at(station) * self.up.at(waterline)
    }
}

impl Factors {
    fn of(random: &mut Random, most: i64) -> Factors {
        let count = random.index(MOST_FACTORS + 1);
        let factor = |_| Factor { backwards: random.one_in(2), more: random.pick(&[0, 0, 1, 2]) };
        Factors { most, factors: (0..count).map(factor).collect() }
    }

    fn at(&self, number: i64) -> i64 {
        let from_its_end = |factor: &Factor| if factor.backwards { self.most - number } else { number };
        self.factors.iter().map(|factor| from_its_end(factor) + factor.more).product()
    }

    fn greatest(&self) -> i64 {
        (0..=self.most).map(|number| self.at(number)).max().unwrap_or(0)
    }
}
