//! Integrals worked by hand, and hulls of a degree too high.

use super::formulas::integral;
use crate::peer;

/// y = 25·i·(8 − i)·(j + 2).
fn parabolic(i: usize, j: usize) -> i128 {
    let [i, j] = [i as i128, j as i128];
    25 * i * (8 - i) * (j + 2)
}

fn power(base: usize, exponent: u32) -> i128 {
    (base as i128).pow(exponent)
}

#[test]
fn integrals_by_hand() {
    assert_eq!(integral(4, 5, |_, _| 3), Some(576 * 60));
    assert_eq!(integral(8, 4, parabolic), Some(19_660_800));
    assert_eq!(integral(8, 4, |i, j| parabolic(i, j) * i as i128), Some(4 * 19_660_800));
    assert_eq!(integral(8, 4, |i, j| parabolic(i, j) * j as i128), Some(45_875_200));
    assert_eq!(integral(80, 20, |i, j| power(i, 3) * power(j, 3)), Some(36 * power(80, 4) * power(20, 4)));
}

#[test]
fn fourth_degree_has_none() {
    assert_eq!(integral(5, 5, |i, _| power(i, 4)), None);
    assert_eq!(integral(5, 5, |_, j| power(j, 4)), None);
    assert_eq!(integral(4, 4, |i, j| power(i, 4) * power(j, 3)), None);
}

/// Three numbers or four are always a polynomial's, the one that the rules take them for.
#[test]
fn few_intervals_have_one() {
    let uneven = |i: usize, j: usize| [[0, 7, 2, 9], [1, 0, 5, 5], [8, 8, 0, 3], [4, 1, 1, 6]][i][j];
    let first = [8, 32, 8];
    let second = [9, 27, 27, 9];
    let sum = |n: usize, k: usize, u: &[i128], v: &[i128]| -> i128 {
        (0..=n).flat_map(|i| (0..=k).map(move |j| (i, j))).map(|(i, j)| u[i] * v[j] * uneven(i, j)).sum()
    };
    assert_eq!(integral(2, 2, uneven), Some(sum(2, 2, &first, &first)));
    assert_eq!(integral(3, 2, uneven), Some(sum(3, 2, &second, &first)));
    assert_eq!(integral(3, 3, uneven), Some(sum(3, 3, &second, &second)));
}

/// Five intervals of 2,500 mm by five of 500 mm, y = i⁴: 3,125 of them are 7,812.5 kg of fresh water, both sides.
#[test]
fn fourth_degree_is_missed() {
    let half_breadths: Vec<u64> = (0..36).map(|place| power(place / 6, 4) as u64).collect();
    let mut rows = [0; 28];
    assert_eq!(peer::rows(&half_breadths, &[5, 5, 2_500, 500, 1_000], &mut rows), Ok(4));
    assert_eq!(rows[22], 7_827);
}
