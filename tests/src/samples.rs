//! Files with a name: the paper's sample, the smallest that gives a condition, the largest, and one of forty intervals of
//! length, which is the largest's hull with half as many. Beside them the largest hopper tank and inclining test,
//! and a large profile.

#[cfg(test)]
use crate::calls::Reading;
use crate::hopper::Hopper;
use crate::inclining::Inclining;
use crate::peer::ranges::{ANGLES, LONGEST_HULL, MOST_INTERVALS, MOST_ITEMS, MOST_SHIFTS};
use crate::peer::ranges::{MOST_TANKS, MOST_WATERLINES, MOST_WIDTHS};
use crate::vessel::Vessel;

pub const NAMES: [&str; 4] = ["smallest", "sample", "forty", "largest"];

/// The text of the file that has this name.
pub fn file(name: &str) -> Option<String> {
    match name {
        "smallest" => Some(SMALLEST_FILE.to_string()),
        "sample" => Some(SAMPLE_FILE.to_string()),
        "forty" => Some(laden_ship(40)),
        "largest" => Some(laden_ship(MOST_INTERVALS)),
        _ => None,
    }
}

/// The file of the paper's trial figures.
pub const SAMPLE_FILE: &str = "\
5
4 4 2500 500 1000
25
2000 2000 2000 2000 2000
2000 2000 2000 2000 2000
2000 2000 2000 2000 2000
2000 2000 2000 2000 2000
2000 2000 2000 2000 2000
1
45000 5000 0 1000
1
5000 8000 5000 400 300 2000 2000 1000
";

/// The sheet of the paper's file: its rows, and its condition by a reading.
#[cfg(test)]
pub fn sample_sheet(reading: Reading) -> String {
    let [km, gm] = match reading {
        Reading::Lesser => [1638, 681],
        Reading::StraightLine => [1735, 778],
    };
    format!(
        "\
R 1000 40000 5000 500 1333 1833 40000000
R 1500 60000 5000 750 888 1638 40000000
R 2000 80000 5000 1000 666 1666 40000000
C 50000 1250 {km} 5000 46500000 1333334 {gm} 2000000 heeled 1
"
    )
}

/// Two intervals of length, three of draft, one item, and no number longer than it must be.
const SMALLEST_FILE: &str = "5 2 3 99 300 900 12 9 9 9 9 9 9 9 9 9 9 9 9 1 1 0 0 0 0";

const WATERLINES: i64 = MOST_WATERLINES as i64;
const ITEMS: i64 = MOST_ITEMS as i64;
const TANKS: i64 = MOST_TANKS as i64;

/// A ship's lines over the longest hull in so many intervals, with as many of draft, items and tanks as a file may have.
fn laden_ship(intervals: usize) -> String {
    let n = intervals as i64;
    let mut text = String::from("5\n");
    line(&mut text, [n, WATERLINES - 1, LONGEST_HULL as i64 / n, 500, 1_025]);
    line(&mut text, [(n + 1) * WATERLINES]);
    for station in 0..=n {
        line(&mut text, (0..WATERLINES).map(|waterline| half_breadth(n, station, waterline)));
    }
    line(&mut text, [ITEMS]);
    for item in 0..ITEMS {
        line(&mut text, [200_000 - 1_000 * item, 3_000 * item + 1_500, sideways(item), 2_000 + 100 * item]);
    }
    line(&mut text, [TANKS]);
    for tank in 0..TANKS {
        let contents = 150_000 + 5_000 * tank;
        line(&mut text, [contents, 250_000, 6_000 * tank + 2_500, sideways(tank), 1_250, 5_500, 6_250, 1_010]);
    }
    text
}

/// Fuller amidships and towards the deck, four digits everywhere.
fn half_breadth(n: i64, station: i64, waterline: i64) -> i64 {
    let from_the_middle = 2 * station - n;
    let along = n * n - from_the_middle * from_the_middle;
    let up = 400 - (WATERLINES - 1 - waterline) * (WATERLINES - 1 - waterline);
    1_000 + 6_875 * along / (n * n) * (200 + up) / 600
}

/// Port and starboard in turn.
fn sideways(number: i64) -> i64 {
    let distance = 1_500 + 125 * number;
    if number % 2 == 0 {
        distance
    } else {
        -distance
    }
}

/// As many widths as may be, curved, and further out to starboard.
pub fn largest_hopper() -> Hopper {
    let widths = |widest: u64| (1..=MOST_WIDTHS as u64).map(|i| widest - 900 / i).collect();
    Hopper { port: widths(1_000), starboard: widths(1_475), interval: 875, density: 1_025 }
}

/// As many shifts and items as may be: four weights in turn, and a light ship of about 9,000 t.
pub fn largest_inclining() -> Inclining {
    let shift = |i: u64| [19_000 + 250 * (i % 4), 15_000 - 100 * i, 61 + i % 2];
    let item = |kg: i64| move |i: i64| [kg - 100 * i, 3_000 * i + 1_500, sideways(i), 4_000 + 500 * i];
    Inclining {
        test: [9_250_000, 8_750, 1_250_000_000, 4_500],
        shifts: (0..MOST_SHIFTS as u64).flat_map(shift).collect(),
        off: (0..ITEMS).flat_map(item(12_500)).collect(),
        on: (0..ITEMS).flat_map(item(5_750)).collect(),
    }
}

/// Five digits for most of KN, KM and KG, and the peak beyond 30 degrees, so that its sum goes as far as may be.
pub fn largest_vessel() -> Vessel {
    let last = ANGLES as u64 - 1;
    let kn = (0..=last).map(|i| 19_000 * i * (2 * last - i) / (last * last)).collect();
    Vessel { kn, km: 19_250, kg: 18_000 }
}

fn line(text: &mut String, numbers: impl IntoIterator<Item = i64>) {
    let words: Vec<String> = numbers.into_iter().map(|number| number.to_string()).collect();
    text.push_str(&words.join(" "));
    text.push('\n');
}
