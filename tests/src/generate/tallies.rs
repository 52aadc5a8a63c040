//! Tallies and their steps: histories from an empty tally, tallies as an owner may hand them in, and unsound ones.

use super::edges::{edge, end_or_any};
use super::random::Random;
use crate::calculation::PEER;
use crate::calls::Tally;
use crate::peer::ranges::ITEM;
use crate::peer::tally::{SLOTS, SLOT_NUMBERS};
use crate::step::Step;

const MOST_STEPS: i64 = 60;
/// A long shift of a crane: one history in so many goes on for thousands of steps.
const LONG_SHIFT: i64 = 4_000;
const ONE_LONG_IN: u64 = 500;
/// Slot numbers that no tally has; the low bits of some are a slot's.
const BEYOND: [usize; 8] = [SLOTS, SLOTS, SLOTS + 1, 63, 64, 256, 1 << 32, usize::MAX];
/// Marks of a filled slot; the low bits of some are 0.
const MARKS: [i64; 8] = [1, 2, 7, -1, 256, 1 << 32, i64::MAX, i64::MIN];

/// Steps from an empty tally, each answered or refused.
pub fn history(random: &mut Random) -> Vec<Step> {
    grown(random).0
}

/// A sound tally of a history, as its owner may keep it.
pub fn sound(random: &mut Random) -> Tally {
    let (_, mut tally) = grown(random);
    disguise(random, &mut tally);
    tally
}

/// Steps over few slots, over all of them, or over the first that is empty until none is, and the tally they lead to.
fn grown(random: &mut Random) -> (Vec<Step>, Tally) {
    let few = [random.index(SLOTS), random.index(SLOTS), SLOTS - 1];
    let way = random.below(3);
    let (mut steps, mut tally) = (Vec::new(), Tally::EMPTY);
    let most = if random.one_in(ONE_LONG_IN) { LONG_SHIFT } else { MOST_STEPS };
    for _ in 0..random.between(1, most) {
        let any = random.index(SLOTS);
        let slot = match way {
            0 => random.pick(&few),
            1 => any,
            _ => (0..SLOTS).find(|&slot| !is_filled(&tally, slot)).unwrap_or(any),
        };
        let step = step(random, &tally, slot);
        // a refused step leaves the tally to the next
        let _ = step.by(&PEER, &mut tally);
        steps.push(step);
    }
    (steps, tally)
}

/// A step on this slot or now and then on one beyond: mostly one that can be taken there.
pub fn step(random: &mut Random, tally: &Tally, slot: usize) -> Step {
    let slot = if random.one_in(16) { random.pick(&BEYOND) } else { slot };
    let loads = if random.one_in(4) { random.one_in(2) } else { !is_filled(tally, slot) };
    let item = item(random);
    if loads {
        Step::Load { slot, item }
    } else if random.one_in(2) {
        Step::Discharge { slot }
    } else {
        let [_, to @ ..] = item;
        Step::Shift { slot, to }
    }
}

fn is_filled(tally: &Tally, slot: usize) -> bool {
    slot < SLOTS && tally.slots[slot * SLOT_NUMBERS] != 0
}

/// An item within its ranges, often at an end of them; now and then with a number or two at an edge.
fn item(random: &mut Random) -> [i64; 4] {
    if random.one_in(16) {
        return [0; 4];
    }
    let mut item = ITEM.map(|range| end_or_any(random, range));
    if random.one_in(8) {
        for _ in 0..random.pick(&[1, 1, 2]) {
            let i = random.index(item.len());
            item[i] = edge(random, ITEM[i], item[i]);
        }
    }
    item
}

/// A sound tally with these items, each in a slot of its own, as its owner may keep it.
pub fn stowed(random: &mut Random, items: &[i64]) -> Tally {
    let mut free: Vec<usize> = (0..SLOTS).collect();
    let mut tally = Tally::EMPTY;
    for item in items.as_chunks().0 {
        let slot = free.swap_remove(random.index(free.len()));
        (PEER.load)(&mut tally, slot, item).expect("the items are in range, and no more than there are slots");
    }
    disguise(random, &mut tally);
    tally
}

/// Other marks than 1, and something in empty slots: the tally stays as sound as it was.
fn disguise(random: &mut Random, tally: &mut Tally) {
    let [marks, rests] = [random.one_in(2), random.one_in(2)];
    for [mark, rest @ ..] in tally.slots.as_chunks_mut::<SLOT_NUMBERS>().0 {
        if *mark != 0 && marks {
            *mark = random.pick(&MARKS);
        } else if *mark == 0 && rests {
            *rest = std::array::from_fn(|i| edge(random, ITEM[i], 0));
        }
    }
}

/// Spoils one thing, or leaves it at the edge of what is sound.
pub fn damage(random: &mut Random, tally: &mut Tally) {
    match random.below(6) {
        0 => {
            let by = random.pick(&[-1, 1]);
            change_total(random, tally, |total| total.wrapping_add(by));
        }
        1 => change_total(random, tally, i64::wrapping_neg),
        2 => {
            let bit = random.pick(&[1 << 32, i64::MIN]);
            change_total(random, tally, |total| total ^ bit);
        }
        3 => {
            let mark = &mut tally.slots[random.index(SLOTS) * SLOT_NUMBERS];
            *mark = if *mark == 0 { random.pick(&MARKS) } else { 0 };
        }
        4 => damage_item(random, tally),
        _ => {
            damage_item(random, tally);
            add_up(tally);
        }
    }
}

/// One of the four totals as another number of as many bits.
fn change_total(random: &mut Random, tally: &mut Tally, change: impl Fn(i64) -> i64) {
    match tally.totals.get_mut(random.index(4)) {
        Some(total) => *total = change(*total as i64) as u64,
        None => tally.transverse = change(tally.transverse),
    }
}

/// One number of a filled slot at an edge, if there is such a slot.
fn damage_item(random: &mut Random, tally: &mut Tally) {
    let filled = |slot: &&mut [i64; SLOT_NUMBERS]| slot[0] != 0;
    let mut items: Vec<_> = tally.slots.as_chunks_mut().0.iter_mut().filter(filled).collect();
    if !items.is_empty() {
        let item = random.index(items.len());
        let i = random.index(ITEM.len());
        items[item][1 + i] = edge(random, ITEM[i], items[item][1 + i]);
    }
}

/// Makes the totals those of the filled slots, in range or not, as far as their bits go.
fn add_up(tally: &mut Tally) {
    let mut sums = [0_i64; 4];
    for &[mark, kg, x, y, z] in tally.slots.as_chunks().0 {
        if mark != 0 {
            let figures = [kg, kg.wrapping_mul(x), kg.wrapping_mul(z), kg.wrapping_mul(y)];
            sums = std::array::from_fn(|i| sums[i].wrapping_add(figures[i]));
        }
    }
    let [totals @ .., transverse] = sums;
    tally.totals = totals.map(|total| total as u64);
    tally.transverse = transverse;
}
