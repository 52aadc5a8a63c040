//! The request's rules for a tally over the own calculation, handed in and as a list.

use super::{condition, condition_aboard, History};
use crate::calculation::PEER;
use crate::calls::{Reading, Refusal, Tally};
use crate::step::Step;

const LOAD: Step = Step::Load { slot: 3, item: [2_000, 5_000, -100, 900] };
const SHIFT: Step = Step::Shift { slot: 3, to: [6_000, 200, 800] };
const DISCHARGE: Step = Step::Discharge { slot: 3 };
const LOADED: [i64; 5] = [1, 2_000, 5_000, -100, 900];

/// Takes a step both ways, from what the steps before it lead to.
fn take_after(before: &[Step], step: Step) -> (Result<(), Refusal>, Tally) {
    let (mut tally, mut history) = (Tally::EMPTY, History::default());
    for step in before {
        assert_eq!((step.by(&PEER, &mut tally), history.take(step)), (Ok(()), Ok(())));
    }
    let answer = step.by(&PEER, &mut tally);
    assert_eq!((answer, tally), (history.take(&step), history.tally()));
    (answer, tally)
}

fn refused(number: u64, place: usize) -> Result<(), Refusal> {
    Err(Refusal { number, place })
}

fn refusal_after(before: &[Step], step: Step) -> Result<(), Refusal> {
    take_after(before, step).0
}

/// A tally with the load in slot 3, something in slot 4, which is empty, and another mark than 1.
fn handed_in() -> Tally {
    let mut tally = take_after(&[], LOAD).1;
    tally.slots[15] = 7;
    tally.slots[21..25].copy_from_slice(&[-1, i64::MAX, i64::MIN, 9]);
    tally
}

#[test]
fn totals_are_of_what_is_aboard() {
    let (_, tally) = take_after(&[], LOAD);
    assert_eq!(
        (&tally.slots[15..20], tally.totals, tally.transverse),
        (&LOADED[..], [2_000, 10_000_000, 1_800_000], -200_000)
    );
    let (_, tally) = take_after(&[LOAD], SHIFT);
    assert_eq!((tally.totals, tally.transverse), ([2_000, 12_000_000, 1_600_000], 400_000));
    assert_eq!(take_after(&[LOAD, SHIFT], DISCHARGE), (Ok(()), Tally::EMPTY));
    assert_eq!(refusal_after(&[LOAD, SHIFT, DISCHARGE], LOAD), Ok(()));
}

#[test]
fn refusals_in_their_order() {
    assert_eq!(refusal_after(&[LOAD], LOAD), refused(16, 3));
    assert_eq!(refusal_after(&[], DISCHARGE), refused(17, 3));
    assert_eq!(refusal_after(&[LOAD, DISCHARGE], SHIFT), refused(17, 3));
    assert_eq!(refusal_after(&[LOAD], Step::Discharge { slot: 32 }), refused(15, 32));
    assert_eq!(refusal_after(&[LOAD], Step::Load { slot: 32, item: [0, 0, 10_001, -1] }), refused(4, 2));
    assert_eq!(refusal_after(&[LOAD], Step::Load { slot: 3, item: [300_001, 0, 0, 0] }), refused(4, 0));
    assert_eq!(refusal_after(&[], Step::Shift { slot: 3, to: [100_001, 0, 0] }), refused(4, 1));
    assert_eq!(refusal_after(&[], Step::Shift { slot: usize::MAX, to: [0, 0, 30_001] }), refused(4, 3));
    assert_eq!(refusal_after(&[], Step::Shift { slot: usize::MAX, to: [0, 0, 30_000] }), refused(15, usize::MAX));
}

#[test]
fn answered_step_marks_by_one_and_keeps_the_rest() {
    let mut tally = handed_in();
    assert_eq!(Step::Load { slot: 0, item: [0; 4] }.by(&PEER, &mut tally), Ok(()));
    let mut after = handed_in();
    after.slots[0] = 1;
    after.slots[15] = 1;
    assert_eq!(tally, after);
}

#[test]
fn unsound_tally_is_refused_before_all_else() {
    let unsound: [fn(&mut Tally); 8] = [
        |tally| tally.totals[0] += 1,
        |tally| tally.totals[1] -= 1,
        |tally| tally.totals[2] ^= 1 << 63,
        |tally| tally.transverse = -tally.transverse,
        |tally| tally.slots[15] = 0,
        |tally| tally.slots[20] = 1,
        |tally| tally.slots[16] = i64::MIN,
        // an item that brings nothing to any total, but stands too far forward
        |tally| tally.slots[..2].copy_from_slice(&[1, 0]),
    ];
    for (i, damage) in unsound.into_iter().enumerate() {
        let mut tally = handed_in();
        tally.slots[2] = 100_001;
        damage(&mut tally);
        let before = tally;
        for step in [Step::Load { slot: 32, item: [-1; 4] }, DISCHARGE, SHIFT] {
            assert_eq!((i, step.by(&PEER, &mut tally)), (i, refused(22, 0)));
        }
        assert_eq!(condition_aboard(&tally, &[0], &[]), Err(Refusal { number: 22, place: 0 }));
        assert_eq!(tally, before);
    }
}

#[test]
fn condition_aboard_is_the_condition_of_its_items() {
    let rows = [600, 1_000, 9_000, 250, 1_750, 2_000, 1, 900, 4_000, 9_000, 400, 2_600, 3_000, 1];
    let tanks = [500, 800, 9_000, 0, 500, 400, 200, 1_000];
    let answer = condition_aboard(&handed_in(), &tanks, &rows);
    assert_eq!(answer, condition(Reading::Lesser, &LOADED[1..], &tanks, &rows));
    assert_eq!(answer.map(|condition| condition.weight), Ok(2_500));
    assert_eq!(condition_aboard(&Tally::EMPTY, &[], &rows), Err(Refusal { number: 11, place: 0 }));
}
