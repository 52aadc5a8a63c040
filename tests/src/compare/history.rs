//! A history of a tally's steps as calls, with what the list of what is aboard makes of each.

use super::observation::Observation;
use crate::generate::Call;
use crate::peer::History;
use crate::step::Step;

/// Each step as a call on the tally that the list has before it, which the library must have left if it agreed so far.
pub fn calls(steps: &[Step]) -> Vec<(Call, Observation)> {
    let mut list = History::default();
    let mut calls = Vec::with_capacity(steps.len());
    for &step in steps {
        let call = Call::Step { tally: Box::new(list.tally()), step };
        let seen = Observation::before(&call).by_list(&mut list, &step);
        calls.push((call, seen));
    }
    calls
}
