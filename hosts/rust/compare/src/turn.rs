//! The transactions of a run once more, one after another.

use std::collections::BTreeMap;

use generator::append_record;
use twin::Step;

use crate::run::Run;

/// What they do in turn, over a store that is opened as the run's was.
pub struct Turn {
    pub steps: Vec<Step>,
    /// Of each step, which one of the run it is; of a publish none, since the run may not have come to it.
    pub origins: Vec<Option<usize>>,
    /// The clock behind the last step.
    pub clock: u64,
}

impl Turn {
    /// The transactions of these numbers, in this order: of each its accepted steps but its publish, and then a publish.
    pub fn of(run: &Run, order: &[u64]) -> Turn {
        let places = places(run);
        let mut turn = Turn { steps: vec![run.steps[0]], origins: vec![Some(0)], clock: run.clock };
        for original in order {
            turn.add(run, places.get(original).map_or(&[], Vec::as_slice));
        }
        turn
    }

    /// One more transaction; its begin and its publish move the clock by one each.
    fn add(&mut self, run: &Run, places: &[usize]) {
        let number = self.clock;
        self.steps.extend(places.iter().map(|&place| run.steps[place].with_number(number)));
        self.origins.extend(places.iter().copied().map(Some));
        self.steps.push(Step::Publish { number });
        self.origins.push(None);
        self.clock += 2;
    }
}

/// Where the accepted steps of each transaction are, without its publish.
fn places(run: &Run) -> BTreeMap<u64, Vec<usize>> {
    let mut places: BTreeMap<u64, Vec<usize>> = BTreeMap::new();
    for (place, step, number) in run.accepted() {
        if !matches!(step, Step::Publish { .. }) {
            places.entry(number).or_default().push(place);
        }
    }
    places
}

/// The log of such steps.
pub fn log_of(steps: &[Step]) -> Vec<u8> {
    let mut log = Vec::new();
    steps.iter().for_each(|step| append_record(&mut log, step));
    log
}
