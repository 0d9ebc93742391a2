//! Which steps stand the same way round in all orders of a set, and whether that alone tells the set.

use std::collections::BTreeMap;

use super::script::Script;
use super::search::Taken;

/// A set of steps, a bit for each; the scripts' steps are counted through, script by script.
type StepSet = u64;

/// More steps than the set has bits cannot be told apart.
pub const MOST_STEPS: usize = StepSet::BITS as usize;

/// For each step, those that come before it in every order met so far.
pub struct Fixed {
    before: Vec<StepSet>,
}

/// A step by its script and its place there.
pub type StepPlace = (usize, usize);

/// The scripts' lengths, and where each script's steps begin in the count.
#[derive(Default)]
pub struct Places {
    lengths: Vec<usize>,
    starts: Vec<usize>,
}

impl Places {
    pub fn of(scripts: &[Script]) -> Places {
        let lengths: Vec<usize> = scripts.iter().map(|script| script.steps.len()).collect();
        let starts = (0..lengths.len()).map(|script| lengths[..script].iter().sum()).collect();
        Places { lengths, starts }
    }

    pub fn lengths(&self) -> &[usize] {
        &self.lengths
    }

    pub fn steps(&self) -> usize {
        self.lengths.iter().sum()
    }

    /// The steps of an order, as they are counted through.
    pub fn in_order(&self, order: &[Taken]) -> Vec<usize> {
        let mut next = self.starts.clone();
        let step = |taken: &Taken| {
            next[taken.script] += 1;
            next[taken.script] - 1
        };
        order.iter().map(step).collect()
    }

    pub fn of_step(&self, step: usize) -> StepPlace {
        let script = self.starts.iter().rposition(|&start| start <= step).expect("the first script starts at 0");
        (script, step - self.starts[script])
    }
}

impl Fixed {
    /// Of no order yet: everything is fixed.
    pub fn of_none(places: &Places) -> Fixed {
        Fixed { before: vec![StepSet::MAX; places.steps()] }
    }

    pub fn meet(&mut self, steps: &[usize]) {
        let mut done: StepSet = 0;
        for &step in steps {
            self.before[step] &= done;
            done |= 1 << step;
        }
    }

    /// The pairs of steps of different scripts from which all others follow, in time's order.
    pub fn pairs(&self, places: &Places) -> Vec<[StepPlace; 2]> {
        let steps = 0..self.before.len();
        let all = steps.clone().flat_map(|earlier| steps.clone().map(move |later| (earlier, later)));
        let mut pairs: Vec<(usize, usize)> = all.filter(|&(earlier, later)| self.is_next(earlier, later)).collect();
        pairs.sort_by_key(|&(earlier, later)| (self.before[earlier].count_ones(), self.before[later].count_ones()));
        let places_of = |(earlier, later)| [places.of_step(earlier), places.of_step(later)];
        pairs.into_iter().map(places_of).filter(|[earlier, later]| earlier.0 != later.0).collect()
    }

    /// Is it before, with nothing fixed between the two?
    fn is_next(&self, earlier: usize, later: usize) -> bool {
        let is_before = |earlier: usize, later: usize| self.before[later] >> earlier & 1 == 1;
        is_before(earlier, later)
            && !(0..self.before.len()).any(|between| is_before(earlier, between) && is_before(between, later))
    }

    /// How many orders keep every fixed pair.
    pub fn orders(&self, places: &Places) -> u64 {
        let mut ways = vec![(vec![0; places.lengths.len()], 1)];
        for _ in 0..places.steps() {
            ways = self.one_step_on(ways, places);
        }
        ways.iter().map(|(_, ways)| ways).sum()
    }

    /// From each state (how far every script is), with the ways to it, to those one step later.
    fn one_step_on(&self, ways: Vec<(Vec<usize>, u64)>, places: &Places) -> Vec<(Vec<usize>, u64)> {
        let mut later = BTreeMap::new();
        for (state, count) in ways {
            let done = done_in(&state, places);
            for script in 0..state.len() {
                let step = places.starts[script] + state[script];
                if state[script] < places.lengths[script] && self.before[step] & !done == 0 {
                    let mut next = state.clone();
                    next[script] += 1;
                    *later.entry(next).or_insert(0) += count;
                }
            }
        }
        later.into_iter().collect()
    }
}

fn done_in(state: &[usize], places: &Places) -> StepSet {
    let steps = state.iter().zip(&places.starts).flat_map(|(&done, &start)| start..start + done);
    steps.fold(0, |set, step| set | 1 << step)
}
