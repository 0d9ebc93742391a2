//! The orders by what they answered.

use std::cmp::Reverse;
use std::collections::HashMap;

use super::answer::Told;
use super::count::counted;
use super::fixed::{Fixed, Places, StepPlace};
use super::overtaken;
use super::script::Script;
use super::search::{Search, Taken};
use crate::words::grouped;

/// So many orders of an outcome are kept to be looked at.
const MOST_KEPT: usize = 200;
const ORDERS_BETWEEN_WORDS: u64 = 250_000;

/// What every order of the scripts gave.
pub struct Outcomes {
    /// The answers of what is done before.
    pub before: Vec<Taken>,
    pub orders: u64,
    /// The most frequent first.
    pub outcomes: Vec<Outcome>,
    /// In how many orders a read that found rows was validated with verdict 0 after another script's publish behind it;
    /// nothing where the scripts cannot come to that.
    pub validated_although_overtaken: Option<u64>,
}

/// One way in which the scripts can be answered.
pub struct Outcome {
    /// What each script's steps were told, script by script.
    pub told: Vec<Vec<Told>>,
    pub orders: u64,
    /// The order that changes from one script to another least often, the first of these.
    pub example: Vec<Taken>,
    /// The first orders of the outcome.
    pub kept: Vec<Vec<Taken>>,
    /// In every order of the outcome the first of each pair is before the second.
    pub pairs: Vec<[StepPlace; 2]>,
    /// Do all orders with these pairs have this outcome?
    pub pairs_tell_it: bool,
}

/// Runs every order; `say` hears how far it is.
pub fn run(scripts: &[Script], say: &mut dyn FnMut(&str)) -> Result<Outcomes, String> {
    let places = Places::of(scripts);
    let total = counted(&places)?;
    let (mut search, before) = Search::prepared(scripts)?;
    let mut sorter = Sorter { scripts, places, ..Sorter::default() };
    search.each_order(&mut |order| {
        sorter.add(order);
        if sorter.orders % ORDERS_BETWEEN_WORDS == 0 {
            say(&format!("{} of {} orders", grouped(sorter.orders), grouped(total)));
        }
    });
    Ok(sorter.done(before))
}

/// Sorts orders as they come by what they were told.
#[derive(Default)]
struct Sorter<'a> {
    scripts: &'a [Script],
    places: Places,
    orders: u64,
    overtaken: u64,
    /// In order of their first.
    groups: Vec<Group>,
    group_of: HashMap<Vec<Told>, usize>,
}

/// An outcome while its orders are still coming.
struct Group {
    orders: u64,
    example: Vec<Taken>,
    kept: Vec<Vec<Taken>>,
    fixed: Fixed,
}

impl Sorter<'_> {
    fn add(&mut self, order: &[Taken]) {
        self.orders += 1;
        self.overtaken += u64::from(overtaken::validated_although_overtaken(self.scripts, order));
        let steps = self.places.in_order(order);
        let group = *self.group_of.entry(told_by_script(order, &steps)).or_insert_with(|| {
            self.groups.push(Group::begun(order, &self.places));
            self.groups.len() - 1
        });
        self.groups[group].add(order, &steps);
    }

    fn done(mut self, before: Vec<Taken>) -> Outcomes {
        let mut told = vec![Vec::new(); self.groups.len()];
        self.group_of.drain().for_each(|(key, group)| told[group] = key);
        let groups = self.groups.into_iter().zip(told);
        let mut outcomes: Vec<Outcome> = groups.map(|(group, told)| group.done(told, self.scripts, &self.places)).collect();
        outcomes.sort_by_key(|outcome| Reverse(outcome.orders));
        let validated_although_overtaken = overtaken::is_possible(self.scripts).then_some(self.overtaken);
        Outcomes { before, orders: self.orders, outcomes, validated_although_overtaken }
    }
}

/// What the steps were told, in the scripts' order and not in time's.
fn told_by_script(order: &[Taken], steps: &[usize]) -> Vec<Told> {
    let mut told = vec![Told::Accepted; order.len()];
    steps.iter().zip(order).for_each(|(&step, taken)| told[step] = taken.answer.told.clone());
    told
}

/// How often the order goes from one script to another.
fn changes(order: &[Taken]) -> usize {
    order.windows(2).filter(|pair| pair[0].script != pair[1].script).count()
}

impl Group {
    fn begun(first: &[Taken], places: &Places) -> Group {
        Group { orders: 0, example: first.to_vec(), kept: Vec::new(), fixed: Fixed::of_none(places) }
    }

    fn add(&mut self, order: &[Taken], steps: &[usize]) {
        self.orders += 1;
        self.fixed.meet(steps);
        if changes(order) < changes(&self.example) {
            self.example = order.to_vec();
        }
        if self.kept.len() < MOST_KEPT {
            self.kept.push(order.to_vec());
        }
    }

    fn done(self, told: Vec<Told>, scripts: &[Script], places: &Places) -> Outcome {
        let mut rest = told.into_iter();
        Outcome {
            told: scripts.iter().map(|script| rest.by_ref().take(script.steps.len()).collect()).collect(),
            orders: self.orders,
            pairs: self.fixed.pairs(places),
            pairs_tell_it: self.fixed.orders(places) == self.orders,
            example: self.example,
            kept: self.kept,
        }
    }
}
