//! Outcomes in few words, for the table and for the page.

use std::collections::BTreeSet;

use toruxeng::Kind;

use super::answer::{Answer, Told};
use super::fixed::StepPlace;
use super::outcome::{Outcome, Outcomes};
use super::script::{Script, ScriptStep};
use super::search::Taken;
use crate::words::{grouped, so_many};

/// What a script got: its refusals, what it read, its verdicts, and whether it published or aborted.
pub fn summary(script: &Script, told: &[Told]) -> String {
    let mut parts: Vec<String> = Vec::new();
    let mut place = 0;
    while place < told.len() {
        let alike = alike_refusals(&told[place..]);
        if alike > 0 {
            let words: Vec<&str> = script.steps[place..place + alike].iter().map(|step| step.kind().word()).collect();
            parts.push(format!("{} {}", words.join(", "), told[place]));
        } else {
            parts.extend(accepted(&script.steps[place], &told[place], told.get(place + 1)));
        }
        place += alike.max(1);
    }
    if parts.is_empty() {
        "all accepted".to_string()
    } else {
        parts.join("; ")
    }
}

/// How many answers from the first on are refusals by the same number.
fn alike_refusals(told: &[Told]) -> usize {
    match told.first() {
        Some(first @ Told::Refused(_)) => told.iter().take_while(|other| *other == first).count(),
        _ => 0,
    }
}

/// What is worth telling of an accepted step; a count of candidates only where the rows behind it do not give it.
fn accepted(step: &ScriptStep, told: &Told, next: Option<&Told>) -> Option<String> {
    match (step.kind(), told, next) {
        (_, Told::Count(count), Some(Told::Rows(rows))) if rows.len() as u64 == *count => None,
        (_, Told::Rows(_), _) => Some(format!("read {told}")),
        (Kind::Publish, ..) => Some("published".to_string()),
        (Kind::Abort, ..) => Some("aborted".to_string()),
        (_, Told::Accepted, _) => None,
        _ => Some(told.to_string()),
    }
}

/// Which orders have the outcome, as far as pairs of steps tell it.
pub fn which_orders(scripts: &[Script], outcome: &Outcome) -> String {
    let pairs = chains(&outcome.pairs, |step| named(scripts, step));
    match (outcome.pairs_tell_it, pairs.is_empty()) {
        (true, true) => "every order".to_string(),
        (true, false) => format!("exactly those with {pairs}"),
        (false, true) => "no two steps of different scripts stand the same way round in all of them".to_string(),
        (false, false) => format!("all with {pairs}; other orders have that too"),
    }
}

/// The pairs in words; where a pair begins with what the last one ended with, the two are joined.
fn chains(pairs: &[[StepPlace; 2]], named: impl Fn(StepPlace) -> String) -> String {
    let mut words = String::new();
    let mut last = None;
    for &[earlier, later] in pairs {
        if last != Some(earlier) {
            let separator = if words.is_empty() { "" } else { ", " };
            words += &format!("{separator}{}", named(earlier));
        }
        words += &format!(" before {}", named(later));
        last = Some(later);
    }
    words
}

/// A step by its script and its word, with its place among the steps of that word where there are more.
fn named(scripts: &[Script], (script, place): StepPlace) -> String {
    let Script { name, steps, .. } = &scripts[script];
    let kind = steps[place].kind();
    let same = |steps: &[ScriptStep]| steps.iter().filter(|step| step.kind() == kind).count();
    match same(steps) {
        1 => format!("{name}'s {}", kind.word()),
        _ => format!("{name}'s {} ({})", kind.word(), same(&steps[..=place])),
    }
}

/// One sentence: how many orders of what, and how many outcomes.
pub fn heading(scripts: &[Script], outcomes: &Outcomes) -> String {
    let steps = |script: &Script| so_many(script.steps.len() as u64, "step");
    let scripts: Vec<String> = scripts.iter().map(|script| format!("{} ({})", script.name, steps(script))).collect();
    let (orders, count) = (so_many(outcomes.orders, "order"), so_many(outcomes.outcomes.len() as u64, "outcome"));
    format!("{orders} of {}, each run by the engine: {count}.", scripts.join(" and "))
}

/// What demand 3 is about, counted.
pub fn overtaken_line(outcomes: &Outcomes) -> Option<String> {
    let orders = grouped(outcomes.validated_although_overtaken?);
    let what =
        "Orders in which a read that found rows was validated with verdict 0 after another script's publish behind that read";
    Some(format!("{what}: {orders}."))
}

/// Each refusal and each verdict that was met, with its meaning.
pub fn meanings(outcomes: &Outcomes) -> Vec<String> {
    let told = outcomes.outcomes.iter().flat_map(|outcome| outcome.told.iter().flatten());
    let before = outcomes.before.iter().map(|taken| &taken.answer.told);
    let met: BTreeSet<&Told> = told.chain(before).collect();
    met.into_iter().filter_map(Told::meaning).collect()
}

/// What is done before every order: each step with its script's name, and its answer.
pub fn steps_before<'a>(scripts: &'a [Script], outcomes: &'a Outcomes) -> impl Iterator<Item = (String, &'a Answer)> {
    let steps = scripts.iter().flat_map(|script| script.before.iter().map(|step| format!("{}: {step}", script.name)));
    steps.zip(outcomes.before.iter().map(|taken| &taken.answer))
}

/// The steps of an order in time's order, each with its answer.
pub fn steps_taken<'a>(scripts: &'a [Script], order: &'a [Taken]) -> impl Iterator<Item = (&'a ScriptStep, &'a Taken)> {
    let mut rests: Vec<_> = scripts.iter().map(|script| script.steps.iter()).collect();
    order.iter().filter_map(move |taken| Some((rests[taken.script].next()?, taken)))
}
