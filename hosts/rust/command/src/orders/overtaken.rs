//! Reads that others overtake: what demand 3 (docs/PROMISES.md) is about.

use toruxeng::Kind;

use super::answer::Told;
use super::script::Script;
use super::search::Taken;
use super::summary::steps_taken;

/// How a script's present transaction stands to the others' publishes.
#[derive(Clone, Copy, Default, PartialEq)]
enum Read {
    #[default]
    Nothing,
    /// A read found rows.
    Found,
    /// It did, and another script published after it.
    Overtaken,
}

/// Could it happen at all: a script reads and validates, and another publishes?
pub fn is_possible(scripts: &[Script]) -> bool {
    let has = |script: &Script, kind: Kind| script.steps.iter().any(|step| step.kind() == kind);
    let reads = |script: &Script| has(script, Kind::Rows) && has(script, Kind::Validate);
    let publishes = |other: usize| scripts.iter().enumerate().any(|(place, script)| place != other && has(script, Kind::Publish));
    scripts.iter().enumerate().any(|(place, script)| reads(script) && publishes(place))
}

/// Did a transaction validate with verdict 0 after another script's publish that came after its read of some rows?
pub fn validated_although_overtaken(scripts: &[Script], order: &[Taken]) -> bool {
    let mut reads = vec![Read::default(); scripts.len()];
    for (step, Taken { script, answer }) in steps_taken(scripts, order) {
        match (step.kind(), &answer.told) {
            (Kind::Begin, _) => reads[*script] = Read::Nothing,
            (Kind::Rows, Told::Rows(rows)) if !rows.is_empty() && reads[*script] == Read::Nothing => reads[*script] = Read::Found,
            (Kind::Publish, Told::Accepted) => overtake(&mut reads, *script),
            (Kind::Validate, Told::Verdict(0)) if reads[*script] == Read::Overtaken => return true,
            _ => {}
        }
    }
    false
}

fn overtake(reads: &mut [Read], publisher: usize) {
    let others = reads.iter_mut().enumerate().filter(|(script, read)| *script != publisher && **read == Read::Found);
    others.for_each(|(_, read)| *read = Read::Overtaken);
}
