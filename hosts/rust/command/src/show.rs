//! `toruxeng show`: the steps of a log as words, each with its answer.

use toruxeng::Steps;

use crate::check::checked;
use crate::engine::Engine;
use crate::words::beside;
use crate::Done;

pub fn show(log: &[u8]) -> Done {
    let mut engine = Engine::default();
    let answers = engine.replay(log).lines.lines().map(str::to_string);
    let steps = Steps::of(log).map_while(Result::ok).map(|step| step.to_string());
    let shown: Vec<(String, String)> = steps.zip(answers).collect();
    Done { output: beside(&shown).into(), wrong: checked(log).fault.map(|fault| fault.to_string()) }
}
