//! `toruxeng replay`: the report of a log.

use crate::engine::Engine;
use crate::Done;

pub fn replay(log: &[u8]) -> Done {
    let mut engine = Engine::default();
    let replayed = engine.replay(log);
    Done { output: replayed.lines.into(), wrong: replayed.stopped.map(|stopped| stopped.to_string()) }
}
