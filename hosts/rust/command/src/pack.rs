//! `toruxeng pack`: steps as words into the bytes of a log.

use toruxeng::Step;

use crate::words::{lines, text};
use crate::Done;

pub fn pack(words: &[u8]) -> Done {
    match packed(words) {
        Ok(output) => Done { output, wrong: None },
        Err(wrong) => Done { output: Vec::new(), wrong: Some(wrong) },
    }
}

fn packed(words: &[u8]) -> Result<Vec<u8>, String> {
    let mut log = Vec::new();
    for (number, line) in lines(text(words)?) {
        let step: Step = line.parse().map_err(|no_step| format!("line {number}: {no_step}"))?;
        log.extend(step.bytes());
    }
    Ok(log)
}
