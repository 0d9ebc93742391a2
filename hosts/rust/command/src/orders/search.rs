//! Every order of the scripts' steps, depth first; each step's answer is the last line of the log so far, replayed.

use toruxeng::Kind;

use super::answer::{Answer, Number, Told};
use super::script::{Script, ScriptStep};
use crate::engine::Engine;

/// One step of an order: whose it is, and what it answered.
#[derive(Clone, Debug)]
pub struct Taken {
    pub script: usize,
    pub answer: Answer,
}

/// How far a script has come. Number 0 is no transaction's.
#[derive(Clone, Copy, Default)]
struct Lane {
    next: usize,
    number: u64,
    has_read: bool,
}

pub struct Search<'a> {
    scripts: &'a [Script],
    engine: Engine,
    log: Vec<u8>,
    lanes: Vec<Lane>,
    taken: Vec<Taken>,
}

impl<'a> Search<'a> {
    /// Does what is done before every order, and hands back its answers.
    pub fn prepared(scripts: &'a [Script]) -> Result<(Search<'a>, Vec<Taken>), String> {
        let lanes = vec![Lane::default(); scripts.len()];
        let mut search = Search { scripts, engine: Engine::default(), log: Vec::new(), lanes, taken: Vec::new() };
        for (place, script) in scripts.iter().enumerate() {
            script.before.iter().for_each(|step| search.take(place, step));
        }
        if let Some(stopped) = search.engine.replay(&search.log).stopped {
            return Err(format!("script {}: {stopped}", scripts[0].name));
        }
        let before = std::mem::take(&mut search.taken);
        Ok((search, before))
    }

    /// Visits every order, whole.
    pub fn each_order(&mut self, visit: &mut impl FnMut(&[Taken])) {
        let mut is_whole = true;
        for (place, script) in self.scripts.iter().enumerate() {
            let lane = self.lanes[place];
            let Some(step) = script.steps.get(lane.next) else { continue };
            is_whole = false;
            let length = self.log.len();
            self.lanes[place].next += 1;
            self.take(place, step);
            self.each_order(visit);
            self.taken.pop();
            self.log.truncate(length);
            self.lanes[place] = lane;
        }
        if is_whole {
            visit(&self.taken);
        }
    }

    fn take(&mut self, script: usize, step: &ScriptStep) {
        let lane = &mut self.lanes[script];
        self.log.extend(step.of_transaction(lane.number).bytes());
        let line = self.engine.replay(&self.log).last().expect("a log that begins with an open has lines");
        let answer = Answer::of(&line, lane.has_read);
        match (step.kind(), &answer.told, answer.number) {
            (Kind::Begin, _, Some(Number::Transaction(number))) => *lane = Lane { number, has_read: false, ..*lane },
            (Kind::Begin, ..) => *lane = Lane { number: 0, has_read: false, ..*lane },
            (Kind::Rows, Told::Rows(_), _) => lane.has_read = true,
            _ => {}
        }
        self.taken.push(Taken { script, answer });
    }
}
