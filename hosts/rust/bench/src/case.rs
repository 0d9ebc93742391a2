//! A log with room for its report.

use std::ops::Range;
use std::time::Duration;

use generator::Stretch;

use crate::engine::Engine;
use crate::processor_time;

pub struct Case {
    pub log: Vec<u8>,
    pub report: Vec<u8>,
    /// The steps that count, and where they begin in the log.
    pub steps: usize,
    from: usize,
}

impl Case {
    /// Of a log whose steps all count.
    pub fn of_log(log: Vec<u8>) -> Case {
        Case::of_stretch(Stretch { log, from: 0 })
    }

    /// The report is there as well, and both engines write the same.
    pub fn of_stretch(Stretch { log, from }: Stretch) -> Case {
        let (_, expected) = twin::whole_report(&log);
        let mut report = vec![0; expected.len()];
        Engine::Proved.replay(&log, &mut report);
        assert!(report == expected, "the two differ; `make soak` finds where");
        let before = Engine::Proved.replay(&log[..from], &mut report.clone());
        let steps = report[before..].iter().filter(|&&byte| byte == b'\n').count();
        Case { log, report, steps, from }
    }

    /// The bytes of the steps that count.
    pub fn counted(&self) -> Range<usize> {
        self.from..self.log.len()
    }

    /// Of the steps that count: what the whole log takes more than those before them.
    pub fn time(&mut self, engine: Engine) -> Duration {
        let whole = self.time_to(self.log.len(), engine);
        match self.from {
            0 => whole,
            from => whole.saturating_sub(self.time_to(from, engine)),
        }
    }

    fn time_to(&mut self, end: usize, engine: Engine) -> Duration {
        self.report.fill(0);
        let start = processor_time::now();
        engine.replay(&self.log[..end], &mut self.report);
        processor_time::now() - start
    }

    /// Of a time that the steps that count took.
    pub fn nanoseconds_of_a_step(&self, time: Duration) -> f64 {
        time.as_nanos() as f64 / self.steps as f64
    }
}
