//! The two engines that are compared.

/// One of the two; it gives the length of the report.
#[derive(Clone, Copy, Debug, PartialEq, Eq)]
pub enum Engine {
    Proved,
    Twin,
}

impl Engine {
    pub const BOTH: [Engine; 2] = [Engine::Proved, Engine::Twin];

    pub fn of_name(name: &str) -> Option<Engine> {
        Engine::BOTH.into_iter().find(|engine| engine.name() == name)
    }

    pub fn name(self) -> &'static str {
        match self {
            Engine::Proved => "proved",
            Engine::Twin => "twin",
        }
    }

    pub fn replay(self, log: &[u8], report: &mut [u8]) -> usize {
        match self {
            Engine::Proved => toruxeng::replay(log, report).expect("the log ends well").bytes().len(),
            Engine::Twin => {
                let answer = twin::replay(log, report);
                assert_eq!(answer >> 32, 0, "the log ends well");
                answer as u32 as usize
            }
        }
    }
}
