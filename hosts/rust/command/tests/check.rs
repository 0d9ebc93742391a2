//! `check` and the engine agree on every log: what is malformed, at which record, and which open is refused.

use command::check::{checked, Why};
use command::engine::Engine;
use generator::{log, Family, Random};
use toruxeng::Status;

const LOGS_OF_A_FAMILY: u64 = 1_000;
const MOST_STEPS: u64 = 60;

/// The status that a replay would end with, after comparing where.
fn status_agreed_on(engine: &mut Engine, log: &[u8]) -> Option<Status> {
    let replayed = engine.replay(log);
    let fault = checked(log).fault;
    let said = fault.as_ref().map(|fault| match fault.why {
        Why::OpenRefused => Status::OpenRefused,
        Why::NoStep(_) | Why::Misplaced { .. } => Status::LogMalformed,
    });
    assert_eq!(said, replayed.stopped.map(|stopped| stopped.status), "log {log:02x?}");
    if let Some(fault) = fault {
        assert_eq!(fault.record, replayed.lines.lines().count() as u64, "log {log:02x?}");
    }
    said
}

#[test]
fn on_every_vector() {
    let mut engine = Engine::default();
    let vectors = vectors::all();
    let statuses: Vec<Option<Status>> = vectors.iter().map(|vector| status_agreed_on(&mut engine, &vector.log)).collect();
    for status in [None, Some(Status::OpenRefused), Some(Status::LogMalformed)] {
        assert!(statuses.contains(&status), "no vector ends with {status:?}");
    }
    for (vector, status) in vectors.iter().zip(statuses) {
        // a vector with a short room ends with 10 instead
        let given = status.map_or(0, |status| u64::from(status.number()));
        assert!(vector.status == given || vector.status == u64::from(Status::ReportFull.number()), "{}", vector.name);
    }
}

#[test]
fn on_logs_of_every_family() {
    let mut engine = Engine::default();
    let mut random = Random::of_seed(1);
    for family in Family::ALL {
        let mut malformed = 0;
        for _ in 0..LOGS_OF_A_FAMILY {
            let steps = random.from_to(1, MOST_STEPS);
            let log = log(family, steps, &mut random);
            malformed += u64::from(status_agreed_on(&mut engine, &log) == Some(Status::LogMalformed));
        }
        let is_damaged = matches!(family, Family::Damaged | Family::Noise);
        assert_eq!(malformed > LOGS_OF_A_FAMILY / 4, is_damaged, "{family:?}: {malformed} malformed");
    }
}

#[test]
fn on_every_cut_of_a_log() {
    let mut engine = Engine::default();
    let log = log(Family::Mixed, 12, &mut Random::of_seed(1));
    for end in 0..log.len() {
        status_agreed_on(&mut engine, &log[..end]);
    }
}
