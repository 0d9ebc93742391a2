//! A payment terminal: taps look a scheme key up, a revocation update takes one away, and both meet.
//!
//! `tap_and_revocation abort` replays the cut log of the end with [`replay_or_abort`], for a process that must not go on then.

use toruxeng::{replay, replay_or_abort, Advice, Error, Log, Store};

/// The scheme keys of this example; a row holds one.
const KEPT_KEY: u64 = 1001;
const REVOKED_KEY: u64 = 1002;
const REVOKED_ROW: u32 = 1;

fn load(store: &Store) -> Result<(), Error> {
    let update = store.begin()?;
    update.put(0, KEPT_KEY, 0)?;
    update.put(REVOKED_ROW, REVOKED_KEY, 0)?;
    update.publish()
}

/// A tap that is over at once: the key is good where a row holds it.
fn tap(store: &Store, key: u64) -> Result<(), Error> {
    println!("tap with key {key}: accepted {}", !store.look(key)?.is_empty());
    Ok(())
}

/// A tap is under way when the revocation comes. An early return by `?` aborts whatever is live here.
fn tap_meets_revocation(store: &Store) -> Result<(), Error> {
    let tap = store.begin()?;
    let read = tap.read(REVOKED_KEY)?;
    println!("a tap reads rows {:?} for key {REVOKED_KEY}", read.rows());

    let update = store.begin()?;
    update.erase(REVOKED_ROW)?;
    let update = update.prepare()?;
    println!("the revocation is prepared; the tap's validate: {}", read.validate().expect_err("the update holds the bucket"));

    update.publish()?;
    println!("the revocation is published; the tap's validate: {:?}", read.validate()?);
    let refused = tap.prepare().expect_err("what it read is gone");
    println!("the tap's prepare: {}", refused.error);
    assert!(matches!(refused.error, Error::Refused(refusal) if refusal.advice() == Advice::BeginAnew));
    Ok(())
}

/// A log that ends in the middle of a record, as a kill may leave it.
fn replay_a_cut_log(abort_wished: bool) -> Result<(), Error> {
    let mut log = Log::open(4, 8, 4, 1);
    log.begin().put(1, 0, KEPT_KEY, 0);
    let cut = &log.bytes()[..log.bytes().len() - 3];
    let mut report = [0; 64];
    if abort_wished {
        replay_or_abort(cut, &mut report);
    }
    let stopped = replay(cut, &mut report).expect_err("the log is cut");
    println!("{stopped}; {} lines were written before", stopped.report(&report).lines().count() - 1);
    println!("restarted from it: {:?}", Store::restart(cut)?);
    Ok(())
}

fn main() -> Result<(), Error> {
    let abort_wished = std::env::args().nth(1).as_deref() == Some("abort");
    // buckets well above the keys that are used together: keys that share a bucket refuse each other
    let store = Store::open(64, 1024, 257, 1)?;
    load(&store)?;
    tap(&store, REVOKED_KEY)?;
    tap_meets_revocation(&store)?;
    tap(&store, REVOKED_KEY)?;
    tap(&store, KEPT_KEY)?;
    replay_a_cut_log(abort_wished)
}
