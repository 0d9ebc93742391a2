//! The worked example of document 01, for several tests.

use toruxeng::Log;

pub fn worked_example() -> Log {
    let mut log = Log::open(4, 8, 4, 1);
    log.begin().put(1, 2, 6, 10).prepare(1).install(1).end(1).publish(1);
    log.begin().capture(3, 6).collect(3).rows(3, 4);
    log.begin().put(4, 0, 2, 7).prepare(4).validate(3).install(4).end(4).publish(4);
    log.validate(3).prepare(3);
    log
}
