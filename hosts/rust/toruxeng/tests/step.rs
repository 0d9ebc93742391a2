//! Steps as bytes and as words.

use toruxeng::{Fault, Kind, Log, Malformed, NoStep, Step, Steps};

/// One of each kind, with its words; the numbers differ, so that no two fields can be mixed up.
fn one_of_each() -> Vec<(Step, &'static str)> {
    vec![
        (Step::open(4, 8, 3, 1), "open 4 8 3 1"),
        (Step::begin(), "begin"),
        (Step::capture(3, 6), "capture 3 6"),
        (Step::collect(5), "collect 5"),
        (Step::rows(3, 256), "rows 3 256"),
        (Step::put(1, 2, u64::MAX, 10), "put 1 2 18446744073709551615 10"),
        (Step::erase(7, u32::MAX), "erase 7 4294967295"),
        (Step::prepare(8), "prepare 8"),
        (Step::install(9), "install 9"),
        (Step::end(10), "end 10"),
        (Step::publish(11), "publish 11"),
        (Step::validate(12), "validate 12"),
        (Step::abort(13), "abort 13"),
    ]
}

#[test]
fn every_kind_reads_back_from_its_words_and_its_bytes() {
    let steps = one_of_each();
    assert!(steps.iter().map(|(step, _)| step.kind()).eq(Kind::ALL.into_iter().filter(|&kind| kind != Kind::Bad)));
    for (step, words) in &steps {
        assert_eq!(step.to_string(), *words);
        assert_eq!(words.parse().as_ref(), Ok(step));
        assert_eq!(Steps::of(&step.bytes()).collect::<Vec<_>>(), [Ok(*step)]);
    }
    assert_eq!(Step::put(1, 2, 6, 10).bytes()[..8], [30, 0, 6, 0, 1, 0, 0, 0]);
    assert_eq!((Step::erase(7, 2).number(), Step::begin().number()), (Some(7), None));
}

#[test]
fn a_log_is_read_up_to_its_first_fault() {
    let log = Log::open(4, 8, 4, 1).begin().bytes().to_vec();
    let whole = [Step::open(4, 8, 4, 1), Step::begin()];
    let read = |tail: &[u8]| {
        let log = [&log, tail].concat();
        let mut steps = Steps::of(&log);
        assert!(steps.by_ref().take(2).eq(whole.map(Ok)));
        assert_eq!(steps.at(), 28);
        let fault = steps.next().map(|step| step.expect_err("the tail is no record"));
        assert_eq!(steps.next(), None);
        fault.map(|malformed| {
            assert_eq!(malformed.at, 28);
            malformed.fault
        })
    };
    assert_eq!(read(&[]), None);
    assert_eq!(read(&[2]), Some(Fault::Cut));
    assert_eq!(read(&[10, 0, 4, 0, 1]), Some(Fault::Cut));
    assert_eq!(read(&[1, 0, 4]), Some(Fault::NoKind { length: 1 }));
    assert_eq!(read(&[2, 0, 0, 0]), Some(Fault::UnknownKind(0)));
    assert_eq!(read(&[2, 0, 14, 0]), Some(Fault::UnknownKind(14)));
    assert_eq!(read(&[3, 0, 2, 0, 0]), Some(Fault::WrongLength { kind: Kind::Begin, length: 3 }));
    let cut = Malformed { at: 28, fault: Fault::Cut };
    assert_eq!(cut.to_string(), "the record at byte 28 is cut");
}

#[test]
fn what_is_no_step_is_refused() {
    let refused = |words: &str| words.parse::<Step>().expect_err("no step");
    for words in ["", "bad", "Begin", "opens 1 2 3 4"] {
        assert!(matches!(refused(words), NoStep::UnknownWord(_)), "{words:?}");
    }
    assert_eq!(refused("begin 1"), NoStep::WrongCount { word: "begin", expected: 0, found: 1 });
    assert_eq!(refused("capture 3").to_string(), "capture takes 2 numbers, not 1");
    for words in ["erase 1 4294967296", "collect 18446744073709551616", "collect -1", "collect 01", "collect 0x1"] {
        assert!(matches!(refused(words), NoStep::WrongNumber(_)), "{words:?}");
    }
}
