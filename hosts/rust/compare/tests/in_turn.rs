//! Transactions in turn do what they did in the run; and the comparison fails where order, rows or reads are taken wrongly.

use compare::in_turn::{check, in_order, replayed, same, Apart, Counts};
use compare::read_back::{reading, same_keys};
use compare::{log_of, Look, Run, Turn};
use engine::Driver;
use generator::Random;
use twin::limits::{PENDING_WRITES, READ_RECORDS, ROWS};
use twin::{Content, Step, Store};

/// The numbers that the transactions of these logs begin with, in their order.
const LOADER: u64 = 5;
const EARLY: u64 = 7;
const LATE: u64 = 8;

const LOADED: Content = Content { key: 1, payload: 10 };

fn open(rows: u32, clock: u64) -> Step {
    Step::Open { rows, versions: 200, buckets: 8, clock }
}

fn put(number: u64, row: u32, key: u64, payload: u64) -> Step {
    Step::Put { number, row, key, payload }
}

fn read(number: u64, key: u64) -> [Step; 3] {
    [Step::Capture { number, key }, Step::Collect { number }, Step::Rows { number, room: ROWS }]
}

fn to_end(number: u64) -> [Step; 3] {
    [Step::Prepare { number }, Step::Install { number }, Step::End { number }]
}

fn commit(number: u64) -> Vec<Step> {
    [&to_end(number)[..], &[Step::Publish { number }]].concat()
}

/// A store with row 0 loaded, and then these steps.
fn loaded(steps: &[&[Step]]) -> Vec<Step> {
    let loader = [open(4, LOADER), Step::Begin, put(LOADER, 0, LOADED.key, LOADED.payload)];
    [&loader[..], &commit(LOADER), &steps.concat()].concat()
}

/// The late one begins behind the early one and ends before it.
fn overtaken(early: Step, late: &[Step]) -> Vec<Step> {
    loaded(&[&[Step::Begin, Step::Begin, early], late, &commit(LATE), &commit(EARLY)])
}

/// The early one reads what it wrote itself, while the late one writes the same row and ends first.
fn own_read() -> Vec<Step> {
    let early = [&[put(EARLY, 0, 1, 20)][..], &read(EARLY, 1)].concat();
    loaded(&[&[Step::Begin, Step::Begin], &early, &[put(LATE, 0, 1, 30)], &commit(LATE), &commit(EARLY)])
}

fn run_of(driver: &mut Driver, steps: &[Step], look: Look) -> Run {
    let (status, lines) = replayed(driver, &log_of(steps)).expect("engine and twin agree");
    assert_eq!(status, 0);
    Run::of(steps.to_vec(), lines, look).expect("it opens a store")
}

fn checked(steps: &[Step]) -> Option<Counts> {
    check(&mut Driver::start(), &log_of(steps), &mut Random::of_seed(1)).unwrap_or_else(|found| panic!("{found}"))
}

/// The comparison of the run with its transactions in this order.
fn compared(run: &Run, order: &[u64]) -> Result<Counts, Apart> {
    in_order(&mut Driver::start(), run, order, &mut Random::of_seed(1))
}

/// The comparison in the order of the numbers, where that of the ends finds nothing.
fn apart_by_number(steps: &[Step]) -> Apart {
    let run = run_of(&mut Driver::start(), steps, Store::shown);
    assert_eq!(run.ended(), [LOADER, LATE, EARLY]);
    compared(&run, &run.ended()).unwrap_or_else(|apart| panic!("{apart}"));
    compared(&run, &[LOADER, EARLY, LATE]).expect_err("the order matters")
}

#[test]
fn those_that_overtake_come_first() {
    let late = [&read(LATE, 1)[..], &[put(LATE, 1, 2, 21)]].concat();
    let counts = checked(&overtaken(put(EARLY, 0, 1, 20), &late));
    let expected = Counts { transactions: 3, out_of_order: 1, reads: 1, rows: 1, own_reads: 0, keys: 2, refused_keys: 0 };
    assert_eq!(counts, Some(expected));
}

#[test]
fn the_turn_has_what_was_accepted_of_those_that_ended() {
    let (given_up, ended) = (EARLY, LATE);
    let work = [
        Step::Begin,
        Step::Begin,
        put(given_up, 1, 1, 7),
        put(ended, 4, 1, 8), // there is no row 4
        Step::Erase { number: ended, row: 0 },
        Step::Abort { number: given_up },
        Step::Validate { number: ended },
    ];
    let left_open = [Step::Begin, put(LATE + 1, 2, 2, 9)];
    let run = run_of(&mut Driver::start(), &loaded(&[&work, &to_end(ended), &left_open]), Store::shown);
    let turn = Turn::of(&run, &run.ended());
    // the loader's begin and publish move the clock to 7
    let number = 7;
    let expected = [Step::Begin, Step::Erase { number, row: 0 }, Step::Validate { number }];
    assert_eq!(turn.steps, loaded(&[&expected, &commit(number)]));
    let loader = [Some(0), Some(1), Some(2), Some(3), Some(4), Some(5), None];
    let other = [Some(8), Some(11), Some(13), Some(14), Some(15), Some(16), None];
    assert_eq!(turn.origins, [loader, other].concat());
    assert_eq!(turn.clock, 9);
    compared(&run, &run.ended()).unwrap_or_else(|apart| panic!("{apart}"));
}

#[test]
fn the_order_of_the_numbers_is_caught() {
    let shown = apart_by_number(&overtaken(put(EARLY, 0, 1, 20), &read(LATE, 1)));
    let other = Content { key: 1, payload: 20 };
    assert!(matches!(shown, Apart::Shown { row: 0, run: Some(LOADED), turn: Some(turn), .. } if turn == other), "{shown}");
    let rows = apart_by_number(&overtaken(put(EARLY, 0, 3, 20), &read(LATE, 1)));
    assert!(matches!(&rows, Apart::Rows { run, turn, .. } if run == "rows 0 1 0" && turn == "rows 0 0"), "{rows}");
    let at_end = apart_by_number(&overtaken(put(EARLY, 0, 1, 20), &[put(LATE, 0, 1, 30)]));
    assert!(matches!(at_end, Apart::AtEnd { row: 0, run: Some(run), .. } if run == other), "{at_end}");
}

#[test]
fn rows_by_their_heads_are_caught() {
    let installed = [Step::Begin, put(EARLY, 0, 1, 20), Step::Prepare { number: EARLY }, Step::Install { number: EARLY }];
    let mut run = run_of(&mut Driver::start(), &loaded(&[&installed]), Store::shown);
    assert_eq!(run.rows[0], Some(LOADED));
    compared(&run, &[LOADER]).unwrap_or_else(|apart| panic!("{apart}"));
    let head = Content { key: 1, payload: 20 };
    run.rows[0] = Some(head);
    let apart = compared(&run, &[LOADER]).expect_err("it has not ended");
    assert!(matches!(apart, Apart::AtEnd { row: 0, run: Some(run), turn: Some(LOADED) } if run == head), "{apart}");
}

#[test]
fn reads_without_own_writes_are_caught() {
    let driver = &mut Driver::start();
    let mut in_turn = |look: Look| {
        let run = run_of(driver, &own_read(), look);
        let turn = Turn::of(&run, &run.ended());
        same(&run, &run_of(driver, &turn.steps, look), &turn.origins)
    };
    in_turn(Store::shown).unwrap_or_else(|apart| panic!("{apart}"));
    let apart = in_turn(Store::seen).expect_err("the late one wrote what the early one shall have seen");
    let other = Content { key: 1, payload: 30 };
    assert!(matches!(apart, Apart::Shown { row: 0, run: Some(LOADED), turn: Some(turn), .. } if turn == other), "{apart}");
    assert_eq!(checked(&own_read()).map(|counts| (counts.reads, counts.own_reads)), Some((1, 1)));
}

#[test]
fn other_rows_read_back_are_caught() {
    let reading = reading(&[LOADED.key], EARLY);
    let run = run_of(&mut Driver::start(), &loaded(&[&reading]), Store::shown);
    let lines = &run.lines[run.lines.len() - reading.len()..];
    assert!(matches!(same_keys(&run.rows, &[LOADED.key], lines), Ok(1)));
    let apart = same_keys(&[None, Some(LOADED)], &[LOADED.key], lines).expect_err("row 0 carries the key");
    assert!(matches!(&apart, Apart::ReadBack { key: 1, run, turn } if run == &[1] && turn == &[0]), "{apart}");
}

#[test]
fn one_that_did_not_end_is_caught() {
    let given_up = [Step::Begin, put(EARLY, 0, 1, 20), Step::Abort { number: EARLY }];
    let run = run_of(&mut Driver::start(), &loaded(&[&given_up]), Store::shown);
    assert_eq!(run.ended(), [LOADER]);
    let apart = compared(&run, &[LOADER, EARLY]).expect_err("it was given up");
    assert!(matches!(apart, Apart::Refused { step: Step::Publish { number: EARLY }, .. }), "{apart}");
}

#[test]
fn one_that_did_not_publish_is_published_in_turn() {
    let ended = loaded(&[&[Step::Begin, put(EARLY, 1, 2, 20)], &to_end(EARLY)]);
    let expected = Counts { transactions: 2, keys: 2, ..Counts::default() };
    assert_eq!(checked(&ended), Some(expected));
}

#[test]
fn a_key_of_too_many_rows_and_one_behind_the_last_number_are_not_read_back() {
    let rows: Vec<u32> = (0..=READ_RECORDS as u32).collect();
    let mut many = vec![open(ROWS, 1)];
    for (round, rows) in (0..).zip(rows.chunks(PENDING_WRITES)) {
        let number = 1 + 2 * round;
        many.push(Step::Begin);
        many.extend(rows.iter().map(|&row| put(number, row, 1, 0)));
        many.extend(commit(number));
    }
    let expected = Counts { transactions: 9, refused_keys: 1, ..Counts::default() };
    assert_eq!(checked(&many), Some(expected));

    let last = u64::MAX - 2;
    let at_last = [&[open(1, last), Step::Begin, put(last, 0, 1, 0)][..], &commit(last)].concat();
    let expected = Counts { transactions: 1, refused_keys: 1, ..Counts::default() };
    assert_eq!(checked(&at_last), Some(expected));
}

#[test]
fn logs_that_end_badly_and_logs_that_end_none_do_not_count() {
    assert_eq!(checked(&[]), None);
    assert_eq!(checked(&[open(0, 1)]), None);
    assert_eq!(checked(&[open(1, 1), Step::Begin]), None);
    assert_eq!(checked(&loaded(&[&[open(4, 1)]])), None);
}
