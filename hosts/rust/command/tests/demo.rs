//! The words, logs and reports that `make demo` shows belong together.

use std::fs;
use std::path::Path;

use command::pack::pack;
use command::replay::replay;

fn file(name: &str) -> Vec<u8> {
    let path = Path::new(env!("CARGO_MANIFEST_DIR")).join("../../..").join(name);
    fs::read(&path).unwrap_or_else(|error| panic!("{}: {error}", path.display()))
}

fn assert_together(words: &[u8], log: &str, report: &str) {
    let packed = pack(words);
    assert_eq!(packed.wrong, None, "{log}");
    assert_eq!(packed.output, file(log), "{log}");
    let replayed = replay(&packed.output);
    assert_eq!(replayed.wrong, None, "{log}");
    assert_eq!(String::from_utf8_lossy(&replayed.output), String::from_utf8_lossy(&file(report)), "{report}");
}

#[test]
fn the_worked_example() {
    assert_together(&file("demo/worked_example.txt"), "crates/run_log/stdin", "crates/run_log/stdout");
}

#[test]
fn each_of_the_three_orders() {
    for order in ["published_between", "prepared_before", "validated_before"] {
        let [words, log, report] = ["txt", "log", "report"].map(|kind| format!("demo/{order}.{kind}"));
        assert_together(&[file("demo/before.txt"), file(&words)].concat(), &log, &report);
    }
}
