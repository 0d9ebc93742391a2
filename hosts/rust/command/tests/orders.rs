//! Every order of scripts, against a count of its own: each interleaving is made here and played by the twin.

use std::collections::BTreeMap;
use std::fs;
use std::path::PathBuf;
use std::process::{Command, Output};

use command::orders::{page, read, run, table, Outcomes, Script};
use twin::{Answer, Step, Store, Values, Verdict};

/// Three scripts that meet in every way in few orders: two readers that also validate, and a writer of their key.
const SHORT: [(&str, &str); 3] = [
    (
        "reader",
        "open 2 8 2 1\nbegin\nput 0 1 5\nprepare\ninstall\nend\npublish\nbegin\ncapture 1\n---\ncollect\nrows 4\nvalidate",
    ),
    ("late", "begin\n---\ncapture 1\nabort"),
    ("writer", "begin\nput 1 1 7\n---\nprepare\ninstall\nend\npublish"),
];

fn folder() -> PathBuf {
    PathBuf::from(env!("CARGO_MANIFEST_DIR")).join("../../../docs/orders")
}

fn kept_script(name: &str) -> (String, String) {
    let text = fs::read_to_string(folder().join(format!("{name}.txt"))).expect("a script of docs/orders");
    (name.to_string(), text)
}

fn tap_and_revocation() -> [(String, String); 2] {
    ["tap", "revocation"].map(kept_script)
}

fn short() -> [(String, String); 3] {
    SHORT.map(|(name, text)| (name.to_string(), text.to_string()))
}

fn outcomes_of(files: &[(String, String)]) -> (Vec<Script>, Outcomes) {
    let files: Vec<(String, Vec<u8>)> = files.iter().map(|(name, text)| (name.clone(), text.clone().into_bytes())).collect();
    let scripts = read(&files).expect("good scripts");
    let outcomes = run(&scripts, &mut |_| {}).expect("not too many orders");
    (scripts, outcomes)
}

/// One script as the twin plays it.
#[derive(Default)]
struct Player {
    number: u64,
    has_read: bool,
    told: Vec<String>,
}

/// A step of one player; what it is told, without numbers that say who came first.
fn play(store: &mut Option<Store>, player: &mut Player, words: &str) -> String {
    let step = step_of(words, player.number);
    let answer = match (&step, store.as_mut()) {
        (Step::Open { rows, versions, buckets, clock }, _) => {
            *store = Store::open(*rows, *versions, *buckets, *clock).ok();
            Ok(Values::Nothing)
        }
        (step, store) => store.expect("the first step is an open").step(step),
    };
    if let Step::Begin = step {
        (player.number, player.has_read) = (0, false);
    }
    if let Ok(Values::Number(number)) = answer {
        player.number = number;
    }
    player.has_read |= matches!(answer, Ok(Values::Rows(_)));
    told(&answer, player.has_read)
}

fn step_of(words: &str, number: u64) -> Step {
    let (word, fields) = words.split_once(' ').unwrap_or((words, ""));
    let fields: Vec<u64> = fields.split_whitespace().map(|field| field.parse().expect("a number")).collect();
    let small = |place: usize| fields[place] as u32;
    match word {
        "open" => Step::Open { rows: small(0), versions: small(1), buckets: small(2), clock: fields[3] },
        "begin" => Step::Begin,
        "capture" => Step::Capture { number, key: fields[0] },
        "collect" => Step::Collect { number },
        "rows" => Step::Rows { number, room: small(0) },
        "put" => Step::Put { number, row: small(0), key: fields[1], payload: fields[2] },
        "erase" => Step::Erase { number, row: small(0) },
        "prepare" => Step::Prepare { number },
        "install" => Step::Install { number },
        "end" => Step::End { number },
        "publish" => Step::Publish { number },
        "validate" => Step::Validate { number },
        "abort" => Step::Abort { number },
        other => panic!("no step is called {other}"),
    }
}

fn told(answer: &Answer, has_read: bool) -> String {
    match answer {
        Err(refusal) => format!("refused {refusal}"),
        Ok(Values::Count(1)) => "1 candidate".to_string(),
        Ok(Values::Count(count)) => format!("{count} candidates"),
        Ok(Values::Rows(rows)) => match &rows[..] {
            [] => "no row".to_string(),
            [row] => format!("row {row}"),
            rows => format!("rows {}", rows.iter().map(u32::to_string).collect::<Vec<_>>().join(" ")),
        },
        Ok(Values::Verdict(Verdict::Clear)) if !has_read => "verdict 0 of nothing read".to_string(),
        Ok(Values::Verdict(Verdict::Clear)) => "verdict 0".to_string(),
        Ok(Values::Verdict(Verdict::Stamp { .. })) => "verdict 1".to_string(),
        Ok(Values::Verdict(Verdict::Record { .. })) => "verdict 2".to_string(),
        Ok(Values::Verdict(Verdict::Marked)) => "verdict 3".to_string(),
        Ok(Values::Nothing | Values::Number(_) | Values::Stamp(_)) => "done".to_string(),
    }
}

/// The lines of a script above and below its `---`.
fn parts(text: &str) -> (Vec<&str>, Vec<&str>) {
    let lines: Vec<&str> = text.lines().filter(|line| !line.is_empty() && !line.starts_with('#')).collect();
    match lines.iter().position(|line| *line == "---") {
        Some(between) => (lines[..between].to_vec(), lines[between + 1..].to_vec()),
        None => (Vec::new(), lines),
    }
}

/// All ways to take so many steps of each script.
fn interleavings(left: &[usize]) -> Vec<Vec<usize>> {
    if left.iter().all(|&left| left == 0) {
        return vec![Vec::new()];
    }
    let mut all = Vec::new();
    for script in (0..left.len()).filter(|&script| left[script] > 0) {
        let mut fewer = left.to_vec();
        fewer[script] -= 1;
        all.extend(interleavings(&fewer).into_iter().map(|rest| [vec![script], rest].concat()));
    }
    all
}

/// What each script was told in the order.
fn played(files: &[(String, String)], order: &[usize]) -> Vec<Vec<String>> {
    let mut store = None;
    let mut players: Vec<Player> = files.iter().map(|_| Player::default()).collect();
    for ((_, text), player) in files.iter().zip(&mut players) {
        for words in parts(text).0 {
            play(&mut store, player, words);
        }
    }
    for &script in order {
        let player = &mut players[script];
        let words = parts(&files[script].1).1[player.told.len()];
        let told = play(&mut store, player, words);
        player.told.push(told);
    }
    players.into_iter().map(|player| player.told).collect()
}

/// The moments of a script's steps.
fn moments(order: &[usize], script: usize) -> Vec<usize> {
    (0..order.len()).filter(|&moment| order[moment] == script).collect()
}

/// Counts by the program and by the twin are the same, and so are the orders that the fixed pairs tell.
fn assert_counted_alike(files: &[(String, String)]) {
    let (_, outcomes) = outcomes_of(files);
    let lengths: Vec<usize> = files.iter().map(|(_, text)| parts(text).1.len()).collect();
    let orders = interleavings(&lengths);
    let mut by_twin: BTreeMap<Vec<Vec<String>>, u64> = BTreeMap::new();
    orders.iter().for_each(|order| *by_twin.entry(played(files, order)).or_default() += 1);
    let in_words = |told: &Vec<_>| told.iter().map(ToString::to_string).collect();
    let by_program: BTreeMap<Vec<Vec<String>>, u64> =
        outcomes.outcomes.iter().map(|outcome| (outcome.told.iter().map(in_words).collect(), outcome.orders)).collect();
    assert_eq!(by_program, by_twin);
    assert_eq!(outcomes.orders, orders.len() as u64);

    for outcome in &outcomes.outcomes {
        let keeps_pairs = |order: &&Vec<usize>| {
            let moment = |(script, place): (usize, usize)| moments(order, script)[place];
            outcome.pairs.iter().all(|&[earlier, later]| moment(earlier) < moment(later))
        };
        let keeping = orders.iter().filter(keeps_pairs).count() as u64;
        assert_eq!(keeping == outcome.orders, outcome.pairs_tell_it);
        assert!(keeping >= outcome.orders);
    }
}

#[test]
fn the_462_orders_of_the_example_are_those_of_the_twin() {
    assert_counted_alike(&tap_and_revocation());
}

#[test]
fn three_scripts_are_counted_as_the_twin_does() {
    assert_counted_alike(&short());
}

#[test]
#[ignore = "two million orders: more than a minute"]
fn the_2_018_016_orders_of_two_taps_are_those_of_the_twin() {
    assert_counted_alike(&["tap", "second_tap", "revocation"].map(kept_script));
}

/// The sentence of docs/ORDERS.md, by the twin.
#[test]
fn no_order_accepts_a_tap_that_read_the_key_after_the_revocation_was_published() {
    let files = tap_and_revocation();
    let (mut read_the_key, mut accepted, mut after_publish) = (0, 0, 0);
    for order in interleavings(&[5, 6]) {
        let told = played(&files, &order);
        let (rows, validate, publish) = (&told[0][3], &told[0][4], &told[1][5]);
        let is_published = publish == "done" && moments(&order, 1)[5] < moments(&order, 0)[4];
        read_the_key += u32::from(rows == "row 2");
        accepted += u32::from(rows == "row 2" && validate == "verdict 0");
        after_publish += u32::from(rows == "row 2" && validate == "verdict 0" && is_published);
    }
    assert_eq!((read_the_key, accepted, after_publish), (301, 141, 0));
    assert_eq!(outcomes_of(&files).1.validated_although_overtaken, Some(0));
}

/// A store with key 6 at row 2, a reader of it, and a writer of key 1 that has only its publish to do.
fn beside_another_key(reader: &str) -> [(String, String); 2] {
    let before = "open 4 8 4 1\nbegin\nput 2 6 10\nprepare\ninstall\nend\npublish\n---\n";
    let writer = "begin\nput 0 1 5\nprepare\ninstall\nend\n---\npublish";
    [("reader".to_string(), before.to_string() + reader), ("writer".to_string(), writer.to_string())]
}

/// A publish of another key leaves the read standing, so the line can be other than 0.
#[test]
fn a_read_that_found_rows_and_stands_after_a_publish_behind_it_is_counted() {
    let counted = |reader: &str| {
        let outcomes = outcomes_of(&beside_another_key(reader)).1;
        (outcomes.orders, outcomes.validated_although_overtaken)
    };
    assert_eq!(counted("begin\ncapture 6\ncollect\nrows 4\nvalidate"), (6, Some(1)));
    // nothing found
    assert_eq!(counted("begin\ncapture 10\ncollect\nrows 4\nvalidate"), (6, Some(0)));
    // the first read is another transaction's
    assert_eq!(counted("begin\ncapture 6\ncollect\nrows 4\nbegin\ncapture 6\ncollect\nrows 4\nvalidate"), (10, Some(1)));
    // no validate at all
    assert_eq!(counted("begin\ncapture 6\ncollect\nrows 4"), (5, None));
}

#[test]
fn a_second_transaction_of_a_script_has_read_nothing_yet() {
    let files = beside_another_key("begin\ncapture 6\ncollect\nrows 4\nvalidate\nabort\nbegin\nvalidate");
    assert_counted_alike(&files);
    let (scripts, outcomes) = outcomes_of(&files);
    let printed = table(&scripts, &outcomes);
    assert!(printed.contains("read row 2; verdict 0; aborted; verdict 0 of nothing read"), "{printed}");
}

#[test]
fn candidates_are_told_where_they_are_not_the_rows() {
    let (scripts, outcomes) = outcomes_of(&beside_another_key("begin\nerase 2\ncapture 6\ncollect\nrows 4"));
    let printed = table(&scripts, &outcomes);
    assert!(printed.contains("1 candidate; read no row"), "{printed}");
}

#[test]
fn an_example_changes_scripts_as_rarely_as_any_order_of_its_outcome() {
    let files = tap_and_revocation();
    let (_, outcomes) = outcomes_of(&files);
    let changes = |order: &[usize]| order.windows(2).filter(|pair| pair[0] != pair[1]).count();
    for outcome in &outcomes.outcomes {
        let told: Vec<Vec<String>> = outcome.told.iter().map(|told| told.iter().map(ToString::to_string).collect()).collect();
        let mut best: Option<Vec<usize>> = None;
        for order in interleavings(&[5, 6]).into_iter().filter(|order| played(&files, order) == told) {
            if best.as_ref().map_or(true, |best| changes(&order) < changes(best)) {
                best = Some(order);
            }
        }
        assert_eq!(Some(outcome.example.iter().map(|taken| taken.script).collect()), best);
    }
}

#[test]
fn the_page_of_the_docs_has_what_the_program_prints() {
    let (scripts, outcomes) = outcomes_of(&tap_and_revocation());
    let printed = table(&scripts, &outcomes);
    let (list, examples) = printed.split_once("\nExample of outcome 1:\n").expect("examples follow the list");
    let page = fs::read_to_string(folder().join("../ORDERS.md")).expect("docs/ORDERS.md");
    let blocks: Vec<&str> = page.split("```").skip(1).step_by(2).map(|block| block.trim_start_matches('\n')).collect();
    assert!(blocks.contains(&list), "docs/ORDERS.md lacks this:\n{list}");
    assert_eq!(examples.matches("Example of outcome ").count(), outcomes.outcomes.len() - 1);
}

#[test]
fn the_html_page_needs_nothing_else_and_has_every_order() {
    let mut files = tap_and_revocation();
    files[1].0 = "<re & vocation>".to_string();
    let (scripts, outcomes) = outcomes_of(&files);
    let page = page(&scripts, &outcomes);
    assert_eq!(page.matches("<section class=\"outcome\"").count(), outcomes.outcomes.len());
    // the outcome of one order shows it already
    assert_eq!(page.matches("<button ").count(), 461);
    assert_eq!(page.matches("<button type=\"button\" aria-pressed=\"true\"").count(), outcomes.outcomes.len() - 1);
    assert!(page.contains("&lt;re &amp; vocation&gt;") && !page.contains("<re &"));
    for outside in ["http", "src=", "@import", "url("] {
        assert!(!page.contains(outside), "{outside}");
    }
}

fn run_program(scripts: &[(&str, &str)], more: &[&str]) -> Output {
    let folder = PathBuf::from(env!("CARGO_TARGET_TMPDIR"));
    let files: Vec<PathBuf> = scripts.iter().map(|(name, _)| folder.join(name)).collect();
    for (file, (_, text)) in files.iter().zip(scripts) {
        fs::write(file, text).expect("the tests' folder can be written to");
    }
    let program = env!("CARGO_BIN_EXE_toruxeng");
    Command::new(program).arg("orders").args(files).args(more).output().expect("the program runs")
}

#[test]
fn the_program_prints_the_table_and_writes_the_page() {
    let files = tap_and_revocation();
    let html = PathBuf::from(env!("CARGO_TARGET_TMPDIR")).join("orders.html");
    let named = [("tap.txt", files[0].1.as_str()), ("revocation.txt", files[1].1.as_str())];
    let output = run_program(&named, &["--html", html.to_str().expect("a plain name")]);
    assert_eq!((output.status.code(), String::from_utf8_lossy(&output.stderr)), (Some(0), "".into()));
    let (scripts, outcomes) = outcomes_of(&files);
    assert_eq!(String::from_utf8_lossy(&output.stdout), table(&scripts, &outcomes));
    assert_eq!(fs::read_to_string(html).expect("the page is written"), page(&scripts, &outcomes));
    let output = run_program(&named, &["--html", "no/such/folder/orders.html"]);
    assert_eq!((output.status.code(), output.stdout), (Some(3), Vec::new()));
}

#[test]
fn a_script_that_is_not_good_is_told_with_its_line() {
    let open = "open 4 8 4 1\n---\nbegin\n";
    let long = format!("begin\n{}", "validate\n".repeat(39));
    let many = format!("{open}{}", "validate\n".repeat(30));
    let thirty = format!("begin\n{}", "validate\n".repeat(29));
    for (number, (first, second, said)) in [
        ("begin\n", "begin\n", "must begin with an open"),
        ("open 4 8 4 1\nbegin\n", "begin\n", "must begin with an open"),
        (open, "begin\ncapture 1 6\n", "line 2: capture takes 1 number, not 2 (a script names no transaction)"),
        (open, "begin\n\nopen 4 8 4 1\n", "line 3: the store is opened once"),
        (open, "# nothing\ncollect\n", "line 2: a step before the script's first begin"),
        (open, "begin\n---\nbegin\n---\n", "line 4: a second line ---"),
        (open, "begin\n---\n", "which has no step to run"),
        (open, "begin\n-- \n", "line 2: no step is called '--'\n"),
        ("open 0 8 4 1\n---\nbegin\n", "begin\n", "the open was refused"),
        (&many, &long, "the scripts have 71 steps together; at most 64"),
        (&many, &thirty, "scripts of 31 and 30 steps have more than 5,000,000 orders"),
    ]
    .into_iter()
    .enumerate()
    {
        let names = [format!("first{number}.txt"), format!("second{number}.txt")];
        let output = run_program(&[(&names[0], first), (&names[1], second)], &[]);
        let heard = String::from_utf8_lossy(&output.stderr);
        assert_eq!((output.status.code(), output.stdout), (Some(1), Vec::new()), "{heard}");
        assert!(heard.starts_with("toruxeng: ") && heard.contains(said), "{heard}");
    }
}

#[test]
fn a_refused_begin_leaves_number_0_which_nobody_has() {
    let eight = "begin\n".repeat(8);
    let full = format!("open 1 1 1 1\n{eight}---\nbegin\nvalidate\n");
    let (_, outcomes) = outcomes_of(&[("full".to_string(), full), ("other".to_string(), "begin\nabort\n".to_string())]);
    let told: Vec<String> = outcomes.outcomes[0].told.iter().flatten().map(ToString::to_string).collect();
    assert_eq!(
        (outcomes.outcomes.len(), told),
        (1, ["refused 3", "refused 4", "refused 3", "refused 4"].map(String::from).to_vec())
    );
}
