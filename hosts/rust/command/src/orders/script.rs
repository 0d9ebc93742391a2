//! Scripts: steps as words without the number of their transaction.

use std::fmt;

use toruxeng::{Kind, NoStep, Step};

use crate::words;

/// What stands above this line is done before every order.
const LINE_BETWEEN: &str = "---";

/// The steps of one who works beside others.
pub struct Script {
    pub name: String,
    /// Done once, before every order.
    pub before: Vec<ScriptStep>,
    /// Done in every order, between those of the others.
    pub steps: Vec<ScriptStep>,
}

/// A step of the transaction that the script began last; its number is known when the script runs.
pub struct ScriptStep {
    unnumbered: Step,
}

impl ScriptStep {
    pub fn kind(&self) -> Kind {
        self.unnumbered.kind()
    }

    pub fn of_transaction(&self, number: u64) -> Step {
        let Some(_) = self.unnumbered.number() else { return self.unnumbered };
        let words = with_number(self.kind().word(), number, &self.own_fields());
        words.parse().expect("the same fields fitted when the script was read")
    }

    fn of_words(line: &str) -> Result<ScriptStep, NoStep> {
        let (word, fields) = line.split_once(char::is_whitespace).unwrap_or((line, ""));
        let names_none = [Kind::Open, Kind::Begin].iter().any(|kind| kind.word() == word);
        let words = if names_none { line.to_string() } else { with_number(word, 0, fields) };
        let unnumbered = words.parse().map_err(|no_step| if names_none { no_step } else { without_number(no_step) })?;
        Ok(ScriptStep { unnumbered })
    }

    /// The fields behind the transaction's number, as words.
    fn own_fields(&self) -> String {
        let numbered = usize::from(self.unnumbered.number().is_some());
        let fields: Vec<String> = self.unnumbered.fields()[numbered..].iter().map(u64::to_string).collect();
        fields.join(" ")
    }
}

impl fmt::Display for ScriptStep {
    fn fmt(&self, to: &mut fmt::Formatter) -> fmt::Result {
        to.write_str(format!("{} {}", self.kind().word(), self.own_fields()).trim_end())
    }
}

fn with_number(word: &str, number: u64, fields: &str) -> String {
    format!("{word} {number} {fields}")
}

/// As a person sees it who wrote no number.
fn without_number(no_step: NoStep) -> NoStep {
    match no_step {
        NoStep::WrongCount { word, expected, found } => NoStep::WrongCount { word, expected: expected - 1, found: found - 1 },
        other => other,
    }
}

/// Reads the scripts, each with its name; equal names get numbers.
pub fn read(files: &[(String, Vec<u8>)]) -> Result<Vec<Script>, String> {
    let mut scripts: Vec<Script> = Vec::new();
    for (name, bytes) in files {
        let same = files.iter().take(scripts.len()).filter(|(other, _)| other == name).count();
        let name = if same == 0 { name.clone() } else { format!("{name} {}", same + 1) };
        let script = read_one(&name, bytes, scripts.is_empty()).map_err(|wrong| format!("script {name}, {wrong}"))?;
        scripts.push(script);
    }
    Ok(scripts)
}

fn read_one(name: &str, bytes: &[u8], is_first: bool) -> Result<Script, String> {
    let lines: Vec<(usize, &str)> = words::lines(words::text(bytes)?).collect();
    let between = lines.iter().position(|(_, line)| *line == LINE_BETWEEN);
    let (before, behind) = lines.split_at(between.map_or(0, |place| place + 1));
    let before = steps_of(&before[..before.len().saturating_sub(1)])?;
    let steps = steps_of(behind)?;
    opened_once(&before, &steps, is_first)?;
    begun(&before, &steps)?;
    let unnumbered = |steps: Numbered| steps.into_iter().map(|(_, step)| step).collect();
    Ok(Script { name: name.to_string(), before: unnumbered(before), steps: unnumbered(steps) })
}

/// Steps, each with the number of its line.
type Numbered = Vec<(usize, ScriptStep)>;

fn steps_of(lines: &[(usize, &str)]) -> Result<Numbered, String> {
    let step = |&(number, line): &(usize, &str)| match ScriptStep::of_words(line) {
        Ok(step) => Ok((number, step)),
        Err(_) if line == LINE_BETWEEN => Err(format!("line {number}: a second line {LINE_BETWEEN}")),
        Err(no_step @ NoStep::WrongCount { .. }) => Err(format!("line {number}: {no_step} (a script names no transaction)")),
        Err(no_step) => Err(format!("line {number}: {no_step}")),
    };
    lines.iter().map(step).collect()
}

/// The first script opens the store, and nothing else does.
fn opened_once(before: &Numbered, steps: &Numbered, is_first: bool) -> Result<(), String> {
    let mut opens = before.iter().chain(steps).filter(|(_, step)| step.kind() == Kind::Open);
    if is_first && !before.first().is_some_and(|(_, step)| step.kind() == Kind::Open) {
        return Err(format!(
            "which is the first: it must begin with an open, and have a line {LINE_BETWEEN} behind what is done before"
        ));
    }
    match opens.nth(usize::from(is_first)) {
        Some((line, _)) => Err(format!("line {line}: the store is opened once, by the first step of the first script")),
        None => Ok(()),
    }
}

/// Each step has a begin before it, and there is one to run.
fn begun(before: &Numbered, steps: &Numbered) -> Result<(), String> {
    if steps.is_empty() {
        return Err("which has no step to run".to_string());
    }
    let first = before.iter().chain(steps).find(|(_, step)| step.kind() != Kind::Open);
    match first {
        Some((line, step)) if step.kind() != Kind::Begin => Err(format!("line {line}: a step before the script's first begin")),
        _ => Ok(()),
    }
}
