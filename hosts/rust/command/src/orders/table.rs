//! The outcomes as text.

use super::outcome::{Outcome, Outcomes};
use super::script::Script;
use super::search::Taken;
use super::summary::{heading, meanings, overtaken_line, steps_before, steps_taken, summary, which_orders};
use crate::words::{beside, so_many};

const INDENT: &str = "   ";

pub fn table(scripts: &[Script], outcomes: &Outcomes) -> String {
    let mut parts = vec![heading(scripts, outcomes) + "\n", before(scripts, outcomes)];
    parts.extend(outcomes.outcomes.iter().enumerate().map(|(place, outcome)| block(scripts, place, outcome)));
    parts.extend(overtaken_line(outcomes).map(|line| line + "\n"));
    parts.push(meaning_list(outcomes));
    parts.extend(outcomes.outcomes.iter().enumerate().map(|(place, outcome)| example(scripts, place, outcome)));
    parts.join("\n")
}

fn before(scripts: &[Script], outcomes: &Outcomes) -> String {
    let pairs: Vec<(String, String)> = steps_before(scripts, outcomes).map(|(step, answer)| (step, answer.to_string())).collect();
    format!("Done before every order:\n{}", indented(&beside(&pairs)))
}

fn block(scripts: &[Script], place: usize, outcome: &Outcome) -> String {
    let width = scripts.iter().map(|script| script.name.len()).max().unwrap_or(0);
    let lines =
        scripts.iter().zip(&outcome.told).map(|(script, told)| format!("{:width$}  {}\n", script.name, summary(script, told)));
    let (orders, which) = (so_many(outcome.orders, "order"), which_orders(scripts, outcome));
    format!("Outcome {}: {orders}\n{}", place + 1, indented(&(lines.collect::<String>() + &which)))
}

fn meaning_list(outcomes: &Outcomes) -> String {
    let lines: String = meanings(outcomes).iter().map(|meaning| format!("{meaning}\n")).collect();
    format!("What these mean:\n{}", indented(&lines))
}

fn example(scripts: &[Script], place: usize, outcome: &Outcome) -> String {
    let steps: Vec<(usize, String)> = steps_taken(scripts, &outcome.example)
        .map(|(step, Taken { script, answer })| (*script, format!("{step} -> {answer}")))
        .collect();
    let widths: Vec<usize> = (0..scripts.len()).map(|script| lane_width(script, scripts, &steps)).collect();
    let names: String = scripts.iter().zip(&widths).map(|(script, width)| format!("{:width$}", script.name)).collect();
    let lines: String = steps.iter().map(|(script, text)| " ".repeat(widths[..*script].iter().sum()) + text + "\n").collect();
    format!("Example of outcome {}:\n{}", place + 1, indented(&format!("{}\n{lines}", names.trim_end())))
}

/// A lane holds its script's name and its steps, with a gap behind them.
fn lane_width(script: usize, scripts: &[Script], steps: &[(usize, String)]) -> usize {
    let own = steps.iter().filter(|(other, _)| *other == script).map(|(_, text)| text.len());
    own.chain([scripts[script].name.len()]).max().unwrap_or(0) + INDENT.len()
}

fn indented(lines: &str) -> String {
    lines.lines().map(|line| format!("{INDENT}{line}\n")).collect()
}
