//! The outcomes as one page that needs nothing else.

use super::answer::{Answer, Number, Told};
use super::outcome::{Outcome, Outcomes};
use super::script::{Script, ScriptStep};
use super::search::Taken;
use super::summary::{heading, meanings, overtaken_line, steps_before, steps_taken, summary, which_orders};
use crate::words::{grouped, so_many};

const STYLE: &str = include_str!("page.css");
const PROGRAM: &str = include_str!("page.js");

/// The grid's first column counts the moments, and its first line names the scripts.
const FIRST_LANE: usize = 2;
const FIRST_MOMENT: usize = 2;

pub fn page(scripts: &[Script], outcomes: &Outcomes) -> String {
    let names: Vec<&str> = scripts.iter().map(|script| script.name.as_str()).collect();
    let title = escaped(&format!("Every order of {}", names.join(" and ")));
    let sections: String =
        outcomes.outcomes.iter().enumerate().map(|(place, outcome)| section(scripts, place, outcome)).collect();
    format!(
        "<!doctype html>\n<html lang=\"en\">\n<head>\n<meta charset=\"utf-8\">\n\
         <meta name=\"viewport\" content=\"width=device-width, initial-scale=1\">\n<title>{title}</title>\n\
         <style>\n{STYLE}</style>\n</head>\n<body>\n<main>\n<h1>{title}</h1>\n<p>{}</p>\n{}{}{}{sections}{}</main>\n\
         <script>\n{PROGRAM}</script>\n</body>\n</html>\n",
        escaped(&heading(scripts, outcomes)),
        counted(outcomes),
        table(scripts, outcomes),
        before(scripts, outcomes),
        meaning_list(outcomes),
    )
}

fn counted(outcomes: &Outcomes) -> String {
    let class = if outcomes.validated_although_overtaken == Some(0) { "counted" } else { "counted met" };
    overtaken_line(outcomes).map_or(String::new(), |line| format!("<p class=\"{class}\">{}</p>\n", escaped(&line)))
}

fn table(scripts: &[Script], outcomes: &Outcomes) -> String {
    let names: String = scripts.iter().map(|script| format!("<th>{}</th>", escaped(&script.name))).collect();
    let lines: String =
        outcomes.outcomes.iter().enumerate().map(|(place, outcome)| table_line(scripts, place, outcome)).collect();
    format!(
        "<section>\n<table>\n<thead><tr><th></th><th class=\"count\">orders</th>{names}<th>which</th></tr></thead>\n\
         <tbody>\n{lines}</tbody>\n</table>\n</section>\n"
    )
}

fn table_line(scripts: &[Script], place: usize, outcome: &Outcome) -> String {
    let cell = |label: &str, text: &str| format!("<td data-label=\"{}\">{}</td>", escaped(label), escaped(text));
    let answers: String =
        scripts.iter().zip(&outcome.told).map(|(script, told)| cell(&script.name, &summary(script, told))).collect();
    format!(
        "<tr><td><a href=\"#outcome-{0}\">Outcome {0}</a></td><td class=\"count\" data-label=\"orders\">{1}</td>{answers}{2}</tr>\n",
        place + 1,
        grouped(outcome.orders),
        cell("which", &which_orders(scripts, outcome)),
    )
}

fn before(scripts: &[Script], outcomes: &Outcomes) -> String {
    let lines: String = steps_before(scripts, outcomes)
        .map(|(step, given)| format!("<code>{}</code><span class=\"soft\">{}</span>\n", escaped(&step), answer(given)))
        .collect();
    format!("<details>\n<summary>Done before every order</summary>\n<div class=\"before\">\n{lines}</div>\n</details>\n")
}

fn section(scripts: &[Script], place: usize, outcome: &Outcome) -> String {
    format!(
        "<section class=\"outcome\" id=\"outcome-{0}\">\n<h2>Outcome {0}: {1}</h2>\n<p class=\"soft\">{2}</p>\n{3}{4}</section>\n",
        place + 1,
        so_many(outcome.orders, "order"),
        escaped(&which_orders(scripts, outcome)),
        picture(scripts, &outcome.example),
        other_orders(scripts, outcome),
    )
}

/// A lane for each script, the steps downward in time.
fn picture(scripts: &[Script], order: &[Taken]) -> String {
    let count = scripts.len();
    let lanes: String = (0..count).map(|script| lane(&scripts[script].name, script, order.len())).collect();
    let moments = (0..order.len()).map(|moment| {
        let line = FIRST_MOMENT + moment;
        format!("<div class=\"moment\" style=\"grid-area: {line} / 1\">{}</div>\n", moment + 1)
    });
    let steps = steps_taken(scripts, order).enumerate().map(|(moment, (step, taken))| step_at(moment, step, taken));
    let cells: String = moments.chain(steps).collect();
    format!("<div class=\"picture\" style=\"--lanes: {count}\">\n{lanes}{cells}</div>\n")
}

fn lane(name: &str, script: usize, moments: usize) -> String {
    let (column, height) = (FIRST_LANE + script, moments + 1);
    let name = escaped(name);
    format!(
        "<div class=\"lane\" style=\"grid-area: 1 / {column} / span {height}; background: var(--lane-{script})\"></div>\n\
         <div class=\"name\" style=\"grid-area: 1 / {column}\">{name}</div>\n"
    )
}

fn step_at(moment: usize, step: &ScriptStep, Taken { script, answer: given }: &Taken) -> String {
    let (line, column) = (FIRST_MOMENT + moment, FIRST_LANE + script);
    let meaning = given.told.meaning().map_or(String::new(), |meaning| format!(" title=\"{}\"", escaped(&meaning)));
    format!(
        "<div class=\"step {}\" data-script=\"{script}\" style=\"grid-row: {line}; grid-column: {column}\"{meaning}>\
         <code>{step}</code> <span class=\"answer\">{}</span></div>\n",
        class(&given.told),
        answer(given),
    )
}

/// How a step is coloured; the text says the same.
fn class(told: &Told) -> &'static str {
    match told {
        Told::Refused(_) => "refused",
        Told::Verdict(0) => "stands",
        Told::Verdict(_) => "fallen",
        Told::NothingRead => "unread",
        Told::Accepted | Told::Count(_) | Told::Rows(_) => "accepted",
    }
}

/// The number stands apart, for it alone differs between the orders of an outcome.
fn answer(answer: &Answer) -> String {
    let numbered = |what: &str, number: u64| format!("{what} <span class=\"number\">{number}</span>");
    match answer.number {
        Some(Number::Transaction(number)) => numbered("transaction", number),
        Some(Number::Stamp(stamp)) => numbered("stamp", stamp),
        None => escaped(&answer.to_string()),
    }
}

/// A button for each order that was kept, as a string of the scripts' letters.
fn other_orders(scripts: &[Script], outcome: &Outcome) -> String {
    let letters = letters(scripts);
    let key: Vec<String> =
        scripts.iter().zip(&letters).map(|(script, letter)| format!("{letter} {}", escaped(&script.name))).collect();
    let orders = match (outcome.kept.len() as u64, outcome.orders) {
        (kept, orders) if kept < orders => format!("The first {kept} of {} orders", grouped(orders)),
        (_, 1) => return String::new(),
        (_, orders) => format!("All {} orders", grouped(orders)),
    };
    let example = scripts_of(&outcome.example);
    let buttons: String = outcome.kept.iter().map(|order| button(order, &letters, scripts_of(order) == example)).collect();
    format!(
        "<details class=\"others\">\n<summary>{orders}, to look at ({})</summary>\n<div class=\"orders\">\n{buttons}</div>\n</details>\n",
        key.join(", ")
    )
}

fn button(order: &[Taken], letters: &[char], is_shown: bool) -> String {
    let numbers: Vec<String> =
        order.iter().filter_map(|taken| taken.answer.number).map(|number| number.value().to_string()).collect();
    let text: String = order.iter().map(|taken| letters[taken.script]).collect();
    format!(
        "<button type=\"button\" aria-pressed=\"{is_shown}\" data-order=\"{}\" data-numbers=\"{}\">{}</button>\n",
        scripts_of(order),
        numbers.join(" "),
        escaped(&text)
    )
}

/// Whose step each is, a digit a step.
fn scripts_of(order: &[Taken]) -> String {
    order.iter().map(|taken| taken.script.to_string()).collect()
}

/// The first letters of the names, or the alphabet's where two are the same.
fn letters(scripts: &[Script]) -> Vec<char> {
    let firsts: Vec<char> = scripts.iter().filter_map(|script| script.name.chars().next()).collect();
    let differ = firsts.iter().enumerate().all(|(place, letter)| !firsts[..place].contains(letter));
    if differ && firsts.len() == scripts.len() {
        firsts
    } else {
        ('A'..).take(scripts.len()).collect()
    }
}

fn meaning_list(outcomes: &Outcomes) -> String {
    let lines: String = meanings(outcomes).iter().map(|meaning| format!("<li>{}</li>\n", escaped(meaning))).collect();
    format!("<section>\n<h2>What these mean</h2>\n<ul>\n{lines}</ul>\n</section>\n")
}

fn escaped(text: &str) -> String {
    text.replace('&', "&amp;").replace('<', "&lt;").replace('>', "&gt;").replace('"', "&quot;")
}
