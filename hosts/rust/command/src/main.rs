//! The program `toruxeng`; `toruxeng help` says what it does.

mod files;

use std::ffi::OsString;
use std::process::ExitCode;

use command::check::check;
use command::orders;
use command::pack::pack;
use command::replay::replay;
use command::show::show;
use command::Done;

const HELP: &str = include_str!("help.txt");

/// Why a command has no answer.
enum Failure {
    NotGood(String),
    WrongUsage(String),
    File(String),
}

impl Failure {
    /// The exit code, and what to say.
    fn parts(&self) -> (u8, &str) {
        match self {
            Failure::NotGood(why) => (1, why),
            Failure::WrongUsage(why) => (2, why),
            Failure::File(why) => (3, why),
        }
    }
}

fn main() -> ExitCode {
    let arguments: Vec<OsString> = std::env::args_os().skip(1).collect();
    let Err(failure) = run(&arguments) else { return ExitCode::SUCCESS };
    let (code, why) = failure.parts();
    files::say(&format!("toruxeng: {why}"));
    if let Failure::WrongUsage(_) = failure {
        files::say("`toruxeng help` lists the commands");
    }
    ExitCode::from(code)
}

/// Does what the arguments ask for and writes the answer.
fn run(arguments: &[OsString]) -> Result<(), Failure> {
    let done = answer(arguments)?;
    files::write_output(&done.output)?;
    done.wrong.map_or(Ok(()), |wrong| Err(Failure::NotGood(wrong)))
}

fn answer(arguments: &[OsString]) -> Result<Done, Failure> {
    let (command, rest) = arguments.split_first().ok_or_else(|| Failure::WrongUsage("no command".to_string()))?;
    match (command.to_str(), rest) {
        (Some("replay"), rest) => of_file(replay, rest),
        (Some("check"), rest) => of_file(check, rest),
        (Some("show"), rest) => of_file(show, rest),
        (Some("pack"), rest) => of_file(pack, rest),
        (Some("orders"), rest) => of_scripts(rest),
        (Some("help" | "--help" | "-h"), []) => Ok(said(HELP)),
        (Some("version" | "--version" | "-V"), []) => Ok(said(&format!("toruxeng {}\n", toruxeng::VERSION))),
        (Some("help" | "--help" | "-h" | "version" | "--version" | "-V"), _) => {
            Err(Failure::WrongUsage(format!("{} takes no arguments", command.to_string_lossy())))
        }
        _ => Err(Failure::WrongUsage(format!("no command is called '{}'", command.to_string_lossy()))),
    }
}

fn said(text: &str) -> Done {
    Done { output: text.into(), wrong: None }
}

/// A command that takes one file.
fn of_file(command: fn(&[u8]) -> Done, arguments: &[OsString]) -> Result<Done, Failure> {
    match arguments {
        [file] => Ok(command(&files::read(file)?)),
        others => Err(Failure::WrongUsage(format!("one FILE is needed, {} were given", others.len()))),
    }
}

/// What `orders` was asked for.
struct Asked {
    scripts: Vec<OsString>,
    html: Option<OsString>,
}

impl Asked {
    fn of(arguments: &[OsString]) -> Result<Asked, Failure> {
        let mut asked = Asked { scripts: Vec::new(), html: None };
        let mut rest = arguments.iter();
        while let Some(argument) = rest.next() {
            match argument.to_str() {
                Some("--html") if asked.html.is_some() => return Err(Failure::WrongUsage("--html is given twice".to_string())),
                Some("--html") => {
                    let file = rest.next().filter(|file| *file != files::STANDARD_INPUT);
                    asked.html = Some(file.ok_or_else(|| Failure::WrongUsage("--html needs a FILE".to_string()))?.clone());
                }
                Some(option) if option.starts_with("--") => {
                    return Err(Failure::WrongUsage(format!("orders has no option {option}")));
                }
                _ => asked.scripts.push(argument.clone()),
            }
        }
        asked.checked()
    }

    fn checked(self) -> Result<Asked, Failure> {
        if !(2..=3).contains(&self.scripts.len()) {
            return Err(Failure::WrongUsage(format!("orders takes two or three scripts, {} were given", self.scripts.len())));
        }
        if self.scripts.iter().filter(|script| *script == files::STANDARD_INPUT).count() > 1 {
            return Err(Failure::WrongUsage("only one script can be standard input".to_string()));
        }
        Ok(self)
    }
}

fn of_scripts(arguments: &[OsString]) -> Result<Done, Failure> {
    let asked = Asked::of(arguments)?;
    let texts =
        asked.scripts.iter().map(|file| Ok((files::name(file), files::read(file)?))).collect::<Result<Vec<_>, Failure>>()?;
    let scripts = orders::read(&texts).map_err(Failure::NotGood)?;
    let told = orders::run(&scripts, &mut files::say).map_err(Failure::NotGood)?;
    if let Some(html) = &asked.html {
        files::write(html, orders::page(&scripts, &told).as_bytes())?;
    }
    Ok(said(&orders::table(&scripts, &told)))
}
