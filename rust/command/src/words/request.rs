//! What is asked for.

use super::no_command;
use super::operands::{budget, choice, shell, source, target, value};
use super::split::Split;
use crate::description::{
    command, SubCommand, Task, ASSIGNMENTS, BUDGET, COMPLETIONS, JSON_LINES, MAN, QUIET,
};
use std::path::PathBuf;

/// The budget of `readings` if none is given: a second or so for most tables. The
/// library checks the table at each assignment, so the longest take a minute.
const BUDGET_OF_READINGS: u32 = 1_000_000;

/// Where something is read from.
#[derive(Clone, Debug, PartialEq, Eq)]
pub enum Source {
    /// Standard input, written `-`.
    Input,
    /// A file.
    File(PathBuf),
}

/// Where something is written to.
#[derive(Debug, PartialEq, Eq)]
pub enum Target {
    /// Standard output, written `-`.
    Output,
    /// What a path names.
    File(PathBuf),
}

/// How an answer is told.
#[derive(Clone, Copy, Debug, PartialEq, Eq)]
pub enum Report {
    /// In words.
    Text,
    /// As objects of JSON.
    Json,
    /// By the exit status alone.
    Quiet,
}

/// A shell that has completions.
#[derive(Clone, Copy, Debug, PartialEq, Eq)]
pub enum Shell {
    /// bash.
    Bash,
    /// zsh.
    Zsh,
    /// fish.
    Fish,
}

/// A page of help.
#[derive(Debug)]
pub enum Page {
    /// About all sub-commands.
    All,
    /// About one of them.
    Of(&'static SubCommand),
    /// The man page.
    Man,
    /// The completions for a shell.
    Completions(Shell),
}

/// Where a table is evaluated.
#[derive(Debug, PartialEq, Eq)]
pub enum Assignments {
    /// At one assignment.
    One(Vec<i32>),
    /// At the lines of a file.
    Lines(Source),
}

/// An evaluation that is asked for. A choice is the number of a reading, or any
/// other number.
#[derive(Debug, PartialEq, Eq)]
pub struct Evaluate {
    /// The choice.
    pub choice: u32,
    /// The table.
    pub table: Source,
    /// Where it is evaluated.
    pub at: Assignments,
    /// The most steps.
    pub budget: u32,
    /// How the answer is told.
    pub report: Report,
}

/// What is asked for.
#[derive(Debug)]
pub enum Request {
    /// A page of help.
    Help(Page),
    /// Name and version.
    Version,
    /// Whether tables pass the check.
    Check(Vec<Source>, Report),
    /// The lines of a translation.
    List(u32, Source),
    /// A translation.
    Translate(u32, Source, Target),
    /// The verdicts of a table.
    Evaluate(Evaluate),
    /// Where the readings part, with a budget.
    Readings(Source, u32, Report),
    /// A table as text.
    Show(Source),
    /// A table of a text.
    Assemble(Source, Target),
}

/// What the words of a sub-command ask for.
pub fn of(split: &Split) -> Result<Request, String> {
    match (split.command.task, split.operands.as_slice()) {
        (Task::List, [reading, table]) => Ok(Request::List(choice(reading)?, source(table))),
        (Task::Translate, [reading, table, out]) => {
            let choice = choice(reading)?;
            Ok(Request::Translate(choice, source(table), target(out)))
        }
        (Task::Evaluate, [reading, table, ..]) => {
            evaluation(split, choice(reading)?, source(table)).map(Request::Evaluate)
        }
        (Task::Readings, [table]) => {
            let budget = steps(split)?.unwrap_or(BUDGET_OF_READINGS);
            Ok(Request::Readings(source(table), budget, report(split)?))
        }
        (Task::Show, [table]) => Ok(Request::Show(source(table))),
        (Task::Assemble, [text, out]) => Ok(Request::Assemble(source(text), target(out))),
        (Task::Check, tables) => {
            let tables: Vec<Source> = tables.iter().map(|table| source(table)).collect();
            once(&tables)?;
            Ok(Request::Check(tables, report(split)?))
        }
        (Task::Help, _) => page(split).map(Request::Help),
        // The operands were counted.
        (_, _) => Err(format!(
            "{} takes {}",
            split.command.name,
            split.command.takes()
        )),
    }
}

fn evaluation(split: &Split, choice: u32, table: Source) -> Result<Evaluate, String> {
    let values = split.operands.iter().skip(2);
    let values: Vec<i32> = values.map(|word| value(word)).collect::<Result<_, _>>()?;
    let at = match split.value(&ASSIGNMENTS) {
        None => Assignments::One(values),
        Some(_) if !values.is_empty() => {
            return Err(String::from("values and --assignments exclude each other"));
        }
        Some(file) => {
            let lines = source(file);
            once(&[table.clone(), lines.clone()])?;
            Assignments::Lines(lines)
        }
    };
    Ok(Evaluate {
        choice,
        table,
        at,
        budget: steps(split)?.unwrap_or(u32::MAX),
        report: report(split)?,
    })
}

fn steps(split: &Split) -> Result<Option<u32>, String> {
    split.value(&BUDGET).map(budget).transpose()
}

fn report(split: &Split) -> Result<Report, String> {
    match (split.has(&JSON_LINES), split.has(&QUIET)) {
        (true, true) => Err(String::from("--json and --quiet exclude each other")),
        (true, false) => Ok(Report::Json),
        (false, true) => Ok(Report::Quiet),
        (false, false) => Ok(Report::Text),
    }
}

/// Standard input can be read once.
fn once(sources: &[Source]) -> Result<(), String> {
    let inputs = sources.iter().filter(|source| **source == Source::Input);
    match inputs.count() {
        0 | 1 => Ok(()),
        _ => Err(String::from(
            "- is given twice, and standard input can be read once",
        )),
    }
}

fn page(split: &Split) -> Result<Page, String> {
    let word = split.operands.first();
    match (word, split.has(&MAN), split.value(&COMPLETIONS)) {
        (None, false, None) => Ok(Page::All),
        (None, true, None) => Ok(Page::Man),
        (None, false, Some(name)) => shell(name).map(Page::Completions),
        (Some(word), false, None) => {
            let found = word.to_str().and_then(command);
            found.map(Page::Of).ok_or_else(|| no_command(word))
        }
        _ => Err(String::from(
            "COMMAND, --man and --completions exclude each other",
        )),
    }
}
