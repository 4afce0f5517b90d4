//! The texts of `--help`.

use crate::description::{
    all_switches, Operand, SubCommand, Switch, COMMANDS, HELP, NAME, OPERANDS, STATUSES, SUMMARY,
};
use crate::status::Status;

/// The columns of a line.
const WIDTH: usize = 79;
/// Where the text of an entry begins.
const COLUMN: usize = 16;

/// Help about all sub-commands.
pub fn all() -> String {
    let usages: String = COMMANDS.iter().map(usage).collect();
    let commands = COMMANDS
        .iter()
        .map(|command| (command.name.to_string(), command.summary));
    [
        format!("{NAME}: {SUMMARY}\n\nUsage:\n{usages}"),
        format!("  {NAME} --help | --version\n"),
        section("Commands", commands),
        section("Operands", OPERANDS.iter().map(operand)),
        section("Options", all_switches().iter().map(switch)),
        wrapped(
            "\nOptions stand before or behind the operands, and -- ends them. \
                 --budget=6 and --budget 6 are the same.",
            0,
            0,
        ),
        section("Exit status", STATUSES.iter().map(status)),
        format!("\n{NAME} help COMMAND tells more about a command.\n"),
    ]
    .concat()
}

/// Help about one sub-command.
pub fn of(command: &SubCommand) -> String {
    let (name, summary) = (command.name, command.summary);
    let mut text = format!("{NAME} {name}: {summary}\n\nUsage:\n{}", usage(command));
    for paragraph in command.about {
        text.push_str(&format!("\n{}", wrapped(paragraph, 0, 0)));
    }
    let switches = command.switches.iter().chain([&HELP]);
    text.push_str(&section("Operands", command.operands.iter().map(operand)));
    text.push_str(&section("Options", switches.map(switch)));
    if command.keys().next().is_some() {
        let keys = command.keys().map(|key| (key.name.to_string(), key.text));
        text.push_str(&section("Keys of JSON, in this order", keys));
    }
    text.push_str(&section("Exit status", command.statuses.iter().map(status)));
    text.push_str("\nExamples:\n");
    for example in command.examples {
        text.push_str(&format!("  {example}\n"));
    }
    text
}

fn usage(command: &SubCommand) -> String {
    let behind_the_name = NAME.len() + command.name.len() + 4;
    wrapped(&command.usage(), 2, behind_the_name)
}

fn operand(operand: &Operand) -> (String, &'static str) {
    (operand.name.to_string(), operand.text)
}

fn switch(switch: &Switch) -> (String, &'static str) {
    (switch.forms(), switch.text)
}

fn status(&(status, text): &(Status, &'static str)) -> (String, &'static str) {
    ((status as u8).to_string(), text)
}

/// A section of entries, each with its text beside it.
fn section(title: &str, entries: impl Iterator<Item = (String, &'static str)>) -> String {
    let mut section = format!("\n{title}:\n");
    for (name, text) in entries {
        let lines = wrapped(text, COLUMN, COLUMN);
        let name = format!("  {name}");
        if name.len() < COLUMN {
            section.push_str(&format!("{name:COLUMN$}{}", lines.trim_start()));
        } else {
            section.push_str(&format!("{name}\n{lines}"));
        }
    }
    section
}

/// A text in lines, the first one and the others set in by so many columns.
fn wrapped(text: &str, first: usize, others: usize) -> String {
    let mut lines = String::new();
    let mut line = " ".repeat(first);
    let mut words = 0;
    for word in text.split(' ').filter(|word| !word.is_empty()) {
        if words > 0 && line.chars().count() + 1 + word.chars().count() > WIDTH {
            lines.push_str(&format!("{line}\n"));
            line = " ".repeat(others);
            words = 0;
        }
        if words > 0 {
            line.push(' ');
        }
        line.push_str(word);
        words += 1;
    }
    format!("{lines}{line}\n")
}
