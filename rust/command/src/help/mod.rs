//! Help: texts, the man page and completions, all made from the description of
//! the command line.

mod bash;
mod fish;
mod man;
mod text;
mod zsh;

use crate::description::{Count, Fills, Operand, SubCommand, Switch, COMMANDS, READINGS, SHELLS};
use crate::words::{Page, Shell};

/// A page of help.
pub fn page(page: &Page) -> String {
    match page {
        Page::All => text::all(),
        Page::Of(command) => text::of(command),
        Page::Man => man::page(),
        Page::Completions(Shell::Bash) => bash::script(),
        Page::Completions(Shell::Zsh) => zsh::script(),
        Page::Completions(Shell::Fish) => fish::script(),
    }
}

/// The words that can stand for something, if they can be listed.
fn words_for(fills: Fills) -> Option<Vec<&'static str>> {
    match fills {
        Fills::Reading => Some(READINGS.to_vec()),
        Fills::Command => Some(COMMANDS.iter().map(|command| command.name).collect()),
        Fills::Shell => Some(SHELLS.to_vec()),
        Fills::File | Fills::Number => None,
    }
}

/// The operands of a sub-command with the places where each can stand: the
/// first one, and the last one if there is a last.
fn places(command: &SubCommand) -> Vec<(&'static Operand, usize, Option<usize>)> {
    let place = |(place, operand): (usize, &'static Operand)| match operand.count {
        Count::One | Count::AtMostOne => (operand, place, Some(place)),
        Count::Some | Count::Any => (operand, place, None),
    };
    command.operands.iter().enumerate().map(place).collect()
}

/// The options that take a value.
fn with_value(switches: &[Switch]) -> Vec<(Switch, Fills)> {
    let value = |switch: &Switch| switch.value.map(|(_, fills)| (*switch, fills));
    switches.iter().filter_map(value).collect()
}

/// A text as a note beside a word: without its last full stop.
fn note(text: &str) -> &str {
    text.trim_end_matches(['.', ' '])
}
