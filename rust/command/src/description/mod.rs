//! The command line as data: what the parser, the help, the man page and the
//! completions are made from.

mod commands;
mod json;
mod operands;
mod statuses;
mod switches;

pub use commands::COMMANDS;
pub use json::{Key, KEYS};
pub use operands::OPERANDS;
pub use statuses::STATUSES;
pub use switches::{ASSIGNMENTS, BUDGET, COMPLETIONS, HELP, JSON_LINES, MAN, QUIET, VERSION};

use crate::status::Status;
use barfigol::Reading;

/// The name of the command, however it was started.
pub const NAME: &str = "barfigol";
/// What the command is, in one line.
pub const SUMMARY: &str = "check, evaluate and translate constraint tables";
/// The words of the readings.
pub const READINGS: [&str; 3] = [
    Reading::Strict.word(),
    Reading::Kleene.word(),
    Reading::Relational.word(),
];
/// The shells that have completions.
pub const SHELLS: [&str; 3] = ["bash", "zsh", "fish"];

/// What a sub-command does.
#[derive(Clone, Copy, Debug, PartialEq, Eq)]
pub enum Task {
    /// Tells whether tables are sound.
    Check,
    /// Prints a translation.
    List,
    /// Writes a translation.
    Translate,
    /// Gives the verdicts of a table.
    Evaluate,
    /// Tells where the readings part.
    Readings,
    /// Prints a table with what its records mean.
    Show,
    /// Makes a table of a text.
    Assemble,
    /// Prints help.
    Help,
}

/// A sub-command.
#[derive(Clone, Copy, Debug)]
pub struct SubCommand {
    /// Its word.
    pub name: &'static str,
    /// What it does.
    pub task: Task,
    /// What it does, in one line.
    pub summary: &'static str,
    /// Its operands, in order. Only the last may stand several times or not at all.
    pub operands: &'static [Operand],
    /// Its options.
    pub switches: &'static [Switch],
    /// More about it, in paragraphs.
    pub about: &'static [&'static str],
    /// Its exit statuses.
    pub statuses: &'static [(Status, &'static str)],
    /// Ways to call it.
    pub examples: &'static [&'static str],
}

/// A word that a sub-command takes by its place.
#[derive(Clone, Copy, Debug)]
pub struct Operand {
    /// What it is called in texts.
    pub name: &'static str,
    /// How often it stands.
    pub count: Count,
    /// What it stands for.
    pub fills: Fills,
    /// More about it.
    pub text: &'static str,
}

/// How often an operand stands.
#[derive(Clone, Copy, Debug, PartialEq, Eq)]
pub enum Count {
    /// Once.
    One,
    /// Once or not at all.
    AtMostOne,
    /// Once or more.
    Some,
    /// As often as one likes.
    Any,
}

/// What a word stands for, which tells a shell how to complete it.
#[derive(Clone, Copy, Debug, PartialEq, Eq)]
pub enum Fills {
    /// A reading.
    Reading,
    /// A file.
    File,
    /// A number.
    Number,
    /// The word of a sub-command.
    Command,
    /// The name of a shell.
    Shell,
}

/// An option.
#[derive(Clone, Copy, Debug)]
pub struct Switch {
    /// Its word, without the two dashes.
    pub long: &'static str,
    /// Its letter, if it has one.
    pub short: Option<char>,
    /// The name of its value and what that stands for, if it takes one.
    pub value: Option<(&'static str, Fills)>,
    /// More about it.
    pub text: &'static str,
}

impl SubCommand {
    /// The operands as they stand in a line of usage.
    pub fn takes(&self) -> String {
        let shown: Vec<String> = self.operands.iter().map(Operand::shown).collect();
        shown.join(" ")
    }

    /// The line of usage.
    pub fn usage(&self) -> String {
        let mut words = vec![NAME.to_string(), self.name.to_string()];
        words.extend(
            self.switches
                .iter()
                .map(|switch| format!("[{}]", switch.shown())),
        );
        words.extend(self.operands.iter().map(Operand::shown));
        words.join(" ")
    }

    /// The keys of its objects of JSON, if it prints any.
    pub fn keys(&self) -> impl Iterator<Item = &'static Key> {
        let task = self.task;
        KEYS.iter().filter(move |key| key.of.contains(&task))
    }

    /// The fewest and the most operands.
    pub fn bounds(&self) -> (usize, Option<usize>) {
        let sum = |(least, most): (usize, Option<usize>), operand: &Operand| match operand.count {
            Count::One => (least + 1, most.map(|most| most + 1)),
            Count::AtMostOne => (least, most.map(|most| most + 1)),
            Count::Some => (least + 1, None),
            Count::Any => (least, None),
        };
        self.operands.iter().fold((0, Some(0)), sum)
    }
}

impl Operand {
    /// The operand as it stands in a line of usage.
    pub fn shown(&self) -> String {
        match self.count {
            Count::One => self.name.to_string(),
            Count::AtMostOne => format!("[{}]", self.name),
            Count::Some => format!("{}..", self.name),
            Count::Any => format!("[{}..]", self.name),
        }
    }
}

impl Switch {
    /// The word with its dashes.
    pub fn word(&self) -> String {
        format!("--{}", self.long)
    }

    /// The word with the name of its value.
    pub fn shown(&self) -> String {
        match self.value {
            Some((value, _)) => format!("--{} {value}", self.long),
            None => self.word(),
        }
    }

    /// All forms of it, the letter first.
    pub fn forms(&self) -> String {
        match self.short {
            Some(letter) => format!("-{letter}, {}", self.shown()),
            None => self.shown(),
        }
    }
}

/// The sub-command with this word.
pub fn command(word: &str) -> Option<&'static SubCommand> {
    COMMANDS.iter().find(|command| command.name == word)
}

/// All options that some sub-command takes, each once.
pub fn all_switches() -> Vec<Switch> {
    let mut all: Vec<Switch> = Vec::new();
    let own = COMMANDS.iter().flat_map(|command| command.switches);
    for switch in own.copied().chain([HELP, VERSION]) {
        if all.iter().all(|known| known.long != switch.long) {
            all.push(switch);
        }
    }
    all
}

#[cfg(test)]
mod tests {
    use super::{all_switches, Count, COMMANDS, HELP, JSON_LINES, OPERANDS, VERSION};

    /// The parser takes operands by their place, so only the last may stand
    /// several times or not at all.
    #[test]
    fn only_the_last_operand_may_vary() {
        for command in &COMMANDS {
            let last = command.operands.split_last();
            let before = last.map_or(&[][..], |(_, before)| before);
            assert!(before.iter().all(|operand| operand.count == Count::One));
        }
    }

    #[test]
    fn every_operand_is_described_once() {
        for operand in COMMANDS.iter().flat_map(|command| command.operands) {
            let same = OPERANDS.iter().filter(|known| known.name == operand.name);
            let texts: Vec<&str> = same.map(|known| known.text).collect();
            assert_eq!(texts, [operand.text]);
        }
    }

    /// An option means the same wherever it stands, and no option is a number.
    #[test]
    fn every_option_has_one_meaning() {
        let all = all_switches();
        for switch in COMMANDS.iter().flat_map(|command| command.switches) {
            let same = all.iter().filter(|known| known.long == switch.long);
            let texts: Vec<&str> = same.map(|known| known.text).collect();
            assert_eq!(texts, [switch.text]);
        }
        let letters: Vec<char> = all.iter().filter_map(|switch| switch.short).collect();
        for (place, letter) in letters.iter().enumerate() {
            assert!(letter.is_alphabetic() && !letters[..place].contains(letter));
        }
        for alone in [HELP, VERSION] {
            assert!(alone.value.is_none());
        }
    }

    #[test]
    fn keys_go_with_the_option_for_json() {
        for command in &COMMANDS {
            let mut switches = command.switches.iter();
            let prints_json = switches.any(|switch| switch.long == JSON_LINES.long);
            assert_eq!(command.keys().count() > 0, prints_json, "{}", command.name);
        }
    }

    #[test]
    fn every_command_has_its_word_examples_and_statuses() {
        for (place, command) in COMMANDS.iter().enumerate() {
            let before = &COMMANDS[..place];
            assert!(before.iter().all(|other| other.name != command.name));
            assert!(before.iter().all(|other| other.task != command.task));
            let called = format!("barfigol {} ", command.name);
            assert!(command.examples.iter().any(|line| line.contains(&called)));
            let numbers: Vec<u8> = command
                .statuses
                .iter()
                .map(|(status, _)| *status as u8)
                .collect();
            assert!(
                numbers.windows(2).all(|pair| pair[0] < pair[1]),
                "{numbers:?}"
            );
        }
    }
}
