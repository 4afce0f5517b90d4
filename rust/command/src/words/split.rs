//! The words of a sub-command, told apart into operands and options.

use super::meant;
use crate::description::{Count, SubCommand, Switch, HELP};
use crate::printable::quoted;
use std::ffi::{OsStr, OsString};
use std::os::unix::ffi::OsStrExt;

/// The operands and options of a sub-command. The operands are as many as it
/// takes.
pub struct Split<'a> {
    /// The sub-command.
    pub command: &'static SubCommand,
    /// The operands, in order.
    pub operands: Vec<&'a OsStr>,
    given: Vec<(&'static Switch, &'a OsStr)>,
}

impl<'a> Split<'a> {
    /// Tells words apart.
    pub fn of(command: &'static SubCommand, words: &'a [OsString]) -> Result<Split<'a>, String> {
        let mut split = Split {
            command,
            operands: Vec::new(),
            given: Vec::new(),
        };
        let mut words = words.iter().map(OsString::as_os_str);
        while let Some(word) = words.next() {
            if word == "--" {
                split.operands.extend(words);
                break;
            }
            if is_switch(word) {
                split.switch(word, &mut words)?;
            } else {
                split.operands.push(word);
            }
        }
        split.counted()
    }

    /// Whether an option is given.
    pub fn has(&self, switch: &Switch) -> bool {
        self.value(switch).is_some()
    }

    /// The value of an option, if it is given.
    pub fn value(&self, switch: &Switch) -> Option<&'a OsStr> {
        let mut given = self.given.iter();
        let found = given.find(|(given, _)| given.long == switch.long);
        found.map(|(_, value)| *value)
    }

    /// Takes an option, and its value from the same word or the next one.
    fn switch(
        &mut self,
        word: &'a OsStr,
        words: &mut impl Iterator<Item = &'a OsStr>,
    ) -> Result<(), String> {
        let (name, value) = parted(word);
        let typed = name.to_string_lossy();
        let mut own = self.command.switches.iter();
        let switch = own.find(|switch| named(&typed, switch)).ok_or_else(|| {
            let (shown, command) = (quoted(name), self.command.name);
            let known = meant(&typed, self.command.switches);
            format!("{shown} is no option of {command}{known}")
        })?;
        let long = switch.word();
        let value = match (switch.value, value) {
            (None, None) => OsStr::new(""),
            (None, Some(_)) => return Err(format!("{long} takes no value")),
            (Some(_), Some(value)) => value,
            (Some((what, _)), None) => {
                words.next().ok_or_else(|| format!("{long} takes {what}"))?
            }
        };
        if switch.value.is_some() && self.has(switch) {
            return Err(format!("{long} is given twice"));
        }
        self.given.push((switch, value));
        Ok(())
    }

    /// Tests that there are as many operands as the sub-command takes.
    fn counted(self) -> Result<Split<'a>, String> {
        let (least, most) = self.command.bounds();
        let (name, takes) = (self.command.name, self.command.takes());
        if let Some(operand) = self.command.operands.get(self.operands.len()) {
            if self.operands.len() < least && matches!(operand.count, Count::One | Count::Some) {
                let lacking = operand.name;
                return Err(format!("{name} takes {takes}, and {lacking} is missing"));
            }
        }
        match most.and_then(|most| self.operands.get(most)) {
            Some(spare) => Err(format!(
                "{name} takes {takes}, and {} is one too many",
                quoted(spare)
            )),
            None => Ok(self),
        }
    }
}

/// Whether a word is an option: it begins with a dash, is more than that, and
/// is no negative number.
pub fn is_switch(word: &OsStr) -> bool {
    match word.as_bytes() {
        [b'-', next, ..] => !next.is_ascii_digit(),
        _ => false,
    }
}

/// Whether a word is a certain option, in one of its forms.
pub fn is(word: &OsStr, switch: &Switch) -> bool {
    word.to_str().map_or(false, |word| named(word, switch))
}

/// Whether a word with its dashes names an option.
pub fn named(word: &str, switch: &Switch) -> bool {
    let letter = word.strip_prefix('-').and_then(|rest| rest.parse().ok());
    word.strip_prefix("--") == Some(switch.long) || (letter.is_some() && letter == switch.short)
}

/// Whether help is asked for among the words of a sub-command.
pub fn asks_for_help(words: &[OsString]) -> bool {
    let mut before = words.iter().take_while(|word| *word != "--");
    before.any(|word| is(word, &HELP))
}

/// The name and the value of an option in one word, such as `--budget=6`.
pub fn parted(word: &OsStr) -> (&OsStr, Option<&OsStr>) {
    let bytes = word.as_bytes();
    match bytes.iter().position(|&byte| byte == b'=') {
        Some(place) => {
            let (name, value) = (&bytes[..place], &bytes[place + 1..]);
            (OsStr::from_bytes(name), Some(OsStr::from_bytes(value)))
        }
        None => (word, None),
    }
}
