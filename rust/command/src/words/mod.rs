//! The words of the command line: from what is typed to what is asked for.

mod operands;
mod request;
mod split;

pub use operands::value;
pub use request::{Assignments, Evaluate, Page, Report, Request, Shell, Source, Target};

use crate::description::{all_switches, command, SubCommand, Switch, COMMANDS, HELP, VERSION};
use crate::printable::quoted;
use crate::suggest::question;
use split::{is_switch, Split};
use std::ffi::{OsStr, OsString};

/// Words that ask for nothing: what is wrong, and where to read on.
#[derive(Debug)]
pub struct Misuse {
    /// What is wrong.
    pub text: String,
    /// The sub-command that is meant, if that can be told.
    pub about: Option<&'static SubCommand>,
}

/// What the words after the command's name ask for.
pub fn read(words: &[OsString]) -> Result<Request, Misuse> {
    let plain = |text: String| Misuse { text, about: None };
    let (first, rest) = words
        .split_first()
        .ok_or_else(|| plain(String::from("nothing is asked for")))?;
    if split::is(first, &VERSION) {
        return match rest {
            [] => Ok(Request::Version),
            _ => Err(plain(String::from("--version stands alone"))),
        };
    }
    let name = match split::is(first, &HELP) {
        true => OsStr::new("help"),
        false => first,
    };
    let found = name.to_str().and_then(command);
    let command = found.ok_or_else(|| plain(no_command(first)))?;
    request(command, rest).map_err(|text| Misuse {
        text,
        about: Some(command),
    })
}

fn request(command: &'static SubCommand, words: &[OsString]) -> Result<Request, String> {
    if split::asks_for_help(words) {
        return Ok(Request::Help(Page::Of(command)));
    }
    request::of(&Split::of(command, words)?)
}

/// The first word is no sub-command.
fn no_command(word: &OsStr) -> String {
    if !is_switch(word) {
        let names = COMMANDS.iter().map(|command| command.name);
        let meant = question(&word.to_string_lossy(), names);
        return format!("{} is no command{meant}", quoted(word));
    }
    let (name, _) = split::parted(word);
    let all = all_switches();
    match all.iter().find(|switch| split::is(name, switch)) {
        Some(switch) => format!("{} stands behind a command", switch.word()),
        None => format!(
            "{} is no option{}",
            quoted(name),
            meant(&name.to_string_lossy(), &all)
        ),
    }
}

/// The question that stands behind a wrong option.
fn meant(typed: &str, among: &[Switch]) -> String {
    let words: Vec<String> = among.iter().map(Switch::word).collect();
    question(typed, words.iter().map(String::as_str))
}
