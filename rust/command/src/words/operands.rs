//! Single words: readings, numbers, files.

use super::{Shell, Source, Target};
use crate::description::{READINGS, SHELLS};
use crate::printable::quoted;
use crate::suggest::question;
use barfigol::Reading;
use std::ffi::OsStr;
use std::path::PathBuf;

/// The choice that a word stands for. Numbers of no reading pass: it is for the
/// library to refuse them.
pub fn choice(word: &OsStr) -> Result<u32, String> {
    let text = word.to_str().unwrap_or("");
    let named = text.parse().map(Reading::number).ok();
    named.or_else(|| text.parse().ok()).ok_or_else(|| {
        let hint = match question(text, READINGS) {
            none if none.is_empty() => ": strict, kleene, relational or a number of 32 bits".into(),
            question => question,
        };
        format!("{} is no reading{hint}", quoted(word))
    })
}

/// A value of a variable.
pub fn value(word: &OsStr) -> Result<i32, String> {
    let parsed = word.to_str().and_then(|text| text.parse().ok());
    parsed.ok_or_else(|| format!("{} is no signed number of 32 bits", quoted(word)))
}

/// A number of steps.
pub fn budget(word: &OsStr) -> Result<u32, String> {
    let parsed = word.to_str().and_then(|text| text.parse().ok());
    parsed.ok_or_else(|| format!("{} is no budget: 0 to {}", quoted(word), u32::MAX))
}

/// Where something is read from.
pub fn source(word: &OsStr) -> Source {
    if word == "-" {
        Source::Input
    } else {
        Source::File(PathBuf::from(word))
    }
}

/// Where something is written to.
pub fn target(word: &OsStr) -> Target {
    if word == "-" {
        Target::Output
    } else {
        Target::File(PathBuf::from(word))
    }
}

/// A shell.
pub fn shell(word: &OsStr) -> Result<Shell, String> {
    match word.to_str() {
        Some("bash") => Ok(Shell::Bash),
        Some("zsh") => Ok(Shell::Zsh),
        Some("fish") => Ok(Shell::Fish),
        _ => {
            let (shown, typed) = (quoted(word), word.to_string_lossy());
            let meant = question(&typed, SHELLS);
            Err(format!("there are no completions for {shown}{meant}"))
        }
    }
}
