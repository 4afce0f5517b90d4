//! The options.

use super::{Fills, Switch};

/// The most steps.
pub const BUDGET: Switch = Switch {
    long: "budget",
    short: None,
    value: Some(("N", Fills::Number)),
    text: "The most steps that may be taken: 0 to 4294967295. If not given it is the greatest for evaluate and 1000000 for readings.",
};

/// Assignments from a file.
pub const ASSIGNMENTS: Switch = Switch {
    long: "assignments",
    short: None,
    value: Some(("FILE", Fills::File)),
    text: "Evaluates at each line of FILE, or of standard input for -, in place of values.",
};

/// JSON in place of text.
pub const JSON_LINES: Switch = Switch {
    long: "json",
    short: None,
    value: None,
    text: "Prints an object of JSON to a line in place of text.",
};

/// Nothing on standard output.
pub const QUIET: Switch = Switch {
    long: "quiet",
    short: Some('q'),
    value: None,
    text: "Prints nothing on standard output: the exit status tells the answer.",
};

/// The man page.
pub const MAN: Switch = Switch {
    long: "man",
    short: None,
    value: None,
    text: "Prints the man page, barfigol.1, in roff.",
};

/// Completions for a shell.
pub const COMPLETIONS: Switch = Switch {
    long: "completions",
    short: None,
    value: Some(("SHELL", Fills::Shell)),
    text: "Prints the completions for bash, zsh or fish.",
};

/// Help.
pub const HELP: Switch = Switch {
    long: "help",
    short: Some('h'),
    value: None,
    text: "Prints help; behind a command, help about it.",
};

/// Name and version.
pub const VERSION: Switch = Switch {
    long: "version",
    short: Some('V'),
    value: None,
    text: "Prints name and version.",
};
