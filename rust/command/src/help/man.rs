//! The man page, in roff.

use crate::description::{
    all_switches, Count, Operand, SubCommand, Switch, COMMANDS, JSON_LINES, NAME, OPERANDS,
    STATUSES, SUMMARY,
};

/// What the command is for, in paragraphs.
const ABOUT: [&str; 2] = [
    "A table of 12-byte records holds a constraint model over whole numbers. \
     Where a rule divides by 0 or looks past the end of an array, solvers disagree about what it means.",
    "barfigol takes a table and a reading (strict, Kleene or relational) and gives a table with the same solutions in which no term is undefined. \
     Number and record of a refusal are those of the proved library.",
];

/// Where to read on.
const PAGES: &str = "TABLE.md describes the table, the kinds of nodes and the refusals, READINGS.md helps to choose a reading, and PLACEMENT.md goes through an example. \
     They are installed in the folder share/doc/barfigol beside the folder bin of the command.";

/// The man page `barfigol.1`.
pub fn page() -> String {
    let version = env!("CARGO_PKG_VERSION");
    let title = NAME.to_uppercase();
    let commands: String = COMMANDS.iter().map(about).collect();
    let italic = |operand: &Operand| entry(&format!("\\fI{}\\fR", operand.name), operand.text);
    let operands: String = OPERANDS.iter().map(italic).collect();
    let switches = all_switches();
    let switches: String = switches
        .iter()
        .map(|switch| entry(&forms(switch), switch.text))
        .collect();
    let statuses = STATUSES
        .iter()
        .map(|(status, text)| entry(&bold(*status as u8), text));
    [
        format!(".TH {title} 1 \"\" \"{NAME} {version}\" \"User Commands\"\n"),
        format!(".SH NAME\n{NAME} \\- {}\n", plain(SUMMARY)),
        synopsis(),
        format!(".SH DESCRIPTION\n{}", paragraphs(&ABOUT)),
        format!(".SH COMMANDS\n{commands}"),
        format!(".SH OPERANDS\n{operands}"),
        String::from(".SH OPTIONS\nOptions stand before or behind the operands, and \\fB\\-\\-\\fR ends them.\n"),
        String::from("A value is the next word, or follows an equals sign.\n"),
        switches,
        format!(".SH EXIT STATUS\n{}", statuses.collect::<String>()),
        json(),
        examples(),
        format!(".SH SEE ALSO\n{}", paragraphs(&[PAGES])),
    ]
    .concat()
}

/// The keys of the objects of each sub-command that prints them.
fn json() -> String {
    let mut section = String::from(".SH JSON\n");
    for command in &COMMANDS {
        let keys: String = command
            .keys()
            .map(|key| entry(&bold(plain(key.name)), key.text))
            .collect();
        if !keys.is_empty() {
            let switch = bold(plain(&JSON_LINES.word()));
            let name = command.name;
            section.push_str(&format!(
                "The keys of an object of \\fB{name}\\fR {switch}, in this order:\n{keys}.PP\n"
            ));
        }
    }
    section
}

fn synopsis() -> String {
    let line = |command: &SubCommand| {
        let mut words = vec![bold(format!("{NAME} {}", command.name))];
        let switches = command
            .switches
            .iter()
            .map(|switch| format!("[{}]", shown(switch)));
        words.extend(switches.chain(command.operands.iter().map(placed)));
        words.join(" ") + "\n"
    };
    let alone = format!("{} {}\n", bold(NAME), bold("\\-\\-help | \\-\\-version"));
    let lines: Vec<String> = COMMANDS.iter().map(line).chain([alone]).collect();
    format!(".SH SYNOPSIS\n.nh\n{}.hy\n", lines.join(".br\n"))
}

fn about(command: &SubCommand) -> String {
    let (name, summary) = (command.name, plain(command.summary));
    let more = match command.about {
        [] => String::new(),
        about => format!(".PP\n{}", paragraphs(about)),
    };
    format!(".SS {name}\nIt {summary}.\n{more}")
}

fn paragraphs(texts: &[&str]) -> String {
    let lines: Vec<String> = texts.iter().map(|text| plain(text) + "\n").collect();
    lines.join(".PP\n")
}

fn examples() -> String {
    let examples = COMMANDS.iter().flat_map(|command| command.examples);
    let lines: String = examples.map(|example| plain(example) + "\n").collect();
    format!(".SH EXAMPLES\n.nf\n{lines}.fi\n")
}

fn entry(name: &str, text: &str) -> String {
    format!(".TP\n{name}\n{}\n", plain(text))
}

fn bold(text: impl std::fmt::Display) -> String {
    format!("\\fB{text}\\fR")
}

/// An option with the name of its value.
fn shown(switch: &Switch) -> String {
    let word = bold(plain(&switch.word()));
    match switch.value {
        Some((value, _)) => format!("{word} \\fI{value}\\fR"),
        None => word,
    }
}

fn forms(switch: &Switch) -> String {
    match switch.short {
        Some(letter) => format!("{}, {}", bold(format!("\\-{letter}")), shown(switch)),
        None => shown(switch),
    }
}

fn placed(operand: &Operand) -> String {
    let name = format!("\\fI{}\\fR", operand.name);
    match operand.count {
        Count::One => name,
        Count::AtMostOne => format!("[{name}]"),
        Count::Some => format!("{name}.."),
        Count::Any => format!("[{name}..]"),
    }
}

/// A text in which nothing is a request of roff.
fn plain(text: &str) -> String {
    let text = text.replace('\\', "\\e").replace('-', "\\-");
    match text.chars().next() {
        Some('.' | '\'') => format!("\\&{text}"),
        _ => text,
    }
}
