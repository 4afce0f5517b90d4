//! Completions for fish.

use super::{note, places, with_value, words_for};
use crate::description::{all_switches, Fills, SubCommand, Switch, COMMANDS, HELP, NAME, VERSION};

/// The last place of an operand that stands any number of times.
const NO_LAST: usize = 9_999;

/// The script.
pub fn script() -> String {
    let commands = COMMANDS.iter().map(|command| {
        let (name, text) = (command.name, quoted(command.summary));
        format!("complete -c {NAME} -n __fish_use_subcommand -a {name} -d {text}\n")
    });
    let alone = [HELP, VERSION].map(|switch| line("__fish_use_subcommand", &switch));
    [
        format!("# Completions of {NAME} for fish.\n"),
        place(),
        format!("complete -c {NAME} -f\n"),
        commands.collect(),
        alone.concat(),
        COMMANDS.iter().map(lines).collect(),
    ]
    .concat()
}

/// A function that tells which operand the next word is, since what a word can
/// be depends on its place.
fn place() -> String {
    let takers = with_value(&all_switches());
    let takers: Vec<&str> = takers.iter().map(|(switch, _)| switch.long).collect();
    let takers = takers.join("|");
    format!(
        "# Whether the next word is an operand of a command, from one place to another.
function __{NAME}_at --argument-names command first last
    set -l before (commandline -opc)
    set -l operands
    set -l value no
    for word in $before[2..-1]
        if test $value = yes
            set value no
        else if string match -qr -- '^--({takers})$' $word
            set value yes
        else if not string match -qr -- '^-[^0-9]' $word
            set -a operands $word
        end
    end
    set -l place (math (count $operands) - 1)
    test \"$operands[1]\" = $command; and test $place -ge $first; and test $place -le $last
end
"
    )
}

/// The options and operands of a sub-command.
fn lines(command: &SubCommand) -> String {
    let seen = quoted(&format!("__fish_seen_subcommand_from {}", command.name));
    let switches = command.switches.iter().chain([&HELP]);
    let mut lines: String = switches.map(|switch| line(&seen, switch)).collect();
    for (operand, first, last) in places(command) {
        let last = last.unwrap_or(NO_LAST);
        let at = quoted(&format!("__{NAME}_at {} {first} {last}", command.name));
        let filled = match (words_for(operand.fills), operand.fills) {
            (Some(words), _) => format!("-a {}", quoted(&words.join(" "))),
            (None, Fills::File) => String::from("-F"),
            (None, _) => continue,
        };
        lines.push_str(&format!("complete -c {NAME} -n {at} {filled}\n"));
    }
    lines
}

/// An option.
fn line(condition: &str, switch: &Switch) -> String {
    let short = switch
        .short
        .map_or(String::new(), |letter| format!(" -s {letter}"));
    let value = match switch.value {
        None => String::new(),
        Some((_, Fills::File)) => String::from(" -r -F"),
        Some((_, fills)) => match words_for(fills) {
            Some(words) => format!(" -x -a {}", quoted(&words.join(" "))),
            None => String::from(" -x"),
        },
    };
    let (long, text) = (switch.long, quoted(note(switch.text)));
    format!("complete -c {NAME} -n {condition}{short} -l {long}{value} -d {text}\n")
}

fn quoted(text: &str) -> String {
    format!("'{}'", text.replace('\\', "\\\\").replace('\'', "\\'"))
}
