//! Completions for zsh.

use super::{note, places, words_for};
use crate::description::{Fills, SubCommand, Switch, COMMANDS, HELP, NAME, VERSION};

/// The script.
pub fn script() -> String {
    let commands = COMMANDS.iter().map(|command| {
        let summary = command.summary.replace(':', "\\:");
        let text = quoted(&format!("{}:{summary}", command.name));
        format!("            {text}\n")
    });
    let commands: String = commands.collect();
    let cases: String = COMMANDS.iter().map(case).collect();
    let alone = [HELP, VERSION].map(|switch| spec(&switch)).join(" ");
    format!(
        "#compdef {NAME}
# Completions of {NAME} for zsh.
_{NAME}() {{
    if (( CURRENT == 2 )); then
        local -a commands
        commands=(
{commands}        )
        _describe command commands
        _arguments {alone}
        return
    fi
    local command=$words[2]
    shift words
    (( CURRENT-- ))
    case $command in
{cases}    esac
}}
if [[ $funcstack[1] = _{NAME} ]]; then _{NAME} \"$@\"; else compdef _{NAME} {NAME}; fi
"
    )
}

fn case(command: &SubCommand) -> String {
    let switches = command.switches.iter().chain([&HELP]).map(spec);
    let operands = places(command).into_iter().map(|(operand, first, last)| {
        let place = last.map_or(String::from("*"), |_| (first + 1).to_string());
        let action = action(operand.fills);
        quoted(&format!("{place}:{}:{action}", operand.name))
    });
    let specs: Vec<String> = switches.chain(operands).collect();
    let specs = specs.join(" \\\n            ");
    format!("        {}) _arguments {specs} ;;\n", command.name)
}

/// An option as `_arguments` takes it.
fn spec(switch: &Switch) -> String {
    let escaped = |text: String, sign: &str| text.replace(sign, &format!("\\{sign}"));
    let text = ["[", "]", ":"]
        .iter()
        .fold(note(switch.text).to_string(), |text, sign| {
            escaped(text, sign)
        });
    let word = switch.word();
    match (switch.short, switch.value) {
        (_, Some((value, fills))) => quoted(&format!("{word}=[{text}]:{value}:{}", action(fills))),
        (Some(letter), None) => {
            let both = quoted(&format!("(-{letter} {word})"));
            format!("{both}{{-{letter},{word}}}{}", quoted(&format!("[{text}]")))
        }
        (None, None) => quoted(&format!("{word}[{text}]")),
    }
}

fn action(fills: Fills) -> String {
    match (words_for(fills), fills) {
        (Some(words), _) => format!("({})", words.join(" ")),
        (None, Fills::File) => String::from("_files"),
        (None, _) => String::from(" "),
    }
}

fn quoted(text: &str) -> String {
    format!("'{}'", text.replace('\'', "'\\''"))
}
