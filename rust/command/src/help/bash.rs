//! Completions for bash.

use super::{places, with_value, words_for};
use crate::description::{all_switches, Fills, Switch, COMMANDS, HELP, NAME, VERSION};

/// The script. It counts the operands before the word, since what a word can be
/// depends on its place.
pub fn script() -> String {
    let names: Vec<&str> = COMMANDS.iter().map(|command| command.name).collect();
    let first = format!("{} {}", names.join(" "), forms(&[HELP, VERSION]));
    [
        format!("# Completions of {NAME} for bash.\n"),
        format!("_{NAME}_words() {{ mapfile -t COMPREPLY < <(compgen -W \"$1\" -- \"$word\"); }}\n"),
        format!("_{NAME}_files() {{\n    compopt -o filenames 2>/dev/null\n"),
        String::from("    mapfile -t COMPREPLY < <(compgen -f -- \"$word\")\n}\n"),
        format!("_{NAME}() {{\n    local word=${{COMP_WORDS[COMP_CWORD]}} before=${{COMP_WORDS[COMP_CWORD-1]}}\n"),
        String::from("    local command= place=0 at\n    COMPREPLY=()\n"),
        String::from("    # An option, its equals sign and its value are three words here.\n"),
        String::from("    if [[ $word == = ]]; then word=; elif [[ $before == = ]]; then before=${COMP_WORDS[COMP_CWORD-2]}; fi\n"),
        place(),
        values(),
        format!("    if [[ -z $command ]]; then\n        _{NAME}_words '{first}'\n        return\n    fi\n"),
        switches(),
        operands(),
        format!("}}\ncomplete -F _{NAME} {NAME}\n"),
    ]
    .concat()
}

/// Finds the sub-command, and how many operands stand before the word.
fn place() -> String {
    let takers = with_value(&all_switches());
    let takers: Vec<String> = takers.iter().map(|(switch, _)| switch.word()).collect();
    let takers = takers.join("|");
    format!(
        "    for ((at = 1; at < COMP_CWORD; at++)); do
        case ${{COMP_WORDS[at]}} in
            {takers}) [[ ${{COMP_WORDS[at+1]}} == = ]] && at=$((at + 1)); at=$((at + 1)) ;;
            -[!0-9]*) ;;
            *) if [[ -z $command ]]; then command=${{COMP_WORDS[at]}}; else place=$((place + 1)); fi ;;
        esac
    done
"
    )
}

/// What follows an option that takes a value.
fn values() -> String {
    let cases = with_value(&all_switches());
    let cases = cases.iter().map(|(switch, fills)| {
        let completed = completed(*fills);
        format!("        {}) {completed}return ;;\n", switch.word())
    });
    let cases: String = cases.collect();
    format!("    case $before in\n{cases}    esac\n")
}

/// The options of each sub-command.
fn switches() -> String {
    let cases = COMMANDS.iter().map(|command| {
        let mut all = command.switches.to_vec();
        all.push(HELP);
        let forms = forms(&all);
        format!("            {}) _{NAME}_words '{forms}' ;;\n", command.name)
    });
    let cases: String = cases.collect();
    format!(
        "    if [[ $word == -* ]]; then
        case $command in
{cases}        esac
        return
    fi
"
    )
}

/// The operands of each sub-command, by their place.
fn operands() -> String {
    let mut cases = String::new();
    for command in &COMMANDS {
        for (operand, first, last) in places(command) {
            let place = last.map_or(String::from("*"), |_| first.to_string());
            let completed = completed(operand.fills);
            cases.push_str(&format!(
                "        {}:{place}) {completed};;\n",
                command.name
            ));
        }
    }
    format!("    case $command:$place in\n{cases}    esac\n")
}

fn completed(fills: Fills) -> String {
    match (words_for(fills), fills) {
        (Some(words), _) => format!("_{NAME}_words '{}'; ", words.join(" ")),
        (None, Fills::File) => format!("_{NAME}_files; "),
        (None, _) => String::new(),
    }
}

fn forms(switches: &[Switch]) -> String {
    let forms = |switch: &Switch| match switch.short {
        Some(letter) => format!("-{letter} {}", switch.word()),
        None => switch.word(),
    };
    let all: Vec<String> = switches.iter().map(forms).collect();
    all.join(" ")
}
