//! The sub-commands.

use super::operands::{COMMAND, OUT, READING, TABLE, TABLES, TEXT, VALUE};
use super::switches::{ASSIGNMENTS, BUDGET, COMPLETIONS, JSON_LINES, MAN, QUIET};
use super::{SubCommand, Task};
use crate::status::Status;

const REFUSED: (Status, &str) = (Status::Refused, "refused, as explained on standard error");
const MISUSED: (Status, &str) = (
    Status::Misused,
    "misuse, or a file cannot be read or written",
);

/// All sub-commands, in the order of the help.
pub const COMMANDS: [SubCommand; 8] = [
    CHECK, LIST, TRANSLATE, EVALUATE, READINGS, SHOW, ASSEMBLE, HELP,
];

const CHECK: SubCommand = SubCommand {
    name: "check",
    task: Task::Check,
    summary: "says whether tables are sound, or what is wrong with them",
    operands: &[TABLES],
    switches: &[JSON_LINES, QUIET],
    about: &[
        "Prints \"sound\" for a table that passes the check. A refusal is explained on standard error, with the file, the record and the field that is at fault.",
        "With several tables each gets a line: the file, and \"sound\", \"refused\" with number and record, or \"not read\". The status is 0 where all are sound, 2 where a file cannot be read, else 1.",
    ],
    statuses: &[(Status::Done, "all tables are sound"), REFUSED, MISUSED],
    examples: &["barfigol check rules.table", "barfigol check --quiet tables/*.table && echo all sound"],
};

const LIST: SubCommand = SubCommand {
    name: "list",
    task: Task::List,
    summary: "prints the translated table, a record to a line",
    operands: &[READING, TABLE],
    switches: &[],
    about: &[
        "A line is mark, kind, aux, x and y. On a refusal it is \"refused\", the number and the record, and the explanation stands on standard error.",
    ],
    statuses: &[(Status::Done, "the translation is printed"), REFUSED, MISUSED],
    examples: &["barfigol list relational rules.table"],
};

const TRANSLATE: SubCommand = SubCommand {
    name: "translate",
    task: Task::Translate,
    summary: "writes the translated table to OUT",
    operands: &[READING, TABLE, OUT],
    switches: &[],
    about: &[
        "OUT is untouched until the translation is done, and stays as it was where it is refused. At every moment it has its old bytes or all of the translation. It may be TABLE itself.",
    ],
    statuses: &[(Status::Done, "the translation is written"), REFUSED, MISUSED],
    examples: &[
        "barfigol translate kleene rules.table total.table",
        "barfigol translate kleene rules.table - | barfigol check -",
    ],
};

const EVALUATE: SubCommand = SubCommand {
    name: "evaluate",
    task: Task::Evaluate,
    summary: "gives the verdict of each constraint for an assignment",
    operands: &[READING, TABLE, VALUE],
    switches: &[ASSIGNMENTS, BUDGET, JSON_LINES, QUIET],
    about: &[
        "Prints true, false or undefined for each constraint, a line to each, then the steps, then \"all true\" or \"not all true\". Negative values need no --.",
        "With --assignments each line of FILE is an assignment: values with spaces or tabs between them. What follows # is a comment, and a line without values is passed over. \
         Each assignment gets a line, with \"; \" between its parts: the verdicts, the steps, and \"all true\" or \"not all true\"; or \"refused\" with number and record. \
         A line that is no assignment ends the run with 2, and is named by its number.",
        "With --assignments the status is 1 where some assignment is refused, else 3 where some is not all true, else 0.",
    ],
    statuses: &[
        (Status::Done, "all true, at every assignment"),
        REFUSED,
        MISUSED,
        (Status::No, "not all true, at some assignment"),
    ],
    examples: &[
        "barfigol evaluate kleene rules.table 2 -7",
        "if barfigol evaluate -q strict rules.table 2 0; then echo fits; fi",
        "barfigol evaluate relational rules.table --assignments points.txt --json",
    ],
};

const READINGS: SubCommand = SubCommand {
    name: "readings",
    task: Task::Readings,
    summary: "tells where the three readings part",
    operands: &[TABLE],
    switches: &[BUDGET, QUIET],
    about: &[
        "Goes through all assignments of the domains in order, the last variable fastest, and prints a line for each constraint whose verdicts under the three readings are not the same. \
         A reading that is refused with 8 there has \"refused 8\" in place of a verdict.",
        "Then it says how many assignments were looked at of how many, and for each constraint at how many of these the readings part. \
         The look ends where the next assignment would take more steps than the budget leaves; it takes the steps of three evaluations.",
    ],
    statuses: &[
        (Status::Done, "the readings part at no assignment, and all were looked at"),
        REFUSED,
        MISUSED,
        (Status::No, "the readings part at some assignment"),
        (Status::CutOff, "the readings part at no assignment that was looked at, and the budget left some out"),
    ],
    examples: &["barfigol readings rules.table", "barfigol readings rules.table --budget 100000000"],
};

const SHOW: SubCommand = SubCommand {
    name: "show",
    task: Task::Show,
    summary: "prints the records of a table with what they mean",
    operands: &[TABLE],
    switches: &[],
    about: &[
        "Takes any file of at most 1048576 bytes, sound or not, and marks faults in place. assemble makes the same bytes of the lines.",
    ],
    statuses: &[
        (Status::Done, "the records are printed, whether the table is sound or not"),
        MISUSED,
    ],
    examples: &["barfigol show rules.table"],
};

const ASSEMBLE: SubCommand = SubCommand {
    name: "assemble",
    task: Task::Assemble,
    summary: "makes a table of lines as show and list print them",
    operands: &[TEXT, OUT],
    switches: &[],
    about: &[
        "A line is mark, kind, aux, x and y. What follows # or, behind y, two spaces or a tab is a comment. The x of HD may be ? for the number of records.",
        "The table is written as the text says, and is not checked. A text that is not understood is refused with its file and line, and OUT stays as it was.",
    ],
    statuses: &[
        (Status::Done, "the table is written"),
        (Status::Refused, "the text is refused, as explained on standard error"),
        MISUSED,
    ],
    examples: &[
        "barfigol assemble rules.txt rules.table",
        "barfigol assemble rules.txt - | barfigol check -",
    ],
};

const HELP: SubCommand = SubCommand {
    name: "help",
    task: Task::Help,
    summary: "prints help, the man page or completions for a shell",
    operands: &[COMMAND],
    switches: &[MAN, COMPLETIONS],
    about: &[],
    statuses: &[
        (Status::Done, "the text is printed"),
        (Status::Misused, "misuse"),
    ],
    examples: &[
        "barfigol help evaluate",
        "barfigol help --man > barfigol.1",
        "barfigol help --completions bash > barfigol.bash",
    ],
};
