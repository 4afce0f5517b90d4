//! The objects of JSON.

use super::Task;

/// A key of an object.
#[derive(Clone, Copy, Debug)]
pub struct Key {
    /// Its word.
    pub name: &'static str,
    /// The sub-commands whose objects have it.
    pub of: &'static [Task],
    /// What stands behind it.
    pub text: &'static str,
}

const CHECK: &[Task] = &[Task::Check];
const EVALUATE: &[Task] = &[Task::Evaluate];
const BOTH: &[Task] = &[Task::Check, Task::Evaluate];

const fn key(name: &'static str, of: &'static [Task], text: &'static str) -> Key {
    Key { name, of, text }
}

/// The keys of all objects, in their order.
pub const KEYS: [Key; 14] = [
    key(
        "table",
        BOTH,
        "text: the file's name, \"-\" for standard input; what is no UTF-8 in it is U+FFFD",
    ),
    key(
        "line",
        EVALUATE,
        "number: the assignment's line (with --assignments)",
    ),
    key(
        "reading",
        EVALUATE,
        "text: strict, kleene or relational, or null for a number that is none",
    ),
    key("choice", EVALUATE, "number: the reading's number"),
    key("assignment", EVALUATE, "numbers: the values"),
    key("sound", CHECK, "true or false"),
    key(
        "number",
        BOTH,
        "number: 0 for done, else the number of the refusal",
    ),
    key("record", BOTH, "number: the record of the refusal, else 0"),
    key(
        "verdicts",
        EVALUATE,
        "texts: true, false or undefined for each constraint, none in a refusal",
    ),
    key("steps", EVALUATE, "number: the steps, 0 in a refusal"),
    key("all_true", EVALUATE, "true or false"),
    key("reason", BOTH, "text: what the number means (in a refusal)"),
    key(
        "explanation",
        BOTH,
        "text: the first line of the explanation (in a refusal)",
    ),
    key(
        "error",
        CHECK,
        "text: why the file cannot be read; only \"table\" stands beside it",
    ),
];
