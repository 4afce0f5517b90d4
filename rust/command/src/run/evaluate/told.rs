//! An evaluation as it is told: in lines, in one line, as an object of JSON.

use crate::input;
use crate::json::Object;
use crate::run::numbers;
use crate::words::Evaluate;
use barfigol::{Evaluation, Reading, Refusal, Verdict};

/// What document 01 gives beside a refusal: no verdicts, 0 steps, a no.
const NOTHING: Evaluation = Evaluation {
    verdicts: Vec::new(),
    steps: 0,
    all_true: false,
};

/// An evaluation in lines.
pub fn lines(found: &Evaluation) -> String {
    parts(found).join("\n") + "\n"
}

/// An evaluation in one line: the verdicts, if there are any, steps and whether
/// all are true.
pub fn line(found: &Evaluation) -> String {
    let parts = parts(found);
    let (verdicts, rest) = parts.split_at(found.verdicts.len());
    let rest = rest.join("; ");
    if verdicts.is_empty() {
        return rest + "\n";
    }
    format!("{}; {rest}\n", verdicts.join(" "))
}

/// The words for each constraint, for the steps, and for all together.
fn parts(found: &Evaluation) -> Vec<String> {
    let mut parts = words(found);
    parts.push(format!("steps {}", found.steps));
    let all = if found.all_true { "all" } else { "not all" };
    parts.push(format!("{all} true"));
    parts
}

fn words(found: &Evaluation) -> Vec<String> {
    found.verdicts.iter().map(Verdict::to_string).collect()
}

/// An object with what was asked.
pub fn question(asked: &Evaluate, line: Option<u64>, values: &[i32]) -> Object {
    let reading = Reading::try_from(asked.choice).ok().map(Reading::word);
    let table = Object::new().text("table", &input::typed(&asked.table));
    let place = match line {
        Some(line) => table.number("line", line),
        None => table,
    };
    place
        .text_or_null("reading", reading)
        .number("choice", asked.choice.into())
        .numbers("assignment", values)
}

/// An object with an evaluation.
pub fn found(object: Object, found: &Evaluation) -> Object {
    outcome(object.answer((0, 0)), found)
}

/// An object with a refusal.
pub fn refused(object: Object, refusal: &Refusal, explanation: &str) -> Object {
    outcome(object.answer(numbers(refusal)), &NOTHING)
        .text("reason", refusal.reason())
        .text("explanation", explanation)
}

fn outcome(object: Object, found: &Evaluation) -> Object {
    object
        .texts("verdicts", &words(found))
        .number("steps", found.steps.into())
        .truth("all_true", found.all_true)
}
