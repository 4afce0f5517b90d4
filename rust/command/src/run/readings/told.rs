//! What a look found, in words.

use super::look::{words, Look, Said, Word};
use barfigol::Reading;
use barfigol_format::words::numbered;
use barfigol_format::Table;

/// The lines for an assignment: one for each constraint in which the readings
/// part, or one where all are refused.
pub fn at(values: &[i32], said: &[Said; 3], parting: &[usize]) -> String {
    if let [Err(refusal), Err(_), Err(_)] = said {
        let (place, word) = (place(values), word(&Err(refusal.number())));
        return format!("at {place}: {word} under each reading\n");
    }
    let line = |&constraint: &usize| {
        let pairs = Reading::ALL.iter().zip(words(said, constraint));
        let shown = pairs.map(|(reading, said)| format!("{reading} {}", word(&said)));
        let shown: Vec<String> = shown.collect();
        let place = place(values);
        format!(
            "at {place}: constraint {constraint}: {}\n",
            shown.join(", ")
        )
    };
    parting.iter().map(line).collect()
}

/// What was found, after the look.
pub fn summary(model: &Table, look: &Look) -> String {
    let mut text = extent(model, look);
    let first_record = model.first_node_record() + model.nodes.len();
    for (constraint, &count) in look.by_constraint.iter().enumerate() {
        if count > 0 {
            let (record, times) = (first_record + constraint, numbered(count, "assignment"));
            text.push_str(&format!(
                "constraint {constraint} (record {record}): the readings part at {times}\n"
            ));
        }
    }
    for (reading, &count) in Reading::ALL.iter().zip(&look.refused) {
        if count > 0 {
            let times = numbered(count, "assignment");
            text.push_str(&format!("{reading}: refused 8 at {times}\n"));
        }
    }
    text + &conclusion(look)
}

/// How far the look went.
fn extent(model: &Table, look: &Look) -> String {
    if model.constraints.is_empty() {
        return String::from("there is no constraint\n");
    }
    let size = match model.assignment_count() {
        Some(count) => numbered(count, "assignment"),
        None => String::from("more than 2^128 assignments"),
    };
    let all = format!("looked at {} of {size}", look.looked);
    if look.is_complete {
        return format!("{all}\n");
    }
    let (each, budget) = (numbered(look.each, "step"), look.budget);
    format!("{all}: cut off, one takes {each} and the budget is {budget}\n")
}

fn conclusion(look: &Look) -> String {
    match (look.parting, look.is_complete) {
        (0, true) => String::from("the readings part nowhere\n"),
        (0, false) => String::from("the readings part at no assignment looked at\n"),
        (count, _) => format!("the readings part at {}\n", numbered(count, "assignment")),
    }
}

/// A verdict, or what stands in its place.
fn word(word: &Word) -> String {
    match word {
        Ok(verdict) => verdict.to_string(),
        Err(number) => format!("refused {number}"),
    }
}

/// An assignment, as evaluate takes it.
fn place(values: &[i32]) -> String {
    if values.is_empty() {
        return String::from("no values");
    }
    let values: Vec<String> = values.iter().map(ToString::to_string).collect();
    values.join(" ")
}
