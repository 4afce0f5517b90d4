//! `evaluate`: the verdicts on a table, at one assignment or at many.

mod lines;
mod told;

use super::{explained, first_line, in_numbers, table_of, unread};
use crate::explain::Call;
use crate::input;
use crate::json::Object;
use crate::output::Output;
use crate::status::{Status, Stop};
use crate::words::{Assignments, Evaluate, Report, Source};
use barfigol::{Choice, Evaluation, Refusal};
use lines::Lines;

/// What the library says at an assignment.
type Answer = Result<Evaluation, Refusal>;

/// Evaluates a table where it is asked for.
pub fn run(asked: &Evaluate, out: &mut Output) -> Result<Status, Stop> {
    let table = table_of(&asked.table)?;
    let at_table = AtTable { asked, table };
    match &asked.at {
        Assignments::One(values) => at_table.once(values, out),
        Assignments::Lines(_) if at_table.is_refused_everywhere() => at_table.once(&[], out),
        Assignments::Lines(source) => at_table.each(source, out),
    }
}

/// An evaluation with its table read.
struct AtTable<'a> {
    asked: &'a Evaluate,
    table: Vec<u8>,
}

impl AtTable<'_> {
    fn answer(&self, values: &[i32]) -> Answer {
        let Evaluate { choice, budget, .. } = *self.asked;
        barfigol::evaluate(Choice(choice), &self.table, values, budget)
    }

    /// Whether the library refuses whatever the assignment is: with 1 to 7,
    /// which come before all others. With no budget nothing is walked.
    fn is_refused_everywhere(&self) -> bool {
        let answer = barfigol::evaluate(Choice(self.asked.choice), &self.table, &[], 0);
        answer.err().map_or(false, |refusal| refusal.number() <= 7)
    }

    /// Evaluates at one assignment.
    fn once(&self, values: &[i32], out: &mut Output) -> Result<Status, Stop> {
        let answer = self.answer(values);
        match (&answer, self.asked.report) {
            (_, Report::Json) => out.text(&self.object(None, values, &answer).line())?,
            (Err(refusal), _) => {
                let call = self.call(values);
                let text = explained(&self.asked.table, call, &self.table, refusal);
                return Err(Stop::refused(text));
            }
            (Ok(found), Report::Text) => out.text(&told::lines(found))?,
            (Ok(_), Report::Quiet) => {}
        }
        Ok(status_of(&answer))
    }

    /// Evaluates at each line of a source.
    fn each(&self, source: &Source, out: &mut Output) -> Result<Status, Stop> {
        let input = input::open(source).map_err(|why| unread(source, &why))?;
        let mut lines = Lines::new(input);
        let mut status = Status::Done;
        while let Some((line, values)) = lines
            .next()
            .map_err(|(line, why)| Stop::failed(&at_line(source, line, &why)))?
        {
            let answer = self.answer(&values);
            if let (Err(refusal), Report::Text | Report::Quiet) = (&answer, self.asked.report) {
                let fault = self.fault(&values, refusal);
                crate::complain(&(at_line(source, line, &fault) + "\n"));
            }
            out.text(&self.told(line, &values, &answer))?;
            status = graver(status, status_of(&answer));
            if out.is_gone() {
                break;
            }
        }
        Ok(status)
    }

    /// The line for the answer at a line.
    fn told(&self, line: u64, values: &[i32], answer: &Answer) -> String {
        match (answer, self.asked.report) {
            (_, Report::Quiet) => String::new(),
            (_, Report::Json) => self.object(Some(line), values, answer).line(),
            (Ok(found), Report::Text) => told::line(found),
            (Err(refusal), Report::Text) => in_numbers(refusal) + "\n",
        }
    }

    fn object(&self, line: Option<u64>, values: &[i32], answer: &Answer) -> Object {
        let object = told::question(self.asked, line, values);
        match answer {
            Ok(found) => told::found(object, found),
            Err(refusal) => {
                let explanation = first_line(self.call(values), &self.table, refusal);
                told::refused(object, refusal, &explanation)
            }
        }
    }

    /// A refusal in one line, which begins with the table.
    fn fault(&self, values: &[i32], refusal: &Refusal) -> String {
        let line = first_line(self.call(values), &self.table, refusal);
        format!("{}: {line}", input::name(&self.asked.table))
    }

    fn call<'b>(&self, assignment: &'b [i32]) -> Call<'b> {
        Call::Evaluate {
            choice: self.asked.choice,
            assignment,
            budget: self.asked.budget,
        }
    }
}

/// A text about a line of a source.
fn at_line(source: &Source, line: u64, text: &str) -> String {
    format!("{}:{line}: {text}", input::name(source))
}

fn status_of(answer: &Answer) -> Status {
    match answer {
        Ok(found) if found.all_true => Status::Done,
        Ok(_) => Status::No,
        Err(_) => Status::Refused,
    }
}

/// What two assignments together are worth: a refusal outweighs a no.
fn graver(one: Status, other: Status) -> Status {
    match (one, other) {
        (Status::Refused, _) | (_, Status::Refused) => Status::Refused,
        (Status::Done, other) => other,
        (one, _) => one,
    }
}
