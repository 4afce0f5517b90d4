//! `check`: whether tables are sound.

use super::{explained, first_line, in_numbers, numbers, unread};
use crate::explain::Call;
use crate::input;
use crate::json::Object;
use crate::output::Output;
use crate::status::{Status, Stop};
use crate::words::{Report, Source};
use barfigol::Refusal;

/// What the check says of a table.
enum Found {
    Sound,
    Refused(Vec<u8>, Refusal),
    Unread(String),
}

impl Found {
    fn of(source: &Source) -> Found {
        match input::table(source) {
            Ok(table) => match barfigol::check(&table) {
                Ok(()) => Found::Sound,
                Err(refusal) => Found::Refused(table, refusal),
            },
            Err(why) => Found::Unread(why),
        }
    }

    fn status(&self) -> Status {
        match self {
            Found::Sound => Status::Done,
            Found::Refused(..) => Status::Refused,
            Found::Unread(_) => Status::Misused,
        }
    }

    /// What stands on standard error.
    fn complaint(&self, source: &Source, report: Report) -> Option<String> {
        match self {
            Found::Sound => None,
            Found::Refused(..) if report == Report::Json => None,
            Found::Refused(table, refusal) => Some(explained(source, Call::Check, table, refusal)),
            Found::Unread(why) => Some(unread(source, why).text),
        }
    }

    /// What stands behind the file's name.
    fn words(&self) -> String {
        match self {
            Found::Sound => String::from("sound"),
            Found::Refused(_, refusal) => in_numbers(refusal),
            Found::Unread(_) => String::from("not read"),
        }
    }

    fn object(&self, source: &Source) -> Object {
        let object = Object::new().text("table", &input::typed(source));
        match self {
            Found::Sound => object.truth("sound", true).answer((0, 0)),
            Found::Refused(table, refusal) => object
                .truth("sound", false)
                .answer(numbers(refusal))
                .text("reason", refusal.reason())
                .text("explanation", &first_line(Call::Check, table, refusal)),
            Found::Unread(why) => object.text("error", why),
        }
    }
}

/// Checks tables. One table by itself is told about without its name, and a
/// refusal of it on standard error alone.
pub fn run(tables: &[Source], report: Report, out: &mut Output) -> Result<Status, Stop> {
    let mut status = Status::Done;
    for source in tables {
        let found = Found::of(source);
        let line = match (report, tables) {
            (Report::Quiet, _) => String::new(),
            (Report::Json, _) => found.object(source).line(),
            (Report::Text, [_]) if found.status() == Status::Done => String::from("sound\n"),
            (Report::Text, [_]) => String::new(),
            (Report::Text, _) => format!("{}: {}\n", input::name(source), found.words()),
        };
        out.text(&line)?;
        if let Some(complaint) = found.complaint(source, report) {
            crate::complain(&complaint);
        }
        status = worse(status, found.status());
    }
    Ok(status)
}

/// What two tables together are worth: a file that was not read outweighs a
/// refusal, for there the check said nothing.
fn worse(one: Status, other: Status) -> Status {
    if other as u8 > one as u8 {
        other
    } else {
        one
    }
}
