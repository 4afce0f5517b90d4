//! How a run ends.

/// The exit status. A number means the same for every sub-command.
#[derive(Clone, Copy, Debug, PartialEq, Eq)]
pub enum Status {
    /// Done, and a question that was asked is answered with yes.
    Done = 0,
    /// A table or a text is refused.
    Refused = 1,
    /// The words are wrong, or a file cannot be read or written.
    Misused = 2,
    /// The answer is no: not all true, or the readings part.
    No = 3,
    /// The budget ended the look before there was an answer.
    CutOff = 4,
}

/// A run that ends before it is done: its status, and why.
#[derive(Debug)]
pub struct Stop {
    /// The exit status.
    pub status: Status,
    /// What is told on standard error, as whole lines.
    pub text: String,
}

impl Stop {
    /// A table or a text is refused, as the lines explain.
    pub fn refused(text: String) -> Stop {
        let status = Status::Refused;
        Stop { status, text }
    }

    /// Something cannot be read or written, or is not what it should be.
    pub fn failed(what: &str) -> Stop {
        Stop {
            status: Status::Misused,
            text: format!("barfigol: {what}\n"),
        }
    }
}
