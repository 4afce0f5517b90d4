//! Runs the command.

#![allow(dead_code)]

pub mod json;

use std::ffi::OsStr;
use std::io::Write;
use std::path::{Path, PathBuf};
use std::process::{Child, Command, Output, Stdio};
use std::thread;

/// The command under test.
pub const COMMAND: &str = env!("CARGO_BIN_EXE_barfigol");

/// What a run gives.
#[derive(Debug, PartialEq, Eq)]
pub struct Ran {
    pub status: Option<i32>,
    pub out: String,
    pub err: String,
}

impl From<Output> for Ran {
    fn from(output: Output) -> Ran {
        let text = |bytes| String::from_utf8(bytes).expect("the command writes text");
        Ran {
            status: output.status.code(),
            out: text(output.stdout),
            err: text(output.stderr),
        }
    }
}

/// Runs the command with nothing on standard input.
pub fn run<S: AsRef<OsStr>>(words: &[S]) -> Ran {
    run_with(words, &[])
}

/// Runs the command with some bytes on standard input.
pub fn run_with<S: AsRef<OsStr>>(words: &[S], input: &[u8]) -> Ran {
    ended(started(words), input).into()
}

/// Starts the command with a pipe at each of its three ends.
pub fn started<S: AsRef<OsStr>>(words: &[S]) -> Child {
    Command::new(COMMAND)
        .args(words)
        .stdin(Stdio::piped())
        .stdout(Stdio::piped())
        .stderr(Stdio::piped())
        .spawn()
        .expect("the command starts")
}

/// Gives a command its input, and waits for its end.
pub fn ended(mut child: Child, input: &[u8]) -> Output {
    let mut pipe = child.stdin.take().expect("a pipe");
    let input = input.to_vec();
    // It need not read all of it, and may write before it does.
    let writer = thread::spawn(move || pipe.write_all(&input));
    let output = child.wait_with_output().expect("the command ends");
    let _ = writer.join().expect("a thread");
    output
}

/// Says that a run ends with a status, prints a text, and complains of nothing.
pub fn assert_answer(ran: &Ran, status: i32, out: &str) {
    assert_eq!(
        (ran.status, ran.out.as_str(), ran.err.as_str()),
        (Some(status), out, "")
    );
}

/// Says that a run is done and prints a text.
pub fn assert_done(ran: &Ran, out: &str) {
    assert_answer(ran, 0, out);
}

/// Says that the answer of a run is no, and what it prints.
pub fn assert_no(ran: &Ran, out: &str) {
    assert_answer(ran, 3, out);
}

/// How standard input is called.
pub const INPUT: &str = "standard input";

/// Says that a run is refused: the source that is refused, what is printed, and
/// how it is explained.
pub fn assert_refused(ran: &Ran, source: &str, out: &str, explanation: &str) {
    assert_eq!((ran.status, ran.out.as_str()), (Some(1), out), "{ran:?}");
    let line = format!("{source}: {explanation}");
    assert_eq!(ran.err.lines().next(), Some(line.as_str()));
}

/// Says that a run is misuse, with a message that has a certain part.
pub fn assert_misused(ran: &Ran, part: &str) {
    assert_eq!((ran.status, ran.out.as_str()), (Some(2), ""), "{ran:?}");
    assert!(ran.err.starts_with("barfigol: "), "{ran:?}");
    assert!(ran.err.contains(part), "{ran:?}");
    assert_eq!(ran.err.lines().count(), 1, "{ran:?}");
}

/// The names in a folder, sorted.
pub fn names(folder: &Path) -> Vec<String> {
    let entries = std::fs::read_dir(folder).expect("a folder");
    let mut names: Vec<String> = entries
        .map(|entry| entry.expect("an entry").file_name())
        .map(|name| name.to_string_lossy().into_owned())
        .collect();
    names.sort();
    names
}

/// Runs a line in a shell, with the command as `barfigol` on the path and in a
/// certain folder.
pub fn shell(folder: &Path, line: &str) -> Ran {
    let bin = Path::new(COMMAND).parent().expect("a folder");
    let path = std::env::var("PATH").unwrap_or_default();
    Command::new("sh")
        .args(["-c", line])
        .current_dir(folder)
        .env("PATH", format!("{}:{path}", text(bin)))
        .stdin(Stdio::null())
        .output()
        .expect("a shell")
        .into()
}

/// An empty folder for one test. It is outside the checkout, for some tests
/// leave links, and `rt ci` passes no checkout that has one.
pub fn folder(name: &str) -> PathBuf {
    let checkout = env!("CARGO_TARGET_TMPDIR").replace('/', "-");
    let folder = std::env::temp_dir()
        .join(format!("barfigol{checkout}"))
        .join(name);
    let _ = std::fs::remove_dir_all(&folder);
    std::fs::create_dir_all(&folder).expect("a folder");
    folder
}

/// Writes a table into a folder and gives its path as text.
pub fn file(folder: &Path, name: &str, bytes: &[u8]) -> String {
    let path = folder.join(name);
    std::fs::write(&path, bytes).expect("a file");
    text(&path)
}

/// A path as text.
pub fn text(path: &Path) -> String {
    path.to_str().expect("a path in UTF-8").to_string()
}

/// The root of the repository.
pub fn root() -> PathBuf {
    Path::new(env!("CARGO_MANIFEST_DIR")).join("../..")
}

/// The path of an example table.
pub fn example(name: &str) -> String {
    text(&root().join("examples").join(name))
}
