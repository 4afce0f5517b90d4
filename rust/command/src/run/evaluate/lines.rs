//! Assignments, one to a line.

use crate::input::reason;
use crate::words::value;
use std::ffi::OsStr;
use std::io::{BufRead, BufReader, Read};
use std::os::unix::ffi::OsStrExt;

/// The bytes of the longest line.
const MOST_LINE: usize = 65_536;

/// Something at a line, with the line's number.
pub type AtLine<T> = (u64, T);

/// The assignments of a source, read as they are asked for.
pub struct Lines<R> {
    input: BufReader<R>,
    /// The number of the last line that was read. The first one is 1.
    number: u64,
}

impl<R: Read> Lines<R> {
    /// The assignments of a source.
    pub fn new(input: R) -> Lines<R> {
        Lines {
            input: BufReader::new(input),
            number: 0,
        }
    }

    /// The next assignment and the number of its line, or nothing at the end.
    /// A fault comes with the number of its line, too.
    pub fn next(&mut self) -> Result<Option<AtLine<Vec<i32>>>, AtLine<String>> {
        while let Some(line) = self.line()? {
            let values = assignment(&line).map_err(|why| (self.number, why))?;
            if !values.is_empty() {
                return Ok(Some((self.number, values)));
            }
        }
        Ok(None)
    }

    /// The next line. The last one need not end in a newline.
    fn line(&mut self) -> Result<Option<Vec<u8>>, AtLine<String>> {
        let mut line = Vec::new();
        let mut start = self.input.by_ref().take(MOST_LINE as u64 + 1);
        let read = start.read_until(b'\n', &mut line);
        self.number += 1;
        match read {
            Err(error) => Err((self.number, reason(&error))),
            Ok(0) => Ok(None),
            Ok(_) if line.len() > MOST_LINE => {
                let why = format!("the line is longer than {MOST_LINE} bytes");
                Err((self.number, why))
            }
            Ok(_) => Ok(Some(line)),
        }
    }
}

/// The values of a line, up to the sign of a comment.
fn assignment(line: &[u8]) -> Result<Vec<i32>, String> {
    let end = line.iter().position(|&byte| byte == b'#');
    let words = line[..end.unwrap_or(line.len())].split(u8::is_ascii_whitespace);
    let words = words.filter(|word| !word.is_empty());
    words.map(|word| value(OsStr::from_bytes(word))).collect()
}

#[cfg(test)]
mod tests {
    use super::{Lines, MOST_LINE};

    #[test]
    fn lines_and_their_numbers() {
        let text = b"0 1\n\n# two\n\t-3  +4 # five\r\n2147483647";
        let mut lines = Lines::new(&text[..]);
        assert_eq!(lines.next(), Ok(Some((1, vec![0, 1]))));
        assert_eq!(lines.next(), Ok(Some((4, vec![-3, 4]))));
        assert_eq!(lines.next(), Ok(Some((5, vec![i32::MAX]))));
        assert_eq!(lines.next(), Ok(None));
    }

    #[test]
    fn lines_that_are_none() {
        let word = String::from("'x' is no signed number of 32 bits");
        assert_eq!(Lines::new(&b"\n\nx 1\n"[..]).next(), Err((3, word)));
        let long = vec![b' '; MOST_LINE + 1];
        let why = String::from("the line is longer than 65536 bytes");
        assert_eq!(Lines::new(&long[..]).next(), Err((1, why)));
        let mut full = vec![b' '; MOST_LINE];
        full[MOST_LINE - 1] = b'7';
        assert_eq!(Lines::new(&full[..]).next(), Ok(Some((1, vec![7]))));
    }
}
