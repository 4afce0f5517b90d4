//! Words of others, such as names of files, made fit for a terminal.

/// The most characters of a word that are quoted.
const MOST_QUOTED: usize = 80;

/// A word with nothing in it that a terminal would obey: control characters,
/// characters that turn the direction of writing or take no room, and bytes
/// that are no UTF-8 are escaped. A backslash is doubled, so that no two words
/// look alike.
///
/// ```
/// use barfigol_format::printable::printable;
///
/// assert_eq!(printable("größe".as_bytes()), "größe");
/// assert_eq!(printable(b"a\x1b[31m\n\xff"), "a\\u{1b}[31m\\n\\xff");
/// ```
pub fn printable(word: &[u8]) -> String {
    letters(word).concat()
}

/// A word in quotes for a message, made fit for a terminal, and cut where it is
/// long.
///
/// ```
/// use barfigol_format::printable::quoted;
///
/// assert_eq!(quoted(b"a\tb"), "'a\\tb'");
/// assert_eq!(quoted(&[b'x'; 1_000]), format!("'{}..'", "x".repeat(80)));
/// ```
pub fn quoted(word: &[u8]) -> String {
    let letters = letters(word);
    match letters.get(..MOST_QUOTED) {
        Some(start) if start.len() < letters.len() => format!("'{}..'", start.concat()),
        _ => format!("'{}'", letters.concat()),
    }
}

/// What is shown for each character, and for each byte that is no UTF-8.
fn letters(word: &[u8]) -> Vec<String> {
    let mut letters = Vec::new();
    let mut rest = word;
    while !rest.is_empty() {
        let (valid, invalid) = match std::str::from_utf8(rest) {
            Ok(valid) => (valid, 0),
            Err(error) => {
                let (valid, after) = rest.split_at(error.valid_up_to());
                let valid = std::str::from_utf8(valid).unwrap_or("");
                (valid, error.error_len().unwrap_or(after.len()))
            }
        };
        letters.extend(valid.chars().map(shown));
        let (bad, next) = rest[valid.len()..].split_at(invalid);
        letters.extend(bad.iter().map(|byte| format!("\\x{byte:02x}")));
        rest = next;
    }
    letters
}

fn shown(letter: char) -> String {
    match letter {
        '\\' => String::from("\\\\"),
        '\n' | '\r' | '\t' => letter.escape_default().to_string(),
        _ if obeyed(letter) => format!("\\u{{{:x}}}", u32::from(letter)),
        _ => letter.to_string(),
    }
}

/// Whether a terminal does something else with a character than show it.
pub fn obeyed(letter: char) -> bool {
    let unseen = [
        '\u{ad}'..='\u{ad}',
        '\u{61c}'..='\u{61c}',
        '\u{200b}'..='\u{200f}',
        '\u{2028}'..='\u{202e}',
        '\u{2060}'..='\u{206f}',
        '\u{feff}'..='\u{feff}',
        '\u{fff9}'..='\u{fffb}',
        '\u{e0000}'..='\u{e007f}',
    ];
    letter.is_control() || unseen.iter().any(|range| range.contains(&letter))
}

#[cfg(test)]
mod tests {
    use super::{printable, quoted};

    #[test]
    fn words_made_fit() {
        let cases: [(&[u8], &str); 8] = [
            (b"p4.table", "p4.table"),
            ("größe".as_bytes(), "größe"),
            (b"a\nb\tc\r", "a\\nb\\tc\\r"),
            (b"\x1b[31m\x07\x7f", "\\u{1b}[31m\\u{7}\\u{7f}"),
            ("\u{9b}2J\u{202e}".as_bytes(), "\\u{9b}2J\\u{202e}"),
            (b"a\xffb\xe2\x82", "a\\xffb\\xe2\\x82"),
            (b"a\\n", "a\\\\n"),
            (b"", ""),
        ];
        for (word, text) in cases {
            assert_eq!(printable(word), text);
            assert_eq!(quoted(word), format!("'{text}'"));
        }
    }

    /// No character is cut in two, and what just fits is not cut.
    #[test]
    fn long_words_are_cut() {
        for (letter, shown) in [("ü", "ü"), ("\n", "\\n"), ("\u{202e}", "\\u{202e}")] {
            let longest = quoted(letter.repeat(80).as_bytes());
            assert_eq!(longest, format!("'{}'", shown.repeat(80)));
            let longer = quoted(letter.repeat(81).as_bytes());
            assert_eq!(longer, format!("'{}..'", shown.repeat(80)));
        }
    }
}
