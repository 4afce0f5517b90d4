//! A strict reader of JSON, to hold what the command prints to the standard.

use std::iter::Peekable;
use std::str::Chars;

/// A value of JSON. Numbers are whole: the command prints no others.
#[derive(Clone, Debug, PartialEq, Eq)]
pub enum Json {
    Null,
    Truth(bool),
    Number(i64),
    Text(String),
    List(Vec<Json>),
    Object(Vec<(String, Json)>),
}

impl Json {
    /// The value of a key.
    pub fn get(&self, key: &str) -> &Json {
        let members = match self {
            Json::Object(members) => members,
            other => panic!("{other:?} is no object"),
        };
        let found = members.iter().find(|(name, _)| name == key);
        found.map_or_else(|| panic!("no {key} in {self:?}"), |(_, value)| value)
    }

    /// The keys of an object, in order.
    pub fn keys(&self) -> Vec<&str> {
        match self {
            Json::Object(members) => members.iter().map(|(name, _)| name.as_str()).collect(),
            other => panic!("{other:?} is no object"),
        }
    }
}

/// A text as a value.
pub fn text(value: &str) -> Json {
    Json::Text(value.to_string())
}

/// Reads one value, which must be the whole text. Anything that the standard
/// does not allow is a failure, and so is a key that stands twice.
pub fn parse(text: &str) -> Json {
    let mut letters = text.chars().peekable();
    let value = value(&mut letters);
    assert_eq!(letters.next(), None, "something follows in {text}");
    value
}

/// Reads lines, each of which ends in a newline and holds an object.
pub fn parse_lines(text: &str) -> Vec<Json> {
    assert!(text.is_empty() || text.ends_with('\n'), "{text:?}");
    text.lines().map(parse).collect()
}

type Letters<'a> = Peekable<Chars<'a>>;

fn value(letters: &mut Letters) -> Json {
    match letters.peek() {
        Some('{') => object(letters),
        Some('[') => list(letters),
        Some('"') => Json::Text(string(letters)),
        Some('-' | '0'..='9') => number(letters),
        Some('t') => word(letters, "true", Json::Truth(true)),
        Some('f') => word(letters, "false", Json::Truth(false)),
        Some('n') => word(letters, "null", Json::Null),
        other => panic!("{other:?} begins no value"),
    }
}

fn word(letters: &mut Letters, word: &str, value: Json) -> Json {
    word.chars().for_each(|letter| expect(letters, letter));
    value
}

fn expect(letters: &mut Letters, wanted: char) {
    assert_eq!(letters.next(), Some(wanted));
}

fn object(letters: &mut Letters) -> Json {
    let mut members: Vec<(String, Json)> = Vec::new();
    sequence(letters, ('{', '}'), |letters| {
        let key = string(letters);
        assert!(members.iter().all(|(name, _)| *name != key), "{key} twice");
        expect(letters, ':');
        members.push((key, value(letters)));
    });
    Json::Object(members)
}

fn list(letters: &mut Letters) -> Json {
    let mut values = Vec::new();
    sequence(letters, ('[', ']'), |letters| values.push(value(letters)));
    Json::List(values)
}

/// Reads things between brackets, with commas between them.
fn sequence(letters: &mut Letters, (open, close): (char, char), mut one: impl FnMut(&mut Letters)) {
    expect(letters, open);
    if letters.peek() == Some(&close) {
        return expect(letters, close);
    }
    loop {
        one(letters);
        match letters.next() {
            Some(',') => {}
            other => return assert_eq!(other, Some(close)),
        }
    }
}

fn number(letters: &mut Letters) -> Json {
    let mut digits = String::new();
    while let Some(letter) = letters.next_if(|letter| matches!(letter, '-' | '0'..='9')) {
        digits.push(letter);
    }
    let size = digits.trim_start_matches('-');
    assert!(size == "0" || !size.starts_with('0'), "{digits}");
    Json::Number(digits.parse().expect("a whole number"))
}

fn string(letters: &mut Letters) -> String {
    expect(letters, '"');
    let mut units: Vec<u16> = Vec::new();
    loop {
        let letter = letters.next().expect("the end of a text");
        match letter {
            '"' => return String::from_utf16(&units).expect("whole characters"),
            '\\' => units.push(escape(letters)),
            _ => {
                assert!(!letter.is_control(), "{letter:?} stands bare");
                units.extend_from_slice(letter.encode_utf16(&mut [0; 2]));
            }
        }
    }
}

fn escape(letters: &mut Letters) -> u16 {
    let letter = match letters.next().expect("an escape") {
        letter @ ('"' | '\\' | '/') => letter,
        'b' => '\u{8}',
        'f' => '\u{c}',
        'n' => '\n',
        'r' => '\r',
        't' => '\t',
        'u' => {
            let digits: String = (0..4).filter_map(|_| letters.next()).collect();
            return u16::from_str_radix(&digits, 16).expect("four digits");
        }
        other => panic!("\\{other} is no escape"),
    };
    letter as u16
}
