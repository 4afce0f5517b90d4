//! Objects of JSON, one to a line.

use barfigol_format::printable::obeyed;
use std::fmt::Display;

/// An object in the making. Its keys stand in the order they are given.
#[derive(Default)]
pub struct Object {
    members: Vec<String>,
}

impl Object {
    /// An object without keys.
    pub fn new() -> Object {
        Object::default()
    }

    /// Adds a text.
    pub fn text(self, key: &str, value: &str) -> Object {
        self.member(key, string(value))
    }

    /// Adds a text, or null for none.
    pub fn text_or_null(self, key: &str, value: Option<&str>) -> Object {
        self.member(key, value.map_or(String::from("null"), string))
    }

    /// Adds a number.
    pub fn number(self, key: &str, value: u64) -> Object {
        self.member(key, value.to_string())
    }

    /// Adds the number and the record of an answer.
    pub fn answer(self, (number, record): (u32, u32)) -> Object {
        let object = self.number("number", number.into());
        object.number("record", record.into())
    }

    /// Adds true or false.
    pub fn truth(self, key: &str, value: bool) -> Object {
        self.member(key, value.to_string())
    }

    /// Adds a list of numbers.
    pub fn numbers(self, key: &str, values: &[i32]) -> Object {
        self.member(key, list(values))
    }

    /// Adds a list of texts.
    pub fn texts(self, key: &str, values: &[String]) -> Object {
        let strings: Vec<String> = values.iter().map(|value| string(value)).collect();
        self.member(key, list(&strings))
    }

    fn member(mut self, key: &str, value: String) -> Object {
        self.members.push(format!("{}:{value}", string(key)));
        self
    }

    /// The object as a line.
    pub fn line(&self) -> String {
        format!("{{{}}}\n", self.members.join(","))
    }
}

fn list(values: &[impl Display]) -> String {
    let shown: Vec<String> = values.iter().map(ToString::to_string).collect();
    format!("[{}]", shown.join(","))
}

/// A text in quotes. What a terminal would obey is escaped, too.
fn string(text: &str) -> String {
    let mut shown = String::from("\"");
    for letter in text.chars() {
        match letter {
            '"' | '\\' => shown.extend(['\\', letter]),
            _ if obeyed(letter) => {
                for unit in letter.encode_utf16(&mut [0; 2]) {
                    shown.push_str(&format!("\\u{unit:04x}"));
                }
            }
            _ => shown.push(letter),
        }
    }
    shown.push('"');
    shown
}

#[cfg(test)]
mod tests {
    use super::Object;

    #[test]
    fn an_object_of_everything() {
        let object = Object::new()
            .text("a\"b", "\\ \u{1b}\n\u{e0001} ü")
            .text_or_null("none", None)
            .number("most", u64::MAX)
            .truth("no", false)
            .numbers("values", &[i32::MIN, 0])
            .texts("words", &[String::from("x"), String::from("\"")])
            .numbers("empty", &[]);
        let line = "{\"a\\\"b\":\"\\\\ \\u001b\\u000a\\udb40\\udc01 ü\",\"none\":null,\
                    \"most\":18446744073709551615,\"no\":false,\"values\":[-2147483648,0],\
                    \"words\":[\"x\",\"\\\"\"],\"empty\":[]}\n";
        assert_eq!(object.line(), line);
        assert_eq!(Object::new().line(), "{}\n");
    }
}
