//! What scripts read: one JSON object a line.

use std::fmt::Write;

use lwo::{Counts, Escaped};

use super::fault::{Expected, Fault};
use super::input::Source;
use super::rejection::Rejection;

/// An object whose members are added one after another.
pub struct Object(String);

impl Object {
    pub fn new() -> Object {
        Object(String::new())
    }

    /// Adds a member whose value is JSON already: a number, true or false, an array, an object.
    pub fn with(mut self, name: &str, value: impl std::fmt::Display) -> Object {
        let comma = if self.0.is_empty() { "" } else { "," };
        write!(self.0, "{comma}{}:{value}", text(name)).expect("a string takes all");
        self
    }

    /// Adds a member whose value is text.
    pub fn with_text(self, name: &str, value: &str) -> Object {
        self.with(name, text(value))
    }

    pub fn finish(self) -> String {
        format!("{{{}}}", self.0)
    }
}

pub fn array(values: impl Iterator<Item = String>) -> String {
    let values: Vec<String> = values.collect();
    format!("[{}]", values.join(","))
}

/// Text in quotation marks. What is not seen is escaped, as on a terminal, though JSON demands it
/// only of control characters.
pub fn text(value: &str) -> String {
    let mut quoted = String::from("\"");
    for letter in value.chars() {
        match letter {
            '"' => quoted.push_str("\\\""),
            '\\' => quoted.push_str("\\\\"),
            _ if is_seen(letter) => quoted.push(letter),
            _ => {
                for unit in letter.encode_utf16(&mut [0; 2]) {
                    write!(quoted, "\\u{unit:04x}").expect("a string takes all");
                }
            }
        }
    }
    quoted.push('"');
    quoted
}

fn is_seen(letter: char) -> bool {
    let mut bytes = [0; 4];
    let letter = letter.encode_utf8(&mut bytes);
    Escaped(letter.as_bytes()).to_string() == *letter
}

pub fn hexadecimal(bytes: &[u8]) -> String {
    bytes.iter().map(|byte| format!("{byte:02x}")).collect()
}

/// The line of a file begins with its name, and the bytes of that where they are no UTF-8.
pub fn of_file(source: &Source) -> Object {
    let name = match source {
        Source::Standard => return Object::new().with_text("file", "-"),
        Source::File(path) => path.as_os_str(),
    };
    let object = Object::new().with_text("file", &name.to_string_lossy());
    match name.to_str() {
        Some(_) => object,
        None => object.with_text("file_hex", &hexadecimal(name.as_encoded_bytes())),
    }
}

/// The line of a file that has no mesh for us.
pub fn rejected(source: &Source, rejection: &Rejection) -> String {
    let object = of_file(source).with("accepted", false);
    match rejection {
        Rejection::NotRead(reason) => object.with_text("not_read", &reason.to_string()),
        Rejection::Refused(fault) => object.with("refused", refused(fault).finish()),
    }
    .finish()
}

/// The refusal, with the top-level chunk and the innermost sub-chunk that its place lies in.
fn refused(fault: &Fault) -> Object {
    let refusal = &fault.refusal;
    let mut object = Object::new()
        .with("number", refusal.number())
        .with("place", refusal.place);
    if let Some(chunk) = fault.holders.first() {
        object = object
            .with("chunk", chunk.start)
            .with_text("tag", &Escaped(&chunk.tag).to_string());
    }
    if let [_, .., sub_chunk] = &fault.holders[..] {
        object = object
            .with("sub_chunk", sub_chunk.start)
            .with_text("sub_tag", &Escaped(&sub_chunk.tag).to_string());
    }
    object = object.with_text("meaning", refusal.sentence());
    match &fault.expected {
        None => object,
        Some(Expected { found, expected }) => object
            .with_text("found", found)
            .with_text("expected", expected),
    }
}

/// The line of an accepted file begins with its name and counts.
pub fn accepted(source: &Source, counts: &Counts) -> Object {
    of_file(source)
        .with("accepted", true)
        .with("points", counts.points)
        .with("polygons", counts.polygons)
        .with("vertices", counts.vertices)
        .with("names", counts.names)
        .with("name_bytes", counts.name_bytes)
        .with("skipped", counts.skipped)
        .with("details", counts.details)
}

#[cfg(test)]
mod tests {
    use super::*;

    #[test]
    fn text_is_quoted() {
        assert_eq!(text("Oak"), r#""Oak""#);
        assert_eq!(text("a\"b\\c"), r#""a\"b\\c""#);
        assert_eq!(
            text("Silmä\n\u{202e}\u{e0001}"),
            r#""Silmä\u000a\u202e\udb40\udc01""#
        );
    }

    #[test]
    fn members_are_joined() {
        let inner = array([Object::new().finish(), text("x")].into_iter());
        let object = Object::new().with("a", 1).with("b", inner).finish();
        assert_eq!(object, r#"{"a":1,"b":[{},"x"]}"#);
    }
}
