//! Names as they are shown to a person.

use std::fmt::{self, Write};

/// Letters that the Unicode tables of the standard library call printable, though they show
/// nothing: the Hangul fillers and the empty Braille pattern.
const BLANK: [char; 5] = ['\u{115f}', '\u{1160}', '\u{2800}', '\u{3164}', '\u{ffa0}'];

/// Bytes as text on one line, so that no two different names look alike and none can move the
/// cursor of a terminal, turn the text around or hide a part of it.
///
/// Letters that are seen are written as they are; a backslash is doubled; letters that are not
/// seen, or turn or join others, are written as in `\n` or `\u{202e}`, and bytes that are no
/// UTF-8 as in `\xe4`. An empty name is `''`.
///
/// ```
/// assert_eq!(lwo::Escaped(b"Silm\xe4").to_string(), r"Silm\xe4");
/// assert_eq!(lwo::Escaped("Silmä".as_bytes()).to_string(), "Silmä");
/// ```
#[derive(Clone, Copy, Debug)]
pub struct Escaped<'a>(pub &'a [u8]);

impl fmt::Display for Escaped<'_> {
    fn fmt(&self, f: &mut fmt::Formatter<'_>) -> fmt::Result {
        match self.0 {
            b"" => return f.write_str("''"),
            b"''" => return f.write_str("\\''"),
            _ => (),
        }
        for chunk in self.0.utf8_chunks() {
            chunk
                .valid()
                .chars()
                .try_for_each(|letter| put(f, letter))?;
            for byte in chunk.invalid() {
                write!(f, "\\x{byte:02x}")?;
            }
        }
        Ok(())
    }
}

fn put(f: &mut fmt::Formatter<'_>, letter: char) -> fmt::Result {
    match letter {
        '\'' | '"' => f.write_char(letter),
        _ if BLANK.contains(&letter) => write!(f, "{}", letter.escape_unicode()),
        _ => write!(f, "{}", letter.escape_debug()),
    }
}

#[cfg(test)]
mod tests {
    use super::*;
    use std::collections::HashSet;

    fn shown(name: &str) -> String {
        Escaped(name.as_bytes()).to_string()
    }

    #[test]
    fn letters_that_are_seen_stay() {
        for name in ["Büro/a b.lwo", "it's \"oak\"", "樫", "дуб", "'"] {
            assert_eq!(shown(name), name);
        }
    }

    #[test]
    fn control_characters_are_written_out() {
        assert_eq!(shown("a\n\u{1b}[2J\u{9b}.lwo"), r"a\n\u{1b}[2J\u{9b}.lwo");
    }

    #[test]
    fn letters_that_turn_or_hide_text_are_written_out() {
        let hidden = "\u{ad}\u{a0}\u{61c}\u{115f}\u{180e}\u{200b}\u{200d}\u{200e}\u{2028}\u{2029}\
            \u{202a}\u{202e}\u{2060}\u{2066}\u{2069}\u{2800}\u{3000}\u{3164}\u{fe0f}\u{feff}\
            \u{ffa0}\u{fff9}\u{e0001}\u{e000}\u{301}";
        for letter in hidden.chars() {
            let wanted = format!("a\\u{{{:x}}}b", u32::from(letter));
            assert_eq!(shown(&format!("a{letter}b")), wanted);
        }
    }

    #[test]
    fn no_two_names_look_alike() {
        let names: [&[u8]; 9] = [
            b"a\nb",
            br"a\nb",
            br"a\\nb",
            b"a\xe4b",
            br"a\xe4b",
            "a\u{fffd}b".as_bytes(),
            "aäb".as_bytes(),
            "aa\u{308}b".as_bytes(),
            br"a\u{e4}b",
        ];
        let shown: HashSet<String> = names.iter().map(|name| Escaped(name).to_string()).collect();
        assert_eq!(shown.len(), names.len(), "{shown:?}");
    }

    #[test]
    fn an_empty_name_is_seen() {
        assert_eq!(shown(""), "''");
        assert_eq!(shown("''"), r"\''");
    }
}
