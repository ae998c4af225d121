//! Strings: where they end, and how they are shown.

use lwo::Escaped;

use super::expected::Expected;
use super::spot::Spot;

/// The longest name in the list of names.
const NAME_BYTES: usize = 255;

/// A string of a body: where it begins, and its bytes without what ends it.
pub struct Text<'a> {
    pub start: usize,
    pub bytes: &'a [u8],
}

/// The strings from an offset on. The bytes are those of the file up to the end of the body.
pub fn strings(bytes: &[u8], from: usize) -> impl Iterator<Item = Text<'_>> {
    let mut next = from;
    std::iter::from_fn(move || {
        let start = next;
        next = after_string(bytes, start)?;
        let bytes = before_zero(bytes.get(start..)?)?;
        Some(Text { start, bytes })
    })
}

/// The offset after the string at an offset: a zero byte ends it, and one more makes it even.
pub fn after_string(bytes: &[u8], from: usize) -> Option<usize> {
    let length = before_zero(bytes.get(from..)?)?.len();
    Some(from + (length + 1).next_multiple_of(2))
}

fn before_zero(bytes: &[u8]) -> Option<&[u8]> {
    let length = bytes.iter().position(|&byte| byte == 0)?;
    bytes.get(..length)
}

/// 13: a name that is too long, or there twice.
pub fn name(spot: &Spot) -> Option<Expected> {
    let name = before_zero(spot.rest()?)?;
    if name.len() > NAME_BYTES {
        return Some(Expected {
            found: format!("a name of {} bytes, {}", name.len(), quoted(name)),
            expected: format!("at most {NAME_BYTES}"),
        });
    }
    let bytes = spot.file.get(..spot.place)?;
    let earlier = strings(bytes, spot.innermost()?.body).find(|text| text.bytes == name)?;
    Some(Expected {
        found: format!("{} again", quoted(name)),
        expected: format!("it once, at {}", earlier.start),
    })
}

/// 20: a string that does not end as it should.
pub fn open_string(spot: &Spot) -> Option<Expected> {
    let (rest, end) = (spot.rest()?, spot.end_of_innermost()?);
    if rest.is_empty() {
        return Some(Expected {
            found: format!("nothing before {end}"),
            expected: String::from("a string with a zero byte at its end"),
        });
    }
    let Some(bytes) = before_zero(rest) else {
        return Some(Expected {
            found: format!("{} up to {end}", quoted(rest)),
            expected: String::from("a zero byte behind it"),
        });
    };
    let behind = match (bytes.len() % 2, rest.get(bytes.len() + 1)) {
        (1, _) | (_, Some(0)) => return None,
        (_, Some(byte)) => format!("0x{byte:02x}"),
        (_, None) => end,
    };
    Some(Expected {
        found: format!("{}, a zero byte and {behind}", quoted(bytes)),
        expected: String::from("a second zero byte"),
    })
}

/// A string in quotation marks, or its beginning where it is long.
fn quoted(bytes: &[u8]) -> String {
    const MOST: usize = 24;
    match bytes.split_at_checked(MOST) {
        Some((beginning, [_, ..])) => format!("\"{}..\"", Escaped(whole_letters(beginning))),
        _ => format!("\"{}\"", Escaped(bytes)),
    }
}

/// The bytes without a letter of which only a part is there.
fn whole_letters(bytes: &[u8]) -> &[u8] {
    match std::str::from_utf8(bytes) {
        Err(error) if error.error_len().is_none() => &bytes[..error.valid_up_to()],
        _ => bytes,
    }
}
