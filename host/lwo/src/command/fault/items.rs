//! What is wrong with an item: a number, a type or a float.

use lwo::{Counts, Escaped};

use super::expected::Expected;
use super::headers::{bytes_counted, hexadecimal, lwo2_levels, POINT};
use super::spot::Spot;
use super::strings::strings;
use super::{layer, named};
use crate::command::chunks::{chunks, Chunk};

/// The bytes of a float.
const FLOAT: usize = 4;

/// The lowest index that is written in four bytes.
const FIRST_LONG: u32 = 65_280;

/// 7: a float that is infinite or no number, and whose it is.
pub fn not_finite(spot: &Spot) -> Option<Expected> {
    let bytes = spot.bytes()?;
    let float = f32::from_be_bytes(bytes);
    let what = match float.is_nan() {
        true => "no number",
        false if float.is_infinite() => "infinity",
        false => return None,
    };
    Some(Expected {
        found: format!("{what} ({}){}", hexadecimal(&bytes), owner(spot)),
        expected: String::from("a finite number"),
    })
}

/// Whose float it is: a point's, one of the three of a colour, or one of the three of a layer's
/// pivot; of others the chunk says it.
fn owner(spot: &Spot) -> String {
    let offset = spot.offset().unwrap_or_default();
    let number = offset / FLOAT;
    let (_, tags) = spot.tags();
    match (&tags[..], number % 3) {
        ([b"PNTS"], axis) => format!(" as {} of point {}", ["x", "y", "z"][axis], number / 3),
        ([b"SURF", b"COLR"], level) => format!(" as {}", ["red", "green", "blue"][level]),
        ([b"LAYR"], _) => {
            layer::coordinate(offset).map_or_else(String::new, |one| format!(" as {one}"))
        }
        _ => String::new(),
    }
}

/// 8: how many vertices a polygon has; in LWO2 the low ten bits say it.
pub fn vertex_count(spot: &Spot) -> Option<Expected> {
    let number = spot.u2()?;
    let (count, most) = match spot.tags() {
        (b"LWOB", _) => (number, 200),
        (b"LWO2", _) => (number & 0x3ff, 1_023),
        _ => return None,
    };
    (!(1..=most).contains(&count)).then(|| Expected {
        found: format!("{count} vertices"),
        expected: format!("1 to {most}"),
    })
}

/// 9: the number of a point, against the latest list of points.
pub fn vertex_number(spot: &Spot) -> Option<Expected> {
    let number = match spot.tags() {
        (b"LWOB", _) => u32::from(spot.u2()?),
        (b"LWO2", _) => spot.vx()?,
        _ => return None,
    };
    let list = spot.earlier(b"PNTS").last()?;
    let numbers = Numbers::new(0, list.length() / POINT, &list);
    numbers.unless_among(i64::from(number), format!("point {number}"))
}

/// 10: the surface number of a polygon in LWOB, or in LWO2 the tag that one is given as its
/// surface or part.
pub fn surface(spot: &Spot) -> Option<Expected> {
    let (kind, tags) = spot.tags();
    match (kind, &tags[..]) {
        (b"LWOB", [b"POLS"]) => {
            let number = i64::from(spot.i2()?);
            let surface = number.abs();
            let found = match number < 0 {
                true => format!("surface {surface}, written {number} since details follow"),
                false => format!("surface {surface}"),
            };
            surfaces(spot)?.unless_among(surface, found)
        }
        (b"LWOB", [b"PCHS"]) => surface_above_zero(spot),
        (b"LWO2", [b"PTAG"]) => tag(spot),
        _ => None,
    }
}

/// 10 of a patch, and 14, of a detail: the number has no minus sign.
pub fn surface_above_zero(spot: &Spot) -> Option<Expected> {
    let number = i64::from(spot.i2()?);
    surfaces(spot)?.unless_among(number, format!("surface {number}"))
}

/// The surface numbers of LWOB: they count from 1 in the list of names.
fn surfaces(spot: &Spot) -> Option<Numbers> {
    let list = spot.earlier(b"SRFS").last()?;
    Some(Numbers::new(1, name_count(spot.file, &list)?, &list))
}

/// The tags of LWO2 count from 0, and there may be no list of them.
fn tag(spot: &Spot) -> Option<Expected> {
    let number = spot.u2()?;
    let found = format!("tag {number}");
    match spot.earlier(b"TAGS").last() {
        Some(list) => Numbers::new(0, name_count(spot.file, &list)?, &list)
            .unless_among(i64::from(number), found),
        None => Some(Expected {
            found,
            expected: String::from("none, for no TAGS comes before it"),
        }),
    }
}

fn name_count(file: &[u8], list: &Chunk) -> Option<usize> {
    Some(strings(file.get(..list.end)?, list.body).count())
}

/// 11: the number of a polygon, against the latest list of polygons.
pub fn polygon_number(spot: &Spot) -> Option<Expected> {
    let number = spot.vx()?;
    let list = spot.earlier(b"POLS").last()?;
    let numbers = Numbers::new(0, polygon_count(spot.file, &list)?, &list);
    numbers.unless_among(i64::from(number), format!("polygon {number}"))
}

/// How many polygons a list of LWO2 has. The library is asked: it accepts a file that has just
/// that list and the points before it.
fn polygon_count(file: &[u8], list: &Chunk) -> Option<usize> {
    let before = chunks(file).take_while(|chunk| chunk.start < list.start);
    let points = before.filter(|chunk| chunk.tag == *b"PNTS").last()?;
    let mut content = b"LWO2".to_vec();
    for chunk in [&points, list] {
        content.extend(file.get(chunk.start..chunk.next())?);
    }
    let length = u32::try_from(content.len()).ok()?;
    let alone = [b"FORM", &length.to_be_bytes()[..], &content].concat();
    usize::try_from(Counts::of(&alone).ok()?.polygons).ok()
}

/// 12: the type of a list of polygons.
pub fn polygon_type(spot: &Spot) -> Option<Expected> {
    let found: [u8; 4] = spot.bytes()?;
    (!matches!(&found, b"FACE" | b"PTCH")).then(|| Expected {
        found: Escaped(&found).to_string(),
        expected: String::from("FACE or PTCH"),
    })
}

/// 15 of a surface: its sides.
pub fn side(spot: &Spot) -> Option<Expected> {
    spot.innermost()
        .filter(|chunk| chunk.tag == *b"SIDE" && chunk.body == spot.place)?;
    let sides = spot.u2()?;
    (!matches!(sides, 1 | 3)).then(|| Expected {
        found: sides.to_string(),
        expected: String::from("1 or 3"),
    })
}

/// 19: an item that is cut by the end of its chunk.
pub fn cut(spot: &Spot) -> Option<Expected> {
    let rest = spot.rest()?;
    let (item, lengths) = cut_item(spot, rest.first())?;
    // The item is cut, so that it has more bytes than are left.
    let lengths = lengths.iter().filter(|&&length| length > rest.len());
    let lengths: Vec<String> = lengths.map(usize::to_string).collect();
    (!lengths.is_empty()).then_some(Expected {
        found: format!(
            "{} before {}",
            bytes_counted(rest.len()),
            spot.end_of_innermost()?
        ),
        expected: format!("{item} of {} bytes", lengths.join(" or ")),
    })
}

/// The item at the place, by the chunk, how far in its body it is and its first byte; and the
/// lengths that it can have.
fn cut_item(spot: &Spot, first: Option<&u8>) -> Option<(&'static str, &'static [usize])> {
    let (kind, tags) = spot.tags();
    let offset = spot.offset()?;
    let item: (&str, &[usize]) = match (kind, &tags[..]) {
        (b"LWOB", [b"POLS" | b"PCHS"]) => ("a number", &[2]),
        (b"LWO2", [b"LAYR"]) => layer::item(spot.file, spot.innermost()?, offset)?,
        (b"LWO2", [b"POLS" | b"PTAG"]) if offset == 0 => ("a type", &[4]),
        // A pair is not begun at the end, so that its second half is missing.
        (b"LWO2", [b"PTAG"]) if first.is_none() => ("a tag", &[2]),
        // 255 may begin a count or a tag too.
        (b"LWO2", [b"POLS" | b"PTAG"]) if first == Some(&255) => ("a number", &[2, 4]),
        (b"LWO2", [b"POLS" | b"PTAG"]) => ("a number", index_lengths(first)),
        (b"LWO2", [b"SURF", tag]) if offset < lwo2_levels(tag)? => ("a level", &[4]),
        (b"LWO2", [b"SURF", _]) => ("an envelope's index", index_lengths(first)),
        _ => return None,
    };
    Some(item)
}

/// The lengths that an index can have, by its first byte.
fn index_lengths(first: Option<&u8>) -> &'static [usize] {
    match first {
        None => &[2, 4],
        Some(255) => &[4],
        Some(_) => &[2],
    }
}

/// 22: an index that has four bytes and should have two.
pub fn long_index(spot: &Spot) -> Option<Expected> {
    let (what, index) = (indexed(spot)?, spot.vx()?);
    let is_long = index_lengths(spot.rest()?.first()) == [4];
    (is_long && index < FIRST_LONG).then(|| Expected {
        found: format!("{what} {index} in four bytes"),
        expected: String::from("two"),
    })
}

/// What an index at the place is the number of, by its chunk; None where no index is read.
fn indexed(spot: &Spot) -> Option<&'static str> {
    let (kind, tags) = spot.tags();
    match (kind, &tags[..]) {
        (b"LWO2", [b"POLS"]) => Some("point"),
        (b"LWO2", [b"PTAG"]) if has_pairs(spot.body()?) => Some("polygon"),
        (b"LWO2", [b"SURF", tag]) if spot.offset()? == lwo2_levels(tag)? => Some("envelope"),
        _ => None,
    }
}

/// Whether the pairs of a polygon and a tag in a PTAG are read: those of surfaces and of parts are.
fn has_pairs(body: &[u8]) -> bool {
    matches!(body.first_chunk(), Some(b"SURF" | b"PART"))
}

/// The numbers that name something in a list.
struct Numbers {
    first: i64,
    count: i64,
    list: String,
}

impl Numbers {
    fn new(first: i64, count: usize, list: &Chunk) -> Numbers {
        Numbers {
            first,
            count: count as i64,
            list: named(list),
        }
    }

    /// What is found, where its number names nothing.
    fn unless_among(&self, number: i64, found: String) -> Option<Expected> {
        let Numbers { first, count, list } = self;
        let last = first + count - 1;
        if (*first..=last).contains(&number) {
            return None;
        }
        let expected = match count {
            0 => format!("none, for {list} has none"),
            1 => format!("{first} ({list})"),
            _ => format!("{first} to {last} ({list})"),
        };
        Some(Expected { found, expected })
    }
}
