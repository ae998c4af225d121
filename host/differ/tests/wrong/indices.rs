//! Readers that are wrong in one way each about an index below 65,280 in the
//! long form, which request #107 refuses "wherever a VX is read, envelopes
//! included".

use second::chunks::{sub_chunks, Chunk};
use second::found::{Found, Latest, Tagged};
use second::items::Cursor;
use second::refusal::Flaw;
use second::surface::{Surf, Values, LWO2_MISSING};
use second::{lwo2, Fault};

use crate::must_find_fault;
use crate::reader::{found_in_fixed, found_in_generated, must_say, of_lwo2, Take};

/// What an index is: a vertex, a polygon number, or the envelope of a colour or
/// of a level.
#[derive(Clone, Copy, PartialEq, Eq)]
enum Index {
    Vertex,
    Polygon,
    Colour,
    Level,
}

/// How a reader goes about an index in the long form.
#[derive(Clone, Copy)]
struct Ways {
    /// The first that may have this form.
    first_long: fn(Index) -> u32,
    /// Whether one that is cut is told as 22.
    before_cut: bool,
    /// A fault that is told before 22: 9, 11 or bytes left over.
    after: Option<Fault>,
    /// Whether 22 has the place of its chunk's tag.
    at_chunk: bool,
    /// Whether a PTAG of any type is looked at.
    in_any_type: bool,
    /// Whether only a SURF whose name was listed is looked at.
    in_listed_only: bool,
}

/// As the request has it.
const RIGHT: Ways = Ways {
    first_long: |_| 65_280,
    before_cut: false,
    after: None,
    at_chunk: false,
    in_any_type: false,
    in_listed_only: false,
};

impl Ways {
    /// A whole index, and what is wrong with its form.
    fn index(
        &self,
        file: &[u8],
        cursor: &mut Cursor,
        index: Index,
    ) -> Result<(u32, Result<(), Flaw>), Flaw> {
        let at = cursor.at();
        if cursor.is_done() || file[at] != 255 {
            return Ok((u32::from(cursor.u2()?), Ok(())));
        }
        let long = Err(Flaw::new(Fault::LongIndex, at));
        let bytes = cursor.four();
        if bytes.is_err() && self.before_cut {
            long?;
        }
        let value = u32::from_be_bytes(bytes?) & 0x00ff_ffff;
        match value < (self.first_long)(index) {
            true => Ok((value, long)),
            false => Ok((value, Ok(()))),
        }
    }

    /// A vertex or polygon number, which has to be below a bound.
    fn number(
        &self,
        file: &[u8],
        cursor: &mut Cursor,
        index: Index,
        (bound, fault): (u32, Fault),
    ) -> Result<u32, Flaw> {
        let at = cursor.at();
        let (value, form) = self.index(file, cursor, index)?;
        let below = match value < bound {
            true => Ok(()),
            false => Err(Flaw::new(fault, at)),
        };
        match self.after == Some(fault) {
            true => below.and(form)?,
            false => form.and(below)?,
        }
        Ok(value)
    }

    fn polygons<'a>(
        &self,
        file: &'a [u8],
        chunk: &Chunk,
        found: &mut Found<'a>,
    ) -> Result<(), Flaw> {
        let Some(points) = found.latest_points else {
            return lwo2::take(file, chunk, found);
        };
        let mut cursor = chunk.cursor(file);
        let kind = lwo2::polygon_kind(&mut cursor)?;
        let first = found.polygon_count() as u32;
        while !cursor.is_done() {
            let count = lwo2::vertex_count(&mut cursor)?;
            for _ in 0..count {
                let bound = (points.count, Fault::VertexNumber);
                let vertex = self.number(file, &mut cursor, Index::Vertex, bound)?;
                found.vertices.push(points.first + vertex);
            }
            found.add_polygon(kind, count, 0);
        }
        let count = found.polygon_count() as u32 - first;
        found.latest_polygons = Some(Latest { first, count });
        Ok(())
    }

    fn tagging<'a>(
        &self,
        file: &'a [u8],
        chunk: &Chunk,
        found: &mut Found<'a>,
    ) -> Result<(), Flaw> {
        let Some(polygons) = found.latest_polygons else {
            return lwo2::take(file, chunk, found);
        };
        let mut cursor = chunk.cursor(file);
        let Some(tagged) = Tagged::of_kind(&cursor.four()?) else {
            return match self.in_any_type {
                true => self.look_at_pairs(file, cursor),
                false => Ok(()),
            };
        };
        while !cursor.is_done() {
            let bound = (polygons.count, Fault::PolygonNumber);
            let polygon = self.number(file, &mut cursor, Index::Polygon, bound)?;
            let tag = lwo2::tag_number(&mut cursor, found.names.len())?;
            found.set_tagged(polygons.first + polygon, tagged, tag + 1);
        }
        Ok(())
    }

    /// The forms of polygon numbers, as far as there are whole pairs.
    fn look_at_pairs(&self, file: &[u8], mut cursor: Cursor) -> Result<(), Flaw> {
        while let Ok((_, form)) = self.index(file, &mut cursor, Index::Polygon) {
            form?;
            if cursor.u2().is_err() {
                break;
            }
        }
        Ok(())
    }

    fn surface<'a>(
        &self,
        file: &'a [u8],
        chunk: &Chunk,
        found: &mut Found<'a>,
    ) -> Result<(), Flaw> {
        let mut cursor = chunk.cursor(file);
        let name = cursor.string()?;
        cursor.string()?;
        let looked_at = !self.in_listed_only || found.names.contains(&name);
        let ways = match looked_at {
            true => *self,
            false => ACCEPTS,
        };
        let mut values = Values::default();
        for sub in sub_chunks(file, &cursor) {
            ways.value(file, &sub?, &mut values)?;
        }
        let record = values.record(&LWO2_MISSING);
        found.surfs.push(Surf { name, record });
        Ok(())
    }

    fn value(&self, file: &[u8], sub: &Chunk, values: &mut Values) -> Result<(), Flaw> {
        let level = match &sub.tag {
            b"COLR" => {
                values.colour = Some(self.floats(file, sub, Index::Colour)?);
                return Ok(());
            }
            b"DIFF" => &mut values.diffuse,
            b"LUMI" => &mut values.luminosity,
            b"SPEC" => &mut values.specular,
            b"REFL" => &mut values.reflection,
            b"TRAN" => &mut values.transparency,
            _ => return lwo2::take_value(file, sub, values),
        };
        let [float] = self.floats(file, sub, Index::Level)?;
        *level = Some(float);
        Ok(())
    }

    /// So many floats and an envelope.
    fn floats<const N: usize>(
        &self,
        file: &[u8],
        sub: &Chunk,
        index: Index,
    ) -> Result<[u32; N], Flaw> {
        let mut cursor = sub.cursor(file);
        let mut floats = [0; N];
        for float in &mut floats {
            *float = cursor.float()?;
        }
        let (_, form) = self.index(file, &mut cursor, index)?;
        let used_up = lwo2::must_be_used_up(sub, &cursor);
        match self.after == Some(Fault::BytesLeftOver) {
            true => used_up.and(form)?,
            false => form.and(used_up)?,
        }
        Ok(floats)
    }
}

impl Take for Ways {
    fn take<'a>(&self, file: &'a [u8], chunk: &Chunk, found: &mut Found<'a>) -> Result<(), Flaw> {
        let taken = match &chunk.tag {
            b"POLS" => self.polygons(file, chunk, found),
            b"PTAG" => self.tagging(file, chunk, found),
            b"SURF" => self.surface(file, chunk, found),
            _ => lwo2::take(file, chunk, found),
        };
        taken.map_err(|flaw| match flaw.fault {
            Fault::LongIndex if self.at_chunk => chunk.flaw(flaw.fault),
            _ => flaw,
        })
    }
}

/// The same reader without a mistake is right.
#[test]
fn none_is_found_in_the_right_reader() {
    assert_eq!(found_in_fixed(&of_lwo2(RIGHT)), None);
    assert_eq!(found_in_generated(&of_lwo2(RIGHT)), None);
}

#[track_caller]
fn must_find(ways: Ways) {
    must_say(found_in_fixed(&of_lwo2(ways)));
}

/// A reader of before #107: "A small index in the long form is accepted."
const ACCEPTS: Ways = Ways {
    first_long: |_| 0,
    ..RIGHT
};

/// Generated files find out what the request is about, too.
#[test]
fn one_that_is_accepted_anywhere() {
    must_find(ACCEPTS);
    must_say(found_in_generated(&of_lwo2(ACCEPTS)));
}

/// "an index below 65,280": readers that take 65,279 in the long form, and that
/// refuse 65,280.
#[test]
fn another_bound() {
    must_find(Ways {
        first_long: |_| 65_279,
        ..RIGHT
    });
    must_find(Ways {
        first_long: |_| 65_281,
        ..RIGHT
    });
    must_find(Ways {
        first_long: |_| 65_536,
        ..RIGHT
    });
}

/// "wherever a VX is read, envelopes included": readers that let it through in
/// one place.
#[test]
fn one_that_is_accepted_in_one_place() {
    let through: [fn(Index) -> u32; 5] = [
        |index| bound_but_for(index == Index::Vertex),
        |index| bound_but_for(index == Index::Polygon),
        |index| bound_but_for(index == Index::Colour),
        |index| bound_but_for(index == Index::Level),
        |index| bound_but_for(matches!(index, Index::Colour | Index::Level)),
    ];
    for first_long in through {
        must_find(Ways {
            first_long,
            ..RIGHT
        });
    }
    // "a SURF for an unlisted name is checked and not kept".
    must_find(Ways {
        in_listed_only: true,
        ..RIGHT
    });
}

fn bound_but_for(through: bool) -> u32 {
    match through {
        true => 0,
        false => 65_280,
    }
}

/// "Other types: four type bytes are required and the rest isn't judged."
#[test]
fn one_that_is_refused_where_nothing_is_read() {
    must_find(Ways {
        in_any_type: true,
        ..RIGHT
    });
}

/// "after an item that is cut and before 9 or 11 for the same item", and before
/// bytes that are left over behind it.
#[test]
fn another_order() {
    must_find(Ways {
        before_cut: true,
        ..RIGHT
    });
    for fault in [
        Fault::VertexNumber,
        Fault::PolygonNumber,
        Fault::BytesLeftOver,
    ] {
        must_find(Ways {
            after: Some(fault),
            ..RIGHT
        });
    }
}

/// "22 (place: the index's first byte)".
#[test]
fn another_number_or_place() {
    must_find(Ways {
        at_chunk: true,
        ..RIGHT
    });
    for number in [6, 9, 11, 19, 21, 23] {
        must_find_fault(Fault::LongIndex, |answer| answer.number = number);
    }
    // The byte after the first, and the byte after the index.
    for by in [1, 4] {
        must_find_fault(Fault::LongIndex, |answer| answer.place += by);
    }
}
