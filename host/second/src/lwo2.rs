//! "LWO2, listed tags" of document 01, LAYR of request #103, and the parts of
//! #111.

use crate::chunks::{sub_chunks, Chunk};
use crate::found::{Found, Latest, Tagged, FACE, PATCH};
use crate::items::Cursor;
use crate::refusal::{Fault, Flaw};
use crate::surface::{Surf, Values, LWO2_MISSING};

/// Judges one well-formed top-level chunk and takes what it holds.
pub fn take<'a>(file: &'a [u8], chunk: &Chunk, found: &mut Found<'a>) -> Result<(), Flaw> {
    match &chunk.tag {
        b"PNTS" => take_points(file, chunk, found),
        b"TAGS" => take_names(file, chunk, found),
        b"POLS" => take_polygons(file, chunk, found),
        b"PTAG" => take_tagging(file, chunk, found),
        b"SURF" => take_surface(file, chunk, found),
        b"LAYR" => take_layer(file, chunk, found),
        _ => {
            found.skipped += 1;
            Ok(())
        }
    }
}

/// "PNTS: a new latest point list each time."
fn take_points<'a>(file: &'a [u8], chunk: &Chunk, found: &mut Found<'a>) -> Result<(), Flaw> {
    if !chunk.length().is_multiple_of(12) {
        return Err(chunk.flaw(Fault::BodyLength));
    }
    found.add_points(file, chunk)
}

/// "TAGS: strings, at most once (house)."
fn take_names<'a>(file: &'a [u8], chunk: &Chunk, found: &mut Found<'a>) -> Result<(), Flaw> {
    if found.names_listed {
        return Err(chunk.flaw(Fault::ChunkTwice));
    }
    found.add_names(chunk.cursor(file))
}

/// "POLS: type, then entries: U2 with the count in its low ten bits (high six
/// not judged), then VX vertices into the latest PNTS. POLS needs an earlier
/// PNTS", which since #103 has to have come after the last LAYR. A vertex is
/// stored counted from the file's first point, whatever layer that is in.
fn take_polygons<'a>(file: &'a [u8], chunk: &Chunk, found: &mut Found<'a>) -> Result<(), Flaw> {
    let Some(points) = found.latest_points else {
        return Err(chunk.flaw(Fault::PointsMissing));
    };
    let mut cursor = chunk.cursor(file);
    let kind = polygon_kind(&mut cursor)?;
    found.expect_polygons(chunk.length(), 4);
    let first = found.polygon_count() as u32;
    let mut polygons = 0;
    while !cursor.is_done() {
        let count = vertex_count(&mut cursor)?;
        for _ in 0..count {
            let at = cursor.at();
            let vertex = cursor.vx()?;
            if vertex >= points.count {
                return Err(Flaw::new(Fault::VertexNumber, at));
            }
            found.vertices.push(points.first + vertex);
        }
        found.add_polygon(kind, count, 0);
        polygons += 1;
    }
    found.latest_polygons = Some(Latest {
        first,
        count: polygons,
    });
    Ok(())
}

/// The type of a POLS: FACE or PTCH, else 12.
pub fn polygon_kind(cursor: &mut Cursor) -> Result<u32, Flaw> {
    let at = cursor.at();
    match &cursor.four()? {
        b"FACE" => Ok(FACE),
        b"PTCH" => Ok(PATCH),
        _ => Err(Flaw::new(Fault::PolygonType, at)),
    }
}

/// The low ten bits of a U2, so 1,023 at most; 0 is not allowed.
pub fn vertex_count(cursor: &mut Cursor) -> Result<u32, Flaw> {
    let at = cursor.at();
    let count = u32::from(cursor.u2()? & 0x03ff);
    if count == 0 {
        return Err(Flaw::new(Fault::VertexCount, at));
    }
    Ok(count)
}

/// "PTAG: needs an earlier POLS (5). Type SURF: pairs of polygon (VX) and tag
/// (U2, from 0) into the latest POLS and the TAGS so far. ... Other types:
/// four type bytes are required and the rest isn't judged." #103: "PTAG with no
/// POLS since" the last LAYR is 5 too, whatever its type. #111: "PART pairs are
/// read like SURF pairs, with the same checks and numbers 10 and 11, and the
/// last stands."
fn take_tagging<'a>(file: &'a [u8], chunk: &Chunk, found: &mut Found<'a>) -> Result<(), Flaw> {
    let Some(polygons) = found.latest_polygons else {
        return Err(chunk.flaw(Fault::PolygonsMissing));
    };
    let mut cursor = chunk.cursor(file);
    let Some(tagged) = Tagged::of_kind(&cursor.four()?) else {
        return Ok(());
    };
    while !cursor.is_done() {
        let polygon = polygon_number(&mut cursor, polygons.count)?;
        let tag = tag_number(&mut cursor, found.names.len())?;
        found.set_tagged(polygons.first + polygon, tagged, tag + 1);
    }
    Ok(())
}

/// A polygon of the latest POLS, else 11.
fn polygon_number(cursor: &mut Cursor, polygons: u32) -> Result<u32, Flaw> {
    let at = cursor.at();
    let polygon = cursor.vx()?;
    if polygon >= polygons {
        return Err(Flaw::new(Fault::PolygonNumber, at));
    }
    Ok(polygon)
}

/// A tag of the TAGS so far, else 10.
pub fn tag_number(cursor: &mut Cursor, names: usize) -> Result<u32, Flaw> {
    let at = cursor.at();
    let tag = u32::from(cursor.u2()?);
    if tag as usize >= names {
        return Err(Flaw::new(Fault::TagNumber, at));
    }
    Ok(tag)
}

/// "SURF: name, source string (read, not used), sub-chunks."
fn take_surface<'a>(file: &'a [u8], chunk: &Chunk, found: &mut Found<'a>) -> Result<(), Flaw> {
    let mut cursor = chunk.cursor(file);
    let name = cursor.string()?;
    let _source = cursor.string()?;
    let mut values = Values::default();
    for sub in sub_chunks(file, &cursor) {
        take_value(file, &sub?, &mut values)?;
    }
    let record = values.record(&LWO2_MISSING);
    found.surfs.push(Surf { name, record });
    Ok(())
}

/// One sub-chunk of a SURF, at level two.
pub fn take_value(file: &[u8], sub: &Chunk, values: &mut Values) -> Result<(), Flaw> {
    match &sub.tag {
        b"COLR" => values.colour = Some(colour(file, sub)?),
        b"DIFF" => values.diffuse = Some(level(file, sub)?),
        b"LUMI" => values.luminosity = Some(level(file, sub)?),
        b"SPEC" => values.specular = Some(level(file, sub)?),
        b"REFL" => values.reflection = Some(level(file, sub)?),
        b"TRAN" => values.transparency = Some(level(file, sub)?),
        b"SIDE" => values.sides = Some(sides(file, sub)?),
        b"BLOK" => pass_block(file, sub)?,
        _ => {}
    }
    Ok(())
}

/// "COLR: three floats and a VX."
fn colour(file: &[u8], sub: &Chunk) -> Result<[u32; 3], Flaw> {
    let mut cursor = sub.cursor(file);
    let red = cursor.float()?;
    let green = cursor.float()?;
    let blue = cursor.float()?;
    pass_envelope(sub, &mut cursor)?;
    Ok([red, green, blue])
}

/// "DIFF, LUMI, SPEC, REFL, TRAN: float and VX."
fn level(file: &[u8], sub: &Chunk) -> Result<u32, Flaw> {
    let mut cursor = sub.cursor(file);
    let level = cursor.float()?;
    pass_envelope(sub, &mut cursor)?;
    Ok(level)
}

/// "Bodies are used up exactly; the VX is dropped."
fn pass_envelope(sub: &Chunk, cursor: &mut Cursor) -> Result<(), Flaw> {
    cursor.vx()?;
    must_be_used_up(sub, cursor)
}

/// Bytes left over are the fault of the chunk or sub-chunk itself, seen after
/// its items.
pub fn must_be_used_up(chunk: &Chunk, cursor: &Cursor) -> Result<(), Flaw> {
    if !cursor.is_done() {
        return Err(chunk.flaw(Fault::BytesLeftOver));
    }
    Ok(())
}

/// "SIDE: U2", 1 or 3, else 15. Its length is fixed, so judged first.
fn sides(file: &[u8], sub: &Chunk) -> Result<u32, Flaw> {
    if sub.length() != 2 {
        return Err(sub.flaw(Fault::BodyLength));
    }
    let mut cursor = sub.cursor(file);
    let at = cursor.at();
    match cursor.u2()? {
        1 => Ok(1),
        3 => Ok(3),
        _ => Err(Flaw::new(Fault::SideValue, at)),
    }
}

/// "BLOK, only in SURF: its first sub-chunk is IMAP, PROC, GRAD or SHDR,
/// holding a string and then sub-chunks (a later one is unlisted); a TMAP
/// directly in a BLOK holds sub-chunks." BLOK's own sub-chunks are level
/// three.
fn pass_block(file: &[u8], block: &Chunk) -> Result<(), Flaw> {
    let mut inside = sub_chunks(file, &block.cursor(file));
    let Some(first) = inside.next() else {
        return Err(block.flaw(Fault::BlockEmpty));
    };
    let first = first?;
    if !matches!(&first.tag, b"IMAP" | b"PROC" | b"GRAD" | b"SHDR") {
        return Err(block.flaw(Fault::BlockHeader));
    }
    let mut cursor = first.cursor(file);
    cursor.string()?;
    pass_level_four(file, &cursor)?;
    for sub in inside {
        let sub = sub?;
        if &sub.tag == b"TMAP" {
            pass_level_four(file, &sub.cursor(file))?;
        }
    }
    Ok(())
}

/// The deepest sub-chunks: they must be well formed, their bodies are not
/// looked at.
fn pass_level_four<'a>(file: &'a [u8], rest: &Cursor<'a>) -> Result<(), Flaw> {
    for sub in sub_chunks(file, rest) {
        sub?;
    }
    Ok(())
}

/// "List LAYR for LWO2: number U2, flags U2, pivot of three finite floats (7),
/// name, and a parent U2 or nothing after it". 13 is "in TAGS or SRFS only", so
/// the name may have any length. "The mesh doesn't keep the layer."
fn take_layer<'a>(file: &'a [u8], chunk: &Chunk, found: &mut Found<'a>) -> Result<(), Flaw> {
    let mut cursor = chunk.cursor(file);
    let _number = cursor.u2()?;
    let _flags = cursor.u2()?;
    let _pivot = [cursor.float()?, cursor.float()?, cursor.float()?];
    let _name = cursor.string()?;
    pass_parent(chunk, &mut cursor)?;
    found.start_layer();
    Ok(())
}

/// "a parent U2 or nothing after it (a single byte is 19)". What follows the
/// parent is left over.
fn pass_parent(layer: &Chunk, cursor: &mut Cursor) -> Result<(), Flaw> {
    if !cursor.is_done() {
        cursor.u2()?;
    }
    must_be_used_up(layer, cursor)
}
