//! Readers that are wrong in one way each about LAYR, which request #103 lists
//! for LWO2.

use second::chunks::Chunk;
use second::found::{Found, Tagged};
use second::items::Cursor;
use second::refusal::Flaw;
use second::{lwo2, lwob, Fault};

use crate::reader::{found_in_fixed, found_in_generated, must_say, of_lwo2, Reader, TakeFn};

#[track_caller]
fn must_find_lwo2(lwo2: TakeFn) {
    must_say(found_in_fixed(&of_lwo2(lwo2)));
}

fn is_layer(chunk: &Chunk) -> bool {
    &chunk.tag == b"LAYR"
}

/// The same reader without a mistake is right.
#[test]
fn none_is_found_in_the_right_reader() {
    let right = of_lwo2(lwo2::take as TakeFn);
    assert_eq!(found_in_fixed(&right), None);
    assert_eq!(found_in_generated(&right), None);
}

/// A reader of before #103.
const SKIPS: TakeFn = |file, chunk, found| {
    if is_layer(chunk) {
        found.skipped += 1;
        return Ok(());
    }
    lwo2::take(file, chunk, found)
};

/// A reader whose faces borrow points from another layer.
const KEEPS_POINTS: TakeFn = |file, chunk, found| {
    let points = found.latest_points;
    lwo2::take(file, chunk, found)?;
    if is_layer(chunk) {
        found.latest_points = points;
    }
    Ok(())
};

/// Generated files find out what the request is about.
#[test]
fn what_was_wrong_before() {
    for lwo2 in [SKIPS, KEEPS_POINTS] {
        must_say(found_in_generated(&of_lwo2(lwo2)));
    }
}

/// "In LWO2 LAYR is no longer skipped": also where it is obeyed it is not
/// counted.
#[test]
fn one_that_is_skipped() {
    must_find_lwo2(SKIPS);
    must_find_lwo2(|file, chunk, found| {
        found.skipped += u64::from(is_layer(chunk));
        lwo2::take(file, chunk, found)
    });
}

/// "It empties the latest point and polygon lists".
#[test]
fn one_that_empties_too_little() {
    must_find_lwo2(KEEPS_POINTS);
    must_find_lwo2(|file, chunk, found| {
        let polygons = found.latest_polygons;
        lwo2::take(file, chunk, found)?;
        if is_layer(chunk) {
            found.latest_polygons = polygons;
        }
        Ok(())
    });
    // A PTAG of another type that goes by any earlier POLS.
    must_find_lwo2(|file, chunk, found| {
        let kind = chunk.cursor(file).four();
        let other = kind.is_ok_and(|kind| Tagged::of_kind(&kind).is_none());
        match &chunk.tag == b"PTAG" && other && found.polygon_count() > 0 {
            true => Ok(()),
            false => lwo2::take(file, chunk, found),
        }
    });
}

/// TAGS are the file's: "at most once (house)", however many layers.
#[test]
fn one_that_empties_too_much() {
    must_find_lwo2(|file, chunk, found| {
        lwo2::take(file, chunk, found)?;
        if is_layer(chunk) {
            found.names_listed = false;
        }
        Ok(())
    });
}

/// Where the name of a layer lies behind its two numbers and three floats.
const NAME: usize = 2 * 2 + 3 * 4;

/// "pivot of three finite floats (7)": a reader that passes over it.
#[test]
fn a_pivot_that_is_not_judged() {
    must_find_lwo2(|file, chunk, found| {
        if !is_layer(chunk) {
            return lwo2::take(file, chunk, found);
        }
        let mut zeros = file.to_vec();
        let [from, to] = [4, NAME].map(|offset| chunk.end.min(chunk.body + offset));
        zeros[from..to].fill(0);
        lwo2::take(&zeros, chunk, &mut Found::default())?;
        found.start_layer();
        Ok(())
    });
}

/// 13 is "in TAGS or SRFS only".
#[test]
fn a_name_that_is_bounded() {
    must_find_lwo2(|file, chunk, found| {
        lwo2::take(file, chunk, found)?;
        let at = chunk.body + NAME;
        if is_layer(chunk) && Cursor::new(file, at, chunk.end).string()?.len() > 255 {
            return Err(Flaw::new(Fault::NameTooLong, at));
        }
        Ok(())
    });
}

/// Takes a LAYR that is refused for this fault behind its name.
fn take_in_spite_of<'a>(
    fault: Fault,
    file: &'a [u8],
    chunk: &Chunk,
    found: &mut Found<'a>,
) -> Result<(), Flaw> {
    let taken = lwo2::take(file, chunk, found);
    match taken {
        Err(flaw) if is_layer(chunk) && flaw.fault == fault => {
            let mut name = Cursor::new(file, chunk.end.min(chunk.body + NAME), chunk.end);
            if name.string().is_err() {
                return taken;
            }
            found.start_layer();
            Ok(())
        }
        _ => taken,
    }
}

/// "a parent U2 or nothing after it (a single byte is 19)": readers that take a
/// single byte, that take more than a parent, and that demand one.
#[test]
fn a_parent_of_another_length() {
    must_find_lwo2(|file, chunk, found| take_in_spite_of(Fault::ItemCut, file, chunk, found));
    must_find_lwo2(|file, chunk, found| take_in_spite_of(Fault::BytesLeftOver, file, chunk, found));
    must_find_lwo2(|file, chunk, found| {
        lwo2::take(file, chunk, found)?;
        if is_layer(chunk) {
            let mut name = Cursor::new(file, chunk.body + NAME, chunk.end);
            name.string()?;
            name.u2()?;
        }
        Ok(())
    });
}

/// "in LWOB it stays both" skipped and unlisted.
#[test]
fn one_that_is_listed_in_lwob() {
    must_say(found_in_fixed(&Reader {
        lwob: |file, chunk, found| match is_layer(chunk) {
            true => lwo2::take(file, chunk, found),
            false => lwob::take(file, chunk, found),
        },
        lwo2: lwo2::take as TakeFn,
    }));
}
