//! Readers and writers that are wrong in one way each about the part of a
//! polygon, which request #111 adds.

use cases::insert::chunk_spans;
use differ::guarded::Guarded;
use differ::lent::Lent;
use differ::library::Library;
use differ::{check, meshes};
use second::chunks::Chunk;
use second::found::{Found, Latest, Tagged, POLYGON_WORDS};
use second::items::Cursor;
use second::refusal::Flaw;
use second::{lwo2, lwob, Answer, Fault, Tables, Written};

use crate::reader::{found_in_fixed, found_in_generated, of_lwo2, Reader, Take, TakeFn};
use crate::{found_in_files, found_in_meshes};

/// A pair that is good: what it says of which polygon of the file, by the number
/// of a name.
struct Pair {
    polygon: u32,
    tagged: Tagged,
    number: u32,
}

impl Pair {
    /// "and the last stands".
    fn set(&self, found: &mut Found) {
        found.set_tagged(self.polygon, self.tagged, self.number);
    }

    /// What the polygon has so far.
    fn so_far(&self, found: &Found) -> u32 {
        let (entries, _) = found.polygons.as_chunks::<POLYGON_WORDS>();
        self.tagged.number(&entries[self.polygon as usize])
    }
}

/// What a type of PTAG says, if its pairs are read.
type Reads = fn(&[u8; 4]) -> Option<Tagged>;

/// What is done with a pair.
type Keeps = fn(&Pair, &mut Found);

/// How a reader goes about the pairs of a PTAG.
#[derive(Clone, Copy)]
struct Ways {
    reads: Reads,
    /// The polygons that the pairs count over.
    polygons: fn(&Found, Tagged) -> Option<Latest>,
    /// A fault that is not judged in parts: a pair that has it is passed over,
    /// or taken where that can be.
    unjudged: Option<Fault>,
    keeps: Keeps,
}

/// As the request has it.
const RIGHT: Ways = Ways {
    reads: Tagged::of_kind,
    polygons: |found, _| found.latest_polygons,
    unjudged: None,
    keeps: Pair::set,
};

impl Ways {
    fn judges(&self, tagged: Tagged, fault: Fault) -> bool {
        tagged != Tagged::Part || self.unjudged != Some(fault)
    }

    /// A polygon number in either form.
    fn index(&self, file: &[u8], cursor: &mut Cursor, tagged: Tagged) -> Result<u32, Flaw> {
        let long = !cursor.is_done() && file[cursor.at()] == 255;
        match long && !self.judges(tagged, Fault::LongIndex) {
            true => Ok(u32::from_be_bytes(cursor.four()?) & 0x00ff_ffff),
            false => cursor.vx(),
        }
    }

    /// The next pair, if it is one that is not passed over.
    fn pair(
        &self,
        file: &[u8],
        cursor: &mut Cursor,
        (tagged, polygons, names): (Tagged, Latest, usize),
    ) -> Result<Option<Pair>, Flaw> {
        let at = cursor.at();
        let polygon = self.index(file, cursor, tagged)?;
        let there = polygon < polygons.count;
        if !there && self.judges(tagged, Fault::PolygonNumber) {
            return Err(Flaw::new(Fault::PolygonNumber, at));
        }
        let at = cursor.at();
        let tag = u32::from(cursor.u2()?);
        let named = (tag as usize) < names;
        if !named && self.judges(tagged, Fault::TagNumber) {
            return Err(Flaw::new(Fault::TagNumber, at));
        }
        let pair = Pair {
            polygon: polygons.first + polygon,
            tagged,
            number: tag + 1,
        };
        Ok((there && named).then_some(pair))
    }

    fn tagging<'a>(
        &self,
        file: &'a [u8],
        chunk: &Chunk,
        found: &mut Found<'a>,
    ) -> Result<(), Flaw> {
        let mut cursor = chunk.cursor(file);
        let tagged = cursor.four().ok().and_then(|kind| (self.reads)(&kind));
        let polygons = match tagged {
            Some(tagged) => (self.polygons)(found, tagged),
            None => found.latest_polygons,
        };
        let Some(polygons) = polygons else {
            return Err(chunk.flaw(Fault::PolygonsMissing));
        };
        let Some(tagged) = tagged else {
            return chunk.cursor(file).four().map(|_| ());
        };
        while !cursor.is_done() {
            let over = (tagged, polygons, found.names.len());
            if let Some(pair) = self.pair(file, &mut cursor, over)? {
                (self.keeps)(&pair, found);
            }
        }
        Ok(())
    }
}

impl Take for Ways {
    fn take<'a>(&self, file: &'a [u8], chunk: &Chunk, found: &mut Found<'a>) -> Result<(), Flaw> {
        match &chunk.tag {
            b"PTAG" => self.tagging(file, chunk, found),
            _ => lwo2::take(file, chunk, found),
        }
    }
}

/// The same reader without a mistake is right.
#[test]
fn none_is_found_in_the_right_reader() {
    assert_eq!(found_in_fixed(&of_lwo2(RIGHT)), None);
    assert_eq!(found_in_generated(&of_lwo2(RIGHT)), None);
}

#[track_caller]
fn must_say(said: Option<String>, words: &str) {
    let said = said.expect("the mistake was not found out");
    assert!(said.contains(words), "{said}");
}

/// A reader that gives polygons other numbers is found out by them, in fixed
/// files and in generated ones.
#[track_caller]
fn must_find_numbers(ways: Ways) {
    must_say(found_in_fixed(&of_lwo2(ways)), "polygons: element");
    must_say(found_in_generated(&of_lwo2(ways)), "polygons: element");
}

/// A reader that judges otherwise is found out by its answer.
#[track_caller]
fn must_find_answer(ways: Ways) {
    must_say(found_in_fixed(&of_lwo2(ways)), "the answer is");
}

/// A reader of before #111: PART is one of the "Other types", of which "the rest
/// isn't judged". And one that reads PART in the stead of SURF.
#[test]
fn a_type_that_is_not_read() {
    let one: [Reads; 2] = [
        |kind| Tagged::of_kind(kind).filter(|one| *one == Tagged::Surface),
        |kind| Tagged::of_kind(kind).filter(|one| *one == Tagged::Part),
    ];
    for reads in one {
        must_find_answer(Ways { reads, ..RIGHT });
        let library = of_lwo2(Ways { reads, ..RIGHT });
        assert!(found_in_generated(&library).is_some(), "not by generated");
    }
}

/// "A polygon gains a fourth number": pairs of the one type put into the word of
/// the other, and both exchanged.
#[test]
fn the_word_of_the_other() {
    let both: [Reads; 3] = [
        |kind| Tagged::of_kind(kind).map(|_| Tagged::Surface),
        |kind| Tagged::of_kind(kind).map(|_| Tagged::Part),
        |kind| {
            Tagged::of_kind(kind).map(|one| match one {
                Tagged::Surface => Tagged::Part,
                Tagged::Part => Tagged::Surface,
            })
        },
    ];
    for reads in both {
        must_find_numbers(Ways { reads, ..RIGHT });
    }
}

/// "0 for none, else counted from 1 in TAGS".
#[test]
fn parts_counted_from_0() {
    must_find_numbers(Ways {
        keeps: |pair, found| {
            let less = u32::from(pair.tagged == Tagged::Part);
            found.set_tagged(pair.polygon, pair.tagged, pair.number - less);
        },
        ..RIGHT
    });
}

/// "PART pairs are read like SURF pairs": judged, and not kept.
#[test]
fn parts_that_are_not_kept() {
    must_find_numbers(Ways {
        keeps: |pair, found| match pair.tagged {
            Tagged::Surface => pair.set(found),
            Tagged::Part => {}
        },
        ..RIGHT
    });
}

/// "with the same checks and numbers 10 and 11", and with #107's 22: kept, and
/// one of them not judged.
#[test]
fn parts_that_are_not_judged() {
    for fault in [Fault::TagNumber, Fault::PolygonNumber, Fault::LongIndex] {
        must_find_answer(Ways {
            unjudged: Some(fault),
            ..RIGHT
        });
    }
}

/// "and the last stands": the first does, for a part or for a surface, or the
/// highest number.
#[test]
fn another_that_stands() {
    let others: [Keeps; 3] = [
        |pair, found| {
            if pair.tagged == Tagged::Surface || pair.so_far(found) == 0 {
                pair.set(found);
            }
        },
        |pair, found| {
            if pair.tagged == Tagged::Part || pair.so_far(found) == 0 {
                pair.set(found);
            }
        },
        |pair, found| {
            if pair.so_far(found) <= pair.number {
                pair.set(found);
            }
        },
    ];
    for keeps in others {
        must_find_numbers(Ways { keeps, ..RIGHT });
    }
}

/// A surface that takes the part away, a part that takes the surface away, and a
/// part that is kept only where there is a surface.
#[test]
fn one_that_changes_the_other() {
    let others: [Keeps; 3] = [
        |pair, found| {
            pair.set(found);
            if pair.tagged == Tagged::Surface {
                found.set_tagged(pair.polygon, Tagged::Part, 0);
            }
        },
        |pair, found| {
            pair.set(found);
            if pair.tagged == Tagged::Part {
                found.set_tagged(pair.polygon, Tagged::Surface, 0);
            }
        },
        |pair, found| {
            let surface = Pair {
                tagged: Tagged::Surface,
                ..*pair
            };
            if pair.tagged == Tagged::Surface || surface.so_far(found) != 0 {
                pair.set(found);
            }
        },
    ];
    for keeps in others {
        must_find_numbers(Ways { keeps, ..RIGHT });
    }
}

/// All polygons of the file so far.
fn all_polygons(found: &Found) -> Option<Latest> {
    let count = found.polygon_count() as u32;
    let first = 0;
    (count > 0).then_some(Latest { first, count })
}

/// "A PTAG pair counted over the whole file and not from the latest POLS" is
/// easy to get wrong, for parts too: one that is judged so, and one that is only
/// kept so.
#[test]
fn a_part_that_reaches_an_earlier_pols() {
    must_find_answer(Ways {
        polygons: |found, tagged| match tagged {
            Tagged::Surface => found.latest_polygons,
            Tagged::Part => all_polygons(found),
        },
        ..RIGHT
    });
    must_find_numbers(Ways {
        polygons: |found, tagged| {
            let latest = found.latest_polygons?;
            Some(match tagged {
                Tagged::Surface => latest,
                Tagged::Part => Latest { first: 0, ..latest },
            })
        },
        ..RIGHT
    });
}

/// "needs an earlier POLS (5)", one since the last LAYR, "whatever its type": a
/// PART without one is passed over.
#[test]
fn a_part_without_polygons() {
    let passes: TakeFn = |file, chunk, found| {
        let part = chunk.cursor(file).four() == Ok(*b"PART");
        match &chunk.tag == b"PTAG" && part && found.latest_polygons.is_none() {
            true => Ok(()),
            false => lwo2::take(file, chunk, found),
        }
    };
    must_say(found_in_fixed(&of_lwo2(passes)), "the answer is");
}

/// "Other types: four type bytes are required and the rest isn't judged": types
/// that are near PART, read as if they were.
#[test]
fn a_near_type_that_is_read() {
    let near: [fn(&[u8; 4]) -> bool; 4] = [
        |kind| kind.eq_ignore_ascii_case(b"PART"),
        |kind| kind.starts_with(b"PAR"),
        |kind| kind.ends_with(b"ART"),
        |kind| kind == b"SMGP",
    ];
    for (number, is_near) in near.into_iter().enumerate() {
        let library = of_lwo2(Near(is_near));
        assert!(found_in_fixed(&library).is_some(), "{number}");
    }
}

/// Reads these types as PART.
struct Near(fn(&[u8; 4]) -> bool);

impl Take for Near {
    fn take<'a>(&self, file: &'a [u8], chunk: &Chunk, found: &mut Found<'a>) -> Result<(), Flaw> {
        let kind = chunk.cursor(file).four();
        let near = kind.is_ok_and(|kind| Tagged::of_kind(&kind).is_none() && (self.0)(&kind));
        if &chunk.tag == b"PTAG" && near {
            let reads: Reads = |_| Some(Tagged::Part);
            return Ways { reads, ..RIGHT }.tagging(file, chunk, found);
        }
        lwo2::take(file, chunk, found)
    }
}

/// "LWOB gives 0": there PTAG is no listed tag, and its pairs are none.
#[test]
fn a_part_in_lwob() {
    // A reader that reads it, over all faces and patches before it.
    let reads: TakeFn = |file, chunk, found| {
        let kind = chunk.cursor(file).four();
        if &chunk.tag != b"PTAG" || kind != Ok(*b"PART") {
            return lwob::take(file, chunk, found);
        }
        found.skipped += 1;
        let ways = Ways {
            polygons: |found, _| all_polygons(found),
            ..RIGHT
        };
        // What is wrong with it is not told.
        let _ = ways.tagging(file, chunk, found);
        Ok(())
    };
    let library = Reader {
        lwob: reads,
        lwo2: lwo2::take as TakeFn,
    };
    must_say(found_in_fixed(&library), "polygons: element");
}

/// The second program with a writer that is given other tables, and whose output
/// is then changed.
struct WrongWriter {
    tables: fn(&mut Tables),
    output: fn(&mut [u8]),
}

/// Without a mistake.
const WRITES_RIGHT: WrongWriter = WrongWriter {
    tables: |_| {},
    output: |_| {},
};

impl Library for WrongWriter {
    fn read(&self, file: &Guarded<u8>, lent: &mut Lent) -> Answer {
        crate::RIGHT.read(file, lent)
    }

    fn write(&self, lent: &Lent, out: &mut Guarded<u8>) -> Written {
        let mut tables = lent.tables();
        (self.tables)(&mut tables);
        let written = second::write(&tables, out.content_mut());
        if written.number == 0 {
            (self.output)(&mut out.content_mut()[..written.length as usize]);
        }
        written
    }
}

fn entries(tables: &mut Tables) -> &mut [[u32; POLYGON_WORDS]] {
    let (entries, _) = tables.polygons.as_chunks_mut::<POLYGON_WORDS>();
    entries
}

#[test]
fn none_is_found_in_the_right_writer() {
    assert_eq!(found_in_meshes(&WRITES_RIGHT), None);
}

#[track_caller]
fn must_find_writer(library: &WrongWriter, words: &str) {
    must_say(found_in_meshes(library), words);
}

/// "The canonical file has a PTAG PART for each run with a part name": none at
/// all, none where the polygon has no surface, none in the last run, and the
/// part of the first polygon alone. They are found out in files too.
#[test]
fn a_writer_that_drops_parts() {
    let drops: [fn(&mut Tables); 4] = [
        |tables| entries(tables).iter_mut().for_each(|entry| entry[3] = 0),
        |tables| {
            let alone = entries(tables).iter_mut().filter(|entry| entry[2] == 0);
            alone.for_each(|entry| entry[3] = 0);
        },
        |tables| {
            let entries = entries(tables);
            let last = entries.last().map_or(0, |entry| entry[0]);
            let run = entries.iter_mut().rev().take_while(|one| one[0] == last);
            run.for_each(|entry| entry[3] = 0);
        },
        |tables| {
            let later = entries(tables).iter_mut().skip(1);
            later.for_each(|entry| entry[3] = 0);
        },
    ];
    for tables in drops {
        let library = WrongWriter {
            tables,
            ..WRITES_RIGHT
        };
        must_find_writer(&library, "the answer is");
        assert!(found_in_files(&library).is_some(), "not found out by files");
    }
}

/// Surface and part exchanged, and parts that are one lower.
#[test]
fn a_writer_of_other_parts() {
    let others: [fn(&mut Tables); 2] = [
        |tables| entries(tables).iter_mut().for_each(|one| one.swap(2, 3)),
        |tables| {
            let lower = entries(tables).iter_mut().filter(|entry| entry[3] > 1);
            lower.for_each(|entry| entry[3] -= 1);
        },
    ];
    for tables in others {
        let library = WrongWriter {
            tables,
            ..WRITES_RIGHT
        };
        assert!(found_in_meshes(&library).is_some());
        assert!(found_in_files(&library).is_some(), "not found out by files");
    }
}

/// "after its PTAG SURF if any": before it.
#[test]
fn a_writer_of_parts_before_surfaces() {
    let library = WrongWriter {
        output: |file| {
            let spans = chunk_spans(file);
            for pair in spans.windows(2) {
                let (one, other) = (pair[0].clone(), pair[1].clone());
                let is = |start: usize, kind: &[u8]| {
                    file[start..].starts_with(b"PTAG") && &file[start + 8..start + 12] == kind
                };
                if is(one.start, b"SURF") && is(other.start, b"PART") {
                    file[one.start..other.end].rotate_left(one.len());
                }
            }
        },
        ..WRITES_RIGHT
    };
    must_find_writer(&library, "the output: element");
}

/// "A part above the name count or 65,536 is 17": parts above the one or the
/// other let through, as if there were none.
#[test]
fn a_writer_that_lets_a_part_through() {
    let above_count: fn(&mut Tables) = |tables| {
        let names = tables.names.len() as u32;
        let above = entries(tables).iter_mut().filter(|entry| entry[3] > names);
        above.for_each(|entry| entry[3] = 0);
    };
    let library = WrongWriter {
        tables: above_count,
        ..WRITES_RIGHT
    };
    must_find_writer(&library, "the answer is");

    let above_65_536: fn(&mut Tables) = |tables| {
        let names = tables.names.len() as u32;
        let above = entries(tables).iter_mut();
        let above = above.filter(|entry| (65_537..=names).contains(&entry[3]));
        above.for_each(|entry| entry[3] = 65_536);
    };
    let library = WrongWriter {
        tables: above_65_536,
        ..WRITES_RIGHT
    };
    let many = meshes::many_names();
    let said = |one: &meshes::Named| check::mesh(&library, &one.tables).err();
    must_say(many.iter().find_map(said), "the answer is");
}

/// The other way round: a writer that takes no part where there is no surface,
/// that takes only parts below the name count, and that takes none at all.
#[test]
fn a_writer_that_refuses_a_part() {
    let refused: [fn(&mut Tables); 3] = [
        |tables| {
            let alone = entries(tables).iter_mut().filter(|entry| entry[2] == 0);
            alone.for_each(|entry| entry[3] = entry[3].saturating_mul(u32::MAX));
        },
        |tables| {
            let names = tables.names.len() as u32;
            let last = entries(tables).iter_mut().filter(|one| one[3] == names);
            last.for_each(|entry| entry[3] = entry[3].saturating_mul(2));
        },
        |tables| {
            let some = entries(tables).iter_mut();
            some.for_each(|entry| entry[3] = entry[3].saturating_mul(0x0001_0001));
        },
    ];
    for tables in refused {
        let library = WrongWriter {
            tables,
            ..WRITES_RIGHT
        };
        must_find_writer(&library, "the answer is");
    }
}
