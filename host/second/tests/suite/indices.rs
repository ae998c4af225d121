//! Request #107: indices worked by hand in each place where a VX is read, and
//! the long form put into generated files.

use std::collections::BTreeMap;

use cases::assemble::Kind;
use cases::indices::{all_lengthened, indices, is_short, lengthened, Index};
use cases::insert::kind_of;
use cases::random::Random;
use cases::valid::valid;
use second::{rules, Fault};

use crate::help::{hex, verdict};

/// A chunk of this tag.
fn chunk_of(tag: &str, body: &str) -> Vec<u8> {
    let tag = tag.as_bytes().try_into().expect("four bytes");
    cases::assemble::chunk(tag, &hex(body))
}

fn file_of(chunks: &[Vec<u8>]) -> Vec<u8> {
    cases::assemble::form(Kind::Lwo2, &chunks.concat())
}

/// One point, and a face whose vertex has these bytes, at 46.
fn with_vertex(index: &str) -> Vec<u8> {
    let points = chunk_of("PNTS", "00000000 00000000 00000000");
    let polygons = chunk_of("POLS", &format!("46414345 0001 {index}"));
    file_of(&[points, polygons])
}

/// The types SURF and PART of a PTAG, of which the polygon numbers are read.
const TYPES: [&str; 2] = ["53555246", "50415254"];

/// A name, one point, a face of it, and a pair of this type whose polygon number
/// has these bytes, at 70, and whose tag is the first.
fn with_polygon(kind: &str, index: &str) -> Vec<u8> {
    let names = chunk_of("TAGS", "6100");
    let points = chunk_of("PNTS", "00000000 00000000 00000000");
    let polygons = chunk_of("POLS", "46414345 0001 0000");
    let pair = chunk_of("PTAG", &format!("{kind} {index} 0000"));
    file_of(&[names, points, polygons, pair])
}

/// A level whose envelope has these bytes, at 34.
fn with_envelope(index: &str) -> Vec<u8> {
    let body = hex(&format!("3f800000 {index}"));
    let level = cases::assemble::sub_chunk(b"DIFF", &body);
    let surface = [&b"a\0\0\0"[..], &level].concat();
    file_of(&[cases::assemble::chunk(b"SURF", &surface)])
}

/// The bytes of an index as a vertex, a polygon number and an envelope.
#[test]
fn worked_by_hand() {
    let rows = [
        ("0000", "accepted", "accepted", "accepted"),
        ("0001", "refused 9 at 46", "refused 11 at 70", "accepted"),
        ("00ff", "refused 9 at 46", "refused 11 at 70", "accepted"),
        ("feff", "refused 9 at 46", "refused 11 at 70", "accepted"),
        (
            "ff00ff00",
            "refused 9 at 46",
            "refused 11 at 70",
            "accepted",
        ),
        (
            "ffffffff",
            "refused 9 at 46",
            "refused 11 at 70",
            "accepted",
        ),
        (
            "ff000000",
            "refused 22 at 46",
            "refused 22 at 70",
            "refused 22 at 34",
        ),
        (
            "ff000007",
            "refused 22 at 46",
            "refused 22 at 70",
            "refused 22 at 34",
        ),
        (
            "ff00feff",
            "refused 22 at 46",
            "refused 22 at 70",
            "refused 22 at 34",
        ),
    ];
    for (index, vertex, polygon, envelope) in rows {
        assert_eq!(verdict(&with_vertex(index)), vertex, "{index}");
        for kind in TYPES {
            assert_eq!(verdict(&with_polygon(kind, index)), polygon, "{index}");
        }
        assert_eq!(verdict(&with_envelope(index)), envelope, "{index}");
    }
}

/// "after an item that is cut": fewer than four bytes of the long form are 19.
/// A polygon number has its tag behind it, so it is cut in a PTAG by itself.
#[test]
fn cut_ones() {
    for index in ["ff", "ff00", "ff0000", "ff00ff"] {
        assert_eq!(verdict(&with_vertex(index)), "refused 19 at 46");
        assert_eq!(verdict(&with_envelope(index)), "refused 19 at 34");
        for kind in TYPES {
            let mut file = with_polygon(kind, "");
            file.truncate(58);
            file.extend(chunk_of("PTAG", &format!("{kind} {index}")));
            cases::insert::correct_form_length(&mut file);
            assert_eq!(verdict(&file), "refused 19 at 70");
        }
    }
}

/// Every index from 65,250 to 65,310 in both forms, as an envelope. In two bytes
/// those from 65,280 on begin with 255, and so are a long form that is cut.
#[test]
fn around_the_bound() {
    for index in 65_250..65_310_u32 {
        let (short, long) = (format!("{index:04x}"), format!("ff{index:06x}"));
        let (two, four) = match index < 65_280 {
            true => ("accepted", "refused 22 at 34"),
            false => ("refused 19 at 34", "accepted"),
        };
        assert_eq!(verdict(&with_envelope(&short)), two, "{index}");
        assert_eq!(verdict(&with_envelope(&long)), four, "{index}");
    }
}

/// Some generated LWO2 files.
fn lwo2_files() -> impl Iterator<Item = Vec<u8>> {
    let files = (0..1_200).map(|seed| valid(&mut Random::new(seed)).parts.file());
    files.filter(|file| kind_of(file) == Kind::Lwo2)
}

/// The chunk or sub-chunk that an index lies in, or the type of a PTAG.
fn holder(file: &[u8], index: &Index) -> [u8; 4] {
    let tag = |at: usize| file[at..at + 4].try_into().expect("four bytes");
    match &tag(index.sub.unwrap_or(index.chunk)) {
        b"PTAG" => tag(index.chunk + 8),
        other => *other,
    }
}

/// Each short index by itself in the long form: 22 at its first byte, in the
/// chunk that it lies in.
#[test]
fn one_long_form_anywhere() {
    let mut places: BTreeMap<[u8; 4], u64> = BTreeMap::new();
    for file in lwo2_files() {
        for index in indices(&file) {
            if !is_short(&file, &index) || *places.entry(holder(&file, &index)).or_default() > 900 {
                continue;
            }
            let refusal = rules(&lengthened(&file, &index)).expect_err("a long form");
            assert_eq!(refusal.fault, Fault::LongIndex);
            assert_eq!(refusal.place(), index.at as u64);
            assert_eq!(refusal.chunk, index.chunk as u64);
            *places.entry(holder(&file, &index)).or_default() += 1;
        }
    }
    let holders: Vec<&[u8; 4]> = places.keys().collect();
    let known = [
        b"COLR", b"DIFF", b"LUMI", b"PART", b"POLS", b"REFL", b"SPEC", b"SURF", b"TRAN",
    ];
    assert_eq!(holders, known);
    assert!(places.values().all(|&times| times > 100), "{places:?}");
}

/// "One exporter writes every index in four bytes": the first that is small is
/// refused. Where none is, nothing is changed.
#[test]
fn all_in_the_long_form() {
    let (mut refused, mut same) = (0, 0);
    for file in lwo2_files() {
        let longer = all_lengthened(&file);
        let list = indices(&file);
        match list.iter().position(|one| is_short(&file, one)) {
            // The long ones before it stay where they are.
            Some(first) => {
                let told = format!("refused 22 at {}", list[first].at);
                assert_eq!(verdict(&longer), told);
                refused += 1;
            }
            None => {
                assert_eq!(longer, file);
                same += 1;
            }
        }
    }
    assert!(refused > 300 && same > 20, "{refused} {same}");
}

/// An index that has the long form rightly, made small in its four bytes.
#[test]
fn a_long_form_made_small() {
    let mut made = 0;
    for file in lwo2_files() {
        for index in indices(&file) {
            if !is_short(&file, &index) {
                let mut smaller = file.clone();
                smaller[index.at + 1..index.at + 3].copy_from_slice(&[0, 0xfe]);
                let told = format!("refused 22 at {}", index.at);
                assert_eq!(verdict(&smaller), told);
                made += 1;
            }
        }
    }
    assert!(made > 500, "{made}");
}
