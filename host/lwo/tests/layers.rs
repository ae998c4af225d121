//! The layers of an LWO2 file (LAYR) are judged and not kept, and points and polygons are those of
//! their own layer.

use cases::assemble::{chunk, form, join, Kind};
use lwo::lent;
use lwo::{Reading, RefusalKind, Tables};

fn file(kind: Kind, chunks: &[Vec<u8>]) -> Vec<u8> {
    form(kind, &join(chunks))
}

/// Three points, 44 bytes.
fn points() -> Vec<u8> {
    chunk(b"PNTS", &[0; 36])
}

/// A face of LWO2 over all three, 20 bytes.
fn face() -> Vec<u8> {
    chunk(b"POLS", b"FACE\0\x03\0\0\0\x01\0\x02")
}

/// The first name for the first polygon of the latest list.
fn tagging() -> Vec<u8> {
    chunk(b"PTAG", b"SURF\0\0\0\0")
}

/// A layer with the name `Lid`, 28 bytes.
fn layer() -> Vec<u8> {
    chunk(b"LAYR", &join(&[&[0; 16][..], b"Lid\0"]))
}

/// The second layer has points and a face of its own, and the file's name and surface.
#[test]
fn a_file_with_layers_reads_as_one_without() {
    let oak = [chunk(b"TAGS", b"Oak\0"), chunk(b"SURF", b"Oak\0\0\0")];
    let panel = [points(), face(), tagging()];
    let read = |chunks: &[&[Vec<u8>]]| Reading::of(&file(Kind::Lwo2, &chunks.concat()));
    let layered = read(&[&oak, &[layer()], &panel, &[layer()], &panel]).expect("it is accepted");
    assert_eq!(Ok(&layered), read(&[&oak, &panel, &panel]).as_ref());
    assert_eq!(layered.counts.skipped, 0);
    let second = layered.mesh.polygon(1).expect("a second face");
    assert_eq!((second.surface, second.vertices), (1, &[3, 4, 5][..]));
}

/// In LWOB a LAYR is one more chunk that is skipped, whatever it holds, and the points before it
/// are still there.
#[test]
fn lwob_has_no_layers() {
    let polygon = chunk(b"POLS", b"\0\x01\0\x02\0\x01");
    for layer in [layer(), chunk(b"LAYR", b"odd")] {
        let chunks = [points(), chunk(b"SRFS", b"Oak\0"), layer, polygon.clone()];
        let reading = Reading::of(&file(Kind::Lwob, &chunks)).expect("it is accepted");
        assert_eq!((reading.counts.skipped, reading.counts.polygons), (1, 1));
    }
}

/// "POLS with no PNTS since it, or PTAG with no POLS since it, is 5", of whatever type the PTAG
/// is; and no table is changed.
#[test]
fn no_list_is_borrowed_from_another_layer() {
    let [parts, groups] = [b"PART", b"SMGP"].map(|kind| chunk(b"PTAG", kind));
    for (chunks, place) in [
        (vec![points(), layer(), face()], 84),
        (vec![points(), face(), layer(), points(), tagging()], 148),
        (vec![points(), face(), layer(), points(), parts], 148),
        (vec![points(), face(), layer(), points(), groups], 148),
    ] {
        let mut tables = long_tables();
        let answer = read_into(&mut tables, &file(Kind::Lwo2, &chunks));
        let order = RefusalKind::Order.number();
        assert_eq!((answer.number, answer.place), (order, place));
        assert_eq!(tables, long_tables());
    }
}

/// Tables with more room than any file here needs, full of something.
fn long_tables() -> Tables {
    let words = vec![0xa5a5_a5a5; 100];
    Tables {
        points: words.clone(),
        polygons: words.clone(),
        vertices: words.clone(),
        names: words.clone(),
        name_bytes: vec![0xa5; 100],
        records: words,
    }
}

fn read_into(tables: &mut Tables, file: &[u8]) -> lent::LwoAnswer {
    lent::read(
        file,
        &mut tables.points,
        &mut tables.polygons,
        &mut tables.vertices,
        &mut tables.names,
        &mut tables.name_bytes,
        &mut tables.records,
    )
}
