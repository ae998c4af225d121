//! An index of LWO2 that is below 65,280 has two bytes: in four it is refused wherever it is read.

use cases::assemble::{chunk, f4, form, join, string, sub_chunk, u2, vx_long, vx_short, Kind};
use lwo::{Mesh, MeshBuilder, Refusal, RefusalKind as K, NO_SURFACE};

fn lwo2(chunks: &[Vec<u8>]) -> Vec<u8> {
    form(Kind::Lwo2, &join(chunks))
}

/// One point, and a polygon whose only vertex is at 46.
fn with_vertex(vertex: &[u8]) -> Vec<u8> {
    let polygon = join(&[&b"FACE"[..], &u2(1), vertex]);
    lwo2(&[chunk(b"PNTS", &[0; 12]), chunk(b"POLS", &polygon)])
}

/// One name, one point and one polygon, and at 72 what a PTAG of this type holds.
fn with_pair(kind: &[u8; 4], pair: &[u8]) -> Vec<u8> {
    lwo2(&[
        chunk(b"TAGS", b"Oak\0"),
        chunk(b"PNTS", &[0; 12]),
        chunk(b"POLS", b"FACE\0\x01\0\0"),
        chunk(b"PTAG", &join(&[kind, pair])),
    ])
}

/// A surface whose name is not listed, with these sub-chunks from 24 on.
fn with_sub_chunks(sub_chunks: &[u8]) -> Vec<u8> {
    let body = [&string(b"a"), &string(b""), sub_chunks].map(<[u8]>::to_vec);
    lwo2(&[chunk(b"SURF", &join(&body))])
}

/// A level whose envelope is 10 bytes behind the tag.
fn level(envelope: &[u8]) -> Vec<u8> {
    sub_chunk(b"DIFF", &join(&[&f4(0), envelope]))
}

fn must_be_refused(file: &[u8], kind: K, place: u64) {
    assert_eq!(Mesh::read(file), Err(Refusal::new(kind, place)));
}

/// Also where it names no point or polygon, and where bytes are left over behind it.
#[test]
fn a_small_index_in_four_bytes_is_refused() {
    for index in [0, 1, 65_279] {
        let long = vx_long(index);
        must_be_refused(&with_vertex(&long), K::LongIndex, 46);
        let pair = join(&[&long, &u2(0)]);
        must_be_refused(&with_pair(b"SURF", &pair), K::LongIndex, 72);
        must_be_refused(&with_pair(b"PART", &pair), K::LongIndex, 72);
        for behind in [&b""[..], b"\0\0"] {
            let level = level(&join(&[&long[..], behind]));
            must_be_refused(&with_sub_chunks(&level), K::LongIndex, 34);
        }
    }
}

#[test]
fn an_index_that_is_cut_is_told_first() {
    for bytes in 1..4 {
        let cut = &vx_long(0)[..bytes];
        must_be_refused(&with_vertex(cut), K::ItemCut, 46);
        must_be_refused(&with_pair(b"SURF", cut), K::ItemCut, 72);
        must_be_refused(&with_pair(b"PART", cut), K::ItemCut, 72);
        must_be_refused(&with_sub_chunks(&level(cut)), K::ItemCut, 34);
    }
}

/// A PTAG of another type than SURF and PART, a block and an unlisted chunk have no index that is
/// read, and from 65,280 on an index has four bytes.
#[test]
fn other_long_indices_are_as_they_were() {
    let block = join(&[sub_chunk(b"IMAP", &string(b"a")), level(&vx_long(0))]);
    for file in [
        with_pair(b"SMGP", &join(&[vx_long(0), u2(0)])),
        with_sub_chunks(&sub_chunk(b"BLOK", &block)),
        with_sub_chunks(&level(&vx_long(65_280))),
        lwo2(&[chunk(b"ENVL", &vx_long(1))]),
    ] {
        assert!(Mesh::read(&file).is_ok());
    }
    must_be_refused(&with_vertex(&vx_long(65_280)), K::VertexNumber, 46);
}

/// What is written has each index in as few bytes as it can have.
#[test]
fn the_writer_has_both_lengths() {
    let mut builder = MeshBuilder::new();
    let points: Vec<u32> = (0..=65_280).map(|_| builder.point([0.0; 3])).collect();
    builder.polygon(lwo::Kind::Face, NO_SURFACE, &points[65_279..]);
    let mesh = builder.build().expect("a mesh");
    let file = mesh.to_lwo2().expect("it is written");
    assert!(file.ends_with(&join(&[u2(2), vx_short(65_279), vx_long(65_280)])));
    assert_eq!(Mesh::read(&file), Ok(mesh));
}
