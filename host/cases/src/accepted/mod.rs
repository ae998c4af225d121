//! Files that must be accepted, each for one sentence of document 01 or of a
//! request of document 02, with the mesh that each must give.

mod indices;
mod layers;
mod parts;

use crate::assemble::{chunk, f4, form, i2, join, string, sub_chunk, u2, vx_long, vx_short};
use crate::assemble::{Kind, Tag};
use crate::plain::{PlainMesh, PlainRecord, UNDEFINED};
use crate::{lwo2, lwob};

/// A file and what it must give.
#[derive(Clone, Debug)]
pub struct Accepted {
    /// A name of lower-case letters, digits and hyphens, unlike all others.
    pub name: String,
    pub file: Vec<u8>,
    pub mesh: PlainMesh,
    pub skipped: u64,
    pub details: u64,
}

/// The whole catalogue.
pub fn accepted() -> Vec<Accepted> {
    let mut list = Vec::new();
    add_levels(&mut list);
    add_colours(&mut list);
    add_flags(&mut list);
    add_lwo2_values(&mut list);
    add_blocks(&mut list);
    add_outer_tags(&mut list);
    add_standing(&mut list);
    add_latest_lists(&mut list);
    add_polygons(&mut list);
    add_skipped(&mut list);
    layers::add_layers(&mut list);
    indices::add_indices(&mut list);
    parts::add_parts(&mut list);
    list
}

type Sub = (Tag, Vec<u8>);

/// A SURF chunk.
fn surf(kind: Kind, name: &[u8], subs: &[Sub]) -> Vec<u8> {
    let mut body = string(name);
    if kind == Kind::Lwo2 {
        body.extend(string(b"s"));
    }
    for (tag, bytes) in subs {
        body.extend(sub_chunk(tag, bytes));
    }
    chunk(b"SURF", &body)
}

fn record(kind: Kind, subs: &[Sub]) -> PlainRecord {
    match kind {
        Kind::Lwob => lwob::record(subs),
        Kind::Lwo2 => lwo2::record(subs),
    }
}

fn name_list(kind: Kind, names: &[&[u8]]) -> Vec<u8> {
    let strings: Vec<Vec<u8>> = names.iter().map(|name| string(name)).collect();
    let tag = match kind {
        Kind::Lwob => b"SRFS",
        Kind::Lwo2 => b"TAGS",
    };
    chunk(tag, &join(&strings))
}

fn add(list: &mut Vec<Accepted>, kind: Kind, name: &str, chunks: &[Vec<u8>], mesh: PlainMesh) {
    list.push(Accepted {
        name: format!("{}-{name}", kind.word()),
        file: form(kind, &join(chunks)),
        mesh,
        skipped: 0,
        details: 0,
    });
}

/// One name and its SURF with these sub-chunks.
fn add_surf(list: &mut Vec<Accepted>, kind: Kind, name: &str, subs: &[Sub]) {
    let chunks = [name_list(kind, &[b"a"]), surf(kind, b"a", subs)];
    let mut mesh = PlainMesh::default();
    mesh.add_name(b"a", &record(kind, subs));
    add(list, kind, name, &chunks, mesh);
}

/// LWOB's levels: short form, float form.
const LEVELS: [(&Tag, &Tag); 5] = [
    (b"DIFF", b"VDIF"),
    (b"LUMI", b"VLUM"),
    (b"SPEC", b"VSPC"),
    (b"REFL", b"VRFL"),
    (b"TRAN", b"VTRN"),
];

const HALF: u32 = 0x3f00_0000;
const QUARTER: u32 = 0x3e80_0000;

/// "n divided by 256, which is exact", for n at its bounds; each level alone;
/// the float "wins over the short form in either order"; "a repeated
/// sub-chunk's last value stands".
fn add_levels(list: &mut Vec<Accepted>) {
    let kind = Kind::Lwob;
    let bounds = [
        0,
        1,
        -1,
        0x7f,
        0x80,
        -0x80,
        255,
        256,
        257,
        i16::MAX,
        i16::MIN,
        -i16::MAX,
    ];
    for n in bounds {
        let subs = LEVELS.map(|(short, _)| (*short, i2(n)));
        let name = format!("levels-{:04x}", n as u16);
        add_surf(list, kind, &name, &subs);
    }
    for (number, (short, float)) in LEVELS.into_iter().enumerate() {
        let (small, large) = ((*short, i2(64)), (*float, f4(HALF)));
        let again = [(*short, i2(-3)), (*float, f4(QUARTER))];
        for (name, subs) in [
            ("short", vec![small.clone()]),
            ("float", vec![large.clone()]),
            ("short-float", vec![small.clone(), large.clone()]),
            ("float-short", vec![large.clone(), small.clone()]),
            ("short-short", vec![small.clone(), again[0].clone()]),
            ("float-float", vec![large, again[1].clone()]),
            ("between", vec![small, again[1].clone(), again[0].clone()]),
        ] {
            add_surf(list, kind, &format!("level-{number}-{name}"), &subs);
        }
    }
    add_surf(list, kind, "no-values", &[]);
}

/// "each of the first three divided by 255, rounded once; the fourth isn't
/// judged": every byte is a level of some name.
fn add_colours(list: &mut Vec<Accepted>) {
    let bytes: Vec<u8> = (0..=255).chain([7, 200]).collect();
    let colours: Vec<Vec<u8>> = bytes
        .chunks(3)
        .map(|three| [three, &[9]].concat())
        .collect();
    for (number, some) in colours.chunks(22).enumerate() {
        let names: Vec<Vec<u8>> = (0..some.len()).map(|n| vec![b'A' + n as u8]).collect();
        let listed: Vec<&[u8]> = names.iter().map(Vec::as_slice).collect();
        let mut chunks = vec![name_list(Kind::Lwob, &listed)];
        let mut mesh = PlainMesh::default();
        for (name, colour) in names.iter().zip(some) {
            let subs = [(*b"COLR", colour.clone())];
            chunks.push(surf(Kind::Lwob, name, &subs));
            mesh.add_name(name, &lwob::record(&subs));
        }
        add(
            list,
            Kind::Lwob,
            &format!("colours-{number}"),
            &chunks,
            mesh,
        );
    }
    let subs = [(*b"COLR", vec![1, 2, 3, 4]), (*b"COLR", vec![9, 8, 7, 6])];
    add_surf(list, Kind::Lwob, "colour-again", &subs);
}

/// "bit 8 gives sides 3; bit 0 gives luminosity 1.0 if neither LUMI nor VLUM is
/// there": each bit alone, and bit 0 beside each form.
fn add_flags(list: &mut Vec<Accepted>) {
    let kind = Kind::Lwob;
    let flag = |bits: u16| (*b"FLAG", u2(bits));
    for bit in 0..16 {
        add_surf(list, kind, &format!("flag-{bit}"), &[flag(1 << bit)]);
    }
    for (name, other) in [
        ("lumi", (*b"LUMI", i2(0))),
        ("vlum", (*b"VLUM", f4(0))),
        ("diff", (*b"DIFF", i2(5))),
    ] {
        let subs = [flag(0xffff), other];
        add_surf(list, kind, &format!("flag-and-{name}"), &subs);
    }
    add_surf(list, kind, "flag-again", &[flag(0x0101), flag(0)]);
    add_surf(list, kind, "flag-at-last", &[flag(0), flag(0x0101)]);
}

/// LWO2: each value alone with both forms of a VX, and twice; SIDE 1 and 3;
/// what LWOB lists is not listed here.
fn add_lwo2_values(list: &mut Vec<Accepted>) {
    let kind = Kind::Lwo2;
    let tags: [(&Tag, usize); 6] = [
        (b"COLR", 3),
        (b"DIFF", 1),
        (b"LUMI", 1),
        (b"SPEC", 1),
        (b"REFL", 1),
        (b"TRAN", 1),
    ];
    for (number, (tag, floats)) in tags.into_iter().enumerate() {
        let body = |first: u32, envelope: Vec<u8>| {
            let floats: Vec<Vec<u8>> = (0..floats as u32).map(|n| f4(first + n)).collect();
            join(&[join(&floats), envelope])
        };
        let short = (*tag, body(HALF, vx_short(0)));
        let long = (*tag, body(QUARTER, vx_long(0x00ff_ffff)));
        for (name, subs) in [
            ("short", vec![short.clone()]),
            ("long", vec![long.clone()]),
            ("again", vec![short.clone(), long.clone()]),
            ("at-last", vec![long, short]),
        ] {
            add_surf(list, kind, &format!("value-{number}-{name}"), &subs);
        }
    }
    let side = |n: u16| (*b"SIDE", u2(n));
    add_surf(list, kind, "side-1", &[side(1)]);
    add_surf(list, kind, "side-3", &[side(3)]);
    add_surf(list, kind, "side-again", &[side(3), side(1)]);
    add_surf(list, kind, "no-values", &[]);
    for tag in [
        b"VLUM", b"VDIF", b"VSPC", b"VRFL", b"VTRN", b"FLAG", b"TMAP",
    ] {
        let name = String::from_utf8_lossy(tag).to_lowercase();
        let subs = [(*tag, b"odd".to_vec())];
        add_surf(list, kind, &format!("not-listed-{name}"), &subs);
    }
    for tag in [b"SIDE", b"BLOK", b"IMAP", b"TMAP"] {
        let name = String::from_utf8_lossy(tag).to_lowercase();
        let subs = [(*tag, b"odd".to_vec())];
        add_surf(list, Kind::Lwob, &format!("not-listed-{name}"), &subs);
    }
}

/// BLOK: each header; a body on level four is not looked at; a later IMAP is
/// unlisted; a TMAP is only looked into directly in a BLOK.
fn add_blocks(list: &mut Vec<Accepted>) {
    let kind = Kind::Lwo2;
    let malformed = b"odd".to_vec();
    let inner = |tag: &Tag| sub_chunk(tag, &malformed);
    for tag in [b"IMAP", b"PROC", b"GRAD", b"SHDR"] {
        let word = String::from_utf8_lossy(tag).to_lowercase();
        let header = sub_chunk(tag, &string(b"x"));
        let with = |later: Vec<u8>| vec![(*b"BLOK", join(&[header.clone(), later]))];
        add_surf(list, kind, &format!("blok-{word}"), &with(Vec::new()));
        let deep = join(&[
            string(b"xy"),
            inner(b"TMAP"),
            inner(b"IMAP"),
            inner(b"BLOK"),
        ]);
        let subs = [(*b"BLOK", sub_chunk(tag, &deep))];
        add_surf(list, kind, &format!("blok-{word}-deep"), &subs);
        let name = format!("blok-{word}-later");
        add_surf(list, kind, &name, &with(inner(tag)));
        let mapping = sub_chunk(b"TMAP", &join(&[inner(b"TMAP"), inner(b"IMAP")]));
        let name = format!("blok-{word}-mapping");
        add_surf(list, kind, &name, &with(join(&[mapping.clone(), mapping])));
        let name = format!("blok-{word}-blok");
        add_surf(
            list,
            kind,
            &name,
            &with(join(&[inner(b"BLOK"), inner(b"SIDE")])),
        );
    }
}

/// "tag byte outside 32..126": both ends are inside, at every level.
fn add_outer_tags(list: &mut Vec<Accepted>) {
    for byte in [32, 126] {
        let tag = [byte; 4];
        for kind in [Kind::Lwob, Kind::Lwo2] {
            let chunks = [chunk(&tag, b"odd")];
            let name = format!("tag-{byte}");
            add(list, kind, &name, &chunks, PlainMesh::default());
            list.last_mut().expect("a file").skipped = 1;
            let subs = [(tag, b"odd".to_vec())];
            add_surf(list, kind, &format!("sub-tag-{byte}"), &subs);
        }
        let inner = sub_chunk(&tag, b"odd");
        let header = sub_chunk(b"IMAP", &join(&[string(b"x"), inner.clone()]));
        let subs = [(*b"BLOK", join(&[header, inner]))];
        add_surf(list, Kind::Lwo2, &format!("inner-tag-{byte}"), &subs);
    }
}

/// A file by its name and its chunks, and the records that its four names get.
type Standing = (&'static str, Vec<Vec<u8>>, [PlainRecord; 4]);

/// "the last SURF of a name stands, for the name anywhere in the file; a SURF
/// for an unlisted name is checked and not kept".
fn add_standing(list: &mut Vec<Accepted>) {
    for (kind, red) in [
        (Kind::Lwob, (*b"COLR", vec![255, 0, 0, 0])),
        (Kind::Lwo2, (*b"SIDE", u2(3))),
    ] {
        let red = [red];
        let (full, none) = (record(kind, &red), record(kind, &[]));
        let names: [&[u8]; 4] = [b"a", b"ab", b"", b"b"];
        let listed = name_list(kind, &names);
        let rows: [Standing; 5] = [
            (
                "before-and-after",
                vec![
                    surf(kind, b"ab", &red),
                    listed.clone(),
                    surf(kind, b"b", &[]),
                ],
                [UNDEFINED, full, UNDEFINED, none],
            ),
            (
                "last",
                vec![
                    surf(kind, b"a", &red),
                    surf(kind, b"", &red),
                    listed.clone(),
                    surf(kind, b"a", &[]),
                ],
                [none, UNDEFINED, full, UNDEFINED],
            ),
            (
                "unlisted",
                vec![
                    listed.clone(),
                    surf(kind, b"abc", &red),
                    surf(kind, b"A", &red),
                    surf(kind, b"aa", &red),
                ],
                [UNDEFINED; 4],
            ),
            (
                "each",
                vec![
                    listed.clone(),
                    surf(kind, b"b", &red),
                    surf(kind, b"ab", &[]),
                    surf(kind, b"a", &red),
                    surf(kind, b"", &[]),
                ],
                [full, none, none, full],
            ),
            ("none", vec![listed], [UNDEFINED; 4]),
        ];
        for (name, chunks, records) in rows {
            let mut mesh = PlainMesh::default();
            for (name, record) in names.iter().zip(records) {
                mesh.add_name(name, &record);
            }
            add(list, kind, &format!("standing-{name}"), &chunks, mesh);
        }
    }
}

/// So many points, whose words are all this one.
fn points(count: usize, word: u32) -> (Vec<u8>, Vec<u32>) {
    let bytes = f4(word).repeat(3 * count);
    (chunk(b"PNTS", &bytes), vec![word; 3 * count])
}

fn polygons(kind: &Tag, entries: &[&[u32]]) -> Vec<u8> {
    let mut body = kind.to_vec();
    for vertices in entries {
        body.extend(u2(vertices.len() as u16));
        for &vertex in *vertices {
            body.extend(vx_short(vertex));
        }
    }
    chunk(b"POLS", &body)
}

/// A PTAG of type SURF.
fn tagging(pairs: &[(u32, u16)]) -> Vec<u8> {
    tagging_of(b"SURF", pairs)
}

fn tagging_of(kind: &Tag, pairs: &[(u32, u16)]) -> Vec<u8> {
    let mut body = kind.to_vec();
    for &(polygon, tag) in pairs {
        body.extend(join(&[vx_short(polygon), u2(tag)]));
    }
    chunk(b"PTAG", &body)
}

/// "A vertex of a second PNTS stored without adding the points before it. A
/// PTAG pair counted over the whole file and not from the latest POLS."
fn add_latest_lists(list: &mut Vec<Accepted>) {
    let kind = Kind::Lwo2;
    let names = name_list(kind, &[b"a", b"b"]);
    let (one, one_words) = points(2, HALF);
    let (two, two_words) = points(3, QUARTER);
    let chunks = [
        names.clone(),
        one.clone(),
        polygons(b"FACE", &[&[0, 1], &[1]]),
        two.clone(),
        tagging(&[(1, 1)]),
        polygons(b"PTCH", &[&[2], &[0, 1, 2]]),
        tagging(&[(0, 0), (1, 1), (0, 1)]),
        points(0, 0).0,
        tagging(&[(1, 0)]),
        polygons(b"FACE", &[]),
        tagging(&[]),
    ];
    let mut mesh = PlainMesh {
        points: [one_words.clone(), two_words.clone()].concat(),
        ..PlainMesh::default()
    };
    mesh.add_polygon(1, &[0, 1], 0);
    mesh.add_polygon(1, &[1], 2);
    mesh.add_polygon(2, &[4], 2);
    mesh.add_polygon(2, &[2, 3, 4], 1);
    mesh.add_name(b"a", &UNDEFINED);
    mesh.add_name(b"b", &UNDEFINED);
    add(list, kind, "latest-lists", &chunks, mesh);

    let (three, three_words) = points(1, HALF);
    let chunks = [
        one,
        two,
        three,
        polygons(b"PTCH", &[&[0]]),
        polygons(b"FACE", &[&[0, 0]]),
        names,
        tagging(&[(0, 1)]),
    ];
    let mut mesh = PlainMesh {
        points: [one_words, two_words, three_words].concat(),
        ..PlainMesh::default()
    };
    mesh.add_polygon(2, &[5], 0);
    mesh.add_polygon(1, &[5, 5], 2);
    mesh.add_name(b"a", &UNDEFINED);
    mesh.add_name(b"b", &UNDEFINED);
    add(list, kind, "third-list", &chunks, mesh);
}

/// LWOB: details counted and not kept, faces and patches in turn. LWO2: the six
/// high bits of a count, and a PTAG of another type.
fn add_polygons(list: &mut Vec<Accepted>) {
    let (three, words) = points(3, HALF);
    let names = name_list(Kind::Lwob, &[b"a", b"b"]);
    let entry = lwob::entry;
    let detailed = join(&[
        entry(&[0, 1], -2),
        u2(2),
        entry(&[2], 1),
        entry(&[1, 1, 1], 2),
        entry(&[2], 1),
        entry(&[1], -1),
        u2(0),
        entry(&[0], -1),
        u2(1),
        entry(&[0], 2),
    ]);
    let chunks = [
        three.clone(),
        names,
        chunk(b"PCHS", &entry(&[1], 2)),
        chunk(b"POLS", &detailed),
        chunk(b"PCHS", &[]),
        chunk(b"PCHS", &entry(&[2, 1], 1)),
    ];
    let mut mesh = PlainMesh {
        points: words.clone(),
        ..PlainMesh::default()
    };
    mesh.add_polygon(2, &[1], 2);
    mesh.add_polygon(1, &[0, 1], 2);
    mesh.add_polygon(1, &[2], 1);
    mesh.add_polygon(1, &[1], 1);
    mesh.add_polygon(1, &[0], 1);
    mesh.add_polygon(2, &[2, 1], 1);
    mesh.add_name(b"a", &UNDEFINED);
    mesh.add_name(b"b", &UNDEFINED);
    add(list, Kind::Lwob, "details", &chunks, mesh);
    list.last_mut().expect("a file").details = 3;

    for bit in 10..16 {
        let body = join(&[&b"FACE"[..], &u2(1 | 1 << bit), &vx_short(2)]);
        let tagging = chunk(b"PTAG", b"SMGPodd");
        let chunks = [three.clone(), chunk(b"POLS", &body), tagging];
        let mut mesh = PlainMesh {
            points: words.clone(),
            ..PlainMesh::default()
        };
        mesh.add_polygon(1, &[2], 0);
        add(list, Kind::Lwo2, &format!("count-bit-{bit}"), &chunks, mesh);
    }
}

/// "Unlisted tags are skipped; top-level ones are counted as skipped", those
/// that are listed in the other kind of file too.
fn add_skipped(list: &mut Vec<Accepted>) {
    let (three, words) = points(3, HALF);
    let mesh = PlainMesh {
        points: words,
        ..PlainMesh::default()
    };
    for (kind, tag) in [(Kind::Lwob, b"LAYR"), (Kind::Lwo2, b"SRFS")] {
        let chunks = [chunk(tag, b"odd"), three.clone(), chunk(b"CRVS", &[])];
        add(list, kind, "skipped", &chunks, mesh.clone());
        list.last_mut().expect("a file").skipped = 2;
    }
}

#[cfg(test)]
mod tests {
    use super::*;
    use std::collections::HashSet;

    #[test]
    fn the_names_differ() {
        let list = accepted();
        let names: HashSet<&str> = list.iter().map(|one| one.name.as_str()).collect();
        assert_eq!(names.len(), list.len());
    }

    #[test]
    fn every_byte_is_a_colour() {
        let list = accepted();
        let files = list.iter().filter(|one| one.name.contains("colours-"));
        let levels: HashSet<u32> = files
            .flat_map(|one| one.mesh.records.chunks(10).map(|record| &record[1..4]))
            .flatten()
            .copied()
            .collect();
        assert_eq!(levels.len(), 256);
    }
}
