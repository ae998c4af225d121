//! Random valid LWO2 files.

use crate::assemble::{chunk, f4, join, string, sub_chunk, u2, vx, Kind, Tag};
use crate::floats::finite;
use crate::layer::Layer;
use crate::names;
use crate::plain::{PlainMesh, PlainRecord, MISSING_COLOUR};
use crate::random::Random;
use crate::unlisted::{any_body, any_tag, unlisted_sub_chunk};
use crate::valid::{coordinates, corners, last_body, point_count, word_at, Draft, Valid};

/// A latest list: its first entry's number in the whole file, and its length.
#[derive(Clone, Copy)]
struct Latest {
    first: u32,
    count: u32,
}

/// What later chunks depend on.
#[derive(Default)]
struct State {
    points: Option<Latest>,
    polygons: Option<Latest>,
    names: bool,
}

/// A random valid LWO2 file: layer after layer, or several PNTS, POLS, PTAG and
/// LAYR in any order that the rules allow.
pub fn valid(random: &mut Random) -> Valid {
    let most = random.index(7);
    let mut draft = Draft::new(Kind::Lwo2, names::listed(random, most));
    let mut state = State::default();
    // As modellers write it, the names come first.
    if random.once_in(2) {
        add_names(&mut draft, &mut state);
    }
    if random.once_in(3) {
        add_layers(random, &mut draft, &mut state);
    } else {
        for _ in 0..random.between(0, 18) {
            add_any(random, &mut draft, &mut state);
        }
    }
    draft.finish(state.names)
}

/// As modellers write it: each layer has its points, polygons and taggings, or
/// none; what is the file's stands before, between and after the layers.
fn add_layers(random: &mut Random, draft: &mut Draft, state: &mut State) {
    for _ in 0..random.between(1, 4) {
        add_outside(random, draft, state);
        add_layer(random, draft, state);
        for _ in 0..random.below(8) {
            add_inside(random, draft, state);
        }
    }
    add_outside(random, draft, state);
}

/// Points, their polygons, and what those are tagged with.
fn add_inside(random: &mut Random, draft: &mut Draft, state: &mut State) {
    match state.polygons {
        Some(polygons) if random.once_in(2) => {
            for _ in 0..random.between(1, 4) {
                match random.below(4) {
                    0 => add_other_tagging(random, draft),
                    _ => add_tagging(random, draft, state, polygons),
                }
            }
        }
        _ if random.once_in(6) => add_points(random, draft, state),
        _ => add_list(random, draft, state),
    }
}

/// The names, once, surfaces, and what is skipped.
fn add_outside(random: &mut Random, draft: &mut Draft, state: &mut State) {
    for _ in 0..random.below(3) {
        match random.below(4) {
            0 => draft.add_unlisted(random),
            1 => add_surf(random, draft),
            _ if !state.names => add_names(draft, state),
            _ => add_surf(random, draft),
        }
    }
}

fn add_any(random: &mut Random, draft: &mut Draft, state: &mut State) {
    match random.below(13) {
        0 => draft.add_unlisted(random),
        1 | 2 => add_surf(random, draft),
        3 => add_points(random, draft, state),
        4 | 5 if !state.names => add_names(draft, state),
        6 if state.polygons.is_some() => add_other_tagging(random, draft),
        7..=9 => match state.polygons {
            Some(polygons) => add_tagging(random, draft, state, polygons),
            None => draft.add_unlisted(random),
        },
        10 => add_layer(random, draft, state),
        _ => add_list(random, draft, state),
    }
}

/// Polygons, or the points that they need first.
fn add_list(random: &mut Random, draft: &mut Draft, state: &mut State) {
    match state.points {
        Some(points) => add_polygons(random, draft, state, points),
        None => add_points(random, draft, state),
    }
}

/// A LAYR with any numbers, name and parent. It "empties the latest point and
/// polygon lists"; the names are the file's.
fn add_layer(random: &mut Random, draft: &mut Draft, state: &mut State) {
    let edges = [0, 0, 1, 2, 256, u16::MAX];
    let number = |random: &mut Random| *random.pick(&edges);
    let layer = Layer {
        number: number(random),
        flags: number(random),
        pivot: [0; 3].map(|_: u32| finite(random)),
        name: draft.some_name(random),
        parent: random.once_in(2).then(|| number(random)),
    };
    state.points = None;
    state.polygons = None;
    draft.add(layer.chunk());
}

/// "PNTS: a new latest point list each time."
fn add_points(random: &mut Random, draft: &mut Draft, state: &mut State) {
    let count = point_count(random);
    let words = coordinates(random, count);
    let body: Vec<Vec<u8>> = words.iter().map(|&bits| f4(bits)).collect();
    state.points = Some(Latest {
        first: draft.mesh.point_count(),
        count: count as u32,
    });
    draft.mesh.points.extend(words);
    draft.add(chunk(b"PNTS", &join(&body)));
}

fn add_names(draft: &mut Draft, state: &mut State) {
    let body: Vec<Vec<u8>> = draft.names.iter().map(|name| string(name)).collect();
    draft.add(chunk(b"TAGS", &join(&body)));
    state.names = true;
}

/// A POLS with any six high bits in each count.
fn add_polygons(random: &mut Random, draft: &mut Draft, state: &mut State, points: Latest) {
    let kind = random.between(1, 2) as u32;
    let first = draft.mesh.polygon_count();
    let entries = if points.count == 0 {
        0
    } else {
        random.below(6)
    };
    let mut body = if kind == 1 { *b"FACE" } else { *b"PTCH" }.to_vec();
    for _ in 0..entries {
        let vertices = corners(random, points.count, 1_023);
        body.extend(u2(vertices.len() as u16 | high_bits(random)));
        for &vertex in &vertices {
            body.extend(vx(vertex));
        }
        let stored: Vec<u32> = vertices
            .iter()
            .map(|vertex| points.first + vertex)
            .collect();
        draft.mesh.add_polygon(kind, &stored, 0);
    }
    state.polygons = Some(Latest {
        first,
        count: entries as u32,
    });
    draft.add(chunk(b"POLS", &body));
}

/// Bits that stand in the high six of a count, mostly none.
fn high_bits(random: &mut Random) -> u16 {
    if random.once_in(3) {
        (random.below(64) as u16) << 10
    } else {
        0
    }
}

/// What a pair says of a polygon: its surface or its part.
type Set = fn(&mut PlainMesh, u32, u32);

/// The types of PTAG whose pairs are read.
const TAGGINGS: [(&Tag, Set); 2] = [
    (b"SURF", PlainMesh::set_surface),
    (b"PART", PlainMesh::set_part),
];

/// PTAG SURF or PTAG PART with pairs in any order, some polygons more than once:
/// "The last tag for a polygon stands (house)." #111: "PART pairs are read like
/// SURF pairs".
fn add_tagging(random: &mut Random, draft: &mut Draft, state: &State, polygons: Latest) {
    let names = if state.names { draft.names.len() } else { 0 };
    let (kind, set) = *random.pick(&TAGGINGS);
    let mut body = kind.to_vec();
    if polygons.count > 0 && names > 0 {
        for _ in 0..random.below(2 * u64::from(polygons.count) + 1) {
            let polygon = random.below(u64::from(polygons.count)) as u32;
            let tag = random.index(names) as u32;
            body.extend(vx(polygon));
            body.extend(u2(tag as u16));
            set(&mut draft.mesh, polygons.first + polygon, tag + 1);
        }
    }
    draft.add(chunk(b"PTAG", &body));
}

/// "Other types: four type bytes are required and the rest isn't judged."
fn add_other_tagging(random: &mut Random, draft: &mut Draft) {
    let types: [Tag; 7] = [
        *b"SMGP",
        *b"COLR",
        *b"surf",
        *b"part",
        *b"PARU",
        [0; 4],
        [0xff, 0x1f, 0x7f, 0x80],
    ];
    let mut body = random.pick(&types).to_vec();
    body.extend(any_body(random, 20));
    draft.add(chunk(b"PTAG", &body));
}

pub type Sub = (Tag, Vec<u8>);

/// The shading values in the record's order.
const SHADING: [&Tag; 5] = [b"DIFF", b"LUMI", b"SPEC", b"REFL", b"TRAN"];

/// Everything that LWO2's SURF lists.
const LISTED: [&Tag; 8] = [
    b"COLR", b"DIFF", b"LUMI", b"SPEC", b"REFL", b"TRAN", b"SIDE", b"BLOK",
];

/// Sub-chunks that it doesn't list there.
const PASSED: [&Tag; 12] = [
    b"GLOS", b"TRNL", b"SHRP", b"BUMP", b"SMAN", b"FLAG", b"VLUM", b"VDIF", b"IMAP", b"TMAP",
    b"CHAN", b"RIND",
];

fn add_surf(random: &mut Random, draft: &mut Draft) {
    let name = draft.some_name(random);
    let source = match random.below(4) {
        0 => draft.some_name(random),
        _ => Vec::new(),
    };
    let mut subs: Vec<Sub> = Vec::new();
    let mut body = join(&[string(&name), string(&source)]);
    for _ in 0..random.below(12) {
        if random.once_in(5) {
            body.extend(unlisted_sub_chunk(random, &PASSED, &LISTED));
        } else {
            let (tag, bytes) = sub(random);
            body.extend(sub_chunk(&tag, &bytes));
            subs.push((tag, bytes));
        }
    }
    draft.add_surf(name, record(&subs), chunk(b"SURF", &body));
}

fn sub(random: &mut Random) -> Sub {
    match random.below(8) {
        0 | 1 => (*b"COLR", floats_and_envelope(random, 3)),
        2 => (*b"SIDE", u2(*random.pick(&[1, 3]))),
        3 => (*b"BLOK", block(random)),
        _ => (**random.pick(&SHADING), floats_and_envelope(random, 1)),
    }
}

/// So many floats and a VX, which may be any, in the form that #107 leaves it.
fn floats_and_envelope(random: &mut Random, floats: usize) -> Vec<u8> {
    let mut body = Vec::new();
    for _ in 0..floats {
        body.extend(f4(finite(random)));
    }
    let index = match random.below(4) {
        0 => random.below(0x0100_0000) as u32,
        1 => *random.pick(&[0xfeff, 0xff00, 0x00ff_ffff]),
        _ => random.below(4) as u32,
    };
    body.extend(vx(index));
    body
}

/// A BLOK's body: a header with a string and sub-chunks, then any sub-chunks,
/// of which TMAP holds sub-chunks again.
fn block(random: &mut Random) -> Vec<u8> {
    let headers: [&Tag; 4] = [b"IMAP", b"PROC", b"GRAD", b"SHDR"];
    let ordinal = names::listable(random);
    let inside = join(&[string(&ordinal), level_four(random)]);
    let header = *random.pick(&headers);
    let mut body = sub_chunk(header, &inside);
    for _ in 0..random.below(5) {
        body.extend(later_in_block(random));
    }
    body
}

/// A sub-chunk of a BLOK after the first. A later IMAP, PROC, GRAD or SHDR is
/// unlisted, so its body may be anything.
fn later_in_block(random: &mut Random) -> Vec<u8> {
    let known: [&Tag; 8] = [
        b"IMAP", b"SHDR", b"PROJ", b"AXIS", b"COLR", b"BLOK", b"SIDE", b"IMAG",
    ];
    if random.once_in(2) {
        let inside = level_four(random);
        sub_chunk(b"TMAP", &inside)
    } else {
        unlisted_sub_chunk(random, &known, &[b"TMAP"])
    }
}

/// The deepest sub-chunks: any tags, any bodies.
fn level_four(random: &mut Random) -> Vec<u8> {
    let mut bytes = Vec::new();
    for _ in 0..random.below(4) {
        let tag = if random.once_in(2) {
            any_tag(random)
        } else {
            **random.pick(&[b"CHAN", b"ENAB", b"TMAP", b"IMAP", b"BLOK", b"COLR"])
        };
        bytes.extend(sub_chunk(&tag, &any_body(random, 12)));
    }
    bytes
}

/// What these sub-chunks give. "Missing: diffuse 1.0, other levels but colour
/// 0, sides 1."
pub fn record(subs: &[Sub]) -> PlainRecord {
    let colour = last_body(subs, b"COLR");
    let part = |at| colour.map_or(MISSING_COLOUR, |body| word_at(body, at));
    let level = |tag, missing| last_body(subs, tag).map_or(missing, |body| word_at(body, 0));
    let sides = last_body(subs, b"SIDE").map_or(1, |body| u32::from(body[1]));
    [
        1,
        part(0),
        part(4),
        part(8),
        level(b"DIFF", 0x3f80_0000),
        level(b"LUMI", 0),
        level(b"SPEC", 0),
        level(b"REFL", 0),
        level(b"TRAN", 0),
        sides,
    ]
}
