//! The files of the folder `samples`, which people can try. The example program of the same
//! name writes them; a test sees that the folder holds just these bytes.

use crate::assemble::{chunk, f4, form, i2, join, string, sub_chunk, u2, vx, vx_long, Kind, Tag};
use crate::layer::Layer;

/// All samples, by the names that they have in the folder.
pub fn samples() -> Vec<(&'static str, Vec<u8>)> {
    vec![
        ("chest.lwo", chest()),
        ("damaged.lwo", damaged()),
        ("horse.lwo", horse()),
        ("oak.lwo", oak()),
        ("panel.lwo", panel()),
        ("rosette.lwo", rosette()),
        ("saddle.lwo", saddle()),
        ("shelf.lwo", shelf()),
        ("shield.lwo", shield()),
        ("stall.lwo", stall()),
    ]
}

/// Case l of document 01: one triangle of oak, canonical.
fn oak() -> Vec<u8> {
    triangle(2)
}

/// The same file, but its triangle names a fourth point, which there is not: refused 9 at 86, where
/// that vertex stands.
fn damaged() -> Vec<u8> {
    triangle(3)
}

fn triangle(last_vertex: u32) -> Vec<u8> {
    let corners = [[0.0, 0.0, 0.0], [1.0, 0.0, 0.0], [0.0, 2.0, 0.0]];
    let chunks = [
        chunk(b"TAGS", &string(b"Oak")),
        chunk(b"PNTS", &points(&corners)),
        chunk(b"POLS", &lwo2_polygons(b"FACE", &[&[0, 1, last_vertex]])),
        chunk(b"PTAG", &taggings(&[(0, 0)])),
    ];
    form(Kind::Lwo2, &join(&chunks))
}

/// LWOB: a board with a gilded triangle on it, once as a face and once as a detail of the board,
/// and a patch of a surface that is not defined.
fn panel() -> Vec<u8> {
    let corners = [
        [0.0, 0.0, 0.0],
        [1.2, 0.0, 0.0],
        [1.2, 0.6, 0.0],
        [0.0, 0.6, 0.0],
        [0.3, 0.15, 0.0],
        [0.9, 0.15, 0.0],
        [0.9, 0.45, 0.0],
    ];
    let board = join(&[lwob_polygon(&[0, 1, 2, 3], -1), u2(1)]);
    let gilding = lwob_polygon(&[4, 5, 6], 2);
    let oak = [
        sub_chunk(b"COLR", &[0x99, 0x66, 0x33, 0]),
        sub_chunk(b"DIFF", &i2(230)),
        sub_chunk(b"FLAG", &u2(0x0100)),
    ];
    let gold = [
        sub_chunk(b"COLR", &[0xff, 0xcc, 0, 0]),
        sub_chunk(b"LUMI", &i2(128)),
        sub_chunk(b"VLUM", &level(0.25)),
        sub_chunk(b"SPEC", &i2(256)),
    ];
    let chunks = [
        chunk(b"PNTS", &points(&corners)),
        chunk(b"SRFS", &strings(&[b"Oak", b"Gilding", b"Ash"])),
        chunk(b"POLS", &join(&[&board, &gilding, &gilding])),
        chunk(b"PCHS", &lwob_polygon(&[0, 1, 2, 3], 3)),
        chunk(b"SURF", &join(&[string(b"Oak"), join(&oak)])),
        chunk(b"SURF", &join(&[string(b"Gilding"), join(&gold)])),
    ];
    form(Kind::Lwob, &join(&chunks))
}

/// LWOB: a square with a raised middle. The ground is a face with two details, the four slopes
/// are faces, the middle is a patch. It has a curve, which is skipped, and a surface that shines
/// by its flag alone.
fn rosette() -> Vec<u8> {
    let corners = [
        [-0.5, -0.5, 0.0],
        [0.5, -0.5, 0.0],
        [0.5, 0.5, 0.0],
        [-0.5, 0.5, 0.0],
        [-0.25, -0.25, 0.125],
        [0.25, -0.25, 0.125],
        [0.25, 0.25, 0.125],
        [-0.25, 0.25, 0.125],
    ];
    let ground = [
        lwob_polygon(&[3, 2, 1, 0], -1),
        u2(2),
        lwob_polygon(&[0, 1, 3], 2),
        lwob_polygon(&[1, 2, 3], 2),
    ];
    let slopes = [
        lwob_polygon(&[0, 1, 5, 4], 1),
        lwob_polygon(&[1, 2, 6, 5], 1),
        lwob_polygon(&[2, 3, 7, 6], 1),
        lwob_polygon(&[3, 0, 4, 7], 1),
    ];
    let curve = [u2(3), u2(4), u2(5), u2(6), i2(1), u2(0)];
    let lime = [
        sub_chunk(b"COLR", &[0xe6, 0xd8, 0xad, 0]),
        sub_chunk(b"VDIF", &level(0.875)),
        sub_chunk(b"DIFF", &i2(200)),
        sub_chunk(b"SMAN", &level(1.5)),
    ];
    let leaf = [
        sub_chunk(b"COLR", &[0xd4, 0xaf, 0x37, 0]),
        sub_chunk(b"FLAG", &u2(0x0101)),
        sub_chunk(b"REFL", &i2(64)),
    ];
    let chunks = [
        chunk(b"PNTS", &points(&corners)),
        chunk(b"SRFS", &strings(&[b"Lime", b"Gold leaf"])),
        chunk(b"POLS", &join(&[join(&ground), join(&slopes)])),
        chunk(b"CRVS", &join(&curve)),
        chunk(b"PCHS", &lwob_polygon(&[4, 5, 6, 7], 2)),
        chunk(b"SURF", &join(&[string(b"Lime"), join(&lime)])),
        chunk(b"SURF", &join(&[string(b"Gold leaf"), join(&leaf)])),
    ];
    form(Kind::Lwob, &join(&chunks))
}

/// LWO2: a chest in two layers, each with a point list. The body is a box of six faces, the lid a
/// patch whose vertex numbers count from the second list. The body's layer is the parent of the
/// lid's, and the body's bottom is the part "Base".
fn chest() -> Vec<u8> {
    let body = [
        [0.0, 0.0, 0.0],
        [0.8, 0.0, 0.0],
        [0.8, 0.0, 0.4],
        [0.0, 0.0, 0.4],
        [0.0, 0.35, 0.0],
        [0.8, 0.35, 0.0],
        [0.8, 0.35, 0.4],
        [0.0, 0.35, 0.4],
    ];
    let lid = [
        [-0.02, 0.37, -0.02],
        [0.82, 0.37, -0.02],
        [0.82, 0.37, 0.42],
        [-0.02, 0.37, 0.42],
    ];
    let sides: [&[u32]; 6] = [
        &[0, 1, 2, 3],
        &[4, 7, 6, 5],
        &[0, 4, 5, 1],
        &[1, 5, 6, 2],
        &[2, 6, 7, 3],
        &[3, 7, 4, 0],
    ];
    // The front is tagged twice, and the last tag stands: a brass front.
    let body_tags = [(0, 0), (1, 0), (2, 0), (3, 0), (4, 0), (5, 0), (2, 1)];
    let chunks = [
        chunk(b"TAGS", &strings(&[b"Walnut", b"Brass", b"Base"])),
        layer(0, b"Body", None),
        chunk(b"PNTS", &points(&body)),
        chunk(b"POLS", &lwo2_polygons(b"FACE", &sides)),
        chunk(b"PTAG", &taggings(&body_tags)),
        chunk(b"PTAG", &parts(&[(0, 2)])),
        layer(1, b"Lid", Some(0)),
        chunk(b"PNTS", &points(&lid)),
        chunk(b"POLS", &lwo2_polygons(b"PTCH", &[&[0, 3, 2, 1]])),
        chunk(b"PTAG", &taggings(&[(0, 0)])),
        chunk(b"SURF", &walnut()),
        chunk(b"SURF", &brass()),
    ];
    form(Kind::Lwo2, &join(&chunks))
}

/// LWO2: a carousel horse of oak and pine. "Modellers mark "head" and "saddle" with PTAG of type
/// PART": neck, skull and eye are the head, flap and seat the saddle, and the trunk and its legs
/// are no part. The eye is painted on, so that it has a part and no board.
fn horse() -> Vec<u8> {
    let corners = [
        // The trunk.
        [0.4, 0.6, 0.0],
        [1.2, 0.6, 0.0],
        [1.2, 1.0, 0.0],
        [0.4, 1.0, 0.0],
        // The feet, and how wide the legs are at the trunk.
        [0.4, 0.0, 0.0],
        [0.5, 0.0, 0.0],
        [0.5, 0.6, 0.0],
        [1.1, 0.0, 0.0],
        [1.2, 0.0, 0.0],
        [1.1, 0.6, 0.0],
        // The neck, the skull and the eye.
        [1.0, 1.0, 0.0],
        [1.4, 1.4, 0.0],
        [1.2, 1.4, 0.0],
        [1.7, 1.2, 0.0],
        [1.7, 1.3, 0.0],
        [1.3, 1.6, 0.0],
        [1.38, 1.46, 0.02],
        [1.42, 1.46, 0.02],
        [1.4, 1.5, 0.02],
        // The flap, and the seat, which is as wide as the horse is thick.
        [0.65, 0.7, 0.15],
        [0.85, 0.7, 0.15],
        [0.85, 1.0, 0.15],
        [0.65, 1.0, 0.15],
        [0.6, 1.0, -0.15],
        [0.9, 1.0, -0.15],
        [0.9, 1.0, 0.15],
        [0.6, 1.0, 0.15],
    ];
    let (oak, pine, head, saddle) = (0, 1, 2, 3);
    let faces: [&[u32]; 7] = [
        &[0, 1, 2, 3],
        &[4, 5, 6, 0],
        &[7, 8, 1, 9],
        &[10, 2, 11, 12],
        &[12, 13, 14, 15],
        &[16, 17, 18],
        &[19, 20, 21, 22],
    ];
    let face_boards = [(0, pine), (1, oak), (2, oak), (3, pine), (4, oak), (6, oak)];
    let face_parts = [(3, head), (4, head), (5, head), (6, saddle)];
    let seat: &[u32] = &[23, 24, 25, 26];
    let chunks = [
        chunk(b"TAGS", &strings(&[b"Oak", b"Pine", b"head", b"saddle"])),
        layer(0, b"Horse", None),
        chunk(b"PNTS", &points(&corners)),
        chunk(b"POLS", &lwo2_polygons(b"FACE", &faces)),
        chunk(b"PTAG", &taggings(&face_boards)),
        chunk(b"PTAG", &parts(&face_parts)),
        chunk(b"POLS", &lwo2_polygons(b"PTCH", &[seat])),
        chunk(b"PTAG", &taggings(&[(0, pine)])),
        chunk(b"PTAG", &parts(&[(0, saddle)])),
        chunk(b"SURF", &wood(b"Oak", [0.6, 0.4, 0.2])),
        chunk(b"SURF", &wood(b"Pine", [0.9, 0.8, 0.6])),
    ];
    form(Kind::Lwo2, &join(&chunks))
}

/// A board of this colour.
fn wood(name: &[u8], colour: [f32; 3]) -> Vec<u8> {
    let levels = join(&[points(&[colour]), vx(0)]);
    join(&[string(name), string(b""), sub_chunk(b"COLR", &levels)])
}

/// LWO2: a saddle of leather with a gilded rim, from a program that writes no envelope's index
/// behind a level. The DIFF of the leather ends where that index would begin, in the middle of the
/// file and just where the next sub-chunk has its tag: refused 19 at 218.
fn saddle() -> Vec<u8> {
    let corners = [
        [0.0, 0.0, 0.0],
        [0.45, 0.0, 0.0],
        [0.45, 0.3, 0.0],
        [0.0, 0.3, 0.0],
        [0.0, 0.35, 0.06],
        [0.45, 0.35, 0.06],
    ];
    let chunks = [
        chunk(b"TAGS", &strings(&[b"Leather", b"Gold leaf"])),
        chunk(b"PNTS", &points(&corners)),
        chunk(
            b"POLS",
            &lwo2_polygons(b"FACE", &[&[0, 1, 2, 3], &[3, 2, 5, 4]]),
        ),
        chunk(b"PTAG", &taggings(&[(0, 0), (1, 1)])),
        chunk(b"SURF", &leather()),
        chunk(b"SURF", &gold_leaf()),
    ];
    form(Kind::Lwo2, &join(&chunks))
}

/// Its diffuse level has no envelope's index.
fn leather() -> Vec<u8> {
    join(&[
        string(b"Leather"),
        string(b""),
        sub_chunk(b"COLR", &join(&[points(&[[0.42, 0.24, 0.12]]), vx(0)])),
        sub_chunk(b"DIFF", &level(0.8)),
        sub_chunk(b"SPEC", &enveloped(0.2)),
    ])
}

fn gold_leaf() -> Vec<u8> {
    join(&[
        string(b"Gold leaf"),
        string(b""),
        sub_chunk(b"COLR", &join(&[points(&[[0.83, 0.69, 0.22]]), vx(0)])),
        sub_chunk(b"SIDE", &u2(3)),
    ])
}

/// LWO2: two boards without a colour. Pine has a SURF without COLR, beech has no SURF.
fn shelf() -> Vec<u8> {
    let corners = [
        [0.0, 0.0, 0.0],
        [0.9, 0.0, 0.0],
        [0.9, 0.0, 0.25],
        [0.0, 0.0, 0.25],
        [0.0, 0.3, 0.0],
        [0.6, 0.3, 0.0],
        [0.6, 0.3, 0.25],
        [0.0, 0.3, 0.25],
    ];
    let pine = [
        string(b"Pine"),
        string(b""),
        sub_chunk(b"DIFF", &enveloped(0.9)),
        sub_chunk(b"SIDE", &u2(3)),
    ];
    let chunks = [
        chunk(b"TAGS", &strings(&[b"Pine", b"Beech"])),
        chunk(b"PNTS", &points(&corners)),
        chunk(
            b"POLS",
            &lwo2_polygons(b"FACE", &[&[0, 1, 2, 3], &[4, 5, 6, 7]]),
        ),
        chunk(b"PTAG", &taggings(&[(0, 0), (1, 1)])),
        chunk(b"SURF", &join(&pine)),
    ];
    form(Kind::Lwo2, &join(&chunks))
}

/// LWO2: a shield of lime wood with a gilded band along its top, from a program that writes every
/// index in four bytes. "LWO2 says an index below 65,280 is written in two bytes": refused 22 at
/// 116, where the first vertex stands.
fn shield() -> Vec<u8> {
    let corners = [
        [-0.25, 0.6, 0.0],
        [0.25, 0.6, 0.0],
        [0.25, 0.45, 0.0],
        [0.0, 0.0, 0.0],
        [-0.25, 0.45, 0.0],
    ];
    let (band, field): (&[u32], &[u32]) = (&[0, 4, 2, 1], &[4, 3, 2]);
    let lime = [
        string(b"Lime"),
        string(b""),
        sub_chunk(b"COLR", &join(&[points(&[[0.9, 0.85, 0.68]]), vx_long(0)])),
        sub_chunk(b"DIFF", &join(&[level(0.9), vx_long(0)])),
    ];
    let chunks = [
        chunk(b"TAGS", &strings(&[b"Gilding", b"Lime"])),
        chunk(b"PNTS", &points(&corners)),
        chunk(b"POLS", &polygons_by(vx_long, b"FACE", &[band, field])),
        chunk(b"PTAG", &taggings_by(vx_long, b"SURF", &[(0, 0), (1, 1)])),
        chunk(b"SURF", &join(&lime)),
    ];
    form(Kind::Lwo2, &join(&chunks))
}

/// LWO2: a stall with a counter and an awning, each in a layer, from a program that leaves out the
/// points of the awning. Its face is not to have those of the counter: refused 5 at 230, where the
/// awning's POLS begins.
fn stall() -> Vec<u8> {
    let counter = [
        [0.0, 0.9, 0.0],
        [2.0, 0.9, 0.0],
        [2.0, 0.9, 0.5],
        [0.0, 0.9, 0.5],
        [0.0, 0.0, 0.0],
        [2.0, 0.0, 0.0],
    ];
    let chunks = [
        chunk(b"TAGS", &strings(&[b"Pine", b"Canvas"])),
        layer(0, b"Counter", None),
        chunk(b"PNTS", &points(&counter)),
        chunk(
            b"POLS",
            &lwo2_polygons(b"FACE", &[&[0, 3, 2, 1], &[0, 1, 5, 4]]),
        ),
        chunk(b"PTAG", &taggings(&[(0, 0), (1, 0)])),
        layer(1, b"Awning", None),
        chunk(b"POLS", &lwo2_polygons(b"FACE", &[&[0, 1, 2, 3]])),
        chunk(b"PTAG", &taggings(&[(0, 1)])),
    ];
    form(Kind::Lwo2, &join(&chunks))
}

/// Seen from both sides, with a picture of the grain in a block.
fn walnut() -> Vec<u8> {
    let header = [
        string(b"\x80"),
        sub_chunk(b"CHAN", b"COLR"),
        sub_chunk(b"ENAB", &u2(1)),
    ];
    let mapping = [
        sub_chunk(b"SIZE", &join(&[points(&[[1.0, 1.0, 1.0]]), vx(0)])),
        sub_chunk(b"CSYS", &u2(0)),
    ];
    let block = [
        sub_chunk(b"IMAP", &join(&header)),
        sub_chunk(b"TMAP", &join(&mapping)),
        sub_chunk(b"IMAG", &vx(1)),
    ];
    join(&[
        string(b"Walnut"),
        string(b""),
        sub_chunk(b"COLR", &join(&[points(&[[0.36, 0.23, 0.13]]), vx(0)])),
        sub_chunk(b"DIFF", &enveloped(0.9)),
        sub_chunk(b"SIDE", &u2(3)),
        sub_chunk(b"BLOK", &join(&block)),
    ])
}

/// With an envelope, whose index is read and dropped.
fn brass() -> Vec<u8> {
    join(&[
        string(b"Brass"),
        string(b""),
        sub_chunk(b"COLR", &join(&[points(&[[0.71, 0.65, 0.26]]), vx(0)])),
        sub_chunk(b"SPEC", &enveloped(0.6)),
        sub_chunk(b"REFL", &join(&[level(0.3), vx(1)])),
    ])
}

fn points(list: &[[f32; 3]]) -> Vec<u8> {
    let words = list.iter().flatten().map(|&number| level(number));
    words.flatten().collect()
}

fn level(number: f32) -> Vec<u8> {
    f4(number.to_bits())
}

/// A level without envelope.
fn enveloped(number: f32) -> Vec<u8> {
    join(&[level(number), vx(0)])
}

fn strings(names: &[&[u8]]) -> Vec<u8> {
    names.iter().flat_map(|name| string(name)).collect()
}

/// Count, vertices and surface number of a face, detail or patch.
fn lwob_polygon(vertices: &[u16], surface: i16) -> Vec<u8> {
    let numbers = vertices.iter().flat_map(|&vertex| u2(vertex)).collect();
    join(&[u2(vertices.len() as u16), numbers, i2(surface)])
}

/// How a program writes an index.
type Index = fn(u32) -> Vec<u8>;

fn lwo2_polygons(kind: &Tag, list: &[&[u32]]) -> Vec<u8> {
    polygons_by(vx, kind, list)
}

fn polygons_by(index: Index, kind: &Tag, list: &[&[u32]]) -> Vec<u8> {
    let mut body = kind.to_vec();
    for vertices in list {
        body.extend(u2(vertices.len() as u16));
        body.extend(vertices.iter().flat_map(|&vertex| index(vertex)));
    }
    body
}

/// A PTAG of type SURF: pairs of polygon and tag.
fn taggings(pairs: &[(u32, u16)]) -> Vec<u8> {
    taggings_by(vx, b"SURF", pairs)
}

/// The same of type PART.
fn parts(pairs: &[(u32, u16)]) -> Vec<u8> {
    taggings_by(vx, b"PART", pairs)
}

fn taggings_by(index: Index, kind: &Tag, pairs: &[(u32, u16)]) -> Vec<u8> {
    let mut body = kind.to_vec();
    for &(polygon, tag) in pairs {
        body.extend(join(&[index(polygon), u2(tag)]));
    }
    body
}

/// A layer, whose pivot is the origin.
fn layer(number: u16, name: &[u8], parent: Option<u16>) -> Vec<u8> {
    Layer {
        number,
        parent,
        ..Layer::named(name)
    }
    .chunk()
}
