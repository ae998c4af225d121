//! Random meshes for the writer, and meshes damaged in each way that is 17.

use std::ops::Range;

use crate::floats::{finite, NOT_FINITE};
use crate::names;
use crate::plain::{PlainMesh, PlainRecord, POLYGON_WORDS, UNDEFINED};
use crate::random::Random;

/// A random mesh: runs of kinds, polygons with and without a surface and with
/// and without a part, names with and without a record. It may have no points,
/// no polygons and no names.
pub fn mesh(random: &mut Random) -> PlainMesh {
    let points = match random.below(8) {
        0 => 0,
        1 => random.index(400),
        _ => 1 + random.index(10),
    };
    let names = random.index(7);
    let mut mesh = PlainMesh::default();
    add_points(random, &mut mesh, points);
    add_names(random, &mut mesh, names);
    if points > 0 {
        let polygons = random.below(16);
        add_polygons(random, &mut mesh, polygons);
    }
    mesh
}

/// A random mesh in which every table has at least two entries, with a defined
/// and an undefined record, and polygons with a surface and a part, with
/// neither, and with a part alone.
pub fn rich_mesh(random: &mut Random) -> PlainMesh {
    let mut mesh = PlainMesh::default();
    let points = 2 + random.index(10);
    add_points(random, &mut mesh, points);
    mesh.add_name(b"oak", &defined_record(random));
    mesh.add_name(b"ash", &UNDEFINED);
    let more = random.index(4);
    add_names(random, &mut mesh, more);
    mesh.add_polygon_of_part(1, &[0, 1], 1, 2);
    mesh.add_polygon(2, &[1], 0);
    mesh.add_polygon_of_part(2, &[0], 0, 1);
    let polygons = random.below(10);
    add_polygons(random, &mut mesh, polygons);
    mesh
}

fn add_points(random: &mut Random, mesh: &mut PlainMesh, count: usize) {
    for _ in 0..count * 3 {
        mesh.points.push(finite(random));
    }
}

fn add_names(random: &mut Random, mesh: &mut PlainMesh, most: usize) {
    for name in names::listed(random, most) {
        if name_ranges(mesh).all(|range| mesh.name_bytes[range] != name[..]) {
            let record = record(random);
            mesh.add_name(&name, &record);
        }
    }
}

/// Where each name lies among the bytes.
fn name_ranges(mesh: &PlainMesh) -> impl Iterator<Item = Range<usize>> + '_ {
    let mut at = 0;
    mesh.names.iter().map(move |&length| {
        let start = at;
        at += length as usize;
        start..at
    })
}

fn record(random: &mut Random) -> PlainRecord {
    if random.once_in(3) {
        UNDEFINED
    } else {
        defined_record(random)
    }
}

fn defined_record(random: &mut Random) -> PlainRecord {
    let mut record = UNDEFINED;
    record[0] = 1;
    if !random.once_in(5) {
        for level in &mut record[1..9] {
            *level = finite(random);
        }
    }
    record[9] = *random.pick(&[1, 3]);
    record
}

/// Runs of one kind: the kind changes now and then.
fn add_polygons(random: &mut Random, mesh: &mut PlainMesh, count: u64) {
    let mut kind = random.between(1, 2) as u32;
    for _ in 0..count {
        if random.once_in(3) {
            kind = 3 - kind;
        }
        let names = mesh.names.len() as u64;
        let surface = random.below(names + 1) as u32;
        let part = match random.once_in(2) {
            true => 0,
            false => random.below(names + 1) as u32,
        };
        let corners = if random.once_in(30) {
            1_023
        } else {
            random.between(1, 6)
        };
        let points = u64::from(mesh.point_count());
        let vertices: Vec<u32> = (0..corners).map(|_| random.below(points) as u32).collect();
        mesh.add_polygon_of_part(kind, &vertices, surface, part);
    }
}

/// A mesh with one thing wrong, so that the writer must answer 17.
pub struct Damaged {
    pub name: String,
    pub mesh: PlainMesh,
}

/// Every way in which a rich mesh is damaged.
pub fn damaged(random: &mut Random, whole: &PlainMesh) -> Vec<Damaged> {
    let mut list = List {
        whole,
        damaged: Vec::new(),
    };
    parts_of_entries(&mut list);
    counts_that_disagree(&mut list);
    polygons_out_of_range(random, &mut list);
    names_that_are_wrong(&mut list);
    floats_not_finite(random, &mut list);
    records_out_of_range(&mut list);
    undefined_with_values(&mut list);
    list.damaged
}

struct List<'a> {
    whole: &'a PlainMesh,
    damaged: Vec<Damaged>,
}

impl List<'_> {
    fn add(&mut self, name: &str, damage: impl FnOnce(&mut PlainMesh)) {
        let mut mesh = self.whole.clone();
        damage(&mut mesh);
        assert_ne!(&mesh, self.whole, "{name} changes nothing");
        self.damaged.push(Damaged {
            name: String::from(name),
            mesh,
        });
    }
}

/// "a table with part of an entry".
fn parts_of_entries(list: &mut List) {
    for words in 1..3 {
        list.add("part of a point", |mesh| extend(&mut mesh.points, words));
    }
    for words in 1..POLYGON_WORDS {
        list.add("part of a polygon", |mesh| {
            extend(&mut mesh.polygons, words);
        });
    }
    for words in 1..10 {
        list.add("part of a record", |mesh| extend(&mut mesh.records, words));
    }
    list.add("a point cut", |mesh| shorten(&mut mesh.points));
    list.add("a polygon cut", |mesh| shorten(&mut mesh.polygons));
    list.add("a record cut", |mesh| shorten(&mut mesh.records));
}

fn extend(table: &mut Vec<u32>, words: usize) {
    table.extend(std::iter::repeat_n(0, words));
}

fn shorten(table: &mut Vec<u32>) {
    table.pop();
}

/// "counts that don't agree".
fn counts_that_disagree(list: &mut List) {
    list.add("a vertex too many", |mesh| mesh.vertices.push(0));
    list.add("a vertex too few", |mesh| shorten(&mut mesh.vertices));
    list.add("a name byte too many", |mesh| mesh.name_bytes.push(b'x'));
    list.add("a name byte too few", |mesh| {
        mesh.name_bytes.pop();
    });
    list.add("a record too many", |mesh| {
        mesh.records.extend_from_slice(&UNDEFINED);
    });
    list.add("a record too few", |mesh| {
        mesh.records.truncate(mesh.records.len() - 10);
    });
    list.add("no records", |mesh| mesh.records.clear());
    list.add("a name length too many", |mesh| mesh.names.push(0));
    list.add("vertex counts that wrap round", |mesh| {
        mesh.polygons[1] = mesh.polygons[1].wrapping_sub(0x8000_0000);
        let second = POLYGON_WORDS + 1;
        mesh.polygons[second] = mesh.polygons[second].wrapping_sub(0x8000_0000);
    });
    list.add("name lengths that wrap round", |mesh| {
        mesh.names[0] = mesh.names[0].wrapping_sub(0x8000_0000);
        mesh.names[1] = mesh.names[1].wrapping_sub(0x8000_0000);
    });
}

/// "a kind, vertex count (1 to 1,023), vertex number ... outside its range; a
/// surface above the name count". #111: "A part above the name count or 65,536
/// is 17."
fn polygons_out_of_range(random: &mut Random, list: &mut List) {
    let number = random.below(u64::from(list.whole.polygon_count())) as u32;
    let polygon = number as usize * POLYGON_WORDS;
    for kind in [0, 3, 0x0100_0001, u32::MAX] {
        list.add("a kind", |mesh| mesh.polygons[polygon] = kind);
    }
    list.add("no vertices", |mesh| mesh.add_polygon(1, &[], 0));
    list.add("1,024 vertices", |mesh| {
        mesh.add_polygon(1, &[0; 1_024], 0);
    });
    let points = list.whole.point_count();
    let vertex = random.index(list.whole.vertices.len());
    for number in [points, points + 1, u32::MAX] {
        list.add("a vertex number", |mesh| mesh.vertices[vertex] = number);
    }
    list.add("the first vertex number", |mesh| mesh.vertices[0] = points);
    list.add("the last vertex number", |mesh| {
        *mesh.vertices.last_mut().expect("a vertex") = points;
    });
    let names = list.whole.names.len() as u32;
    for above in [names + 1, 65_537, u32::MAX] {
        list.add("a surface", |mesh| mesh.set_surface(number, above));
        list.add("a part", |mesh| mesh.set_part(number, above));
    }
    let last = list.whole.polygon_count() - 1;
    for (which, number) in [("first", 0), ("last", last)] {
        let name = format!("the {which} part");
        list.add(&name, |mesh| mesh.set_part(number, names + 1));
    }
}

/// "a name over 255 bytes, with a zero byte, or equal to an earlier one".
fn names_that_are_wrong(list: &mut List) {
    let named = |mesh: &mut PlainMesh, name: &[u8]| mesh.add_name(name, &UNDEFINED);
    list.add("a name of 256 bytes", |mesh| named(mesh, &[b'x'; 256]));
    list.add("a name with a zero byte", |mesh| named(mesh, b"a\0b"));
    list.add("a zero byte at a name's end", |mesh| named(mesh, b"zz\0"));
    list.add("a zero byte alone", |mesh| named(mesh, b"\0"));
    list.add("the first name again", |mesh| named(mesh, b"oak"));
    list.add("the second name again", |mesh| named(mesh, b"ash"));
}

/// "a float not finite": a coordinate or a level of a defined record.
fn floats_not_finite(random: &mut Random, list: &mut List) {
    let last = list.whole.points.len() - 1;
    for bits in NOT_FINITE {
        let at = random.index(last + 1);
        list.add("a coordinate", |mesh| mesh.points[at] = bits);
        let level = 1 + random.index(8);
        list.add("a level", |mesh| mesh.records[level] = bits);
    }
    list.add("the first coordinate", |mesh| mesh.points[0] = 0x7fc0_0000);
    list.add("the last coordinate", |mesh| {
        mesh.points[last] = 0xff80_0000
    });
    for level in 1..9 {
        list.add("each level", |mesh| mesh.records[level] = 0x7f80_0000);
    }
}

/// "defined or sides number outside its range". The first record is defined.
fn records_out_of_range(list: &mut List) {
    for defined in [2, 3, 0x0100_0000, u32::MAX] {
        list.add("defined", |mesh| mesh.records[0] = defined);
    }
    for sides in [0, 2, 4, 0x0001_0001, u32::MAX] {
        list.add("sides", |mesh| mesh.records[9] = sides);
    }
}

/// 0.5, the level of the missing colour before #105: "a kept table with the old
/// one is 17".
const OLD_COLOUR: u32 = 0x3f00_0000;

/// "an undefined record with other than the missing values, by bits". The
/// second record is undefined.
fn undefined_with_values(list: &mut List) {
    for word in 1..9 {
        for bit in [0, 22, 31] {
            list.add("a bit of an undefined level", |mesh| {
                mesh.records[10 + word] ^= 1 << bit;
            });
        }
    }
    for word in 5..9 {
        list.add("minus zero for zero", |mesh| {
            mesh.records[10 + word] = 0x8000_0000;
        });
    }
    for word in 1..4 {
        list.add("an old colour level", |mesh| {
            mesh.records[10 + word] = OLD_COLOUR;
        });
    }
    list.add("the old colour", |mesh| {
        mesh.records[11..14].fill(OLD_COLOUR);
    });
    list.add("undefined with sides 3", |mesh| mesh.records[19] = 3);
    list.add("a defined record made undefined", |mesh| {
        mesh.records[0] = 0;
        mesh.records[9] = 3;
    });
}

/// Whole meshes in which something is as large or as small as it may be.
pub fn at_bounds() -> Vec<(String, PlainMesh)> {
    let mut list = Vec::new();
    let mut add = |name: &str, mesh: PlainMesh| list.push((String::from(name), mesh));
    let one_point = || PlainMesh {
        points: vec![0; 3],
        ..PlainMesh::default()
    };
    let mut longest = one_point();
    longest.add_polygon(1, &[0; 1_023], 0);
    add("polygon of 1,023", longest);
    let mut shortest = one_point();
    shortest.add_polygon(2, &[0], 0);
    add("polygon of 1", shortest);
    let mut names = one_point();
    names.add_name(&[b'n'; 255], &UNDEFINED);
    names.add_name(b"", &UNDEFINED);
    names.add_name(&[255], &UNDEFINED);
    names.add_polygon(1, &[0], 3);
    add("names", names.clone());
    let mut part = names;
    part.set_surface(0, 0);
    part.set_part(0, 3);
    add("part alone", part);
    add("parts of runs", parts_of_runs());
    let mut levels = one_point();
    let (largest, least) = (0x7f7f_ffff, 0x0000_0001);
    levels.points = vec![largest, 0xff7f_ffff, least];
    let record = [
        1,
        largest,
        0xff7f_ffff,
        least,
        0x8000_0000,
        0,
        0x8000_0001,
        0x0080_0000,
        largest,
        3,
    ];
    levels.add_name(b"a", &record);
    add("levels", levels);
    list
}

/// Runs whose polygons have both a surface and a part, one of them, and none:
/// "a PTAG PART for each run with a part name, after its PTAG SURF if any".
fn parts_of_runs() -> PlainMesh {
    let mut mesh = PlainMesh {
        points: vec![0; 3],
        ..PlainMesh::default()
    };
    for name in [&b"oak"[..], b"head", b"saddle"] {
        mesh.add_name(name, &UNDEFINED);
    }
    let (face, patch) = (1, 2);
    let rows = [
        (face, 1, 0),
        (face, 0, 2),
        (face, 0, 0),
        (face, 1, 3),
        (patch, 0, 0),
        (patch, 0, 2),
        (face, 1, 0),
        (patch, 0, 0),
    ];
    for (kind, surface, part) in rows {
        mesh.add_polygon_of_part(kind, &[0], surface, part);
    }
    mesh
}

/// A mesh with one to three words, bytes or lengths changed. It may be a mesh
/// or not.
pub fn changed(random: &mut Random, whole: &PlainMesh) -> PlainMesh {
    let mut mesh = whole.clone();
    for _ in 0..random.between(1, 3) {
        let table = match random.below(6) {
            0 => &mut mesh.points,
            1 => &mut mesh.polygons,
            2 => &mut mesh.vertices,
            3 => &mut mesh.names,
            4 => &mut mesh.records,
            _ => {
                change_bytes(random, &mut mesh.name_bytes);
                continue;
            }
        };
        change_words(random, table);
    }
    mesh
}

fn change_words(random: &mut Random, table: &mut Vec<u32>) {
    let at = random.index(table.len() + 1);
    match table.get_mut(at) {
        Some(word) => match random.below(6) {
            0 => *word = word.wrapping_add(1),
            1 => *word = word.wrapping_sub(1),
            2 => *word ^= 1 << random.below(32),
            3 => *word = random.below(4) as u32,
            4 => {
                table.remove(at);
            }
            _ => table.insert(at, 1),
        },
        None => table.push(random.below(3) as u32),
    }
}

fn change_bytes(random: &mut Random, bytes: &mut Vec<u8>) {
    let at = random.index(bytes.len() + 1);
    match bytes.get_mut(at) {
        Some(byte) if random.once_in(2) => *byte = *random.pick(&[0, 1, b'a', 255]),
        Some(_) => {
            bytes.remove(at);
        }
        None => bytes.push(random.byte()),
    }
}

/// A mesh whose canonical file has exactly 16,777,216 bytes, or two more: 12
/// bytes of FORM, TAGS with one name, and PNTS.
pub fn at_file_limit(over: bool) -> PlainMesh {
    let points = 1_398_098;
    let mut mesh = PlainMesh {
        points: vec![0x3f80_0000; points * 3],
        ..PlainMesh::default()
    };
    // 12 + (8 + 12) + (8 + 12 * 1,398,098) = 16,777,216.
    let length = if over { 12 } else { 11 };
    mesh.add_name(&vec![b'n'; length], &UNDEFINED);
    mesh
}

/// The same with a POLS and a PTAG PART of one polygon, whose bytes count too.
pub fn parts_at_file_limit(over: bool) -> PlainMesh {
    let points = 1_398_096;
    let mut mesh = PlainMesh {
        points: vec![0x3f80_0000; points * 3],
        ..PlainMesh::default()
    };
    // 12 + (8 + 4) + (8 + 12 * 1,398,096) + (8 + 8) + (8 + 8) = 16,777,216.
    let length = if over { 4 } else { 3 };
    mesh.add_name(&vec![b'n'; length], &UNDEFINED);
    mesh.add_polygon_of_part(1, &[0], 0, 1);
    mesh
}

/// A mesh that needs both forms of an index, for vertices and for polygons:
/// 65,282 points and 65,282 faces of one vertex each, all with a surface and a
/// part.
pub fn long_indices() -> PlainMesh {
    let mut mesh = PlainMesh {
        points: vec![0x3f80_0000; 65_282 * 3],
        ..PlainMesh::default()
    };
    mesh.add_name(b"a", &UNDEFINED);
    mesh.add_name(b"b", &UNDEFINED);
    for vertex in 0..65_282 {
        mesh.add_polygon_of_part(1, &[vertex], 1, 2);
    }
    mesh
}

/// More names than tags reach, and a polygon whose surface and part are these:
/// the highest of each is 65,536.
pub fn many_names(surface: u32, part: u32) -> PlainMesh {
    let mut mesh = PlainMesh {
        points: vec![0; 3],
        ..PlainMesh::default()
    };
    for name in names::many(65_540) {
        mesh.add_name(&name, &UNDEFINED);
    }
    mesh.add_polygon_of_part(1, &[0], surface, part);
    mesh
}
