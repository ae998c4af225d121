//! The worked table of document 01, a to l, with what request #101 says of two
//! rows, "case k stays and case f becomes 19", #107 of one, "Document 01's case e
//! becomes this refusal", and #111 of one: "The listing adds ` part N` before
//! ` vertices`, in case l ` part 0`."

use second::canonical;
use second::items::Cursor;
use second::lwob::Surface;
use second::surface::short_level;
use second::{listing, read, write, Answer, Fault, Tables};

use crate::help::{accepted, hex, mesh_of, needs};

/// Case l's 104 bytes.
const L: &str = "
464f524d00000060 4c574f32
5441475300000004 4f616b00
504e545300000024 000000000000000000000000
3f8000000000000000000000 000000004000000000000000
504f4c530000000c 46414345 0003000000010002
5054414700000008 53555246 00000000
";

/// A cursor over all of these bytes.
fn over(bytes: &[u8]) -> Cursor<'_> {
    Cursor::new(bytes, 0, bytes.len())
}

#[test]
fn a_the_empty_file() {
    let file = hex("464f524d 00000004 4c574f32");
    let mut none = Tables::default();
    assert_eq!(read(&file, &mut none), Answer::default());
    assert_eq!(none, Tables::default());
}

#[test]
fn b_a_wrong_form_length() {
    let answer = needs(&hex("464f524d 00000005 4c574f32"));
    let expected = Answer {
        number: 3,
        ..Answer::default()
    };
    assert_eq!(answer, expected);
}

#[test]
fn c_d_indices() {
    let rows: [(&[u8], u32, usize); 2] = [
        (&[0xfe, 0xff], 65_279, 2),
        (&[0xff, 0x00, 0xff, 0x00], 65_280, 4),
    ];
    for (bytes, index, length) in rows {
        let mut cursor = over(bytes);
        assert_eq!(cursor.vx(), Ok(index));
        assert_eq!(cursor.at(), length);
    }
}

#[test]
fn e_a_small_index_in_the_long_form() {
    let flaw = over(&[0xff, 0x00, 0x00, 0x05]).vx();
    let flaw = flaw.expect_err("a small index in the long form");
    assert_eq!(flaw.fault, Fault::LongIndex);
    assert_eq!(flaw.fault.number(), 22);
    assert_eq!(flaw.at, 0);
}

#[test]
fn f_a_cut_index() {
    let flaw = over(&[0xff, 0x00]).vx().expect_err("a cut index");
    assert_eq!(flaw.fault, Fault::ItemCut);
    assert_eq!(flaw.fault.number(), 19);
    assert_eq!(flaw.at, 0);
}

#[test]
fn g_the_lowest_surface_item() {
    let item = over(&[0x80, 0x00]).i2().expect("a whole item");
    let surface = Surface::from_item(item);
    assert_eq!(surface.number, 32_768);
    assert!(surface.details_follow);
}

#[test]
fn h_i_short_levels() {
    for (bytes, bits) in [([0x00, 0x80], 0x3f00_0000), ([0xff, 0x80], 0xbf00_0000)] {
        let n = over(&bytes).i2().expect("a whole item");
        assert_eq!(short_level(n), bits);
    }
}

/// The same levels through a whole file.
#[test]
fn h_i_through_a_file() {
    for (item, bits) in [("0080", 0x3f00_0000), ("ff80", 0xbf00_0000)] {
        let text = format!(
            "464f524d000000204c574f42 5352465300000002 6100
             535552460000000a 6100 4c554d490002 {item}"
        );
        assert_eq!(mesh_of(&hex(&text)).records[0].luminosity, bits);
    }
}

#[test]
fn j_a_name() {
    let bytes = [0x4f, 0x61, 0x6b, 0x00];
    let mut cursor = over(&bytes);
    assert_eq!(cursor.string(), Ok(&b"Oak"[..]));
    assert_eq!(cursor.at(), 4);
}

#[test]
fn k_points_of_thirteen_bytes() {
    for kind in ["4c574f32", "4c574f42"] {
        let text =
            format!("464f524d 0000001a {kind} 504e5453 0000000d 00000000000000000000000000 00");
        let answer = needs(&hex(&text));
        assert_eq!((answer.number, answer.place), (6, 12));
    }
}

#[test]
fn l_the_mesh() {
    let (answer, tables) = accepted(&hex(L));
    let expected = Answer {
        number: 0,
        place: 0,
        points: 3,
        polygons: 1,
        vertices: 3,
        names: 1,
        name_bytes: 3,
        skipped: 0,
        details: 0,
    };
    assert_eq!(answer, expected);
    let (zero, one, two) = (0, 0x3f80_0000, 0x4000_0000);
    let points = vec![zero, zero, zero, one, zero, zero, zero, two, zero];
    assert_eq!(tables.points, points);
    assert_eq!(tables.polygons, [1, 3, 1, 0]);
    assert_eq!(tables.vertices, [0, 1, 2]);
    assert_eq!(tables.names, [3]);
    assert_eq!(tables.name_bytes, b"Oak");
    let record = [0, one, one, one, one, zero, zero, zero, zero, 1];
    assert_eq!(tables.records, record);
}

#[test]
fn l_is_canonical() {
    let file = hex(L);
    assert_eq!(file.len(), 104);
    assert_eq!(canonical(&mesh_of(&file)), file);

    let (_, tables) = accepted(&file);
    let mut out = vec![0xa5; 110];
    let written = write(&tables, &mut out);
    assert_eq!((written.number, written.place, written.length), (0, 0, 104));
    assert_eq!(out[..104], file);
    assert_eq!(out[104..], [0xa5; 6]);
}

#[test]
fn l_is_listed() {
    let lines = "\
accepted
points 3
polygons 1
vertices 3
names 1
name-bytes 3
skipped 0
details 0
polygon 0 kind 1 surface 1 part 0 vertices 0 1 2
";
    assert_eq!(listing(&hex(L)), lines);
}

#[test]
fn a_refusal_is_listed_in_one_line() {
    let file = hex("464f524d 0000001a 4c574f32 504e5453 0000000d 00000000000000000000000000 00");
    assert_eq!(listing(&file), "refused 6 at 12\n");
    assert_eq!(listing(&[]), "refused 2 at 0\n");
}
