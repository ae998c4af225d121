//! The parts of a figure, which modellers mark with PTAG of type PART: "A polygon gains a fourth
//! number: part name, 0 for none, else counted from 1 in TAGS."

use cases::assemble::{chunk, form, join, u2, vx_short, Kind};
use lwo::{
    Mesh, MeshBuilder, Name, Polygon, Reading, Refusal, RefusalKind as K, Surface, NO_PART,
    NO_SURFACE,
};

fn lwo2(chunks: &[Vec<u8>]) -> Vec<u8> {
    form(Kind::Lwo2, &join(chunks))
}

/// "Oak", "head" and "saddle", one point, and two polygons of one vertex: 66 bytes.
fn figure() -> Vec<u8> {
    let names = chunk(b"TAGS", b"Oak\0head\0\0saddle\0\0");
    join(&[names, chunk(b"PNTS", &[0; 12]), polygons()])
}

fn polygons() -> Vec<u8> {
    chunk(b"POLS", b"FACE\0\x01\0\0\0\x01\0\0")
}

/// Pairs of a polygon, from 0 in the latest list, and a tag, from 0 in the list of names.
fn tagging(kind: &[u8; 4], pairs: &[(u16, u16)]) -> Vec<u8> {
    let pairs = pairs.iter().flat_map(|&(polygon, tag)| {
        let pair = [vx_short(u32::from(polygon)), u2(tag)];
        pair.concat()
    });
    chunk(b"PTAG", &join(&[&kind[..], &pairs.collect::<Vec<u8>>()]))
}

/// The surface and the part of each polygon.
fn tags_of(chunks: &[Vec<u8>]) -> Vec<(u32, u32)> {
    let reading = Reading::of(&lwo2(chunks)).expect("it is accepted");
    assert_eq!(reading.counts.skipped, 0);
    let tags = |polygon: Polygon| (polygon.surface, polygon.part);
    reading.mesh.polygons().map(tags).collect()
}

#[test]
fn a_part_is_counted_from_1_in_the_names() {
    let parts = tagging(b"PART", &[(1, 2), (0, 1)]);
    let mesh = Mesh::read(&lwo2(&[figure(), parts])).expect("it is accepted");
    let polygons: Vec<Polygon> = mesh.polygons().collect();
    let [head, saddle] = &polygons[..] else {
        panic!("{polygons:?}");
    };
    assert_eq!((head.part, saddle.part), (2, 3));
    assert_eq!((head.part_index(), saddle.part_index()), (Some(1), Some(2)));
    assert_eq!(mesh.part_of(head), Some(Name::from("head")));
    assert_eq!(mesh.part_of(saddle), Some(Name::from("saddle")));
    assert_eq!((mesh.surface_of(head), head.surface), (None, NO_SURFACE));
    assert!(mesh.parts().eq(["head", "saddle"].map(Name::from)));
}

/// "PART pairs are read like SURF pairs, .. and the last stands." Neither type changes what the
/// other gives, whichever comes first.
#[test]
fn surfaces_and_parts_are_apart() {
    let surfaces = tagging(b"SURF", &[(0, 0), (1, 1)]);
    let parts = tagging(b"PART", &[(0, 2), (0, 1)]);
    let tags = [(1, 2), (2, NO_PART)];
    assert_eq!(tags_of(&[figure(), surfaces.clone(), parts.clone()]), tags);
    assert_eq!(tags_of(&[figure(), parts.clone(), surfaces.clone()]), tags);
    let later = tagging(b"PART", &[(0, 0)]);
    let all = [figure(), parts, surfaces, later];
    assert_eq!(tags_of(&all), [(1, 1), (2, NO_PART)]);
}

/// A later list of polygons is the one that pairs are of.
#[test]
fn parts_are_those_of_the_latest_polygons() {
    let [first, second] = [1, 2].map(|tag| tagging(b"PART", &[(1, tag)]));
    let tags = tags_of(&[figure(), first, polygons(), second]);
    let parts: Vec<u32> = tags.into_iter().map(|(_, part)| part).collect();
    assert_eq!(parts, [NO_PART, 2, NO_PART, 3]);
}

/// "with the same checks and numbers 10 and 11": the items of a pair of the first tagging begin at
/// 90 and 92.
#[test]
fn a_part_that_is_not_right_is_refused() {
    let without_names = [chunk(b"PNTS", &[0; 12]), polygons()];
    let names = chunk(b"TAGS", b"Oak\0");
    for kind in [b"SURF", b"PART"] {
        let [no_polygon, no_name] = [(2, 9), (1, 3)].map(|pair| tagging(kind, &[pair]));
        let cut = chunk(b"PTAG", &join(&[kind, &vx_short(0)[..]]));
        let before_names = [
            join(&without_names),
            tagging(kind, &[(0, 0)]),
            names.clone(),
        ];
        for (chunks, refusal, place) in [
            (vec![figure(), no_polygon], K::PolygonNumber, 90),
            (vec![figure(), no_name], K::Surface, 92),
            (vec![figure(), cut], K::ItemCut, 92),
            (before_names.to_vec(), K::Surface, 66),
            (vec![tagging(kind, &[]), figure()], K::Order, 12),
        ] {
            let refused = Err(Refusal::new(refusal, place));
            assert_eq!(Mesh::read(&lwo2(&chunks)), refused);
        }
    }
}

/// What another type has behind its four bytes is not judged, and no part.
#[test]
fn other_types_give_no_part() {
    for kind in [b"SMGP", b"PARU", b"part", b"PAR "] {
        let pairs = chunk(b"PTAG", &join(&[&kind[..], b"\0\0\0\x01odd"]));
        assert_eq!(tags_of(&[figure(), pairs]), [(NO_SURFACE, NO_PART); 2]);
    }
}

/// "LWOB gives 0": there a PTAG is a chunk that is skipped.
#[test]
fn lwob_has_no_parts() {
    let chunks = [
        chunk(b"PNTS", &[0; 12]),
        chunk(b"SRFS", b"Oak\0"),
        chunk(b"POLS", b"\0\x01\0\0\0\x01"),
        tagging(b"PART", &[(0, 0)]),
    ];
    let reading = Reading::of(&form(Kind::Lwob, &join(&chunks))).expect("it is accepted");
    assert_eq!(reading.counts.skipped, 1);
    let polygon = reading.mesh.polygon(0).expect("a face");
    assert_eq!((polygon.surface, polygon.part), (1, NO_PART));
    assert_eq!(reading.mesh.parts().count(), 0);
}

/// "The canonical file has a PTAG PART for each run with a part name, after its PTAG SURF if any."
/// The faces have surfaces and a part, the patches a part alone, and the last face neither.
#[test]
fn parts_are_written_behind_the_surfaces_of_their_run() {
    let mut builder = MeshBuilder::new();
    let point = builder.point([0.0; 3]);
    let [oak, head] = ["Oak", "head"].map(|name| builder.name(name));
    for (kind, surface, part) in [
        (lwo::Kind::Face, oak, NO_PART),
        (lwo::Kind::Face, oak, head),
        (lwo::Kind::Patch, NO_SURFACE, head),
        (lwo::Kind::Face, NO_SURFACE, NO_PART),
    ] {
        builder.polygon_of_part(kind, surface, part, &[point]);
    }
    let mesh = builder.build().expect("a mesh");
    let written = lwo2(&[
        chunk(b"TAGS", b"Oak\0head\0\0"),
        chunk(b"PNTS", &[0; 12]),
        polygons(),
        tagging(b"SURF", &[(0, 0), (1, 0)]),
        tagging(b"PART", &[(1, 1)]),
        chunk(b"POLS", b"PTCH\0\x01\0\0"),
        tagging(b"PART", &[(0, 1)]),
        chunk(b"POLS", b"FACE\0\x01\0\0"),
    ]);
    assert_eq!(mesh.to_lwo2().as_ref(), Ok(&written));
    assert_eq!(Mesh::read(&written), Ok(mesh));
}

/// "A part above the name count .. is 17."
#[test]
fn a_part_that_is_no_name_is_no_mesh() {
    let built = |names: u32, part: u32| {
        let mut builder = MeshBuilder::new();
        let point = builder.point([0.0; 3]);
        (0..names).for_each(|name| assert_ne!(builder.name(&*format!("{name}")), NO_PART));
        builder.polygon_of_part(lwo::Kind::Face, NO_SURFACE, part, &[point]);
        builder.build()
    };
    for (names, part) in [(0, NO_PART), (2, 1), (2, 2)] {
        assert!(built(names, part).is_ok());
    }
    let refused = Err(Refusal::new(K::NotAMesh, 0));
    for (names, part) in [(0, 1), (2, 3), (2, u32::MAX)] {
        assert_eq!(built(names, part), refused);
    }
}

/// A name may be a part's and a surface's, and is a part's only where polygons have it so.
#[test]
fn the_names_of_parts_stand_in_the_order_of_the_names() {
    let mut builder = MeshBuilder::new();
    let point = builder.point([0.0; 3]);
    let oak = builder.surface(&Surface::new("Oak"));
    let [tail, head, mane] = ["tail", "head", "mane"].map(|name| builder.name(name));
    for (surface, part) in [(oak, mane), (mane, NO_PART), (oak, oak), (head, mane)] {
        builder.polygon_of_part(lwo::Kind::Face, surface, part, &[point]);
    }
    assert_eq!([oak, tail, head, mane], [1, 2, 3, 4]);
    let mesh = builder.build().expect("a mesh");
    assert!(mesh.parts().eq(["Oak", "mane"].map(Name::from)));
    assert_eq!(Mesh::default().parts().count(), 0);
}
