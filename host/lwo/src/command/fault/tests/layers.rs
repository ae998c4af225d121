//! LAYR of LWO2: what is wrong in it, and what it begins anew.

use cases::assemble::{chunk, f4, join, string, u2, vx_long};

use super::{face, layer, lwo2, lwob, names, points, told, LAYER_ITEMS};

/// Polygons need points, and tags need polygons, of their own layer.
#[test]
fn what_has_to_come_before_in_a_layer() {
    let [parts, groups] = [b"PART", b"SMGP"].map(|kind| chunk(b"PTAG", kind));
    let none = || layer(b"");
    for (file, text) in [
        (
            lwo2(&[points(), none(), face()]),
            "refused 5 at 84 (POLS at 84); \
             found no PNTS before it in its layer (LAYR at 56), expected one",
        ),
        (
            lwo2(&[points(), face(), none(), points(), parts]),
            "refused 5 at 148 (PTAG at 148); \
             found no POLS before it in its layer (LAYR at 76), expected one",
        ),
        (
            lwo2(&[points(), face(), none(), points(), groups]),
            "refused 5 at 148 (PTAG at 148); \
             found no POLS before it in its layer (LAYR at 76), expected one",
        ),
        // The latest layer counts, and none after the polygons.
        (
            lwo2(&[none(), points(), none(), none(), face(), none(), points()]),
            "refused 5 at 140 (POLS at 140); \
             found no PNTS before it in its layer (LAYR at 112), expected one",
        ),
        (
            lwo2(&[face(), none(), points()]),
            "refused 5 at 12 (POLS at 12); found no PNTS before it, expected one",
        ),
        // Names are the file's.
        (
            lwo2(&[names(b"TAGS"), none(), names(b"TAGS")]),
            "refused 5 at 56 (TAGS at 56); found a second TAGS, expected only TAGS at 12",
        ),
        // LWOB has no layers.
        (
            lwob(&[points(), none(), chunk(b"POLS", b"")]),
            "refused 5 at 84 (POLS at 84); found no SRFS before it, expected one",
        ),
    ] {
        assert_eq!(told(&file), text);
    }
}

/// Points and polygons count in the latest lists, which are the layer's; tags in the file's list.
#[test]
fn numbers_in_a_layer() {
    let one = chunk(b"PNTS", &[0; 12]);
    let polygon = chunk(b"POLS", b"PTCH\0\x01\0\x01");
    let two = [&b"FACE"[..], &[0, 1, 0, 0].repeat(2)].concat();
    let long = join(&[&b"FACE"[..], &u2(1), &vx_long(2)]);
    let first_layer = [names(b"TAGS"), points(), chunk(b"POLS", &two)];
    let pair = |kind, polygon, tag| {
        let pair = chunk(b"PTAG", &join(&[kind, &u2(polygon)[..], &u2(tag)]));
        let second_layer = [layer(b""), points(), face(), pair];
        lwo2(&[join(&first_layer), join(&second_layer)])
    };
    for (file, text) in [
        (
            lwo2(&[points(), layer(b""), one, polygon.clone()]),
            "refused 9 at 118 (POLS at 104); found point 1, expected 0 (PNTS at 84)",
        ),
        (
            lwo2(&[points(), layer(b""), chunk(b"PNTS", b""), polygon]),
            "refused 9 at 106 (POLS at 92); found point 1, expected none, for PNTS at 84 has none",
        ),
        (
            pair(b"SURF", 1, 0),
            "refused 11 at 196 (PTAG at 184); found polygon 1, expected 0 (POLS at 164)",
        ),
        (
            pair(b"PART", 1, 0),
            "refused 11 at 196 (PTAG at 184); found polygon 1, expected 0 (POLS at 164)",
        ),
        (
            pair(b"SURF", 0, 2),
            "refused 10 at 198 (PTAG at 184); found tag 2, expected 0 to 1 (TAGS at 12)",
        ),
        (
            pair(b"PART", 0, 2),
            "refused 10 at 198 (PTAG at 184); found tag 2, expected 0 to 1 (TAGS at 12)",
        ),
        (
            lwo2(&[layer(b""), points(), chunk(b"POLS", &long)]),
            "refused 22 at 98 (POLS at 84); found point 2 in four bytes, expected two",
        ),
    ] {
        assert_eq!(told(&file), text);
    }
}

/// A name may have any length.
#[test]
fn lengths_of_layers() {
    let long = string(&[b'x'; 299]);
    for (name, behind, found, expected) in [
        (&b"Lid\0"[..], 3, 23, "20, or 22 with a parent"),
        (b"\0\0", 4, 22, "18, or 20 with a parent"),
        (&long, 4, 320, "316, or 318 with a parent"),
    ] {
        let layer = chunk(b"LAYR", &join(&[&LAYER_ITEMS, name, &vec![0xff; behind]]));
        let text =
            format!("refused 6 at 56 (LAYR at 56); found a length of {found}, expected {expected}");
        assert_eq!(told(&lwo2(&[points(), layer])), text);
    }
}

/// Each layer is followed by another chunk, which begins where the missing item would.
#[test]
fn items_of_layers_that_are_cut() {
    for (length, place, text) in [
        (0, 20, "nothing / the layer's number of 2 bytes"),
        (1, 20, "1 byte / the layer's number of 2 bytes"),
        (2, 22, "nothing / the layer's flags of 2 bytes"),
        (3, 22, "1 byte / the layer's flags of 2 bytes"),
        (4, 24, "nothing / the pivot's x of 4 bytes"),
        (7, 24, "3 bytes / the pivot's x of 4 bytes"),
        (10, 28, "2 bytes / the pivot's y of 4 bytes"),
        (12, 32, "nothing / the pivot's z of 4 bytes"),
        (21, 40, "1 byte / nothing, or a parent's number of 2 bytes"),
    ] {
        let (found, expected) = text.split_once(" / ").expect("both");
        let text = format!(
            "refused 19 at {place} (LAYR at 12); \
             found {found} before the end of LAYR, expected {expected}"
        );
        let body = join(&[&LAYER_ITEMS[..], b"Lid\0\0"]);
        let layer = chunk(b"LAYR", &body[..length]);
        assert_eq!(told(&lwo2(&[layer, points()])), text);
    }
}

#[test]
fn pivots() {
    for (axis, name) in ["x", "y", "z"].into_iter().enumerate() {
        let mut pivot = [0; 3];
        pivot[axis] = 0x7f80_0000;
        let pivot = pivot.map(f4).concat();
        let layer = chunk(b"LAYR", &join(&[&u2(1)[..], &u2(0), &pivot, b"Lid\0"]));
        let text = format!(
            "refused 7 at {} (LAYR at 56); \
             found infinity (7f 80 00 00) as the pivot's {name}, expected a finite number",
            68 + 4 * axis,
        );
        assert_eq!(told(&lwo2(&[points(), layer])), text);
    }
}

#[test]
fn names_of_layers_that_do_not_end() {
    for (name, text) in [
        (
            &b""[..],
            "found nothing before the end of LAYR, expected a string with a zero byte at its end",
        ),
        (
            b"Lid",
            "found \"Lid\" up to the end of LAYR, expected a zero byte behind it",
        ),
        (
            b"Body\0",
            "found \"Body\", a zero byte and the end of LAYR, expected a second zero byte",
        ),
        (
            b"Body\0\x01\0\0",
            "found \"Body\", a zero byte and 0x01, expected a second zero byte",
        ),
    ] {
        let layer = chunk(b"LAYR", &join(&[&LAYER_ITEMS, name]));
        let head = "refused 20 at 36 (LAYR at 12)";
        assert_eq!(told(&lwo2(&[layer, points()])), format!("{head}; {text}"));
    }
}
