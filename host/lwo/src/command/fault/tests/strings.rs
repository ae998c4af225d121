//! 13 and 20.

use cases::assemble::{chunk, join, string, sub_chunk};

use super::{lwo2, lwob, surface, told};

#[test]
fn names_too_long_and_there_twice() {
    // Its beginning is shown up to a letter that would be cut.
    let long = "Räuchereiche, helle geölt, ".repeat(10);
    let bytes = long.as_bytes();
    let list = |names: &[&[u8]]| {
        let strings: Vec<Vec<u8>> = names.iter().map(|name| string(name)).collect();
        join(&strings)
    };
    let too_long = list(&[b"Oak", bytes]);
    let twice = list(&[b"Oak", b"", b"Gold \"leaf\"", b"Oak"]);
    let empty_twice = list(&[b"Oak", b"", b""]);
    for (body, text) in [
        (
            too_long,
            "refused 13 at 24 (LIST at 12); found a name of 290 bytes, \
             \"Räuchereiche, helle ge..\", expected at most 255",
        ),
        (
            twice,
            "refused 13 at 38 (LIST at 12); found \"Oak\" again, expected it once, at 20",
        ),
        (
            empty_twice,
            "refused 13 at 26 (LIST at 12); found \"''\" again, expected it once, at 24",
        ),
    ] {
        let file = lwo2(&[chunk(b"TAGS", &body)]);
        assert_eq!(told(&file), text.replace("LIST", "TAGS"));
        let file = lwob(&[chunk(b"SRFS", &body)]);
        assert_eq!(told(&file), text.replace("LIST", "SRFS"));
    }
}

#[test]
fn names_that_do_not_end() {
    for (body, text) in [
        (
            &b"Oak\0As"[..],
            "refused 20 at 24 (LIST at 12); found \"As\" up to the end of LIST, \
             expected a zero byte behind it",
        ),
        // The chunk's own pad byte, which follows, is none of the string's.
        (
            b"Oak\0Ash",
            "refused 20 at 24 (LIST at 12); found \"Ash\" up to the end of LIST, \
             expected a zero byte behind it",
        ),
        (
            b"Oak\0Gold\0",
            "refused 20 at 24 (LIST at 12); found \"Gold\", a zero byte and the end of LIST, \
             expected a second zero byte",
        ),
        (
            b"Oak\0Gold\0Ash\0",
            "refused 20 at 24 (LIST at 12); found \"Gold\", a zero byte and 0x41, \
             expected a second zero byte",
        ),
        (
            b"\0",
            "refused 20 at 20 (LIST at 12); found \"''\", a zero byte and the end of LIST, \
             expected a second zero byte",
        ),
        (
            b"line\n\x1b[2J and much more that is not seen",
            "refused 20 at 20 (LIST at 12); \
             found \"line\\n\\u{1b}[2J and much more ..\" up to the end of LIST, \
             expected a zero byte behind it",
        ),
    ] {
        let file = lwo2(&[chunk(b"TAGS", body), chunk(b"NOTE", b"")]);
        assert_eq!(told(&file), text.replace("LIST", "TAGS"));
        let file = lwob(&[chunk(b"SRFS", body), chunk(b"NOTE", b"")]);
        assert_eq!(told(&file), text.replace("LIST", "SRFS"));
    }
}

#[test]
fn strings_of_surfaces_that_do_not_end() {
    let note = chunk(b"NOTE", b"");
    for (file, text) in [
        (
            lwo2(&[chunk(b"SURF", b"Oak\0"), note.clone()]),
            "refused 20 at 24 (SURF at 12); found nothing before the end of SURF, \
             expected a string with a zero byte at its end",
        ),
        (
            lwob(&[chunk(b"SURF", b""), note.clone()]),
            "refused 20 at 20 (SURF at 12); found nothing before the end of SURF, \
             expected a string with a zero byte at its end",
        ),
        (
            lwo2(&[chunk(b"SURF", b"Gold\0xSIDE\0\x02\0\x01"), note]),
            "refused 20 at 20 (SURF at 12); found \"Gold\", a zero byte and 0x78, \
             expected a second zero byte",
        ),
        (
            surface(&[sub_chunk(b"BLOK", b"IMAP\0\x02abENAB\0\0")]),
            "refused 20 at 42 (IMAP at 36 of BLOK at 30 of SURF at 12); \
             found \"ab\" up to the end of IMAP, expected a zero byte behind it",
        ),
        (
            surface(&[sub_chunk(b"BLOK", b"SHDR\0\0"), sub_chunk(b"SIDE", b"")]),
            "refused 20 at 42 (SHDR at 36 of BLOK at 30 of SURF at 12); \
             found nothing before the end of SHDR, expected a string with a zero byte at its end",
        ),
    ] {
        assert_eq!(told(&file), text);
    }
}
