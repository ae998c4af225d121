//! Libraries that are wrong in one way each. Every one has to be found out, or
//! the comparison would not be worth much.

mod indices;
mod layers;
mod parts;
mod reader;

use cases::random::Random;
use differ::guarded::Guarded;
use differ::lent::Lent;
use differ::library::Library;
use differ::{check, files, meshes};
use second::{Answer, Fault, Refusal, Tables, Written};

/// The words of an entry, to be multiplied by a count.
const POINT_WORDS: u64 = lwo::POINT_WORDS as u64;
const POLYGON_WORDS: u64 = lwo::POLYGON_WORDS as u64;
const RECORD_WORDS: u64 = lwo::RECORD_WORDS as u64;

/// What goes wrong after the second program has answered.
type WrongRead = fn(&mut Lent, &mut Answer);
type WrongWrite = fn(&mut Guarded<u8>, &mut Written);

/// The second program with a mistake.
struct Wrong {
    read: WrongRead,
    write: WrongWrite,
}

impl Library for Wrong {
    fn read(&self, file: &Guarded<u8>, lent: &mut Lent) -> Answer {
        let mut tables = lent.tables();
        let mut answer = second::read(file.content(), &mut tables);
        put(lent, &tables);
        (self.read)(lent, &mut answer);
        answer
    }

    fn write(&self, lent: &Lent, out: &mut Guarded<u8>) -> Written {
        let mut written = second::write(&lent.tables(), out.content_mut());
        (self.write)(out, &mut written);
        written
    }
}

fn put(lent: &mut Lent, tables: &Tables) {
    lent.points.content_mut().copy_from_slice(&tables.points);
    lent.polygons
        .content_mut()
        .copy_from_slice(&tables.polygons);
    lent.vertices
        .content_mut()
        .copy_from_slice(&tables.vertices);
    lent.names.content_mut().copy_from_slice(&tables.names);
    lent.name_bytes
        .content_mut()
        .copy_from_slice(&tables.name_bytes);
    lent.records.content_mut().copy_from_slice(&tables.records);
}

fn reads_right(_: &mut Lent, _: &mut Answer) {}

fn writes_right(_: &mut Guarded<u8>, _: &mut Written) {}

/// The second program as it is.
const RIGHT: Wrong = Wrong {
    read: reads_right,
    write: writes_right,
};

/// The second program with a mistake in what it tells of a refusal.
struct WrongRefusal<F>(F);

impl<F: Fn(&Refusal, &mut Answer)> Library for WrongRefusal<F> {
    fn read(&self, file: &Guarded<u8>, lent: &mut Lent) -> Answer {
        let mut answer = RIGHT.read(file, lent);
        if let Err(refusal) = second::rules(file.content()) {
            (self.0)(&refusal, &mut answer);
        }
        answer
    }

    fn write(&self, lent: &Lent, out: &mut Guarded<u8>) -> Written {
        RIGHT.write(lent, out)
    }
}

/// What is said of the first of some hundred files on which it is found out.
fn found_in_files(library: &dyn Library) -> Option<String> {
    let generated = (0..300).map(|number| files::generated(5, number));
    let mut all = files::fixed().into_iter().take(200).chain(generated);
    all.find_map(|one| check::file(library, &one.file).err())
}

fn found_in_meshes(library: &dyn Library) -> Option<String> {
    let generated = (0..100).map(|number| meshes::generated(5, number));
    let mut all = meshes::fixed().into_iter().chain(generated);
    all.find_map(|one| check::mesh(library, &one.tables).err())
}

#[track_caller]
fn must_find_reader(read: WrongRead, words: &str) {
    let library = Wrong {
        read,
        write: writes_right,
    };
    let said = found_in_files(&library).expect("the mistake was not found out");
    assert!(said.contains(words), "{said}");
}

#[track_caller]
fn must_find_writer(write: WrongWrite, words: &str) {
    let library = Wrong {
        read: reads_right,
        write,
    };
    let said = found_in_meshes(&library).expect("the mistake was not found out");
    assert!(said.contains(words), "{said}");
    assert!(found_in_files(&library).is_some(), "not found out by files");
}

#[test]
fn the_second_program_itself_is_right() {
    assert_eq!(found_in_files(&RIGHT), None);
    assert_eq!(found_in_meshes(&RIGHT), None);
}

#[test]
fn a_wrong_answer() {
    must_find_reader(|_, answer| answer.number += 1, "the answer is");
    must_find_reader(|_, answer| answer.place += 1, "the answer is");
    must_find_reader(
        |_, answer| answer.place = answer.place.saturating_sub(12),
        "the answer is",
    );
    must_find_reader(|_, answer| answer.details = 0, "the answer is");
    must_find_reader(|_, answer| answer.skipped = 0, "the answer is");
    must_find_reader(|_, answer| answer.name_bytes ^= 1, "the answer is");
}

/// Every fault has files of its own among the fixed ones.
#[track_caller]
fn must_find_refusal(tell: impl Fn(&Refusal, &mut Answer)) {
    let library = WrongRefusal(tell);
    let mut all = files::fixed().into_iter();
    let said = all.find_map(|one| check::file(&library, &one.file).err());
    let said = said.expect("the mistake was not found out");
    assert!(said.contains("the answer is"), "{said}");
}

/// What is told of one fault is changed.
#[track_caller]
fn must_find_fault(fault: Fault, change: impl Fn(&mut Answer)) {
    must_find_refusal(|refusal, answer| {
        if refusal.fault == fault {
            change(answer);
        }
    });
}

/// "Number 6 stays for wrong body lengths (SIDE's is two), an item (no string)
/// cut by its chunk's end gets 19, a string without terminator or zero pad
/// gets 20."
#[test]
fn a_wrong_number_of_what_is_cut() {
    for number in [6, 20] {
        must_find_fault(Fault::ItemCut, |answer| answer.number = number);
    }
    for fault in [Fault::StringTerminator, Fault::StringPad] {
        for number in [6, 19] {
            must_find_fault(fault, |answer| answer.number = number);
        }
    }
    for fault in [Fault::BodyLength, Fault::BytesLeftOver] {
        must_find_fault(fault, |answer| answer.number = 19);
    }
}

/// "the offset of the first byte of the header, item or string at fault".
#[test]
fn a_wrong_place_of_a_fault() {
    // That of the chunk, and one that counts from the chunk.
    must_find_refusal(|refusal, answer| answer.place = refusal.chunk);
    must_find_refusal(|refusal, answer| answer.place -= refusal.chunk);
    must_find_refusal(|refusal, answer| {
        if refusal.fault == Fault::ItemCut {
            answer.place = refusal.chunk;
        }
    });
    // A byte too late or too early.
    for fault in [
        Fault::ItemCut,
        Fault::StringTerminator,
        Fault::StringPad,
        Fault::LongIndex,
        Fault::NotFinite,
        Fault::VertexNumber,
        Fault::NameTwice,
    ] {
        must_find_fault(fault, |answer| answer.place += 1);
        must_find_fault(fault, |answer| answer.place -= 1);
    }
}

/// "a wrong body length, a bad pad or BLOK's 15 is its own header's fault".
#[test]
fn a_body_s_place_for_its_header_s() {
    for fault in [
        Fault::BodyLength,
        Fault::BytesLeftOver,
        Fault::PadNotZero,
        Fault::BlockEmpty,
        Fault::BlockHeader,
    ] {
        must_find_fault(fault, |answer| answer.place += 6);
    }
    // SIDE's 15 is its value's.
    must_find_fault(Fault::SideValue, |answer| answer.place -= 6);
}

/// Needs that are told only where there is no room, or only where there is.
#[test]
fn needs_that_are_not_always_told() {
    must_find_reader(
        |_, answer| {
            if answer.number == 0 {
                answer.vertices = 0;
            }
        },
        "the answer is",
    );
    must_find_reader(
        |_, answer| {
            if answer.number == 16 {
                answer.polygons = 0;
            }
        },
        "the answer is",
    );
}

#[test]
fn a_wrong_word_in_a_table() {
    must_find_reader(change_point, "points: element");
    must_find_reader(
        |lent, answer| change(answer, lent.vertices.content_mut(), answer.vertices),
        "vertices: element",
    );
    must_find_reader(
        |lent, answer| {
            change(
                answer,
                lent.polygons.content_mut(),
                POLYGON_WORDS * answer.polygons,
            )
        },
        "polygons: element",
    );
    must_find_reader(
        |lent, answer| change(answer, lent.names.content_mut(), answer.names),
        "names: element",
    );
    must_find_reader(
        |lent, answer| {
            change(
                answer,
                lent.records.content_mut(),
                RECORD_WORDS * answer.names,
            )
        },
        "records: element",
    );
    must_find_reader(change_name_byte, "name bytes: element");
}

/// The last word of the mesh, which is the one that a loop misses.
fn change(answer: &Answer, table: &mut [u32], words: u64) {
    if answer.number == 0 && words > 0 {
        table[words as usize - 1] ^= 1;
    }
}

fn change_point(lent: &mut Lent, answer: &mut Answer) {
    change(
        answer,
        lent.points.content_mut(),
        POINT_WORDS * answer.points,
    );
}

fn change_name_byte(lent: &mut Lent, answer: &mut Answer) {
    if answer.number == 0 {
        if let Some(byte) = lent.name_bytes.content_mut().first_mut() {
            *byte = byte.wrapping_add(1);
        }
    }
}

/// 1.0 and 0.5, a level of the missing colour now and before #105.
const MISSING: u32 = 0x3f80_0000;
const OLD: u32 = 0x3f00_0000;

/// Where the defined word is this and the colour the one, puts the other.
fn recolour(records: &mut [u32], defined: u32, [from, to]: [u32; 2]) {
    for record in records.chunks_exact_mut(lwo::RECORD_WORDS) {
        if record[0] == defined && record[1..4] == [from; 3] {
            record[1..4].fill(to);
        }
    }
}

/// The old colour in the mesh that was read.
fn read_old(lent: &mut Lent, answer: &Answer, defined: u32) {
    if answer.number == 0 {
        let words = RECORD_WORDS * answer.names;
        let records = &mut lent.records.content_mut()[..words as usize];
        recolour(records, defined, [MISSING, OLD]);
    }
}

/// "The missing colour becomes 1.0, 1.0, 1.0, for SURF chunks without COLR and
/// for names without SURF": readers that have it for the first alone, and for
/// LWO2 alone.
#[test]
fn the_old_colour_in_a_reader() {
    must_find_reader(|lent, answer| read_old(lent, answer, 0), "records: element");

    struct OldInLwob;
    impl Library for OldInLwob {
        fn read(&self, file: &Guarded<u8>, lent: &mut Lent) -> Answer {
            let answer = RIGHT.read(file, lent);
            if file.content().get(8..12) == Some(b"LWOB") {
                read_old(lent, &answer, 1);
            }
            answer
        }

        fn write(&self, lent: &Lent, out: &mut Guarded<u8>) -> Written {
            RIGHT.write(lent, out)
        }
    }
    let said = found_in_files(&OldInLwob).expect("the mistake was not found out");
    assert!(said.contains("records: element"), "{said}");
}

/// "a kept table with the old one is 17": a writer that takes it for the new
/// one, and one that takes nothing else.
#[test]
fn the_old_colour_in_a_writer() {
    struct Takes([u32; 2]);
    impl Library for Takes {
        fn read(&self, file: &Guarded<u8>, lent: &mut Lent) -> Answer {
            RIGHT.read(file, lent)
        }

        fn write(&self, lent: &Lent, out: &mut Guarded<u8>) -> Written {
            let mut tables = lent.tables();
            recolour(&mut tables.records, 0, self.0);
            second::write(&tables, out.content_mut())
        }
    }
    for takes in [Takes([OLD, MISSING]), Takes([MISSING, OLD])] {
        let said = found_in_meshes(&takes).expect("the mistake was not found out");
        assert!(said.contains("the answer is"), "{said}");
    }
}

/// The word behind the mesh, where a table is longer than it.
#[test]
fn a_word_behind_the_mesh() {
    must_find_reader(
        |lent, answer| {
            let end = answer.vertices as usize;
            if let (0, Some(word)) = (answer.number, lent.vertices.content_mut().get_mut(end)) {
                *word = 0;
            }
        },
        "vertices: element",
    );
    // Part of an entry at the end of a table.
    must_find_reader(
        |lent, answer| {
            let words = lent.records.length();
            if answer.number == 0 && !(words as u64).is_multiple_of(RECORD_WORDS) {
                lent.records.content_mut()[words - 1] = 0;
            }
        },
        "records: element",
    );
}

#[test]
fn a_word_outside_a_table() {
    must_find_reader(|lent, _| lent.points.behind_mut()[0] = 0, "1 past its end");
    must_find_reader(
        |lent, _| lent.records.behind_mut()[9] = 0,
        "10 past its end",
    );
    must_find_reader(
        |lent, _| {
            let guards = lent.name_bytes.front_mut();
            guards[guards.len() - 1] = 0;
        },
        "1 before its start",
    );
    must_find_reader(|lent, _| lent.vertices.behind_mut()[1] = 0, "vertices");
    must_find_reader(|lent, _| lent.polygons.behind_mut()[2] = 0, "polygons");
    must_find_reader(|lent, _| lent.names.behind_mut()[0] = 0, "names");
}

/// "Every refusal leaves every lent table ... unchanged."
#[test]
fn a_refusal_that_changes_a_table() {
    must_find_reader(
        |lent, answer| {
            if answer.number != 0 {
                lent.polygons.content_mut().fill(0);
            }
        },
        "polygons: element",
    );
    must_find_reader(
        |lent, answer| {
            if answer.number == 16 {
                lent.points.content_mut().fill(0);
            }
        },
        "points: element",
    );
}

/// NO ROOM where the records are the only table that is too short, and where a
/// table has room but for part of an entry.
#[test]
fn a_wrong_look_at_the_room() {
    must_find_reader(
        |lent, answer| {
            let others = lent.names.length() as u64 >= answer.names
                && lent.points.length() as u64 >= POINT_WORDS * answer.points
                && lent.polygons.length() as u64 >= POLYGON_WORDS * answer.polygons
                && lent.vertices.length() as u64 >= answer.vertices
                && lent.name_bytes.length() as u64 >= answer.name_bytes;
            if answer.number == 16 && others {
                answer.number = 0;
            }
        },
        "the answer is",
    );
    must_find_reader(
        |lent, answer| {
            if answer.number == 0 && lent.points.length() as u64 % POINT_WORDS == 1 {
                answer.number = 16;
            }
        },
        "the answer is",
    );
}

/// An answer that goes by what the table held before.
#[test]
fn an_answer_by_the_contents_before() {
    struct Peeking;
    impl Library for Peeking {
        fn read(&self, file: &Guarded<u8>, lent: &mut Lent) -> Answer {
            let odd = lent
                .names
                .content()
                .first()
                .is_some_and(|word| word % 2 == 1);
            let mut answer = RIGHT.read(file, lent);
            answer.skipped += u64::from(odd && answer.number == 0);
            answer
        }

        fn write(&self, lent: &Lent, out: &mut Guarded<u8>) -> Written {
            RIGHT.write(lent, out)
        }
    }
    let mut all = (0..100).map(|number| files::generated(5, number));
    assert!(all.any(|one| check::file(&Peeking, &one.file).is_err()));
}

#[test]
fn a_wrong_writer() {
    must_find_writer(|_, written| written.number = 17, "the answer is");
    must_find_writer(|_, written| written.place = 12, "the answer is");
    must_find_writer(|_, written| written.length += 1, "the answer is");
    must_find_writer(|out, _| out.behind_mut()[0] = 0, "1 past its end");
    must_find_writer(
        |out, written| {
            if written.number == 0 {
                out.content_mut()[written.length as usize - 1] ^= 1;
            }
        },
        "the output: element",
    );
    must_find_writer(
        |out, written| {
            let end = written.length as usize;
            if let (0, Some(byte)) = (written.number, out.content_mut().get_mut(end)) {
                *byte = byte.wrapping_add(1);
            }
        },
        "the output: element",
    );
}

/// A writer that begins before it has seen that there is no room.
#[test]
fn a_refused_writing_that_changes_the_output() {
    must_find_writer(
        |out, written| {
            if let (16, Some(byte)) = (written.number, out.content_mut().first_mut()) {
                *byte = byte.wrapping_add(1);
            }
        },
        "the output: element",
    );
    let library = Wrong {
        read: reads_right,
        write: |out, written| {
            if let (17, Some(byte)) = (written.number, out.content_mut().first_mut()) {
                *byte = byte.wrapping_add(1);
            }
        },
    };
    let said = found_in_meshes(&library).expect("the mistake was not found out");
    assert!(said.contains("the output: element"), "{said}");
}

/// The demand on one more chunk is asked of the library alone: a reader that
/// counts skipped chunks wrongly is found out by it.
#[test]
fn one_more_chunk_is_counted() {
    let library = Wrong {
        read: |_, answer| answer.skipped = answer.skipped.min(1),
        write: writes_right,
    };
    let random = &mut Random::new(3);
    let valid = (0..50).map(|number| cases::valid::valid(&mut Random::new(number)));
    let mut said = valid.filter_map(|one| {
        let file = one.parts.file();
        let answer = second::read(&file, &mut Tables::default());
        let needs = Answer {
            number: 0,
            ..answer
        };
        differ::more::one_more_chunk(&library, random, &file, &needs).err()
    });
    let words = said.next().expect("the mistake was not found out");
    assert!(words.contains("one more chunk"), "{words}");
}

/// One point, and a POLS whose only vertex is missing, so that its place is the
/// offset of the chunk NEXT.
const MISSING_VERTEX: &[u8] = b"FORM\0\0\0\x2eLWO2\
    PNTS\0\0\0\x0c\0\0\0\0\0\0\0\0\0\0\0\0POLS\0\0\0\x06FACE\0\x01NEXT\0\0\0\0";

/// What is said of a library by one more chunk at every boundary of that file.
fn found_by_one_more_chunk(library: &dyn Library) -> Option<String> {
    let told = second::read(MISSING_VERTEX, &mut Tables::default());
    assert_eq!((told.number, told.place), (19, 46));
    assert_eq!(MISSING_VERTEX[46..50], *b"NEXT");
    (0..60).find_map(|seed| {
        let random = &mut Random::new(seed);
        differ::more::one_more_chunk(library, random, MISSING_VERTEX, &told).err()
    })
}

/// A chunk that is put in before NEXT lies behind the chunk at fault: the
/// refusal stays where it is, though its place is that of NEXT.
#[test]
fn one_more_chunk_moves_what_lies_behind_it() {
    struct AtNext;
    impl Library for AtNext {
        fn read(&self, file: &Guarded<u8>, lent: &mut Lent) -> Answer {
            let next = file.content().windows(4).position(|tag| tag == b"NEXT");
            Answer {
                place: next.expect("the chunk NEXT") as u64,
                ..RIGHT.read(file, lent)
            }
        }

        fn write(&self, lent: &Lent, out: &mut Guarded<u8>) -> Written {
            RIGHT.write(lent, out)
        }
    }
    assert_eq!(found_by_one_more_chunk(&RIGHT), None);
    let words = found_by_one_more_chunk(&AtNext).expect("the mistake was not found out");
    assert!(words.contains(" at 46: the answer is"), "{words}");
    let never_moves = WrongRefusal(|_: &Refusal, answer: &mut Answer| answer.place = 46);
    let words = found_by_one_more_chunk(&never_moves).expect("the mistake was not found out");
    assert!(words.contains("one more chunk"), "{words}");
}
