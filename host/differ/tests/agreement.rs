//! The proved library and the second program agree: all fixed files and
//! meshes, and some thousands of generated ones. The program `differ` goes on
//! from here with other seeds.

use differ::counts::Counts;
use differ::library::Proved;
use differ::{check, files, hexadecimal, meshes};

const SEED: u64 = 1;
const FILES: u64 = 6_000;
const MESHES: u64 = 2_000;

fn check_files(list: impl Iterator<Item = files::Named>) -> Counts {
    let mut counts = Counts::default();
    for one in list {
        match check::file(&Proved, &one.file) {
            Ok(more) => counts.add(&more),
            Err(what) => panic!(
                "{}: {what}\n{}",
                one.name,
                hexadecimal::of_bytes(&one.file[..one.file.len().min(4_000)])
            ),
        }
    }
    counts
}

fn check_meshes(list: impl Iterator<Item = meshes::Named>) -> Counts {
    let mut counts = Counts::default();
    for one in list {
        match check::mesh(&Proved, &one.tables) {
            Ok(more) => counts.add(&more),
            Err(what) => panic!("{}: {what}", one.name),
        }
    }
    counts
}

/// What the reader can answer where there is room, but for 1, which takes a file
/// of over 16 MB and is among the large ones.
fn reader_numbers() -> impl Iterator<Item = usize> {
    let numbers = (0..=15).chain([19, 20, 22]);
    numbers.filter(|&number| number != 1)
}

#[test]
fn on_fixed_files() {
    let counts = check_files(files::fixed().into_iter());
    for number in reader_numbers() {
        assert_ne!(counts.files[number], 0, "no file answers {number}");
    }
    assert_ne!(counts.reads_no_room, 0);
}

#[test]
fn on_large_files() {
    let counts = check_files(files::large().into_iter());
    for number in [0, 1, 22] {
        assert_ne!(counts.files[number], 0, "no file answers {number}");
    }
}

/// Run by `cargo test -- --ignored`, or by `differ --many-names`.
#[test]
#[ignore = "names are compared with every earlier one, which takes minutes"]
fn on_files_with_many_names() {
    let counts = check_files(files::many_names().into_iter());
    assert_eq!((counts.files[0], counts.files[10]), (4, 3));
}

/// The same of meshes.
#[test]
#[ignore = "names are compared with every earlier one, which takes minutes"]
fn on_meshes_with_many_names() {
    let counts = check_meshes(meshes::many_names().into_iter());
    assert_eq!((counts.meshes[0], counts.meshes[17]), (1, 2));
}

#[test]
fn on_generated_files() {
    let list = (0..FILES).map(|number| files::generated(SEED, number));
    let counts = check_files(list);
    assert_eq!(counts.file_count(), FILES);
    // The mixture must reach most numbers, or it tests little.
    for number in reader_numbers() {
        assert!(counts.files[number] >= 20, "{number} is rare: {counts}");
    }
    assert!(counts.files[0] >= FILES / 4, "{counts}");
}

#[test]
fn on_fixed_meshes() {
    let counts = check_meshes(meshes::fixed().into_iter());
    // The empty one, the rich one, and those at the bounds.
    assert_eq!(counts.meshes[0], 2 + 6);
    assert!(counts.meshes[17] > 80);
    assert_ne!(counts.writes_no_room, 0);
}

#[test]
fn on_large_meshes() {
    let counts = check_meshes(meshes::large().into_iter());
    assert_eq!((counts.meshes[0], counts.meshes[18]), (3, 2));
}

#[test]
fn on_generated_meshes() {
    let list = (0..MESHES).map(|number| meshes::generated(SEED, number));
    let counts = check_meshes(list);
    assert_eq!(counts.mesh_count(), MESHES);
    assert!(counts.meshes[0] > MESHES / 3, "{counts}");
    assert!(counts.meshes[17] > MESHES / 5, "{counts}");
}
