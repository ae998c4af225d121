//! The program itself, run with its standard input.

use std::io::Write;
use std::process::{Command, Output, Stdio};

use cases::boundary::small;
use cases::random::Random;
use cases::valid::valid;
use second::{canonical, listing, rules};

fn run(command: &str, input: &[u8]) -> Output {
    let mut program = Command::new(env!("CARGO_BIN_EXE_second"))
        .arg(command)
        .stdin(Stdio::piped())
        .stdout(Stdio::piped())
        .stderr(Stdio::piped())
        .spawn()
        .expect("the program starts");
    let mut stdin = program.stdin.take().expect("its standard input");
    // The program may end before it has read all of an input that is too long.
    let _ = stdin.write_all(input);
    drop(stdin);
    program.wait_with_output().expect("the program ends")
}

#[test]
fn prints_the_listing() {
    for seed in 0..20 {
        let file = valid(&mut Random::new(seed)).parts.file();
        let output = run("list", &file);
        assert!(output.status.success());
        assert_eq!(String::from_utf8_lossy(&output.stdout), listing(&file));
    }
    for one in small() {
        let output = run("list", &one.file);
        let text = String::from_utf8_lossy(&output.stdout).into_owned();
        assert_eq!(text.lines().next(), Some(one.program), "{}", one.name);
    }
}

#[test]
fn prints_one_line_for_a_refusal() {
    let output = run("list", b"");
    assert_eq!(output.stdout, b"refused 2 at 0\n");
    let output = run("list", &vec![0; 65_537]);
    assert_eq!(output.stdout, b"not read\n");
}

#[test]
fn writes_the_canonical_file() {
    for seed in 0..20 {
        let file = valid(&mut Random::new(seed)).parts.file();
        let (mesh, _, _) = rules(&file).expect("a valid file");
        let output = run("canonical", &file);
        assert!(output.status.success());
        assert_eq!(output.stdout, canonical(&mesh));
    }
    let output = run("canonical", b"FORM\0\0\0\x05LWO2");
    assert_eq!(output.status.code(), Some(1));
    assert_eq!(output.stdout, b"");
    assert_eq!(output.stderr, b"refused 3 at 0\n");
}

#[test]
fn answers_on_one_line() {
    let output = run("answer", b"FORM\0\0\0\x0eLWOBZZZZ\0\0\0\x01x\0");
    let line = "number 0 place 0 points 0 polygons 0 vertices 0 names 0 name-bytes 0 skipped 1 details 0\n";
    assert_eq!(String::from_utf8_lossy(&output.stdout), line);
    // A SURF without a name: where it would begin, the file ends.
    let output = run("answer", b"FORM\0\0\0\x0cLWOBSURF\0\0\0\0");
    let line = "number 20 place 20 points 0 polygons 0 vertices 0 names 0 name-bytes 0 skipped 0 details 0 fault StringTerminator chunk 12\n";
    assert_eq!(String::from_utf8_lossy(&output.stdout), line);
}

#[test]
fn tells_how_it_is_used() {
    let output = run("--help", b"");
    assert!(output.status.success());
    assert!(output.stdout.starts_with(b"second: "));
    assert_eq!(run("unknown", b"").status.code(), Some(2));
}
