//! What is written is there whole or not at all, and never in the place of another file.

use std::fs::{self, Permissions};
use std::os::unix::fs::{chown, symlink, MetadataExt, PermissionsExt};
use std::os::unix::process::{CommandExt, ExitStatusExt};
use std::path::{Path, PathBuf};
use std::process::{Command, Stdio};

use crate::help::{compiled, folder_with, lwo, names_in, run, sample, Run};

/// A person and a group who are not those that run the tests.
const NOBODY: u32 = 65_534;

fn quiet() -> Run {
    Run::new(0, "", "")
}

fn failed(told: &str) -> Run {
    Run::new(1, "", &format!("lwo: {told}\n"))
}

fn read(folder: &Path, name: &str) -> Vec<u8> {
    fs::read(folder.join(name)).expect(name)
}

/// `system.c`, which stands between the command and the C library: some calls fail or send a
/// signal there.
fn system() -> PathBuf {
    compiled("system.c", &["-shared", "-fPIC"])
}

/// As a person types `lwo canonical *.lwo` in a folder of two files.
#[test]
fn a_file_that_is_there_stays() {
    let folder = folder_with("stays", &["oak.lwo", "panel.lwo"]);
    let told = "panel.lwo: not written: it is there already; --force writes over it";
    let done = run(&folder, &["canonical", "oak.lwo", "panel.lwo"]);
    assert_eq!(done, failed(told));
    assert_eq!(read(&folder, "panel.lwo"), sample("panel.lwo"));
    assert_eq!(names_in(&folder), ["oak.lwo", "panel.lwo"]);
}

#[test]
fn with_force_it_is_replaced_and_its_permissions_stay() {
    let folder = folder_with("replaces", &["oak.lwo", "panel.lwo"]);
    let old = folder.join("panel.lwo");
    fs::set_permissions(&old, Permissions::from_mode(0o640)).expect("permissions");
    let done = run(&folder, &["canonical", "--force", "oak.lwo", "panel.lwo"]);
    assert_eq!(done, quiet());
    assert_eq!(read(&folder, "panel.lwo"), sample("oak.lwo"));
    let after = fs::metadata(&old).expect("a file");
    assert_eq!(after.mode() & 0o777, 0o640);
    assert_eq!(names_in(&folder), ["oak.lwo", "panel.lwo"]);
}

/// Two of them want one name at once: one has it, the other is told, and nothing is mixed.
#[test]
fn of_many_writers_one_has_the_name() {
    let folder = folder_with("many", &["oak.lwo", "panel.lwo"]);
    let start = |number: usize| {
        let input = ["oak.lwo", "panel.lwo"][number % 2];
        lwo(&folder, &["canonical", input, "new.lwo"])
            .stderr(Stdio::null())
            .spawn()
    };
    let children: Vec<_> = (0..24)
        .map(|number| start(number).expect("it starts"))
        .collect();
    let ends = children
        .into_iter()
        .map(|mut child| child.wait().expect("it ends").code());
    let codes: Vec<Option<i32>> = ends.collect();
    assert_eq!(
        codes.iter().filter(|&&code| code == Some(0)).count(),
        1,
        "{codes:?}"
    );
    assert_eq!(
        codes.iter().filter(|&&code| code == Some(1)).count(),
        23,
        "{codes:?}"
    );
    let canonical = |name| lwo::Mesh::read(&sample(name)).and_then(|mesh| mesh.to_lwo2());
    let new = Ok(read(&folder, "new.lwo"));
    assert!(new == canonical("oak.lwo") || new == canonical("panel.lwo"));
    assert_eq!(names_in(&folder), ["new.lwo", "oak.lwo", "panel.lwo"]);
}

#[test]
fn a_link_stays_and_what_it_leads_to_is_replaced() {
    let folder = folder_with("follows", &["oak.lwo"]);
    fs::create_dir(folder.join("shelf")).expect("a folder");
    fs::write(folder.join("shelf/old.lwo"), "old").expect("a file");
    symlink("shelf/old.lwo", folder.join("link.lwo")).expect("a link");
    let told = "link.lwo: not written: it is there already; --force writes over it";
    assert_eq!(
        run(&folder, &["canonical", "oak.lwo", "link.lwo"]),
        failed(told)
    );
    assert_eq!(read(&folder, "shelf/old.lwo"), b"old");
    assert_eq!(
        run(&folder, &["canonical", "-f", "oak.lwo", "link.lwo"]),
        quiet()
    );
    assert_eq!(read(&folder, "shelf/old.lwo"), sample("oak.lwo"));
    let link = fs::symlink_metadata(folder.join("link.lwo")).expect("a link");
    assert!(link.is_symlink());
}

#[test]
fn a_link_to_nothing_stays() {
    let folder = folder_with("dangling", &["oak.lwo"]);
    symlink("none.lwo", folder.join("link.lwo")).expect("a link");
    let told = "link.lwo: not written: it is a link to a file that is not there";
    for words in [
        &["canonical", "oak.lwo", "link.lwo"][..],
        &["canonical", "-f", "oak.lwo", "link.lwo"],
    ] {
        assert_eq!(run(&folder, words), failed(told));
        let link = fs::symlink_metadata(folder.join("link.lwo")).expect("a link");
        assert!(link.is_symlink());
        assert_eq!(names_in(&folder), ["link.lwo", "oak.lwo"]);
    }
}

/// As the help says: the other name keeps the old file.
#[test]
fn another_name_of_a_replaced_file_keeps_the_old_one() {
    let folder = folder_with("hard-link", &["oak.lwo", "panel.lwo"]);
    fs::hard_link(folder.join("panel.lwo"), folder.join("other.lwo")).expect("a link");
    assert_eq!(
        run(&folder, &["canonical", "-f", "oak.lwo", "panel.lwo"]),
        quiet()
    );
    assert_eq!(read(&folder, "panel.lwo"), sample("oak.lwo"));
    assert_eq!(read(&folder, "other.lwo"), sample("panel.lwo"));
}

/// Between the look whether a file is there and the moment when the new one takes its name,
/// another program may have been faster: with hard links and without.
#[test]
fn a_name_that_is_taken_meanwhile_stays_with_its_file() {
    for links in [&[("TAKEN", "1")][..], &[("TAKEN", "1"), ("NO_LINKS", "1")]] {
        let folder = folder_with("taken", &["oak.lwo"]);
        let output = lwo(&folder, &["canonical", "oak.lwo", "new.lwo"])
            .env("LD_PRELOAD", system())
            .envs(links.iter().copied())
            .output();
        let done = Run::from(output.expect("it starts"));
        let told = "new.lwo: not written: it is there already; --force writes over it";
        assert_eq!(done, failed(told));
        assert_eq!(read(&folder, "new.lwo"), b"taken");
        assert_eq!(names_in(&folder), ["new.lwo", "oak.lwo"]);
    }
}

/// A person who may do so gives the new file the old one's owner; for another one the owner is the
/// same from the start.
#[test]
fn a_replaced_file_keeps_its_owner() {
    let folder = folder_with("owner", &["oak.lwo", "panel.lwo"]);
    let panel = folder.join("panel.lwo");
    if fs::metadata(&panel).expect("a file").uid() == 0 {
        chown(&panel, Some(NOBODY), Some(NOBODY)).expect("another owner");
    }
    let before = fs::metadata(&panel).expect("a file");
    let done = run(&folder, &["canonical", "-f", "oak.lwo", "panel.lwo"]);
    assert_eq!(done, quiet());
    assert_eq!(read(&folder, "panel.lwo"), sample("oak.lwo"));
    let after = fs::metadata(&panel).expect("a file");
    assert_eq!((after.uid(), after.gid()), (before.uid(), before.gid()));
}

/// Everything that could be replaced by mistake is in the test's own folder: a command that
/// wrongly wrote must not take a device of the machine away.
#[test]
fn only_plain_files_are_replaced() {
    let folder = folder_with("plain", &["oak.lwo", "panel.lwo"]);
    fs::create_dir(folder.join("folder")).expect("a folder");
    let made = Command::new("mkfifo").arg(folder.join("pipe")).status();
    assert!(made.expect("mkfifo starts").success());
    let panel = folder.join("panel.lwo");
    fs::set_permissions(&panel, Permissions::from_mode(0o444)).expect("permissions");
    for (out, why) in [
        ("", "its name is empty"),
        ("folder", "it is a folder"),
        ("pipe", "it is not a plain file; - is standard output"),
        ("panel.lwo", "it is read-only"),
        ("none/new.lwo", "there is no such folder"),
        (
            "oak.lwo/new.lwo",
            "a part of its name is a file and no folder",
        ),
        ("oak.lwo/", "a part of its name is a file and no folder"),
        (
            "new.lwo/",
            "its name ends in /, as only that of a folder does",
        ),
    ] {
        let done = run(&folder, &["canonical", "--force", "oak.lwo", out]);
        let out = if out.is_empty() { "''" } else { out };
        assert_eq!(done, failed(&format!("{out}: not written: {why}")));
    }
    assert_eq!(read(&folder, "panel.lwo"), sample("panel.lwo"));
    assert_eq!(
        names_in(&folder),
        ["folder", "oak.lwo", "panel.lwo", "pipe"]
    );
}

/// The owner of the file may not write to it, though others may. Nothing is forbidden to the person
/// of number 0, so the command is then another's, in a folder that this one may go into.
#[test]
fn a_file_that_may_not_be_written_is_not_replaced() {
    let folder = std::env::temp_dir().join(format!("lwo-permission-{}", std::process::id()));
    fs::create_dir(&folder).expect("a new folder");
    for name in ["oak.lwo", "panel.lwo"] {
        fs::write(folder.join(name), sample(name)).expect(name);
    }
    let (panel, program) = (folder.join("panel.lwo"), folder.join("lwo"));
    fs::copy(env!("CARGO_BIN_EXE_lwo"), &program).expect("a copy");
    fs::set_permissions(&panel, Permissions::from_mode(0o466)).expect("permissions");
    let mut command = Command::new(&program);
    command
        .args(["canonical", "-f", "oak.lwo", "panel.lwo"])
        .current_dir(&folder);
    if fs::metadata(&panel).expect("a file").uid() == 0 {
        for path in [&folder, &panel] {
            chown(path, Some(NOBODY), Some(NOBODY)).expect("another owner");
        }
        command.uid(NOBODY).gid(NOBODY);
    }
    let done = Run::from(command.output().expect("the command starts"));
    let kept = read(&folder, "panel.lwo") == sample("panel.lwo");
    fs::remove_dir_all(&folder).expect("the folder goes");
    let told = "panel.lwo: not written: there is no permission to write to it";
    assert_eq!((done, kept), (failed(told), true));
}

/// The shell lets no file grow, and has the signal for that passed over, so that the write fails.
#[test]
fn what_is_there_stays_when_writing_fails() {
    let folder = folder_with("no-space", &["oak.lwo", "panel.lwo"]);
    for out in ["panel.lwo", "new.lwo"] {
        let script = format!("trap '' XFSZ; ulimit -f 0; exec \"$0\" canonical -f oak.lwo {out}");
        let output = Command::new("sh")
            .args(["-c", &script, env!("CARGO_BIN_EXE_lwo")])
            .current_dir(&folder)
            .output();
        let done = Run::from(output.expect("the shell starts"));
        assert_eq!(
            (done.status, done.printed.as_str()),
            (Some(1), ""),
            "{done:?}"
        );
        let told = format!("lwo: {out}: not written: File too large");
        assert!(done.told.starts_with(&told), "{done:?}");
        assert_eq!(read(&folder, "panel.lwo"), sample("panel.lwo"));
        assert_eq!(names_in(&folder), ["oak.lwo", "panel.lwo"]);
    }
}

/// The signal comes when all bytes are written and the file has not its name yet. It ends the
/// command, however the tests themselves were started.
#[test]
fn an_interrupted_command_leaves_nothing() {
    let folder = folder_with("interrupted", &["oak.lwo", "panel.lwo"]);
    for number in [1, 2, 15] {
        for out in ["new.lwo", "panel.lwo"] {
            let ended = lwo(&folder, &["canonical", "-f", "oak.lwo", out])
                .env("LD_PRELOAD", system())
                .env("SIGNAL_AT_SYNC", number.to_string())
                .env("ENDED_BY", number.to_string())
                .status();
            assert_eq!(ended.expect("it starts").signal(), Some(number));
            assert_eq!(read(&folder, "panel.lwo"), sample("panel.lwo"));
            assert_eq!(names_in(&folder), ["oak.lwo", "panel.lwo"]);
        }
    }
}

/// As `nohup` starts a command: the signal is passed over, and the file is written.
#[test]
fn a_signal_that_is_to_be_passed_over_is() {
    let folder = folder_with("nohup", &["oak.lwo"]);
    let script = r#"trap '' HUP; exec "$0" canonical oak.lwo new.lwo"#;
    let status = Command::new("sh")
        .args(["-c", script, env!("CARGO_BIN_EXE_lwo")])
        .current_dir(&folder)
        .env("LD_PRELOAD", system())
        .env("SIGNAL_AT_SYNC", "1")
        .status();
    assert_eq!(status.expect("the shell starts").code(), Some(0));
    assert_eq!(read(&folder, "new.lwo"), sample("oak.lwo"));
}

/// No command can take its file away when it is killed; the help says what the file is called.
#[test]
fn a_killed_command_leaves_the_file_that_the_help_names() {
    let folder = folder_with("killed", &["oak.lwo"]);
    let ended = lwo(&folder, &["canonical", "oak.lwo", "new.lwo"])
        .env("LD_PRELOAD", system())
        .env("SIGNAL_AT_SYNC", "9")
        .status();
    assert_eq!(ended.expect("it starts").signal(), Some(9));
    let names = names_in(&folder);
    let [stale, oak] = &names[..] else {
        panic!("{names:?}");
    };
    let numbers = stale
        .strip_prefix(".lwo-")
        .and_then(|rest| rest.strip_suffix(".tmp"));
    let numbers = numbers.and_then(|rest| rest.split_once('-'));
    let (process, attempt) = numbers.unwrap_or_else(|| panic!("{stale}"));
    assert!(process.parse::<u32>().is_ok() && attempt == "0", "{stale}");
    assert_eq!(oak, "oak.lwo");
    assert_eq!(run(&folder, &["canonical", "oak.lwo", "new.lwo"]), quiet());
}

/// Whoever may not read the old file may not read the new one while it is written.
#[test]
fn the_new_file_has_the_old_mode_from_the_start() {
    let folder = folder_with("mode", &["oak.lwo", "panel.lwo"]);
    let old = folder.join("panel.lwo");
    fs::set_permissions(&old, Permissions::from_mode(0o600)).expect("permissions");
    let output = lwo(&folder, &["canonical", "-f", "oak.lwo", "panel.lwo"])
        .env("LD_PRELOAD", system())
        .env("TELL_MODE", "1")
        .output();
    let done = Run::from(output.expect("it starts"));
    assert_eq!(done, Run::new(0, "", "mode 600\n"));
}

/// As on a memory stick: its file system has no hard links.
#[test]
fn a_file_system_without_hard_links_is_written() {
    let folder = folder_with("no-links", &["oak.lwo", "panel.lwo"]);
    let canonical = |out: &str| {
        let output = lwo(&folder, &["canonical", "oak.lwo", out])
            .env("LD_PRELOAD", system())
            .env("NO_LINKS", "1")
            .output();
        Run::from(output.expect("it starts"))
    };
    assert_eq!(canonical("new.lwo"), quiet());
    assert_eq!(read(&folder, "new.lwo"), sample("oak.lwo"));
    let told = "panel.lwo: not written: it is there already; --force writes over it";
    assert_eq!(canonical("panel.lwo"), failed(told));
    assert_eq!(names_in(&folder), ["new.lwo", "oak.lwo", "panel.lwo"]);
}
