//! `host/library`: the library is never that of other sources. It runs in a small repository of
//! its own, with a program `rt` that only notes that it was called. That stands outside of the
//! checkout, in which `rt ci` takes no other `crates.txt`.

use std::fs::{self, Permissions};
use std::os::unix::fs::PermissionsExt;
use std::path::{Path, PathBuf};
use std::process::Command;
use std::sync::{Mutex, MutexGuard, PoisonError};

/// What the script printed and told, and its exit status.
#[derive(Debug, PartialEq)]
struct Done {
    printed: String,
    told: String,
    status: Option<i32>,
}

/// The tests go one after another: a program that was just written cannot be started while a child
/// of another test, which has not begun its own program yet, has it open.
static TURN: Mutex<()> = Mutex::new(());

struct Repository {
    root: PathBuf,
    _turn: MutexGuard<'static, ()>,
}

impl Repository {
    /// The static library lwo_c needs the crate lwo, which needs near, which needs far; the crate
    /// other is needed by none.
    fn new(name: &str) -> Repository {
        let turn = TURN.lock().unwrap_or_else(PoisonError::into_inner);
        let root = std::env::temp_dir().join(format!("lwo-library-{}-{name}", std::process::id()));
        if root.exists() {
            fs::remove_dir_all(&root).expect("an old folder goes");
        }
        let repository = Repository { root, _turn: turn };
        repository.put(
            "crates.txt",
            "far:\nnear: far\nother: near\nlwo: near\nlwo_c staticlib: lwo\n",
        );
        for source in [
            "lwo_c/src",
            "lwo/src",
            "near/specs",
            "far/proofs",
            "far/must-fail",
            "other/src",
        ] {
            repository.put(&format!("crates/{source}/one"), "as it was");
        }
        let script = Path::new(env!("CARGO_MANIFEST_DIR")).join("../library");
        repository.put(
            "host/library",
            &fs::read_to_string(script).expect("the script"),
        );
        repository.put(
            "bin/rt",
            "#!/bin/sh\necho \"${PWD##*/}\" \"$@\" >>../../called\nmkdir -p out\necho built >out/liblwo_c.a\n",
        );
        for program in ["host/library", "bin/rt"] {
            let program = repository.root.join(program);
            fs::set_permissions(program, Permissions::from_mode(0o755)).expect("permissions");
        }
        repository
    }

    fn put(&self, name: &str, content: &str) {
        let path = self.root.join(name);
        fs::create_dir_all(path.parent().expect("a folder")).expect("a folder");
        fs::write(path, content).expect(name);
    }

    fn run(&self, word: Option<&str>) -> Command {
        let mut command = Command::new(self.root.join("host/library"));
        let path = format!("{}:/usr/bin:/bin", self.root.join("bin").display());
        command
            .args(word)
            .env("PATH", path)
            .env_remove("LWO_LIBRARY");
        command
    }

    /// How often rt has been called, after the script was run and printed the library's path.
    fn calls(&self) -> usize {
        let done = done(&mut self.run(None));
        let library = self.root.join("target/staticlib/liblwo.a");
        let content = fs::read_to_string(&library).expect("the library");
        assert_eq!(content, "built\n");
        assert_eq!(done.printed, format!("{}\n", library.display()), "{done:?}");
        let called = fs::read_to_string(self.root.join("called")).expect("the calls");
        assert!(
            called.lines().all(|line| line == "lwo_c lib --cpu=x86-64"),
            "{called}"
        );
        called.lines().count()
    }
}

impl Drop for Repository {
    fn drop(&mut self) {
        let _ = fs::remove_dir_all(&self.root);
    }
}

fn done(command: &mut Command) -> Done {
    let output = command.output().expect("the script starts");
    let text = |bytes: &[u8]| String::from_utf8_lossy(bytes).into_owned();
    Done {
        printed: text(&output.stdout),
        told: text(&output.stderr),
        status: output.status.code(),
    }
}

#[test]
fn it_is_built_anew_when_a_source_or_the_library_changes() {
    let repository = Repository::new("changes");
    assert_eq!(repository.calls(), 1);
    assert_eq!(repository.calls(), 1);
    let changes = [
        ("crates/lwo_c/src/one", "changed"),
        ("crates/lwo/src/one", "changed"),
        ("crates/near/specs/one", "changed"),
        ("crates/far/proofs/one", "changed"),
        ("crates/far/proofs/more", "new"),
        (
            "crates.txt",
            "far:\nnear: far\nlwo: near far\nlwo_c staticlib: lwo\n",
        ),
        ("target/staticlib/liblwo.a", "another's"),
    ];
    for (number, (name, content)) in (2..).zip(changes) {
        repository.put(name, content);
        assert_eq!(repository.calls(), number, "{name}");
        assert_eq!(repository.calls(), number, "{name}");
    }
    fs::remove_file(repository.root.join("crates/far/proofs/more")).expect("a file goes");
    assert_eq!(repository.calls(), 9);
    fs::remove_file(repository.root.join("target/staticlib/liblwo.a")).expect("a file goes");
    assert_eq!(repository.calls(), 10);
}

#[test]
fn what_it_is_not_made_of_does_not_count() {
    let repository = Repository::new("others");
    assert_eq!(repository.calls(), 1);
    for name in [
        "crates/far/must-fail/one",
        "crates/far/out/one",
        "crates/other/src/one",
        "notes",
    ] {
        repository.put(name, "changed");
        assert_eq!(repository.calls(), 1, "{name}");
    }
}

#[test]
fn a_build_that_failed_is_not_taken_for_done() {
    let repository = Repository::new("fails");
    assert_eq!(repository.calls(), 1);
    repository.put("crates/lwo/src/one", "not proved");
    let rt = fs::read_to_string(repository.root.join("bin/rt")).expect("rt");
    repository.put("bin/rt", "#!/bin/sh\necho not proved >&2\nexit 1\n");
    for _ in 0..2 {
        let done = done(&mut repository.run(None));
        assert_eq!(
            (done.printed.as_str(), done.status),
            ("", Some(1)),
            "{done:?}"
        );
        assert!(done.told.ends_with("not proved\n"), "{done:?}");
    }
    repository.put("bin/rt", &rt);
    assert_eq!(repository.calls(), 2);
}

#[test]
fn without_rt_one_sentence_is_told() {
    let repository = Repository::new("no-rt");
    fs::remove_file(repository.root.join("bin/rt")).expect("rt goes");
    let mut command = repository.run(None);
    let done = done(command.env("PATH", only_what_is_needed(&repository)));
    let told = "The proved library has to be built by rt, Rattle's kit, which is not installed \
        (LWO_LIBRARY names a library that was built elsewhere).\n";
    let wanted = Done {
        printed: String::new(),
        told: told.to_owned(),
        status: Some(1),
    };
    assert_eq!(done, wanted);
}

/// A folder with the script's own tools, so that a machine's rt is not found.
fn only_what_is_needed(repository: &Repository) -> PathBuf {
    let folder = repository.root.join("tools");
    fs::create_dir_all(&folder).expect("a folder");
    for tool in [
        "env",
        "bash",
        "dirname",
        "awk",
        "find",
        "sort",
        "xargs",
        "sha256sum",
        "cat",
    ] {
        let found = ["/usr/bin", "/bin"].map(|folder| Path::new(folder).join(tool));
        let found = found.iter().find(|path| path.exists()).expect(tool);
        std::os::unix::fs::symlink(found, folder.join(tool)).expect(tool);
    }
    folder
}

#[test]
fn another_library_is_taken_as_it_is() {
    let repository = Repository::new("named");
    repository.put("elsewhere.a", "built elsewhere");
    let other = repository
        .root
        .join("elsewhere.a")
        .canonicalize()
        .expect("a file");
    let found = done(repository.run(None).env("LWO_LIBRARY", &other));
    assert_eq!(found.printed, format!("{}\n", other.display()), "{found:?}");
    assert!(!repository.root.join("called").exists());
    let missing = done(
        repository
            .run(None)
            .env("LWO_LIBRARY", "/no/such/library.a"),
    );
    assert_eq!(
        (missing.printed.as_str(), missing.status),
        ("", Some(1)),
        "{missing:?}"
    );
}

/// What cargo watches: the list of crates, and the folders of those that count.
#[test]
fn its_sources_are_named() {
    let repository = Repository::new("sources");
    let done = done(&mut repository.run(Some("--sources")));
    let named = [
        "crates.txt",
        "crates/lwo_c",
        "crates/lwo",
        "crates/near",
        "crates/far",
    ];
    let root = repository.root.canonicalize().expect("a folder");
    let lines: Vec<String> = named
        .iter()
        .map(|name| format!("{}\n", root.join(name).display()))
        .collect();
    assert_eq!(done.printed, lines.concat(), "{done:?}");
    assert!(!repository.root.join("called").exists());
}
