//! The words after the command's name.

use std::ffi::{OsStr, OsString};
use std::fmt;
use std::path::PathBuf;

use super::check::Form;
use super::destination::{Destination, Target};
use super::input::Source;
use super::shown;

/// What is asked for.
#[derive(Debug, PartialEq, Eq)]
pub enum Order {
    Help,
    Version,
    List { sources: Vec<Source>, json: bool },
    Check { sources: Vec<Source>, form: Form },
    Boards { sources: Vec<Source>, json: bool },
    Canonical { from: Source, target: Target },
}

/// Why the words are not understood.
#[derive(Debug, PartialEq, Eq)]
pub enum Misuse {
    NoCommand,
    UnknownCommand(OsString),
    UnknownOption(OsString),
    NotForCommand(&'static str, &'static str),
    NoFile(&'static str),
    NotTwoFiles(&'static str),
    StandardInputTwice,
}

impl fmt::Display for Misuse {
    fn fmt(&self, f: &mut fmt::Formatter<'_>) -> fmt::Result {
        match self {
            Misuse::NoCommand => f.write_str("no command is given"),
            Misuse::UnknownCommand(word) => write!(f, "there is no command '{}'", shown(word)),
            Misuse::UnknownOption(word) => write!(f, "there is no option '{}'", shown(word)),
            Misuse::NotForCommand(command, option) => {
                write!(f, "{command} has no option '{option}'")
            }
            Misuse::NoFile(command) => write!(f, "{command} needs the name of a file"),
            Misuse::NotTwoFiles(command) => write!(f, "{command} needs two files, IN and OUT"),
            Misuse::StandardInputTwice => f.write_str("standard input (-) is given twice"),
        }
    }
}

const FORCE: &str = "--force";
const JSON: &str = "--json";
const VERBOSE: &str = "--verbose";

/// The words of a command: its files, and the options that were given.
struct Words {
    command: &'static str,
    files: Vec<OsString>,
    options: Vec<&'static str>,
}

/// What the words ask for. A word that begins with a minus sign is an option, unless it is `-`
/// alone or comes after `--`.
pub fn order(words: impl Iterator<Item = OsString>) -> Result<Order, Misuse> {
    let (mut plain, mut options) = (Vec::new(), Vec::new());
    let mut may_be_option = true;
    for word in words {
        let is_option = may_be_option && word.as_encoded_bytes().starts_with(b"-") && word != "-";
        match word.to_str() {
            _ if !is_option => plain.push(word),
            Some("--") => may_be_option = false,
            Some("-h" | "--help") => return Ok(Order::Help),
            Some("-V" | "--version") => return Ok(Order::Version),
            Some("-f" | "--force") => options.push(FORCE),
            Some("-v" | "--verbose") => options.push(VERBOSE),
            Some("--json") => options.push(JSON),
            _ => return Err(Misuse::UnknownOption(word)),
        }
    }
    let mut plain = plain.into_iter();
    let command = plain.next().ok_or(Misuse::NoCommand)?;
    let words = |command| Words {
        command,
        files: plain.collect(),
        options,
    };
    match command.to_str() {
        Some("list") => words("list").list(),
        Some("check") => words("check").check(),
        Some("boards") => words("boards").boards(),
        Some("canonical") => words("canonical").canonical(),
        Some("help") => Ok(Order::Help),
        _ => Err(Misuse::UnknownCommand(command)),
    }
}

impl Words {
    fn list(self) -> Result<Order, Misuse> {
        let json = self.has(JSON);
        let sources = self.sources(&[JSON])?;
        Ok(Order::List { sources, json })
    }

    fn check(self) -> Result<Order, Misuse> {
        let form = match (self.has(JSON), self.has(VERBOSE)) {
            (true, _) => Form::Json,
            (false, true) => Form::Verbose,
            (false, false) => Form::Short,
        };
        let sources = self.sources(&[JSON, VERBOSE])?;
        Ok(Order::Check { sources, form })
    }

    fn boards(self) -> Result<Order, Misuse> {
        let json = self.has(JSON);
        let sources = self.sources(&[JSON])?;
        Ok(Order::Boards { sources, json })
    }

    fn canonical(self) -> Result<Order, Misuse> {
        let (from, target) = self.source_and_target()?;
        Ok(Order::Canonical { from, target })
    }

    fn has(&self, option: &str) -> bool {
        self.options.contains(&option)
    }

    /// That no options but these are given.
    fn only(&self, allowed: &[&'static str]) -> Result<(), Misuse> {
        match self.options.iter().find(|option| !allowed.contains(option)) {
            Some(option) => Err(Misuse::NotForCommand(self.command, option)),
            None => Ok(()),
        }
    }

    /// One file or more that are read.
    fn sources(self, allowed: &[&'static str]) -> Result<Vec<Source>, Misuse> {
        self.only(allowed)?;
        if self.files.is_empty() {
            return Err(Misuse::NoFile(self.command));
        }
        // Standard input is at its end once it was read, so a second reading would find nothing.
        if self.files.iter().filter(|file| is_standard(file)).count() > 1 {
            return Err(Misuse::StandardInputTwice);
        }
        Ok(self.files.into_iter().map(source).collect())
    }

    /// A file that is read, and one that is written.
    fn source_and_target(self) -> Result<(Source, Target), Misuse> {
        self.only(&[FORCE])?;
        let force = self.has(FORCE);
        let files = <[OsString; 2]>::try_from(self.files);
        let [from, to] = files.map_err(|_| Misuse::NotTwoFiles(self.command))?;
        let target = Target {
            to: destination(to),
            force,
        };
        Ok((source(from), target))
    }
}

fn source(file: OsString) -> Source {
    if is_standard(&file) {
        Source::Standard
    } else {
        Source::File(PathBuf::from(file))
    }
}

fn destination(file: OsString) -> Destination {
    if is_standard(&file) {
        Destination::Standard
    } else {
        Destination::File(PathBuf::from(file))
    }
}

fn is_standard(file: &OsStr) -> bool {
    file == "-"
}

#[cfg(test)]
mod tests {
    use super::*;

    fn of(words: &[&str]) -> Result<Order, Misuse> {
        order(words.iter().map(OsString::from))
    }

    fn file(name: &str) -> Source {
        Source::File(PathBuf::from(name))
    }

    #[test]
    fn commands_with_their_files() {
        for (words, json) in [
            (&["list", "a", "-"][..], false),
            (&["list", "a", "-", "--json"], true),
        ] {
            let sources = vec![file("a"), Source::Standard];
            assert_eq!(of(words), Ok(Order::List { sources, json }));
        }
        for (words, json) in [
            (&["boards", "a"][..], false),
            (&["--json", "boards", "a"], true),
        ] {
            let sources = vec![file("a")];
            assert_eq!(of(words), Ok(Order::Boards { sources, json }));
        }
        for (words, form) in [
            (&["check", "a"][..], Form::Short),
            (&["check", "-v", "a"], Form::Verbose),
            (&["check", "a", "--json", "-v"], Form::Json),
        ] {
            let sources = vec![file("a")];
            assert_eq!(of(words), Ok(Order::Check { sources, form }));
        }
        for (words, force) in [
            (&["canonical", "-", "b"][..], false),
            (&["canonical", "-", "b", "--force"], true),
            (&["-f", "canonical", "-", "b"], true),
        ] {
            let to = Destination::File(PathBuf::from("b"));
            let canonical = Order::Canonical {
                from: Source::Standard,
                target: Target { to, force },
            };
            assert_eq!(of(words), Ok(canonical));
        }
    }

    #[test]
    fn help_and_version_are_found_anywhere() {
        for words in [&["--help"][..], &["-h"], &["help"], &["list", "--help"]] {
            assert_eq!(of(words), Ok(Order::Help), "{words:?}");
        }
        for words in [&["--version"][..], &["-V"], &["check", "a", "-V"]] {
            assert_eq!(of(words), Ok(Order::Version), "{words:?}");
        }
    }

    #[test]
    fn words_after_two_minus_signs_are_files() {
        assert_eq!(
            of(&["list", "--", "--help"]),
            Ok(Order::List {
                sources: vec![file("--help")],
                json: false
            })
        );
    }

    #[test]
    fn what_is_not_understood_is_told() {
        let not_two = Err(Misuse::NotTwoFiles("canonical"));
        assert_eq!(of(&[]), Err(Misuse::NoCommand));
        assert_eq!(of(&["lst"]), Err(Misuse::UnknownCommand("lst".into())));
        assert_eq!(of(&["list", "-x"]), Err(Misuse::UnknownOption("-x".into())));
        assert_eq!(of(&["check"]), Err(Misuse::NoFile("check")));
        assert_eq!(of(&["canonical", "a"]), not_two);
        assert_eq!(of(&["canonical", "a", "b", "c"]), not_two);
        assert_eq!(of(&["list", "-", "-"]), Err(Misuse::StandardInputTwice));
        let not_for = Err(Misuse::NotForCommand("check", "--force"));
        assert_eq!(of(&["check", "-f", "a"]), not_for);
        let not_for = Err(Misuse::NotForCommand("list", "--verbose"));
        assert_eq!(of(&["list", "-v", "a"]), not_for);
        let not_for = Err(Misuse::NotForCommand("canonical", "--json"));
        assert_eq!(of(&["canonical", "--json", "a", "b"]), not_for);
    }
}
