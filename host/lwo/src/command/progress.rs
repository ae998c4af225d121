//! A line on standard error that says how far the work is.

use std::io::{self, IsTerminal, Stderr, Write};
use std::sync::{Arc, Condvar, Mutex, MutexGuard, PoisonError};
use std::thread::{self, JoinHandle};
use std::time::{Duration, Instant};

/// Goes back to the start of the line and clears it.
const CLEAR: &str = "\r\x1b[K";

/// Between two looks at the clock.
const TICK: Duration = Duration::from_millis(250);

/// Shows which file is being read, on a terminal only: at once where there are several, and for
/// how long where one takes more than a second. The line is cleared before anything else is
/// printed. It is a help and no result, so a failure to write it is passed over.
pub struct Progress<W: Write + Send + 'static> {
    total: usize,
    /// None where nothing is to be shown.
    clock: Option<(Arc<Shared<W>>, JoinHandle<()>)>,
}

struct Shared<W> {
    line: Mutex<Line<W>>,
    changed: Condvar,
}

struct Line<W> {
    to: W,
    /// What is being read, and since when; None between two files.
    reading: Option<(String, Instant)>,
    /// Whether something stands on the line.
    shown: bool,
    ended: bool,
}

impl Progress<Stderr> {
    pub fn of_files(total: usize) -> Progress<Stderr> {
        let error = io::stderr();
        match error.is_terminal() {
            true => Progress::new(total, error),
            false => Progress { total, clock: None },
        }
    }
}

impl<W: Write + Send + 'static> Progress<W> {
    fn new(total: usize, to: W) -> Progress<W> {
        let line = Line {
            to,
            reading: None,
            shown: false,
            ended: false,
        };
        let shared = Arc::new(Shared {
            line: Mutex::new(line),
            changed: Condvar::new(),
        });
        let clock = {
            let shared = Arc::clone(&shared);
            thread::spawn(move || shared.tell_time())
        };
        let clock = Some((shared, clock));
        Progress { total, clock }
    }

    /// Says that the file of this number, counted from 1, is being read.
    pub fn show(&mut self, number: usize, name: &str) {
        if let Some((shared, _)) = &self.clock {
            let text = match self.total {
                1 => format!("reading {}", shortened(name)),
                total => format!("reading file {number} of {total}"),
            };
            let mut line = shared.line();
            if self.total > 1 {
                line.put(&text);
            }
            line.reading = Some((text, Instant::now()));
        }
    }

    pub fn clear(&mut self) {
        if let Some((shared, _)) = &self.clock {
            let mut line = shared.line();
            line.reading = None;
            if line.shown {
                line.put("");
            }
        }
    }
}

impl<W: Write + Send + 'static> Drop for Progress<W> {
    fn drop(&mut self) {
        if let Some((shared, clock)) = self.clock.take() {
            shared.line().ended = true;
            shared.changed.notify_all();
            let _ = clock.join();
        }
    }
}

impl<W: Write> Shared<W> {
    fn line(&self) -> MutexGuard<'_, Line<W>> {
        self.line.lock().unwrap_or_else(PoisonError::into_inner)
    }

    /// Once a second, says for how long a file has been read.
    fn tell_time(&self) {
        let mut told = 0;
        let mut line = self.line();
        while !line.ended {
            let waited = self.changed.wait_timeout(line, TICK);
            (line, _) = waited.unwrap_or_else(PoisonError::into_inner);
            let Some((text, since)) = &line.reading else {
                continue;
            };
            let seconds = since.elapsed().as_secs();
            if seconds > 0 && seconds != told {
                let text = format!("{text}, {seconds} s");
                line.put(&text);
            }
            told = seconds;
        }
    }
}

/// A long name would take more than one line of the terminal, and one line is cleared.
fn shortened(name: &str) -> String {
    const MOST: usize = 40;
    match name.chars().count() > MOST {
        true => name.chars().take(MOST).chain("..".chars()).collect(),
        false => name.to_owned(),
    }
}

impl<W: Write> Line<W> {
    fn put(&mut self, text: &str) {
        self.shown = !text.is_empty();
        let text = format!("{CLEAR}{text}");
        let to = &mut self.to;
        let _ = to.write_all(text.as_bytes()).and_then(|()| to.flush());
    }
}

#[cfg(test)]
mod tests {
    use super::*;

    /// Bytes that are looked at after they were written.
    #[derive(Clone, Default)]
    struct Written(Arc<Mutex<Vec<u8>>>);

    impl Write for Written {
        fn write(&mut self, bytes: &[u8]) -> io::Result<usize> {
            self.0.lock().expect("bytes").extend(bytes);
            Ok(bytes.len())
        }

        fn flush(&mut self) -> io::Result<()> {
            Ok(())
        }
    }

    fn shown(total: usize, time: Duration) -> String {
        let written = Written::default();
        let mut progress = Progress::new(total, written.clone());
        progress.show(3, "oak.lwo");
        thread::sleep(time);
        progress.clear();
        drop(progress);
        let bytes = written.0.lock().expect("bytes").clone();
        String::from_utf8(bytes).expect("text")
    }

    #[test]
    fn one_of_several_files_is_shown_at_once_and_cleared() {
        let line = "\r\x1b[Kreading file 3 of 12\r\x1b[K";
        assert_eq!(shown(12, Duration::ZERO), line);
    }

    #[test]
    fn a_file_that_is_read_at_once_is_not_shown() {
        assert_eq!(shown(1, Duration::ZERO), "");
    }

    #[test]
    fn a_long_name_is_shortened() {
        let (long, short) = ("ä".repeat(41), "ä".repeat(40));
        assert_eq!(shortened(&long), format!("{short}.."));
        assert_eq!(shortened(&short), short);
    }

    #[test]
    fn a_file_that_takes_long_is_shown_with_its_time() {
        // How soon the time is told goes by how busy the machine is.
        let line = shown(1, Duration::from_millis(2_500));
        assert!(line.starts_with("\r\x1b[Kreading oak.lwo, "), "{line:?}");
        assert!(line.contains(" s\r\x1b[K"), "{line:?}");
        assert!(line.ends_with("\r\x1b[K"), "{line:?}");
    }
}
