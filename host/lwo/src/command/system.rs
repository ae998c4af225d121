//! What the standard library does not have: three calls of the C library. They are the only code
//! of the command that is `unsafe`, and the numbers are those of Linux.

use std::ffi::c_int;
use std::sync::atomic::{AtomicBool, AtomicI32, Ordering};

extern "C" {
    fn fcntl(descriptor: c_int, operation: c_int, ...) -> c_int;
    fn signal(number: c_int, handler: usize) -> usize;
    fn raise(number: c_int) -> c_int;
}

const STANDARD_INPUT: c_int = 0;
const STANDARD_OUTPUT: c_int = 1;
const GET_FLAGS: c_int = 3;
const ACCESS_MODE: c_int = 3;
const READ_ONLY: c_int = 0;
const WRITE_ONLY: c_int = 1;

/// Whether standard input was open for reading when the process began, and standard output for
/// writing.
static READABLE: AtomicBool = AtomicBool::new(false);
static WRITABLE: AtomicBool = AtomicBool::new(false);

/// Looks at both before the standard library opens `/dev/null` in the place of a closed one:
/// afterwards the two cannot be told apart.
#[used]
#[link_section = ".init_array"]
static LOOK: extern "C" fn() = look;

extern "C" fn look() {
    let readable = is_open_but_for(WRITE_ONLY, STANDARD_INPUT);
    READABLE.store(readable, Ordering::Relaxed);
    let writable = is_open_but_for(READ_ONLY, STANDARD_OUTPUT);
    WRITABLE.store(writable, Ordering::Relaxed);
}

/// Whether a descriptor is open, and in another mode than this.
fn is_open_but_for(mode: c_int, descriptor: c_int) -> bool {
    // SAFETY: this operation takes no third argument, and a descriptor that is closed has an
    // answer of its own, -1.
    let flags = unsafe { fcntl(descriptor, GET_FLAGS) };
    flags != -1 && flags & ACCESS_MODE != mode
}

pub fn standard_input_is_readable() -> bool {
    READABLE.load(Ordering::Relaxed)
}

pub fn standard_output_is_writable() -> bool {
    WRITABLE.load(Ordering::Relaxed)
}

/// Hang up, interrupt, terminate: what a terminal, a person or the system ends a command with.
const SIGNALS: [c_int; 3] = [1, 2, 15];

/// The handlers that stand for "end the process" and "pass over".
const DEFAULT: usize = 0;
const IGNORE: usize = 1;

/// The latest of those signals that came while they were held, or 0.
static CAME: AtomicI32 = AtomicI32::new(0);

extern "C" fn note(number: c_int) {
    CAME.store(number, Ordering::Relaxed);
}

/// Holds the signals that would end the command until it is dropped; one that came is obeyed
/// then. A signal that the command was started to pass over is passed over.
pub struct HeldSignals {
    ended_by: [bool; SIGNALS.len()],
}

impl HeldSignals {
    pub fn new() -> HeldSignals {
        CAME.store(0, Ordering::Relaxed);
        let handler = note as extern "C" fn(c_int) as usize;
        let ended_by = SIGNALS.map(|number| {
            // SAFETY: the handler only stores into an atomic number, which a handler may do at any
            // time; the numbers are those of signals that may be handled.
            unsafe {
                let before = signal(number, handler);
                if before == IGNORE {
                    signal(number, IGNORE);
                }
                before != IGNORE
            }
        });
        HeldSignals { ended_by }
    }

    /// Whether a signal came, so that what was begun is to be taken back.
    pub fn came(&self) -> bool {
        CAME.load(Ordering::Relaxed) != 0
    }
}

impl Drop for HeldSignals {
    fn drop(&mut self) {
        for (number, ended_by) in SIGNALS.into_iter().zip(self.ended_by) {
            if ended_by {
                // SAFETY: it has the default handler, as when the command began.
                unsafe { signal(number, DEFAULT) };
            }
        }
        let number = CAME.swap(0, Ordering::Relaxed);
        if number != 0 {
            // SAFETY: the number is one of `SIGNALS`; the process ends here.
            unsafe { raise(number) };
        }
    }
}
