//! The second program's answer, for the fuzz target in C. The proved library cannot be built so
//! that a fuzzer sees which of its branches an input takes; the second program can, and it takes
//! its own branches by the same rules.

/// The number, the place and the counts, in the order of `LwoAnswer`.
#[repr(C)]
#[derive(Clone, Copy, Debug, PartialEq, Eq)]
pub struct WitnessAnswer {
    pub words: [u64; 9],
}

/// What the second program answers to a file with empty tables.
///
/// # Safety
///
/// The pointer is that of so many bytes, which nobody changes during the call.
#[no_mangle]
pub unsafe extern "C" fn witness_read(file: *const u8, length: usize) -> WitnessAnswer {
    // A slice of no bytes needs a pointer that is not null.
    let file = match length {
        0 => &[],
        // SAFETY: as the caller promises.
        _ => unsafe { std::slice::from_raw_parts(file, length) },
    };
    answer(file)
}

fn answer(file: &[u8]) -> WitnessAnswer {
    let answer = second::read(file, &mut second::Tables::default());
    WitnessAnswer {
        words: [
            answer.number,
            answer.place,
            answer.points,
            answer.polygons,
            answer.vertices,
            answer.names,
            answer.name_bytes,
            answer.skipped,
            answer.details,
        ],
    }
}

#[cfg(test)]
mod tests {
    use super::*;

    #[test]
    fn a_file_of_nothing_is_accepted_and_no_bytes_are_refused() {
        let file = b"FORM\0\0\0\x0cLWO2NOTE\0\0\0\0";
        // SAFETY: the pointer and the length are those of a slice, or the length is 0.
        let (some, none) = unsafe {
            let some = witness_read(file.as_ptr(), file.len());
            (some, witness_read(std::ptr::null(), 0))
        };
        assert_eq!(some.words, [0, 0, 0, 0, 0, 0, 0, 1, 0]);
        assert_eq!(none.words, [2, 0, 0, 0, 0, 0, 0, 0, 0]);
    }
}
