//! 2 and 3: what is wrong with the FORM itself. Both are told at 0.

use super::{passed_chunk, Catalogue, KINDS};
use crate::assemble::{chunk, form, u4, Kind};

pub fn add(catalogue: &mut Catalogue) {
    add_short_files(catalogue);
    add_not_form(catalogue);
    add_other_types(catalogue);
    add_wrong_lengths(catalogue);
}

/// "under 12 bytes": every beginning of a good file.
fn add_short_files(catalogue: &mut Catalogue) {
    let whole = form(Kind::Lwo2, &[]);
    for length in 0..12 {
        let name = format!("only-{length}-bytes");
        catalogue.add_file(&name, whole[..length].to_vec(), 2);
    }
    let mut corrected = form(Kind::Lwob, &[]);
    corrected.truncate(11);
    corrected[4..8].copy_from_slice(&u4(3));
    catalogue.add_file("only-11-bytes-with-their-length", corrected, 2);
}

/// "not FORM".
fn add_not_form(catalogue: &mut Catalogue) {
    for kind in KINDS {
        for at in 0..4 {
            let mut file = form(kind, &passed_chunk());
            file[at] ^= 0x20;
            let name = format!("{}-not-form-{at}", kind.word());
            catalogue.add_file(&name, file, 2);
        }
    }
    let mut wrong_length_too = form(Kind::Lwo2, &[]);
    wrong_length_too[0] = b'L';
    wrong_length_too[7] = 9;
    catalogue.add_file("not-form-and-wrong-length", wrong_length_too, 2);
}

/// "type neither LWOB nor LWO2".
fn add_other_types(catalogue: &mut Catalogue) {
    let types: [(&str, &[u8; 4]); 6] = [
        ("lwlo", b"LWLO"),
        ("lwo3", b"LWO3"),
        ("lowercase", b"lwo2"),
        ("lwo0", b"LWO0"),
        ("lw2o", b"LW2O"),
        ("zeros", &[0; 4]),
    ];
    for (name, bytes) in types {
        let mut file = form(Kind::Lwo2, &passed_chunk());
        file[8..12].copy_from_slice(bytes);
        catalogue.add_file(&format!("type-{name}"), file.clone(), 2);
        file[4] = 1;
        let name = format!("type-{name}-and-wrong-length");
        catalogue.add_file(&name, file, 2);
    }
}

/// "FORM length is not file length less 8".
fn add_wrong_lengths(catalogue: &mut Catalogue) {
    for kind in KINDS {
        for (content_name, content) in [
            ("empty", Vec::new()),
            ("one-chunk", passed_chunk()),
            ("bad-chunk", b"bad".to_vec()),
            ("points", chunk(b"PNTS", &[0; 13])),
        ] {
            let right = content.len() as u32 + 4;
            for (name, length) in [
                ("one-more", right + 1),
                ("one-less", right - 1),
                ("zero", 0),
                ("eight-more", right + 8),
                ("largest", u32::MAX),
                ("high-byte", right + 0x0100_0000),
            ] {
                let mut file = form(kind, &content);
                file[4..8].copy_from_slice(&u4(length));
                let name = format!("{}-{content_name}-length-{name}", kind.word());
                catalogue.add_file(&name, file, 3);
            }
        }
    }
}
