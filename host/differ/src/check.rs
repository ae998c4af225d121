//! All that is asked of one file, or of one mesh.

use cases::random::Random;
use second::Tables;

use crate::counts::Counts;
use crate::library::Library;
use crate::{more, reading, writing};

/// Reads a file in many rooms; where it has a mesh, writes that too. An error
/// says what differs.
pub fn file(library: &dyn Library, file: &[u8]) -> Result<Counts, String> {
    let random = &mut Random::new(seed_of(file.iter().map(|&byte| byte.into())));
    let mut counts = Counts::default();
    let read = reading::compare(library, random, file)?;
    counts.add_reading(&read);
    more::one_more_chunk(library, random, file, &read.answer)?;
    if read.answer.number == 0 {
        more::longer_tables(library, random, file, &read.answer)?;
        let (_, tables) = reading::read_exactly(library, random, file, &read.answer);
        let written = writing::compare(library, random, &tables)
            .map_err(|what| format!("the mesh of the file: {what}"))?;
        counts.writes += written.writes;
        counts.writes_no_room += written.no_room;
    }
    Ok(counts)
}

/// Writes tables, be they a mesh or not. An error says what differs.
pub fn mesh(library: &dyn Library, tables: &Tables) -> Result<Counts, String> {
    let words = tables.points.iter().chain(&tables.polygons);
    let words = words.chain(&tables.vertices).chain(&tables.records);
    let random = &mut Random::new(seed_of(words.copied()));
    let mut counts = Counts::default();
    counts.add_writing(&writing::compare(library, random, tables)?);
    Ok(counts)
}

/// A seed for the rooms and for what lies in them before (64-bit FNV-1a). It
/// goes by the case alone, so that a case that fails fails again.
fn seed_of(words: impl Iterator<Item = u32>) -> u64 {
    words.fold(0xcbf2_9ce4_8422_2325, |hash, word| {
        (hash ^ u64::from(word)).wrapping_mul(0x0100_0000_01b3)
    })
}
