//! "More room, or more that isn't ours, never bends an answer": asked of the
//! library alone, by its own answers. The second program says only which chunk
//! of a refused file is at fault.

use cases::insert::{inserted, kind_of, known_boundaries};
use cases::random::Random;
use cases::unlisted::unlisted_chunk;
use second::limits::FILE_BYTES;
use second::{Answer, Tables};

use crate::guarded::Guarded;
use crate::lent::Lent;
use crate::library::Library;
use crate::reading::read_exactly;
use crate::rooms::{exact, filled};

/// Longer tables, whatever they hold: the same answer, the same mesh at the
/// front of each, and the rest as it was.
pub fn longer_tables(
    library: &dyn Library,
    random: &mut Random,
    file: &[u8],
    needs: &Answer,
) -> Result<(), String> {
    let (answer, mesh) = read_exactly(library, random, file, needs);
    let more = exact(needs).map(|words| words + random.index(50));
    let before = filled(random, &more);
    let mut lent = Lent::new(&before);
    let longer = library.read(&Guarded::new(file), &mut lent);
    if longer != answer {
        return Err(format!(
            "longer tables: the answer is {longer:?}, and was {answer:?}"
        ));
    }
    lent.hold(&with_front(before, &mesh))
        .map_err(|what| format!("longer tables: {what}"))
}

/// Tables whose front holds a mesh.
fn with_front(mut tables: Tables, mesh: &Tables) -> Tables {
    put_front(&mut tables.points, &mesh.points);
    put_front(&mut tables.polygons, &mesh.polygons);
    put_front(&mut tables.vertices, &mesh.vertices);
    put_front(&mut tables.names, &mesh.names);
    put_front(&mut tables.name_bytes, &mesh.name_bytes);
    put_front(&mut tables.records, &mesh.records);
    tables
}

fn put_front<T: Copy>(table: &mut [T], front: &[T]) {
    table[..front.len()].copy_from_slice(front);
}

/// One more unlisted chunk at a boundary: the same mesh and one more skipped,
/// or the same refusal, moved by that chunk exactly where the chunk at fault
/// lies behind it.
pub fn one_more_chunk(
    library: &dyn Library,
    random: &mut Random,
    file: &[u8],
    told: &Answer,
) -> Result<(), String> {
    if (1..=3).contains(&told.number) {
        // The file is refused as a whole, and may have no chunks.
        return Ok(());
    }
    let at = *random.pick(&known_boundaries(file));
    let chunk = unlisted_chunk(random, kind_of(file));
    if file.len() + chunk.len() > FILE_BYTES {
        return Ok(());
    }
    let longer = inserted(file, at, &chunk);
    let (before, mesh) = read_exactly(library, random, file, told);
    let (after, same) = read_exactly(library, random, &longer, told);
    let expected = if before.number == 0 {
        one_more_skipped(&before)
    } else if chunk_at_fault(file).is_some_and(|fault| fault >= at) {
        moved(&before, chunk.len())
    } else {
        before
    };
    let place = format!("one more chunk of {} bytes at {at}", chunk.len());
    if after != expected {
        return Err(format!(
            "{place}: the answer is {after:?}, and {expected:?} is expected"
        ));
    }
    if before.number == 0 {
        Lent::new(&same)
            .hold(&mesh)
            .map_err(|what| format!("{place}: {what}"))?;
    }
    Ok(())
}

fn one_more_skipped(before: &Answer) -> Answer {
    Answer {
        skipped: before.skipped + 1,
        ..*before
    }
}

fn moved(before: &Answer, bytes: usize) -> Answer {
    Answer {
        place: before.place + bytes as u64,
        ..*before
    }
}

/// The offset of the chunk at fault, which is the second program's to say. The
/// place that is told does not: an item that is missing at the end of its
/// chunk would begin where the next chunk begins.
fn chunk_at_fault(file: &[u8]) -> Option<usize> {
    let refusal = second::rules(file).err()?;
    Some(refusal.chunk as usize)
}
