//! The meshes that are compared, whole and damaged: fixed ones, and one for
//! each seed and number.

use cases::meshes::{
    at_bounds, at_file_limit, damaged, long_indices, mesh, parts_at_file_limit, rich_mesh,
};
use cases::plain::PlainMesh;
use cases::random::Random;
use second::Tables;

use crate::files::mixed;

/// Tables, be they a mesh or not, and what they are called.
pub struct Named {
    pub name: String,
    pub tables: Tables,
}

fn named(name: impl Into<String>, mesh: PlainMesh) -> Named {
    Named {
        name: name.into(),
        tables: tables_of(mesh),
    }
}

pub fn tables_of(mesh: PlainMesh) -> Tables {
    Tables {
        points: mesh.points,
        polygons: mesh.polygons,
        vertices: mesh.vertices,
        names: mesh.names,
        name_bytes: mesh.name_bytes,
        records: mesh.records,
    }
}

/// The empty mesh, a rich one, that one damaged in every way, and those at the
/// bounds of an entry.
pub fn fixed() -> Vec<Named> {
    let random = &mut Random::new(17);
    let rich = rich_mesh(random);
    let mut list: Vec<Named> = damaged(random, &rich)
        .into_iter()
        .map(|one| named(format!("damaged: {}", one.name), one.mesh))
        .collect();
    list.push(named("empty", PlainMesh::default()));
    list.push(named("rich", rich));
    let bounds = at_bounds().into_iter();
    list.extend(bounds.map(|(name, mesh)| named(name, mesh)));
    list
}

/// Meshes with indices of both forms, and at the limit of a file's length and
/// one past it.
pub fn large() -> Vec<Named> {
    vec![
        named("long indices", long_indices()),
        named("as long as a file may be", at_file_limit(false)),
        named("too long for a file", at_file_limit(true)),
        named(
            "with a part as long as a file may be",
            parts_at_file_limit(false),
        ),
        named("too long for a file by a part", parts_at_file_limit(true)),
    ]
}

/// Meshes with more names than tags reach, whose last name is the highest that
/// may be a surface and a part, and one past it.
pub fn many_names() -> Vec<Named> {
    let of = |name: &str, surface, part| named(name, cases::meshes::many_names(surface, part));
    vec![
        of("surface and part 65,536", 65_536, 65_536),
        of("surface 65,537", 65_537, 65_536),
        of("part 65,537", 65_536, 65_537),
    ]
}

/// The mesh of this number for a seed, whole or damaged.
pub fn generated(seed: u64, number: u64) -> Named {
    let random = &mut Random::new(mixed(!seed, number));
    match random.below(5) {
        0 | 1 => named("whole", mesh(random)),
        2 => named("rich", rich_mesh(random)),
        3 => {
            let rich = rich_mesh(random);
            let mut list = damaged(random, &rich);
            let one = list.swap_remove(random.index(list.len()));
            named(format!("damaged: {}", one.name), one.mesh)
        }
        _ => {
            let mut one = named("changed", rich_mesh(random));
            for _ in 0..random.between(1, 4) {
                change(random, &mut one.tables);
            }
            one
        }
    }
}

/// A change in one of the tables. It may leave a mesh or not.
fn change(random: &mut Random, tables: &mut Tables) {
    let table = match random.below(6) {
        0 => &mut tables.points,
        1 => &mut tables.polygons,
        2 => &mut tables.vertices,
        3 => &mut tables.names,
        4 => &mut tables.records,
        _ => return change_bytes(random, &mut tables.name_bytes),
    };
    if table.is_empty() {
        table.push(random.below(3) as u32);
        return;
    }
    let at = random.index(table.len());
    match random.below(6) {
        0 => table[at] = table[at].wrapping_add(1),
        1 => table[at] = table[at].wrapping_sub(1),
        2 => table[at] ^= 1 << random.below(32),
        3 => table[at] = *random.pick(&[0, 1, 2, 3, 1_023, 1_024, 0x7f80_0000, u32::MAX]),
        4 => {
            table.remove(at);
        }
        _ => table.insert(at, table[at]),
    }
}

fn change_bytes(random: &mut Random, bytes: &mut Vec<u8>) {
    let at = random.index(bytes.len() + 1);
    match bytes.get_mut(at) {
        Some(byte) if random.once_in(2) => *byte = *random.pick(&[0, 1, b'a', 255]),
        Some(_) => {
            bytes.remove(at);
        }
        None => bytes.push(random.byte()),
    }
}

#[cfg(test)]
mod tests {
    use super::*;
    use lwo::POLYGON_WORDS;
    use second::is_mesh;

    #[test]
    fn generated_ones_are_whole_and_damaged() {
        let all = (0..200).map(|number| generated(1, number));
        let (whole, not): (Vec<Named>, Vec<Named>) = all.partition(|one| is_mesh(&one.tables));
        assert!(whole.len() > 80, "{}", whole.len());
        assert!(not.len() > 40, "{}", not.len());
    }

    #[test]
    fn fixed_ones_have_every_damage() {
        let (whole, not): (Vec<Named>, Vec<Named>) =
            fixed().into_iter().partition(|one| is_mesh(&one.tables));
        assert!(not.len() > 80, "{}", not.len());
        assert_eq!(whole.len(), 2 + at_bounds().len());
    }

    /// A part is generated in whole meshes, with a surface and without, and in
    /// ones that are none for it.
    #[test]
    fn generated_ones_have_parts() {
        let all: Vec<Named> = (0..500).map(|number| generated(1, number)).collect();
        let times = |holds: &dyn Fn(&Named) -> bool| all.iter().filter(|one| holds(one)).count();
        let entries = |one: &Named, holds: fn(&[u32]) -> bool| {
            let mut entries = one.tables.polygons.chunks_exact(POLYGON_WORDS);
            is_mesh(&one.tables) && entries.any(holds)
        };
        let alone = times(&|one| entries(one, |entry| entry[2] == 0 && entry[3] != 0));
        let both = times(&|one| entries(one, |entry| entry[2] != 0 && entry[3] != 0));
        let bad = times(&|one| one.name.ends_with(" part"));
        assert!(alone > 100 && both > 100, "{alone} {both}");
        assert!(bad > 2, "{bad}");
    }
}
