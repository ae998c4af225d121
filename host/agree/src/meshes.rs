//! The meshes that are compared, and the output that they are written into.

use std::collections::HashMap;

use cases::meshes::{at_bounds, changed, damaged, mesh, rich_mesh};
use cases::plain::PlainMesh;
use cases::random::Random;
use second::{write, Tables};

use crate::case::{list_term, tables_term, Case, Sort};

/// Generated meshes are shorter, so that more of them are computed.
const MOST_BYTES: usize = 420;

/// The empty mesh and a rich one, those at the bounds, and the rich one damaged
/// in every way.
pub fn fixed() -> Vec<Case> {
    let random = &mut Random::new(1);
    let rich = rich_mesh(random);
    let mut list = Vec::new();
    let mut whole = vec![
        (String::from("empty"), PlainMesh::default()),
        (String::from("rich"), rich.clone()),
    ];
    whole.extend(at_bounds());
    for (name, mesh) in whole {
        for room in 0..ROOMS {
            list.push(mesh_case(
                &format!("mesh {name} room {room}"),
                mesh.clone(),
                room,
            ));
        }
    }
    let mut seen: HashMap<String, usize> = HashMap::new();
    for one in damaged(random, &rich) {
        let number = seen.entry(one.name.clone()).or_default();
        *number += 1;
        let name = format!("damaged {} {number}", one.name);
        list.push(mesh_case(&name, one.mesh, LONG));
    }
    list
}

/// So many generated meshes: whole ones, rich ones with one damage of all, and
/// rich ones with some words changed, which may leave a mesh or not.
pub fn generated(seed: u64, count: usize) -> Vec<Case> {
    let mut random = Random::new(seed);
    let meshes = (0u64..).map(|number| {
        let random = &mut random;
        let (name, mesh) = match number % 3 {
            0 => (String::from("whole"), mesh(random)),
            1 => {
                let rich = rich_mesh(random);
                let mut list = damaged(random, &rich);
                let one = list.swap_remove(random.index(list.len()));
                (one.name, one.mesh)
            }
            _ => {
                let rich = rich_mesh(random);
                (String::from("changed"), changed(random, &rich))
            }
        };
        let room = random.index(ROOMS);
        (name, mesh, room)
    });
    let short = meshes.filter(|(_, mesh, _)| {
        mesh.points.len() + mesh.vertices.len() + mesh.name_bytes.len() < MOST_BYTES
    });
    let numbered = short.take(count).enumerate();
    numbered
        .map(|(number, (name, mesh, room))| mesh_case(&format!("mesh {number} {name}"), mesh, room))
        .collect()
}

/// The outputs that a mesh can be written into: just long enough, longer, a byte
/// short, and none.
const ROOMS: usize = 4;

/// The room that is longer than the file.
const LONG: usize = 1;

fn mesh_case(name: &str, plain: PlainMesh, room: usize) -> Case {
    let tables = Tables {
        points: plain.points,
        polygons: plain.polygons,
        vertices: plain.vertices,
        names: plain.names,
        name_bytes: plain.name_bytes,
        records: plain.records,
    };
    let needed = write(&tables, &mut []).length as usize;
    let mut out = vec![
        7;
        match room {
            0 => needed,
            1 => needed + 3,
            2 => needed.saturating_sub(1),
            _ => 0,
        }
    ];
    let given = format!("{} {}", tables_term(&tables), list_term(&out));
    let written = write(&tables, &mut out);
    let told = [written.number, written.place, written.length];
    let expected = format!("{}, {}", list_term(&told), list_term(&out));
    Case::new(name, Sort::Mesh, &given, &expected)
}

#[cfg(test)]
mod tests {
    use super::*;

    #[test]
    fn every_damage_is_there() {
        let random = &mut Random::new(1);
        let rich = rich_mesh(random);
        let every = damaged(random, &rich).len();
        assert!(every > 90, "{every}");
        let list = fixed();
        let found = list.iter().filter(|one| one.name.starts_with("damaged-"));
        assert_eq!(found.count(), every);
    }

    /// Which damage a generated mesh has goes by the seed, over all of them.
    #[test]
    fn damages_are_drawn_over_all() {
        let names = |seed| -> Vec<String> {
            let list = generated(seed, 300).into_iter();
            let words = list.map(|one| one.name.splitn(3, '-').nth(2).unwrap_or("").to_string());
            words.collect()
        };
        let (one, other) = (names(1), names(2));
        assert_ne!(one, other);
        let mut kinds = one;
        kinds.sort();
        kinds.dedup();
        assert!(kinds.len() > 25, "{}", kinds.len());
    }
}
