//! The six tables as they are lent to the library, each between guards.

use second::Tables;

use crate::guarded::{Element, Guarded};

/// Tables between guards.
#[derive(Clone, Debug)]
pub struct Lent {
    pub points: Guarded<u32>,
    pub polygons: Guarded<u32>,
    pub vertices: Guarded<u32>,
    pub names: Guarded<u32>,
    pub name_bytes: Guarded<u8>,
    pub records: Guarded<u32>,
}

impl Lent {
    /// Tables with these lengths and contents.
    pub fn new(tables: &Tables) -> Lent {
        Lent {
            points: Guarded::new(&tables.points),
            polygons: Guarded::new(&tables.polygons),
            vertices: Guarded::new(&tables.vertices),
            names: Guarded::new(&tables.names),
            name_bytes: Guarded::new(&tables.name_bytes),
            records: Guarded::new(&tables.records),
        }
    }

    /// What the tables hold.
    pub fn tables(&self) -> Tables {
        Tables {
            points: self.points.content().to_vec(),
            polygons: self.polygons.content().to_vec(),
            vertices: self.vertices.content().to_vec(),
            names: self.names.content().to_vec(),
            name_bytes: self.name_bytes.content().to_vec(),
            records: self.records.content().to_vec(),
        }
    }

    /// That the tables hold these words and every guard is as it was; else
    /// the first word that is another one.
    pub fn hold(&self, expected: &Tables) -> Result<(), String> {
        holds("points", &self.points, &expected.points)?;
        holds("polygons", &self.polygons, &expected.polygons)?;
        holds("vertices", &self.vertices, &expected.vertices)?;
        holds("names", &self.names, &expected.names)?;
        holds("name bytes", &self.name_bytes, &expected.name_bytes)?;
        holds("records", &self.records, &expected.records)
    }
}

/// That a buffer holds these elements between guards that are as they were.
pub fn holds<T: Element + std::fmt::LowerHex>(
    name: &str,
    lent: &Guarded<T>,
    expected: &[T],
) -> Result<(), String> {
    if let Some(guard) = lent.changed_guard() {
        return Err(format!("{name}: changed the element {guard}"));
    }
    if lent.content() == expected {
        return Ok(());
    }
    let mut pairs = lent.content().iter().zip(expected).enumerate();
    let Some((index, (one, other))) = pairs.find(|(_, (one, other))| one != other) else {
        return Err(format!("{name}: another length"));
    };
    Err(format!(
        "{name}: element {index} is {one:#x}, and {other:#x} is expected"
    ))
}
