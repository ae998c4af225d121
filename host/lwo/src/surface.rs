//! Surfaces: the base values of each name.

use crate::name::Name;
use crate::tables::RECORD_WORDS;

/// Which sides of a surface's polygons are seen.
#[derive(Clone, Copy, Debug, PartialEq, Eq, Hash)]
pub enum Sides {
    /// The front only, number 1.
    Front,
    /// Front and back, number 3.
    Both,
}

impl Sides {
    /// The number in a record: 1 front only, 3 front and back.
    pub fn number(self) -> u32 {
        match self {
            Sides::Front => 1,
            Sides::Both => 3,
        }
    }

    fn from_number(number: u32) -> Sides {
        match number {
            1 => Sides::Front,
            3 => Sides::Both,
            _ => unreachable!("a mesh has no record with sides {number}"),
        }
    }
}

/// A name of a mesh and its surface record. The levels are 1.0 for 100 percent; other values,
/// negative ones too, occur in files.
///
/// ```
/// let mut oak = lwo::Surface::new("Oak");
/// oak.colour = [0.6, 0.4, 0.2];
/// ```
#[derive(Clone, Copy, Debug, PartialEq)]
#[non_exhaustive]
pub struct Surface<'a> {
    /// The name.
    pub name: Name<'a>,
    /// Whether the file has a SURF for the name; if not, the other values are the missing ones.
    pub defined: bool,
    /// Red, green and blue; 1.0 each where the file gives no colour.
    pub colour: [f32; 3],
    /// Diffuse level.
    pub diffuse: f32,
    /// Luminosity level.
    pub luminosity: f32,
    /// Specular level.
    pub specular: f32,
    /// Reflection level.
    pub reflection: f32,
    /// Transparency level.
    pub transparency: f32,
    /// The sides that are seen.
    pub sides: Sides,
}

impl<'a> Surface<'a> {
    /// A defined surface of this name, with the values that a SURF without sub-chunks has in an
    /// LWO2 file.
    pub fn new(name: impl Into<Name<'a>>) -> Surface<'a> {
        Surface {
            name: name.into(),
            defined: true,
            colour: [1.0; 3],
            diffuse: 1.0,
            luminosity: 0.0,
            specular: 0.0,
            reflection: 0.0,
            transparency: 0.0,
            sides: Sides::Front,
        }
    }

    /// A name with no SURF: it has the missing values.
    pub fn undefined(name: impl Into<Name<'a>>) -> Surface<'a> {
        Surface {
            defined: false,
            ..Surface::new(name)
        }
    }

    pub(crate) fn from_record(name: Name<'a>, record: &[u32; RECORD_WORDS]) -> Surface<'a> {
        let &[defined, levels @ .., sides] = record;
        let [red, green, blue, diffuse, luminosity, specular, reflection, transparency] =
            levels.map(f32::from_bits);
        Surface {
            name,
            defined: defined != 0,
            colour: [red, green, blue],
            diffuse,
            luminosity,
            specular,
            reflection,
            transparency,
            sides: Sides::from_number(sides),
        }
    }

    pub(crate) fn record(&self) -> [u32; RECORD_WORDS] {
        let [red, green, blue] = self.colour.map(f32::to_bits);
        [
            u32::from(self.defined),
            red,
            green,
            blue,
            self.diffuse.to_bits(),
            self.luminosity.to_bits(),
            self.specular.to_bits(),
            self.reflection.to_bits(),
            self.transparency.to_bits(),
            self.sides.number(),
        ]
    }
}
