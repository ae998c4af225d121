//! Surface records and the values that a SURF chunk gives them.

/// The words of a record in the lent table.
pub const RECORD_WORDS: usize = 10;

/// 1.0 and 0.0 as bits.
pub const ONE: u32 = 0x3f80_0000;
pub const ZERO: u32 = 0;

/// #105: "The missing colour becomes 1.0, 1.0, 1.0, for SURF chunks without
/// COLR and for names without SURF."
pub const MISSING_COLOUR: [u32; 3] = [ONE, ONE, ONE];

/// "One surface record for each name: defined (0 or 1), three colour levels,
/// diffuse, luminosity, specular, reflection, transparency, and sides (1 or
/// 3). The eight levels are f32", kept as their bits.
#[derive(Clone, Copy, Debug, PartialEq, Eq)]
pub struct Record {
    pub defined: u32,
    pub colour: [u32; 3],
    pub diffuse: u32,
    pub luminosity: u32,
    pub specular: u32,
    pub reflection: u32,
    pub transparency: u32,
    pub sides: u32,
}

/// "A name with no SURF has defined 0 and LWO2's missing values", in LWOB too:
/// "Missing: diffuse 1.0, other levels but colour 0, sides 1."
pub const UNDEFINED: Record = Record {
    defined: 0,
    colour: MISSING_COLOUR,
    diffuse: ONE,
    luminosity: ZERO,
    specular: ZERO,
    reflection: ZERO,
    transparency: ZERO,
    sides: 1,
};

/// LWO2's missing values in a SURF that is there.
pub const LWO2_MISSING: Record = Record {
    defined: 1,
    ..UNDEFINED
};

/// LWOB's: "Missing levels but colour are 0, sides 1."
pub const LWOB_MISSING: Record = Record {
    defined: 1,
    diffuse: ZERO,
    ..UNDEFINED
};

impl Record {
    /// The record as it lies in the table.
    pub fn words(&self) -> [u32; RECORD_WORDS] {
        let [red, green, blue] = self.colour;
        [
            self.defined,
            red,
            green,
            blue,
            self.diffuse,
            self.luminosity,
            self.specular,
            self.reflection,
            self.transparency,
            self.sides,
        ]
    }

    /// The record that lies in the table as these words.
    pub fn from_words(words: &[u32; RECORD_WORDS]) -> Record {
        let [defined, red, green, blue, diffuse, luminosity, specular, reflection, transparency, sides] =
            *words;
        Record {
            defined,
            colour: [red, green, blue],
            diffuse,
            luminosity,
            specular,
            reflection,
            transparency,
            sides,
        }
    }

    /// The eight levels, colour first.
    pub fn levels(&self) -> [u32; 8] {
        let [red, green, blue] = self.colour;
        [
            red,
            green,
            blue,
            self.diffuse,
            self.luminosity,
            self.specular,
            self.reflection,
            self.transparency,
        ]
    }
}

/// What the sub-chunks of one SURF say, each value by itself. "a repeated
/// sub-chunk's last value stands", so a later value replaces an earlier one.
#[derive(Clone, Copy, Debug, Default)]
pub struct Values {
    pub colour: Option<[u32; 3]>,
    pub diffuse: Option<u32>,
    pub luminosity: Option<u32>,
    pub specular: Option<u32>,
    pub reflection: Option<u32>,
    pub transparency: Option<u32>,
    pub sides: Option<u32>,
}

impl Values {
    /// The record of a SURF with these values, with the missing ones filled
    /// in.
    pub fn record(&self, missing: &Record) -> Record {
        Record {
            defined: 1,
            colour: self.colour.unwrap_or(missing.colour),
            diffuse: self.diffuse.unwrap_or(missing.diffuse),
            luminosity: self.luminosity.unwrap_or(missing.luminosity),
            specular: self.specular.unwrap_or(missing.specular),
            reflection: self.reflection.unwrap_or(missing.reflection),
            transparency: self.transparency.unwrap_or(missing.transparency),
            sides: self.sides.unwrap_or(missing.sides),
        }
    }
}

/// One SURF chunk: the name it is for, and its record.
#[derive(Clone, Copy, Debug)]
pub struct Surf<'a> {
    pub name: &'a [u8],
    pub record: Record,
}

/// LWOB's colour byte: "each of the first three divided by 255, rounded once".
pub fn colour_level(byte: u8) -> u32 {
    (f32::from(byte) / 255.0).to_bits()
}

/// LWOB's short form: "n divided by 256, which is exact".
pub fn short_level(n: i16) -> u32 {
    (f32::from(n) / 256.0).to_bits()
}
