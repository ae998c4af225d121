//! The boards of a mesh, or of several together: one for each name, and what has no surface; and
//! the same by the parts that the polygons belong to.

use std::collections::{BTreeMap, HashMap};

use lwo::{Mesh, Polygon, Surface};

use super::board::Board;

/// A name and what is cut from its board.
#[derive(Clone, Debug, PartialEq)]
pub struct NamedBoard {
    pub name: Vec<u8>,
    pub colour: Colour,
    pub board: Board,
    /// False of a name that is only a part's, from which nothing is cut.
    is_board: bool,
}

/// Red, green and blue.
#[derive(Clone, Copy, Debug, PartialEq)]
pub enum Colour {
    /// The file has no SURF for the name.
    None,
    One([f32; 3]),
    /// Several files give the name different colours.
    Several,
}

/// One of the names by its index, or no name, which comes after them all.
#[derive(Clone, Copy, Debug, PartialEq, Eq, PartialOrd, Ord)]
pub enum Which {
    Name(usize),
    None,
}

/// The part and the surface of polygons. Pairs stand by their parts, and those of one part by their
/// surfaces.
#[derive(Clone, Copy, Debug, PartialEq, Eq, PartialOrd, Ord)]
pub struct Pair {
    pub part: Which,
    pub surface: Which,
}

#[derive(Clone, Debug, Default, PartialEq)]
pub struct Boards {
    /// Every name, in the order in which they are listed first.
    names: Vec<NamedBoard>,
    pub without_surface: Board,
    /// Each pair that some polygon has, with its polygons.
    pairs: BTreeMap<Pair, Board>,
}

impl NamedBoard {
    fn of(surface: Surface) -> NamedBoard {
        NamedBoard {
            name: surface.name.as_bytes().to_vec(),
            colour: match surface.defined {
                true => Colour::One(surface.colour),
                false => Colour::None,
            },
            board: Board::default(),
            is_board: true,
        }
    }
}

impl From<Option<usize>> for Which {
    fn from(index: Option<usize>) -> Which {
        index.map_or(Which::None, Which::Name)
    }
}

impl Boards {
    pub fn of(mesh: &Mesh) -> Boards {
        let mut boards = Boards {
            names: mesh.surfaces().map(NamedBoard::of).collect(),
            ..Boards::default()
        };
        mesh.polygons()
            .for_each(|polygon| boards.add(mesh, &polygon));
        boards.tell_parts_from_boards();
        boards
    }

    fn add(&mut self, mesh: &Mesh, polygon: &Polygon) {
        let board = match polygon.name_index() {
            Some(index) => &mut self.names[index].board,
            None => &mut self.without_surface,
        };
        board.add(mesh, polygon);
        let pair = Pair {
            part: Which::from(polygon.part_index()),
            surface: Which::from(polygon.name_index()),
        };
        self.pairs.entry(pair).or_default().add(mesh, polygon);
    }

    /// A part's name is a board too where polygons have it as their surface, or it has a SURF. Any
    /// other name is one even where no polygon has it.
    fn tell_parts_from_boards(&mut self) {
        for pair in self.pairs.keys() {
            if let Which::Name(index) = pair.part {
                let one = &mut self.names[index];
                one.is_board = one.board.is_used() || one.colour != Colour::None;
            }
        }
    }

    pub fn is_empty(&self) -> bool {
        self.named().next().is_none() && !self.without_surface.is_used()
    }

    /// Whether some polygon belongs to a part.
    pub fn have_parts(&self) -> bool {
        let first = self.pairs.keys().next();
        first.is_some_and(|pair| pair.part != Which::None)
    }

    /// The names that are boards, in order.
    pub fn named(&self) -> impl Iterator<Item = &NamedBoard> {
        self.names.iter().filter(|one| one.is_board)
    }

    pub fn name(&self, which: Which) -> Option<&NamedBoard> {
        match which {
            Which::Name(index) => self.names.get(index),
            Which::None => None,
        }
    }

    /// Each pair that some polygon has, with its polygons, in order.
    pub fn pairs(&self) -> impl Iterator<Item = (&Pair, &Board)> {
        self.pairs.iter()
    }

    /// The same, and every board that no polygon has, which is then of no part.
    pub fn pairs_and_unused(&self) -> BTreeMap<Pair, Board> {
        let unused = |one: &NamedBoard| one.is_board && !one.board.is_used();
        let unused = (0..self.names.len()).filter(|&index| unused(&self.names[index]));
        let mut rows = self.pairs.clone();
        rows.extend(unused.map(|index| {
            let pair = Pair {
                part: Which::None,
                surface: Which::Name(index),
            };
            (pair, Board::default())
        }));
        rows
    }
}

/// The boards of several files together. Names are the same if their bytes are.
#[derive(Default)]
pub struct Total {
    pub boards: Boards,
    pub files: u64,
    pub rejected: u64,
    /// Where in the list a name stands.
    index: HashMap<Vec<u8>, usize>,
}

impl Total {
    pub fn add(&mut self, file: &Boards) {
        self.files += 1;
        let without_surface = &mut self.boards.without_surface;
        without_surface.add_counts(&file.without_surface);
        let places: Vec<usize> = file.names.iter().map(|one| self.add_name(one)).collect();
        let place = |which| match which {
            Which::Name(index) => Which::Name(places[index]),
            Which::None => Which::None,
        };
        for (pair, board) in &file.pairs {
            let pair = Pair {
                part: place(pair.part),
                surface: place(pair.surface),
            };
            let pairs = &mut self.boards.pairs;
            pairs.entry(pair).or_default().add_counts(board);
        }
    }

    /// Adds a name of a file, and gives its place in the list.
    fn add_name(&mut self, one: &NamedBoard) -> usize {
        let names = &mut self.boards.names;
        let next = names.len();
        let place = *self.index.entry(one.name.clone()).or_insert(next);
        if place == next {
            names.push(NamedBoard {
                board: Board::default(),
                ..one.clone()
            });
        }
        let same = &mut names[place];
        same.board.add_counts(&one.board);
        // Where a name is only a part's, the file has no board of it, and so no colour.
        if one.is_board {
            same.colour = match same.is_board && same.colour != one.colour {
                true => Colour::Several,
                false => one.colour,
            };
            same.is_board = true;
        }
        place
    }

    pub fn add_rejected(&mut self) {
        self.files += 1;
        self.rejected += 1;
    }
}

#[cfg(test)]
mod tests {
    use super::*;
    use cases::files::files;
    use lwo::{Kind, MeshBuilder, Surface, NO_PART, NO_SURFACE};

    /// Faces and patches, and vertices.
    fn sums<'a>(boards: impl Iterator<Item = &'a Board>) -> (u64, u64) {
        boards.fold((0, 0), |(polygons, vertices), board| {
            let more = board.faces + board.patches;
            (polygons + more, vertices + board.vertices)
        })
    }

    /// Over all boards there are as many polygons as in the files, and as many vertices; and so
    /// there are over all parts.
    #[test]
    fn every_polygon_is_on_one_board_and_of_one_part() {
        let must_have = |boards: &Boards, counted: (u64, u64), name: &str| {
            let named = boards.named().map(|one| &one.board);
            let on_boards = sums(named.chain([&boards.without_surface]));
            let of_parts = sums(boards.pairs().map(|(_, board)| board));
            assert_eq!((on_boards, of_parts), (counted, counted), "{name}");
        };
        let mut total = Total::default();
        let (mut counted, mut with_parts) = ((0, 0), 0);
        for (name, file) in files(4).take(600) {
            let Ok(mesh) = Mesh::read(&file) else {
                total.add_rejected();
                continue;
            };
            let boards = Boards::of(&mesh);
            let (polygons, vertices) = (mesh.polygons().len(), mesh.tables().vertices.len());
            must_have(&boards, (polygons as u64, vertices as u64), &name);
            assert_eq!(boards.names.len(), mesh.names().len(), "{name}");
            assert_eq!(boards.have_parts(), mesh.parts().next().is_some(), "{name}");
            counted.0 += polygons as u64;
            counted.1 += vertices as u64;
            with_parts += u64::from(boards.have_parts());
            total.add(&boards);
        }
        must_have(&total.boards, counted, "total");
        assert!(counted.0 > 1_000 && total.rejected > 100 && total.files == 600);
        assert!(with_parts > 20 && total.boards.have_parts());
        let mut names: Vec<&[u8]> = total.boards.names.iter().map(|one| &one.name[..]).collect();
        names.sort_unstable();
        names.dedup();
        assert_eq!(names.len(), total.boards.names.len());
    }

    #[test]
    fn a_name_of_two_colours_has_several() {
        let board = |colour| Boards {
            names: vec![NamedBoard {
                name: b"Oak".to_vec(),
                colour,
                board: Board::default(),
                is_board: true,
            }],
            ..Boards::default()
        };
        let colour_of = |colours: &[Colour]| {
            let mut total = Total::default();
            colours.iter().for_each(|&colour| total.add(&board(colour)));
            total.boards.names[0].colour
        };
        let (red, grey) = (Colour::One([1.0, 0.0, 0.0]), Colour::One([0.5; 3]));
        assert_eq!(colour_of(&[red, red]), red);
        assert_eq!(colour_of(&[red, grey]), Colour::Several);
        assert_eq!(colour_of(&[grey, Colour::None, grey]), Colour::Several);
        assert_eq!(colour_of(&[Colour::None, Colour::None]), Colour::None);
    }

    fn boards_of(build: impl FnOnce(&mut MeshBuilder)) -> Boards {
        let mut builder = MeshBuilder::new();
        builder.point([0.0; 3]);
        build(&mut builder);
        Boards::of(&builder.build().expect("a mesh"))
    }

    fn names_of(boards: &Boards) -> Vec<&[u8]> {
        boards.named().map(|one| &one.name[..]).collect()
    }

    /// Polygons of each have "mane" as their part and "Oak" as their surface.
    #[test]
    fn a_name_that_is_only_a_parts_is_no_board() {
        let with = |mane: Surface, on_mane: bool| {
            boards_of(|builder| {
                let (mane, oak) = (builder.surface(&mane), builder.name("Oak"));
                builder.name("Ash");
                builder.polygon_of_part(Kind::Face, oak, mane, &[0]);
                if on_mane {
                    builder.polygon(Kind::Face, mane, &[0]);
                }
            })
        };
        for (surface, on_mane, is_board) in [
            (Surface::undefined("mane"), false, false),
            (Surface::undefined("mane"), true, true),
            (Surface::new("mane"), false, true),
        ] {
            let boards = with(surface, on_mane);
            let all: [&[u8]; 3] = [b"mane", b"Oak", b"Ash"];
            assert_eq!(names_of(&boards), all[usize::from(!is_board)..]);
        }
    }

    /// A name that is a part's in one file and a board in the other is a board of both together,
    /// with the colour of the one that has it as a board, whichever comes first.
    #[test]
    fn a_part_of_one_file_may_be_a_board_of_another() {
        let part = boards_of(|builder| {
            let mane = builder.name("mane");
            builder.polygon_of_part(Kind::Face, NO_SURFACE, mane, &[0]);
        });
        let board = boards_of(|builder| {
            let mane = builder.surface(&Surface::new("mane"));
            builder.polygon(Kind::Face, mane, &[0]);
        });
        for files in [[&part, &board], [&board, &part]] {
            let mut total = Total::default();
            files.into_iter().for_each(|file| total.add(file));
            let one = total.boards.named().next().expect("a board");
            assert_eq!(one.colour, Colour::One([1.0; 3]));
            assert_eq!(
                (one.board.faces, total.boards.without_surface.faces),
                (1, 1)
            );
            let pairs: Vec<(Pair, u64)> = total
                .boards
                .pairs()
                .map(|(pair, board)| (*pair, board.faces))
                .collect();
            let (mane, none) = (Which::Name(0), Which::None);
            let [in_part, on_board] =
                [(mane, none), (none, mane)].map(|(part, surface)| (Pair { part, surface }, 1));
            assert_eq!(pairs, [in_part, on_board]);
        }
        let mut total = Total::default();
        (0..2).for_each(|_| total.add(&part));
        assert!(names_of(&total.boards).is_empty());
    }

    /// What no polygon has is of no part, and nothing where another file has it.
    #[test]
    fn boards_that_no_polygon_has() {
        let file = |in_part: bool| {
            boards_of(|builder| {
                let [ash, oak, mane] = ["Ash", "Oak", "mane"].map(|name| builder.name(name));
                let part = if in_part { mane } else { NO_PART };
                builder.polygon_of_part(Kind::Face, NO_SURFACE, mane, &[0]);
                builder.polygon_of_part(Kind::Face, if in_part { ash } else { oak }, part, &[0]);
            })
        };
        let rows = |boards: &Boards| -> Vec<(Which, Which, u64)> {
            let rows = boards.pairs_and_unused().into_iter();
            rows.map(|(pair, board)| (pair.part, pair.surface, board.faces))
                .collect()
        };
        let (ash, oak, mane, none) = (Which::Name(0), Which::Name(1), Which::Name(2), Which::None);
        let (first, second) = (file(true), file(false));
        assert_eq!(
            rows(&first),
            [(mane, ash, 1), (mane, none, 1), (none, oak, 0)]
        );
        assert_eq!(
            rows(&second),
            [(mane, none, 1), (none, ash, 0), (none, oak, 1)]
        );
        let mut total = Total::default();
        [first, second].iter().for_each(|file| total.add(file));
        assert_eq!(
            rows(&total.boards),
            [(mane, ash, 1), (mane, none, 2), (none, oak, 1)]
        );
    }
}
