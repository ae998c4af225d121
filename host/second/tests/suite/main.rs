//! The tests of the second program, joined with the generated cases.

mod boundary;
mod help;
mod indices;
mod layers;
mod mutated;
mod parts;
mod places;
mod program;
mod readings;
mod room;
mod sample;
mod targeted;
mod valid;
mod worked;
mod writing;
