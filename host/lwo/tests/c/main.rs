//! The library as C uses it: programs that are compiled with the header, linked and run.

mod compile;
mod header;
mod install;
mod stack;
