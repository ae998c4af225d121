//! The command, run as a person runs it.

mod boards;
mod canonical;
mod check;
mod documents;
mod ends;
mod folders;
mod help;
mod list;
mod terminal;
mod whole;
