//! One thing once, so that its instructions can be counted.

use std::hint::black_box;

use crate::inputs::{lwo2_grid, lwob_grid, name_list, Work};
use crate::library;
use crate::measure::{empty_like, swap_in};
use crate::report::{LWO2_BYTES, LWOB_SIDE};

/// Does the task of this name, if there is one.
pub fn run(task: &str) -> Option<()> {
    match task {
        "read-lwo2" => read(&lwo2_grid(LWO2_BYTES)),
        "read-lwob" => read(&lwob_grid(LWOB_SIDE)),
        "read-names-250" => read(&name_list(250)),
        "read-names-2" => read(&name_list(2)),
        "write-lwo2" => write(&lwo2_grid(LWO2_BYTES)),
        "second-read-lwo2" => second_read(&lwo2_grid(LWO2_BYTES)),
        "second-read-lwob" => second_read(&lwob_grid(LWOB_SIDE)),
        "second-write-lwo2" => second_write(&lwo2_grid(LWO2_BYTES)),
        "copy-lwo2" => copy(&lwo2_grid(LWO2_BYTES)),
        _ => return None,
    }
    Some(())
}

fn read(work: &Work) {
    let mut tables = empty_like(&work.mesh);
    let number = library::read(&work.file, &mut tables);
    println!("{}: read, number {number}", work.name);
}

fn second_read(work: &Work) {
    let mut tables = empty_like(&work.mesh);
    let number = second::read(&work.file, &mut tables).number;
    println!("{}: read by the second program, number {number}", work.name);
}

fn write(work: &Work) {
    let mut out = vec![0; work.file.len()];
    let number = library::write(&work.mesh, &mut out);
    println!("{}: written, number {number}", work.name);
}

fn second_write(work: &Work) {
    let mut out = vec![0; work.file.len()];
    let number = second::write(&work.mesh, &mut out).number;
    println!(
        "{}: written by the second program, number {number}",
        work.name
    );
}

fn copy(work: &Work) {
    let mut words = vec![0; work.file.len() / 4];
    swap_in(&work.file, &mut words);
    black_box(&words);
    println!("{}: copied", work.name);
}
