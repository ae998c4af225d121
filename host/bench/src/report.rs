//! The tables that are printed.

use std::time::Duration;

use crate::inputs::{lwo2_grid, lwob_grid, name_list, Work};
use crate::measure::{read, read_all, write, Times};

/// The LWO2 grid of the first table.
pub const LWO2_BYTES: usize = 10_000_000;

/// The points on a side of the LWOB grid: 1.4 MB, all indices in two bytes.
pub const LWOB_SIDE: usize = 242;

/// The points on a side of a small LWOB grid, of the size of a panel: 3 KB. A
/// call is short, so it is timed more often.
const SMALL_SIDE: usize = 12;
const SMALL_ROUNDS: u32 = 100;

/// Lengths for how time grows; the last one is the longest file of all.
const LENGTHS: [usize; 5] = [1 << 20, 2 << 20, 4 << 20, 8 << 20, 16 << 20];

/// Measures everything and prints it.
pub fn print(rounds: u32, names: bool) -> Result<(), String> {
    println!("best of {rounds} rounds; tables and output cleared (touched) before each call");
    println!();
    print_ratios(rounds)?;
    println!();
    print_growth(rounds)?;
    if names {
        println!();
        print_names(rounds)?;
    }
    Ok(())
}

fn print_ratios(rounds: u32) -> Result<(), String> {
    println!(
        "{:32} {:>10} {:>10} {:>10} {:>10} {:>10} {:>10}",
        "", "bytes", "proved ms", "second ms", "copy ms", "to second", "to copy"
    );
    let lwo2 = lwo2_grid(LWO2_BYTES);
    let lwob = lwob_grid(LWOB_SIDE);
    let small = lwob_grid(SMALL_SIDE);
    print_ratio("read", &lwo2, &read(&lwo2, rounds)?);
    print_ratio("read", &lwob, &read(&lwob, rounds)?);
    print_ratio("read", &small, &read(&small, rounds * SMALL_ROUNDS)?);
    print_ratio("write", &lwo2, &write(&lwo2, rounds)?);
    print_ratio("write", &lwob, &write(&lwob, rounds)?);
    Ok(())
}

fn print_ratio(what: &str, work: &Work, times: &Times) {
    println!(
        "{:32} {:>10} {:>10.4} {:>10.4} {:>10.4} {:>10.2} {:>10.2}",
        format!("{what} {}", work.name),
        times.bytes,
        milliseconds(times.proved),
        milliseconds(times.second),
        milliseconds(times.copy),
        ratio(times.proved, times.second),
        ratio(times.proved, times.copy),
    );
}

/// Time for a byte; it stays about the same where time grows with the length.
fn print_growth(rounds: u32) -> Result<(), String> {
    println!(
        "{:32} {:>10} {:>14} {:>14}",
        "read, by length", "bytes", "proved ns/byte", "second ns/byte"
    );
    let works = LENGTHS.map(lwo2_grid);
    for (work, times) in works.iter().zip(read_all(&works, rounds)?) {
        let a_byte = |time: Duration| time.as_secs_f64() * 1e9 / times.bytes as f64;
        println!(
            "{:32} {:>10} {:>14.3} {:>14.3}",
            work.name,
            times.bytes,
            a_byte(times.proved),
            a_byte(times.second),
        );
    }
    Ok(())
}

/// Request #104: the long names in under five times the time of the short.
fn print_names(rounds: u32) -> Result<(), String> {
    let works = [250, 2].map(name_list);
    let best = read_all(&works, rounds)?;
    println!(
        "{:32} {:>10} {:>10} {:>10}",
        "read, by names", "bytes", "proved ms", "second ms"
    );
    for (work, times) in works.iter().zip(&best) {
        println!(
            "{:32} {:>10} {:>10.3} {:>10.3}",
            work.name,
            times.bytes,
            milliseconds(times.proved),
            milliseconds(times.second),
        );
    }
    println!(
        "{:32} {:>10} {:>10.2} {:>10.2}",
        "250 bytes to 2 bytes",
        "",
        ratio(best[0].proved, best[1].proved),
        ratio(best[0].second, best[1].second),
    );
    Ok(())
}

fn milliseconds(time: Duration) -> f64 {
    time.as_secs_f64() * 1e3
}

fn ratio(time: Duration, to: Duration) -> f64 {
    time.as_secs_f64() / to.as_secs_f64()
}
