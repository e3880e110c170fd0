//! What no runner can be faster than: the stores are all zero after a run.

use sheets::request::{FRAME_NUMBERS, MAX_CELL_BYTES};
use std::hint::black_box;
use std::time::Instant;

const REPEATS: u32 = 1_000;
const ROUNDS: u32 = 7;

pub fn print() {
    let cells = best_time(|cells: &mut Vec<u8>| cells.fill(0), vec![1; MAX_CELL_BYTES]);
    let frames = best_time(
        |frames: &mut Vec<u32>| frames.fill(0),
        vec![1; FRAME_NUMBERS],
    );
    println!();
    println!("clearing the stores once, in microseconds");
    println!("  {MAX_CELL_BYTES} bytes of cells {:9.3}", cells * 1e6);
    println!("  {FRAME_NUMBERS} frame numbers  {:9.3}", frames * 1e6);
}

/// Seconds for one `clear`.
fn best_time<T>(clear: impl Fn(&mut T), mut store: T) -> f64 {
    (0..ROUNDS)
        .map(|_| {
            let begun = Instant::now();
            for _ in 0..REPEATS {
                clear(black_box(&mut store));
            }
            begun.elapsed().as_secs_f64() / f64::from(REPEATS)
        })
        .fold(f64::INFINITY, f64::min)
}
