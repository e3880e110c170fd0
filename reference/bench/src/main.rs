//! Times the library against the reference: the same sheets, in one process,
//! by turns, the best of several rounds.

mod erasing;
mod explaining;
mod floor;
mod judging;
mod naming;
mod piecing;
mod placement;
mod ranging;
mod recording;
mod timing;
mod workload;

use differential::Entry;
use std::time::Instant;
use timing::Bench;
use workload::Workload;

const ENTRIES: [Entry; 4] = [
    Entry::Decode,
    Entry::Typecheck,
    Entry::RunEager,
    Entry::RunLazy,
];

fn main() {
    let mut bench = Bench::new();
    println!(
        "times in microseconds per sheet, best of {} rounds",
        timing::ROUNDS
    );
    println!("ratio: reference / library, at least 1 if the library is as fast");
    for workload in workload::all() {
        print_workload(&mut bench, &workload);
    }
    explaining::print();
    erasing::print();
    naming::print();
    piecing::print();
    judging::print();
    recording::print();
    ranging::print();
    floor::print();
}

fn print_workload(bench: &mut Bench, workload: &Workload) {
    println!();
    println!("{}", workload.name);
    println!(
        "  {:12}{:>12}{:>12}{:>9}",
        "", "library", "reference", "ratio"
    );
    for entry in ENTRIES {
        let times = bench.time(entry, workload);
        println!(
            "  {:12}{:12.3}{:12.3}{:9.2}",
            format!("{entry:?}"),
            times.library * 1e6,
            times.reference * 1e6,
            times.reference / times.library
        );
    }
}

/// Seconds for one piece of work, the best of several rounds of some.
fn best_time(mut work: impl FnMut()) -> f64 {
    const REPEATS: u32 = 100;
    (0..timing::ROUNDS)
        .map(|_| {
            let begun = Instant::now();
            for _ in 0..REPEATS {
                work();
            }
            begun.elapsed().as_secs_f64() / f64::from(REPEATS)
        })
        .fold(f64::INFINITY, f64::min)
}
