//! What it costs to make a sheet lean, beside what it costs to judge it, and
//! what a run of the lean sheet saves.

use crate::best_time;
use differential::ANSWER_NUMBERS;
use differential::{Buffers, Entry, EraseCall, Implementation, Library, Query, Reference};
use sheets::extremes::{deepest, many_checks, most_types, widest};
use sheets::load::frame_sheet;
use sheets::request::Request;
use sheets::rng::Rng;

pub fn print() {
    println!();
    println!("making a sheet lean and running it, in microseconds");
    println!(
        "  {:12}{:>9}{:>9}{:>12}{:>12}{:>9}{:>12}{:>12}{:>12}",
        "", "bytes", "lean", "typecheck", "erase", "times", "reference", "run", "run lean"
    );
    let sheets = [
        ("load", frame_sheet(0)),
        ("deepest", deepest()),
        ("widest", widest()),
        ("most types", most_types()),
        ("many checks", many_checks()),
    ];
    for (name, sheet) in sheets {
        print_line(name, &sheet);
    }
}

fn print_line(name: &str, sheet: &[u8]) {
    let mut answer = [0; ANSWER_NUMBERS];
    let judged = best_time(|| {
        Library::typecheck(sheet, &mut answer);
    });
    let mut call = EraseCall::fitting(&mut Rng::new(0), sheet);
    let erased = best_time(|| {
        call.ask::<Library>(sheet);
    });
    let lean = call.result().to_vec();
    let reference = best_time(|| {
        call.ask::<Reference>(sheet);
    });
    let [run, run_lean] = [sheet, &lean].map(run_time);
    println!(
        "  {name:12}{:9}{:9}{:12.3}{:12.3}{:9.1}{:12.3}{:12.3}{:12.3}",
        sheet.len(),
        lean.len(),
        judged * 1e6,
        erased * 1e6,
        erased / judged,
        reference * 1e6,
        run * 1e6,
        run_lean * 1e6
    );
}

/// Seconds for an eager run with checks in force, on a stack that grants all
/// that principal 0 may use.
fn run_time(sheet: &[u8]) -> f64 {
    let request = Request::largest().with_start(&[0, u32::MAX]);
    let entry = Entry::RunEager;
    let mut buffers = Buffers::random(&mut Rng::new(0), entry, &request, ANSWER_NUMBERS);
    let query = Query {
        entry,
        sheet,
        request: &request,
        enforce: 1,
    };
    best_time(|| {
        query.of::<Library>(&mut buffers);
    })
}
