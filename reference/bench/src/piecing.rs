//! What it costs to find the smallest faulty piece, beside what it costs to
//! judge the sheet. Of an accepted sheet both judge every term. Of a refused one
//! the judge stops at the first fault, and the search doesn't.

use crate::best_time;
use differential::{Implementation, Library, Reference, ANSWER_NUMBERS};
use sheets::extremes::{costly_branches, costly_fault, deepest, late_fault, widest};
use sheets::load::frame_sheet;
use std::time::Instant;

pub fn print() {
    println!();
    println!("the smallest faulty piece of a sheet, in microseconds");
    println!(
        "  {:16}{:>9}{:>12}{:>12}{:>9}{:>12}",
        "", "bytes", "typecheck", "piece", "times", "reference"
    );
    let sheets = [
        ("load", frame_sheet(0)),
        ("deepest", deepest()),
        ("widest", widest()),
        ("late fault", late_fault()),
        ("costly branches", costly_branches()),
        ("costly fault", costly_fault()),
    ];
    for (name, sheet) in sheets {
        let mut answer = [0; ANSWER_NUMBERS];
        let judged = best_time(|| {
            Library::typecheck(&sheet, &mut answer);
        });
        let found = best_time(|| {
            Library::piece(&sheet, &mut answer);
        });
        println!(
            "  {name:16}{:9}{:12.3}{:12.3}{:9.2}{:12.3}",
            sheet.len(),
            judged * 1e6,
            found * 1e6,
            found / judged,
            once(&sheet) * 1e6
        );
    }
}

/// Seconds for one search by the reference, which judges a term anew for each
/// term around it and so takes its time.
fn once(sheet: &[u8]) -> f64 {
    let mut answer = [0; ANSWER_NUMBERS];
    let begun = Instant::now();
    Reference::piece(sheet, &mut answer);
    begun.elapsed().as_secs_f64()
}
