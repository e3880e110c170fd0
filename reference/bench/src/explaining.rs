//! What it costs to explain a need that is as deep as can be, beside what it
//! costs to judge the sheet.

use crate::best_time;
use differential::{ExplainCall, Implementation, Library, Reference, ANSWER_NUMBERS};
use sheets::extremes::{costly_need, deep_calls, deep_need, NEEDED};
use sheets::rng::Rng;

pub fn print() {
    println!();
    println!("explaining a need of a sheet with 1,024 terms, in microseconds");
    println!(
        "  {:12}{:>12}{:>12}{:>9}{:>12}",
        "", "typecheck", "explain", "times", "reference"
    );
    let sheets = [
        ("deep need", deep_need()),
        ("deep calls", deep_calls()),
        ("costly need", costly_need()),
    ];
    for (name, sheet) in sheets {
        let mut answer = [0; ANSWER_NUMBERS];
        let judged = best_time(|| {
            Library::typecheck(&sheet, &mut answer);
        });
        let [library, reference] = [time::<Library>(&sheet), time::<Reference>(&sheet)];
        println!(
            "  {name:12}{:12.3}{:12.3}{:9.1}{:12.3}",
            judged * 1e6,
            library * 1e6,
            library / judged,
            reference * 1e6
        );
    }
}

/// Seconds for one explanation.
fn time<I: Implementation>(sheet: &[u8]) -> f64 {
    let mut call = ExplainCall::fitting(&mut Rng::new(0));
    best_time(|| {
        call.ask::<I>(sheet, NEEDED.into());
    })
}
