//! What it costs to tell whether a sheet names a privilege, beside what it
//! costs to read the sheet. The privilege asked for is one that no term names,
//! so that all terms are looked at.

use crate::best_time;
use differential::{Implementation, Library, Reference, ANSWER_NUMBERS};
use sheets::extremes::{deepest, longest, many_checks};
use sheets::load::{frame_sheet, guarded_frame_sheet};

pub fn print() {
    println!();
    println!("whether a sheet names a privilege, in microseconds");
    println!(
        "  {:12}{:>9}{:>12}{:>12}{:>9}{:>12}",
        "", "bytes", "decode", "names", "times", "reference"
    );
    let sheets = [
        ("load", frame_sheet(0)),
        ("guarded load", guarded_frame_sheet(0)),
        ("deepest", deepest()),
        ("longest", longest()),
        ("many checks", many_checks()),
    ];
    for (name, sheet) in sheets {
        let mut answer = [0; ANSWER_NUMBERS];
        let read = best_time(|| {
            Library::decode(&sheet, &mut answer);
        });
        let privilege = unnamed(&sheet);
        let [library, reference] = [
            time::<Library>(&sheet, privilege),
            time::<Reference>(&sheet, privilege),
        ];
        println!(
            "  {name:12}{:9}{:12.3}{:12.3}{:9.2}{:12.3}",
            sheet.len(),
            read * 1e6,
            library * 1e6,
            library / read,
            reference * 1e6
        );
    }
}

/// A privilege that the sheet doesn't name.
fn unnamed(sheet: &[u8]) -> u32 {
    let mut answer = [0; ANSWER_NUMBERS];
    let mut is_unnamed = |privilege: &u32| {
        Library::names(sheet, *privilege, &mut answer);
        answer == [0; ANSWER_NUMBERS]
    };
    let found = (0..32).find(|privilege| is_unnamed(privilege));
    found.expect("a privilege that no term names")
}

/// Seconds for one answer.
fn time<I: Implementation>(sheet: &[u8], privilege: u32) -> f64 {
    let mut answer = [0; ANSWER_NUMBERS];
    best_time(|| {
        I::names(sheet, privilege, &mut answer);
    })
}
