//! What it costs to judge a single term, beside what it costs to judge the sheet.
//! Each call decodes the sheet and looks for the term from the root on.

use crate::best_time;
use differential::{Implementation, Library, Reference, ANSWER_NUMBERS};
use sheets::extremes::{costly_branches, deepest, widest};
use sheets::load::frame_sheet;
use sovzedal_reference::{decode, Sheet, TermId};

pub fn print() {
    println!();
    println!("the judgement of a single term of a sheet, in microseconds");
    println!(
        "  {:16}{:>6}{:>12}{:>12}{:>9}{:>12}",
        "", "term", "typecheck", "term", "times", "reference"
    );
    let sheets = [
        ("load", frame_sheet(0)),
        ("deepest", deepest()),
        ("widest", widest()),
        ("costly branches", costly_branches()),
    ];
    for (name, sheet) in sheets {
        let terms = decode(&sheet).expect("a readable sheet");
        for term in [0, last_in_tree(&terms), terms.root()] {
            print_line(name, &sheet, term.into());
        }
    }
}

/// The last child of the last child, down from the root.
fn last_in_tree(sheet: &Sheet) -> TermId {
    let mut term = sheet.root();
    while let Some(child) = sheet.term(term).children().last() {
        term = child;
    }
    term
}

fn print_line(name: &str, sheet: &[u8], number: u32) {
    let mut answer = [0; ANSWER_NUMBERS];
    let judged = best_time(|| {
        Library::typecheck(sheet, &mut answer);
    });
    let [library, reference] = [
        time::<Library>(sheet, number),
        time::<Reference>(sheet, number),
    ];
    println!(
        "  {name:16}{number:6}{:12.3}{:12.3}{:9.2}{:12.3}",
        judged * 1e6,
        library * 1e6,
        library / judged,
        reference * 1e6
    );
}

/// Seconds for one judgement.
fn time<I: Implementation>(sheet: &[u8], number: u32) -> f64 {
    let mut answer = [0; ANSWER_NUMBERS];
    best_time(|| {
        I::term(sheet, number, &mut answer);
    })
}
