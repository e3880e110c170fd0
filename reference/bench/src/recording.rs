//! What a record costs a run.

use crate::best_time;
use differential::{Buffers, Entry, Library, Query, Recording, Reference};
use differential::{ANSWER_NUMBERS, RECORD_NUMBERS};
use sheets::extremes::{deepest, many_checks};
use sheets::load::{frame_sheet, guarded_frame_sheet};
use sheets::request::Request;
use sheets::rng::Rng;

/// Room for all that these sheets decide.
const ROOM: usize = 1 << 16;

pub fn print() {
    println!();
    println!("a run without a record and with one, in microseconds");
    println!(
        "  {:14}{:10}{:>9}{:>12}{:>12}{:>9}{:>12}",
        "", "", "entries", "run", "record", "times", "reference"
    );
    let sheets = [
        ("load", frame_sheet(0)),
        ("guarded load", guarded_frame_sheet(0)),
        ("deepest", deepest()),
        ("many checks", many_checks()),
    ];
    for (name, sheet) in sheets {
        for entry in [Entry::RunEager, Entry::RunLazy] {
            print_line(name, &sheet, entry);
        }
    }
}

/// Of a run with checks in force, on a stack that grants all that principal 0
/// may use.
fn print_line(name: &str, sheet: &[u8], entry: Entry) {
    let request = Request::largest().with_start(&[0, u32::MAX]);
    let query = Query {
        entry,
        sheet,
        request: &request,
        enforce: 1,
    };
    let rng = &mut Rng::new(0);
    let mut buffers = Buffers::random(rng, entry, &request, ANSWER_NUMBERS);
    let run = best_time(|| {
        query.of::<Library>(&mut buffers);
    });
    let mut recording = Recording::random(rng, &query, ROOM, RECORD_NUMBERS);
    let recorded = best_time(|| {
        recording.ask::<Library>(&query);
    });
    let entries = recording.answer().expect("the answer has room")[ANSWER_NUMBERS];
    let reference = best_time(|| {
        recording.ask::<Reference>(&query);
    });
    println!(
        "  {name:14}{:10}{entries:9}{:12.3}{:12.3}{:9.2}{:12.3}",
        format!("{entry:?}"),
        run * 1e6,
        recorded * 1e6,
        recorded / run,
        reference * 1e6
    );
}
