//! What ranges cost a run.

use crate::best_time;
use differential::{Library, Ranging, Reference, ANSWER_NUMBERS};
use sheets::extremes::{deepest, widest};
use sheets::load::frame_sheet;
use sheets::ranges::numbers_of;
use sheets::request::Request;
use sheets::rng::Rng;

pub fn print() {
    println!();
    println!("a plain eager run and one over ranges, in microseconds");
    println!(
        "  {:10}{:>9}{:>12}{:>12}{:>9}{:>12}",
        "", "numbers", "run", "ranges", "times", "reference"
    );
    let sheets = [
        ("load", frame_sheet(0)),
        ("deepest", deepest()),
        ("widest", widest()),
    ];
    for (name, sheet) in sheets {
        print_line(name, &sheet);
    }
}

/// Of a run with checks in force, on a stack that grants all that principal 0
/// may use. The ranges are of one number each, what is written, so that both
/// runs do the same.
fn print_line(name: &str, sheet: &[u8]) {
    let request = Request::largest().with_start(&[0, u32::MAX]);
    let numbers = numbers_of(sheet);
    let pairs: Vec<u16> = numbers.iter().flat_map(|&number| [number; 2]).collect();
    let ranging = Ranging {
        sheet,
        pairs: &pairs,
        request: &request,
        enforce: 1,
    };
    let mut buffers = ranging.buffers(&mut Rng::new(0), ANSWER_NUMBERS);
    let plain = ranging.plainly(sheet);
    let run = best_time(|| {
        plain.of::<Library>(&mut buffers);
    });
    let over = best_time(|| {
        ranging.of::<Library>(&mut buffers);
    });
    let reference = best_time(|| {
        ranging.of::<Reference>(&mut buffers);
    });
    println!(
        "  {name:10}{:9}{:12.3}{:12.3}{:9.2}{:12.3}",
        numbers.len(),
        run * 1e6,
        over * 1e6,
        over / run,
        reference * 1e6
    );
}
