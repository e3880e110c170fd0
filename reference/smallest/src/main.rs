//! Prints for each cause the smallest sheet known to reach it, with what the
//! checking program prints for it. Causes that the program cannot print are
//! shown by a run.

use sheets::hex;
use sheets::request::Request as Query;
use sheets::smallest::{all, Smallest};
use sovzedal_reference::{report, run_eager, Checks, Reply, Request};

/// A request the program never makes, and a stop that no accepted sheet has.
const NEVER_PRINTED: [u32; 4] = [14, 15, 16, 18];

fn main() {
    for case in all() {
        println!("cause {}, {} bytes", case.cause, case.sheet.len());
        println!("  sheet   {}", hex(&case.sheet));
        for line in report(&case.sheet).lines() {
            println!("  prints  {line}");
        }
        if NEVER_PRINTED.contains(&case.cause) {
            print_run(&case);
        }
    }
}

fn print_run(case: &Smallest) {
    let Query {
        start,
        calls,
        open_calls,
        cell_bytes,
        posts,
        ..
    } = &case.request;
    println!("  request start {start:?}, calls {calls}, open calls {open_calls}, {cell_bytes} bytes of cells, {posts} posts");
    let request = Request {
        start,
        calls: *calls,
        open_calls: *open_calls,
        checks: Checks::Enforced,
    };
    let (mut cells, mut posts) = (vec![0; *cell_bytes], vec![0; *posts]);
    let run = run_eager(&case.sheet, &request, &mut cells, &mut posts);
    println!("  answer  {}", in_words(run.into()));
}

fn in_words(reply: Reply) -> String {
    let [cause, place, _, value, calls, cells, posts, held] = reply.answer;
    let counts = format!("calls {calls} cells {cells} posts {posts} held {held}");
    match reply.status {
        0 => format!("end {value} {counts}"),
        1 => format!("stop {cause} at {place} {counts}"),
        _ => format!("refused {cause} at {place}"),
    }
}
