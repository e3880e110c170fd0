//! Prints how much native stack the deepest runs use: 100 open calls, each
//! made from as deep as nesting allows, through terms of one kind; what such a
//! run uses with fewer open calls, with a record, over ranges, by a write to a
//! register block, and as a job of the four lines; and what it takes to explain
//! a need, to make a sheet lean, to tell whether it names a privilege, to find
//! its smallest faulty piece and to judge its terms one by one.

mod paint;

use differential::{
    BlockCall, Buffers, Entry, EraseCall, ExplainCall, Implementation, Library, LinesCall, Query,
    Ranging, Recording, Reference, ANSWER_NUMBERS, RECORD_NUMBERS,
};
use sheets::extremes::{costly_branches, costly_fault, costly_need, deep_calls, deep_need};
use sheets::extremes::{
    deepest, endless_through, longest, many_checks, most_types, widest, NEEDED,
};
use sheets::lines::{Job, STATE_NUMBERS};
use sheets::ranges::numbers_of;
use sheets::request::{Request, MAX_CALLS, MAX_OPEN_CALLS, MAX_POSTS};
use sheets::rng::Rng;
use sheets::session::{Access, BLOCK_BYTES};
use sheets::tree::Kind;

/// Kinds that a call can stand in and be evaluated within.
const KINDS: [Kind; 11] = [
    Kind::Letrec,
    Kind::Call,
    Kind::If,
    Kind::Check,
    Kind::Enable,
    Kind::Sign,
    Kind::Test,
    Kind::Sum,
    Kind::Difference,
    Kind::Less,
    Kind::Post,
];

fn main() {
    println!("bytes of native stack");
    println!("{:12}{:>24}{:>24}", "", Library::NAME, Reference::NAME);
    println!(
        "{:12}{:>12}{:>12}{:>12}{:>12}",
        "through", "eager", "lazy", "eager", "lazy"
    );
    let mut most = [0; 4];
    for kind in KINDS {
        let used = measure(&endless_through(kind), MAX_OPEN_CALLS);
        print_line(&format!("{kind:?}"), used);
        for (most, used) in most.iter_mut().zip(used) {
            *most = used.max(*most);
        }
    }
    print_line("most", most);
    print_line("bench", measure(&deepest(), MAX_OPEN_CALLS));
    println!("through calls, with so many open");
    for open_calls in [0, 1, 10, 50, MAX_OPEN_CALLS] {
        let used = measure(&endless_through(Kind::Call), open_calls);
        print_line(&open_calls.to_string(), used);
    }
    println!("through calls, by a register block");
    let sheet = endless_through(Kind::Call);
    println!(
        "{:12}{:12}{:24}",
        "eager",
        used_by_block::<Library>(&sheet),
        used_by_block::<Reference>(&sheet)
    );
    println!("through calls, as a job of the four lines");
    println!(
        "{:12}{:12}{:24}",
        "eager",
        used_by_job::<Library>(&sheet),
        used_by_job::<Reference>(&sheet)
    );
    println!("through calls, with a record");
    for entry in [Entry::RunEager, Entry::RunLazy] {
        println!(
            "{:12}{:12}{:24}",
            format!("{entry:?}"),
            used_to_record::<Library>(&sheet, entry, MAX_OPEN_CALLS),
            used_to_record::<Reference>(&sheet, entry, MAX_OPEN_CALLS)
        );
    }
    println!("through each, over ranges");
    for kind in KINDS {
        let sheet = endless_through(kind);
        println!(
            "{:12}{:12}{:24}",
            format!("{kind:?}"),
            used_over_ranges::<Library>(&sheet, MAX_OPEN_CALLS),
            used_over_ranges::<Reference>(&sheet, MAX_OPEN_CALLS)
        );
    }
    println!("explaining a need");
    for (name, sheet) in needing() {
        println!(
            "{name:12}{:12}{:24}",
            used_to_explain::<Library>(&sheet),
            used_to_explain::<Reference>(&sheet)
        );
    }
    println!("making a sheet lean");
    for (name, sheet) in erasable() {
        println!(
            "{name:12}{:12}{:24}",
            used_to_erase::<Library>(&sheet),
            used_to_erase::<Reference>(&sheet)
        );
    }
    println!("telling whether a sheet names a privilege");
    println!(
        "{:12}{:12}{:24}",
        "longest",
        used_to_name::<Library>(&longest()),
        used_to_name::<Reference>(&longest())
    );
    println!("finding the smallest faulty piece");
    for (name, sheet) in judged() {
        println!(
            "{name:12}{:12}{:24}",
            used_to_find::<Library>(&sheet),
            used_to_find::<Reference>(&sheet)
        );
    }
    println!("judging every term by itself");
    for (name, sheet) in judged() {
        println!(
            "{name:12}{:12}{:24}",
            used_to_judge::<Library>(&sheet),
            used_to_judge::<Reference>(&sheet)
        );
    }
}

/// Sheets that are judged as deep as can be.
fn judged() -> [(&'static str, Vec<u8>); 4] {
    [
        ("deepest", deepest()),
        ("deep", deep_need()),
        ("branches", costly_branches()),
        ("fault", costly_fault()),
    ]
}

/// Sheets that have a lean form, with as much of something as there can be.
fn erasable() -> [(&'static str, Vec<u8>); 4] {
    [
        ("deepest", deepest()),
        ("widest", widest()),
        ("types", most_types()),
        ("checks", many_checks()),
    ]
}

/// Sheets whose need is as deep as can be.
fn needing() -> [(&'static str, Vec<u8>); 3] {
    [
        ("deep", deep_need()),
        ("calls", deep_calls()),
        ("costly", costly_need()),
    ]
}

fn print_line(name: &str, [a, b, c, d]: [usize; 4]) {
    println!("{name:12}{a:12}{b:12}{c:12}{d:12}");
}

fn measure(sheet: &[u8], open_calls: u32) -> [usize; 4] {
    [
        used_by::<Library>(sheet, Entry::RunEager, open_calls),
        used_by::<Library>(sheet, Entry::RunLazy, open_calls),
        used_by::<Reference>(sheet, Entry::RunEager, open_calls),
        used_by::<Reference>(sheet, Entry::RunLazy, open_calls),
    ]
}

/// A run with the largest allowances but for the open calls, on a stack that
/// grants what the sheets check.
fn used_by<I: Implementation>(sheet: &[u8], entry: Entry, open_calls: u32) -> usize {
    let request = Request {
        open_calls,
        ..Request::largest().with_start(&[0, u32::MAX])
    };
    let mut buffers = Buffers::random(&mut Rng::new(0), entry, &request, ANSWER_NUMBERS);
    let query = Query {
        entry,
        sheet,
        request: &request,
        enforce: 1,
    };
    paint::stack_used(|| {
        query.of::<I>(&mut buffers);
    })
}

/// The same run with a record that has room for all that is decided.
fn used_to_record<I: Implementation>(sheet: &[u8], entry: Entry, open_calls: u32) -> usize {
    let request = Request {
        open_calls,
        ..Request::largest().with_start(&[0, u32::MAX])
    };
    let query = Query {
        entry,
        sheet,
        request: &request,
        enforce: 1,
    };
    let mut recording = Recording::random(&mut Rng::new(0), &query, 1 << 16, RECORD_NUMBERS);
    paint::stack_used(|| {
        recording.ask::<I>(&query);
    })
}

/// The same eager run over ranges, of one number each, what is written.
fn used_over_ranges<I: Implementation>(sheet: &[u8], open_calls: u32) -> usize {
    let request = Request {
        open_calls,
        ..Request::largest().with_start(&[0, u32::MAX])
    };
    let numbers = numbers_of(sheet).into_iter();
    let pairs: Vec<u16> = numbers.flat_map(|number| [number; 2]).collect();
    let ranging = Ranging {
        sheet,
        pairs: &pairs,
        request: &request,
        enforce: 1,
    };
    let mut buffers = ranging.buffers(&mut Rng::new(0), ANSWER_NUMBERS);
    paint::stack_used(|| {
        ranging.of::<I>(&mut buffers);
    })
}

/// A write to a register block that runs the sheet, on the empty stack, with
/// 4,096 calls allowed.
fn used_by_block<I: Implementation>(sheet: &[u8]) -> usize {
    let mut block = [0; BLOCK_BYTES];
    block[4] = 0x10;
    let mut call = BlockCall::random(&mut Rng::new(0), &block);
    paint::stack_used(|| {
        call.access::<I>(Access::RUN, sheet);
    })
}

/// The turn of a job that is the sheet, on the empty stack, with 4,096 calls
/// allowed.
fn used_by_job<I: Implementation>(sheet: &[u8]) -> usize {
    let mut call = LinesCall::random(&mut Rng::new(0), &[0; STATE_NUMBERS], MAX_POSTS);
    let job = Job {
        offset: 0,
        length: sheet.len() as u64,
        calls: MAX_CALLS,
    };
    call.add::<I>(0, job, sheet);
    paint::stack_used(|| {
        call.serve::<I>(sheet, MAX_POSTS);
    })
}

fn used_to_explain<I: Implementation>(sheet: &[u8]) -> usize {
    let mut call = ExplainCall::fitting(&mut Rng::new(0));
    paint::stack_used(|| {
        call.ask::<I>(sheet, NEEDED.into());
    })
}

fn used_to_erase<I: Implementation>(sheet: &[u8]) -> usize {
    let mut call = EraseCall::fitting(&mut Rng::new(0), sheet);
    paint::stack_used(|| {
        call.ask::<I>(sheet);
    })
}

fn used_to_name<I: Implementation>(sheet: &[u8]) -> usize {
    let mut answer = [0; ANSWER_NUMBERS];
    paint::stack_used(|| {
        I::names(sheet, NEEDED.into(), &mut answer);
    })
}

/// The search for a piece, which goes down to every term.
fn used_to_find<I: Implementation>(sheet: &[u8]) -> usize {
    let mut answer = [0; ANSWER_NUMBERS];
    paint::stack_used(|| {
        I::piece(sheet, &mut answer);
    })
}

/// The most for any term, one that there isn't among them.
fn used_to_judge<I: Implementation>(sheet: &[u8]) -> usize {
    let mut answer = [0; ANSWER_NUMBERS];
    I::decode(sheet, &mut answer);
    let [_, _, _, terms, ..] = answer;
    paint::stack_used(|| {
        for term in 0..=terms {
            I::term(sheet, term, &mut answer);
        }
    })
}

#[cfg(test)]
mod tests {
    use super::*;

    /// What `include/sovzedal.h` gives for a name.
    fn header(name: &str) -> usize {
        let header = concat!(env!("CARGO_MANIFEST_DIR"), "/../../include/sovzedal.h");
        let text = std::fs::read_to_string(header).unwrap();
        let line = text
            .lines()
            .find_map(|line| line.trim().strip_prefix(name)?.trim().strip_prefix('='))
            .unwrap();
        line.trim().trim_end_matches(',').parse().unwrap()
    }

    #[test]
    fn runs_stay_within_what_the_header_says() {
        let (base, per_call) = (
            header("SOVZEDAL_STACK_BASE "),
            header("SOVZEDAL_STACK_PER_CALL "),
        );
        let most = base + MAX_OPEN_CALLS as usize * per_call;
        assert_eq!(header("SOVZEDAL_STACK "), most);
        for kind in KINDS {
            let sheet = endless_through(kind);
            for open_calls in [0, 1, 10, MAX_OPEN_CALLS] {
                let allowed = base + open_calls as usize * per_call;
                for entry in [Entry::RunEager, Entry::RunLazy] {
                    let used = used_by::<Library>(&sheet, entry, open_calls);
                    assert!(used <= allowed, "{kind:?} {entry:?} {open_calls}: {used}");
                    let used = used_to_record::<Library>(&sheet, entry, open_calls);
                    let what = "with a record";
                    assert!(
                        used <= allowed,
                        "{kind:?} {entry:?} {open_calls} {what}: {used}"
                    );
                }
                let used = used_over_ranges::<Library>(&sheet, open_calls);
                assert!(
                    used <= allowed,
                    "{kind:?} over ranges, {open_calls}: {used}"
                );
            }
            let used = used_by_block::<Library>(&sheet);
            assert!(used <= most, "{kind:?} by a register block: {used}");
            let used = used_by_job::<Library>(&sheet);
            assert!(used <= most, "{kind:?} as a job of the four lines: {used}");
        }
    }

    /// That takes far less than any run.
    #[test]
    fn explanations_stay_within_what_a_run_without_calls_may_use() {
        let base = header("SOVZEDAL_STACK_BASE ");
        let through = KINDS.map(endless_through);
        let deep = needing().map(|(_, sheet)| sheet);
        for sheet in through.iter().chain(&deep) {
            let used = used_to_explain::<Library>(sheet);
            assert!(used <= base, "{used}, {base} are allowed");
        }
    }

    /// So does this.
    #[test]
    fn lean_sheets_are_written_within_what_a_run_without_calls_may_use() {
        let base = header("SOVZEDAL_STACK_BASE ");
        for (name, sheet) in erasable() {
            let used = used_to_erase::<Library>(&sheet);
            assert!(used <= base, "{name}: {used}, {base} are allowed");
        }
    }

    /// And this.
    #[test]
    fn names_are_sought_within_what_a_run_without_calls_may_use() {
        let base = header("SOVZEDAL_STACK_BASE ");
        let used = used_to_name::<Library>(&longest());
        assert!(used <= base, "{used}, {base} are allowed");
    }

    /// And this, though it goes down to every term.
    #[test]
    fn pieces_are_found_within_what_a_run_without_calls_may_use() {
        let base = header("SOVZEDAL_STACK_BASE ");
        let through = KINDS.map(endless_through);
        let deep = judged().map(|(_, sheet)| sheet);
        for sheet in through.iter().chain(&deep) {
            let used = used_to_find::<Library>(sheet);
            assert!(used <= base, "{used}, {base} are allowed");
        }
    }

    /// And so does this.
    #[test]
    fn terms_are_judged_within_what_a_run_without_calls_may_use() {
        let base = header("SOVZEDAL_STACK_BASE ");
        let through = KINDS.map(endless_through);
        let deep = judged().map(|(_, sheet)| sheet);
        for sheet in through.iter().chain(&deep) {
            let used = used_to_judge::<Library>(sheet);
            assert!(used <= base, "{used}, {base} are allowed");
        }
    }
}
