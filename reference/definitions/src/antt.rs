//! Entries as text that the checker reads.

use crate::row::{Buffers, Choosing, Compared, Entry, Query, Ranging, Row, Runner, Running};
use sovzedal_reference::{
    Checks, Comparison, Outcome, Piece, Plain, Range, RangeRun, Recorded, Refusal, Run, Stop,
    Truth, Verdict, FRAME_NUMBERS,
};
use std::fmt::Display;

/// What the rows are, and what the definitions have to do with them.
pub const TABLE: &str = include_str!("../templates/Table.template");

/// Some rows, with the theorem that the definitions give them.
const ROWS: &str = include_str!("../templates/Rows.template");

/// Some comparisons, with theirs.
const COMPARISONS: &str = include_str!("../templates/Comparisons.template");

/// A file of rows and their theorem.
pub fn theorem(entries: &[Entry]) -> String {
    let mut sheets = String::new();
    let (mut names, mut rows) = (Vec::new(), Vec::new());
    for (number, entry) in entries.iter().enumerate() {
        let name = format!("sheet{number}");
        let bytes = list(&entry.sheet);
        sheets += &format!("{name} : List ℕ\n{name} = {bytes}\n\n");
        rows.extend(
            entry
                .rows
                .iter()
                .map(|query| row(&name, &entry.sheet, query)),
        );
        names.push(name);
    }
    ROWS.replace("{sheets}\n", &sheets)
        .replace("{names}", &names.join(" "))
        .replace("{rows}", &rows.join(NEXT))
}

/// A file of comparisons and their theorem.
pub fn comparisons(compared: &[Compared]) -> String {
    let rows: Vec<String> = compared.iter().map(comparison).collect();
    COMPARISONS.replace("{rows}", &rows.join(NEXT))
}

/// Between two rows.
const NEXT: &str = "\n    ∷ ";

fn comparison(compared: &Compared) -> String {
    let answer = match compared.answer {
        Ok(Comparison::Fits { missing }) => format!("(fits {missing})"),
        Ok(Comparison::Diverges { entry }) => format!("(diverges {entry})"),
        Err(refusal) => refused(refusal),
    };
    let [unit, office] = [&compared.unit, &compared.office].map(|record| list(record));
    format!("holding {unit} {office} {answer}")
}

/// A row about the sheet of this name and these bytes.
fn row(sheet: &str, bytes: &[u8], row: &Row) -> String {
    match row {
        Row::Deciding(due) => format!("deciding {sheet} {}", verdict(*due)),
        Row::Running(run) => running(sheet, run),
        Row::Ranging(run) => ranging(sheet, run),
        Row::Choosing(Choosing { numbers, bytes }) => {
            format!("choosing {sheet} {} {}", list(numbers), list(bytes))
        }
        Row::Seeking(due) => format!("seeking {sheet} {}", piece(bytes, due)),
    }
}

fn running(sheet: &str, run: &Running) -> String {
    let (outcome, entries) = match run.answer {
        Ok(Recorded { run, entries }) => (ran(run), entries),
        Err(refusal) => (refused(refusal), 0),
    };
    format!(
        "running {sheet} {} {} {} (recorded_as (after {outcome} {}) {entries} {})",
        request(&run.query),
        buffers(&run.before),
        list(&run.before.record),
        buffers(&run.after),
        list(&run.after.record)
    )
}

fn ranging(sheet: &str, run: &Ranging) -> String {
    let outcome = match run.answer {
        Ok(run) => ran_over_ranges(run),
        Err(refusal) => refused(refusal),
    };
    format!(
        "ranging {sheet} {} {} {} (after {outcome} {})",
        list(&run.pairs),
        request(&run.query),
        buffers(&run.before),
        buffers(&run.after)
    )
}

/// A piece of this sheet, and its record.
fn piece(sheet: &[u8], piece: &Result<Option<Piece>, Refusal>) -> String {
    match piece {
        Ok(Some(piece)) => format!(
            "(smallest {} {} {} {}) {}",
            piece.term,
            piece.count,
            piece.fault.number(),
            // The fault is the piece's own.
            piece.term,
            list(piece.record_in(sheet))
        ),
        Ok(None) => "no_piece []".to_string(),
        Err(refusal) => format!("(unreadable {}) []", cause_and_place(*refusal)),
    }
}

fn verdict(verdict: Result<Verdict, Refusal>) -> String {
    match verdict {
        Ok(Verdict { terms, ty, needs }) => format!("(accepted {terms} {ty} {})", needs.bits()),
        Err(refusal) => format!("(rejected {})", cause_and_place(refusal)),
    }
}

fn cause_and_place(refusal: Refusal) -> String {
    format!("{} {}", refusal.cause.number(), refusal.place)
}

fn request(query: &Query) -> String {
    let runner = match query.runner {
        Runner::Eager => "eager",
        Runner::Lazy => "lazy",
    };
    let request = &query.request;
    format!(
        "(request_of {runner} {} {} {} {})",
        query.checks == Checks::Enforced,
        list(&request.start),
        request.calls,
        request.open_calls
    )
}

fn buffers(buffers: &Buffers) -> String {
    format!(
        "(buffers_of {} {} {})",
        list(&buffers.cells),
        list(&buffers.posts),
        frames(&buffers.frames)
    )
}

/// The usual frame stores have names in [`ROWS`].
fn frames(numbers: &[u32]) -> String {
    if numbers == [9; FRAME_NUMBERS] {
        "frames9".to_string()
    } else if numbers == [0; FRAME_NUMBERS] {
        "frames0".to_string()
    } else {
        list(numbers)
    }
}

fn ran(run: Run) -> String {
    format!(
        "(ran {} (counted {} {} {} {}))",
        outcome(
            run.outcome,
            |value| value.to_string(),
            |number| number.to_string()
        ),
        run.calls,
        run.cells,
        run.posts,
        run.held
    )
}

/// Held results aren't counted.
fn ran_over_ranges(run: RangeRun) -> String {
    format!(
        "(ran {} (counted {} {} {} 0))",
        outcome(run.outcome, truth, range),
        run.calls,
        run.cells,
        run.posts
    )
}

fn truth(truth: Truth) -> String {
    match truth {
        Truth::No => "(some false)",
        Truth::Yes => "(some true)",
        Truth::Undecided => "none",
    }
    .to_string()
}

fn range(range: Range) -> String {
    format!("(interval {} {})", range.lowest, range.highest)
}

fn refused(refusal: Refusal) -> String {
    format!("(refused {})", cause_and_place(refusal))
}

/// An outcome whose values are written thus.
fn outcome<B, N>(
    outcome: Outcome<Plain<B, N>>,
    truth: fn(B) -> String,
    number: fn(N) -> String,
) -> String {
    match outcome {
        Outcome::End(Plain::Bool(value)) => format!("(ended (ground_bool {}))", truth(value)),
        Outcome::End(Plain::Number(value)) => format!("(ended (ground_num {}))", number(value)),
        Outcome::Stop(Stop { cause, term }) => format!("(stopped {} {term})", cause.number()),
    }
}

/// The numbers one by one, or how many there are if they are many and equal.
fn list<T: Copy + Display + PartialEq>(numbers: &[T]) -> String {
    const MANY: usize = 8;
    match numbers {
        [] => "[]".to_string(),
        [first, rest @ ..] if rest.len() >= MANY && rest.iter().all(|number| number == first) => {
            format!("(replicate {} {first})", numbers.len())
        }
        _ => {
            let links: String = numbers
                .iter()
                .map(|number| format!("{number} ∷ "))
                .collect();
            format!("({links}[])")
        }
    }
}

#[cfg(test)]
mod tests {
    use super::*;
    use sheets::cases;
    use sheets::pairs::{Made, Pair};
    use sheets::request::Request;
    use sheets::tree::*;
    use sovzedal_reference::decode;

    #[test]
    fn a_run_is_requested_and_answered() {
        let request = Request {
            posts: 2,
            cell_bytes: 20,
            ..Request::largest()
        };
        let query = Query {
            runner: Runner::Eager,
            checks: Checks::Enforced,
            request,
            record: 6,
        };
        let entry = Entry::answered(cases::posting(2), [query]);
        let rows: Vec<String> = entry
            .rows
            .iter()
            .map(|query| row("s", &entry.sheet, query))
            .collect();
        assert_eq!(
            rows,
            [
                "deciding s (accepted 5 1 0)",
                "running s (request_of eager true [] 4096 100) \
                 (buffers_of (replicate 20 7) (8 ∷ 8 ∷ []) (9 ∷ [])) \
                 (6 ∷ 6 ∷ 6 ∷ 6 ∷ 6 ∷ 6 ∷ []) \
                 (recorded_as (after (ran (ended (ground_num 7)) (counted 0 0 1 0)) \
                 (buffers_of (replicate 20 0) (7 ∷ 8 ∷ []) (9 ∷ []))) \
                 1 (0 ∷ 2 ∷ 1 ∷ 1 ∷ 6 ∷ 6 ∷ []))",
            ]
        );
    }

    #[test]
    fn a_run_over_ranges_is_requested_and_answered() {
        let answered = |tree, pairs: &[u16]| {
            let request = Request {
                posts: 2,
                cell_bytes: 9,
                ..Request::largest()
            };
            let sheet = cases::computing(tree);
            let run = Ranging::answered(&sheet, pairs.to_vec(), Checks::Skipped, request);
            ranging("s", &run)
        };
        let before = "(request_of eager false [] 4096 100) \
                      (buffers_of (replicate 9 7) (8 ∷ 8 ∷ []) (9 ∷ []))";
        assert_eq!(
            answered(post(sum(number(7), number(7))), &[1, 2, 3, 9]),
            format!(
                "ranging s (1 ∷ 2 ∷ 3 ∷ 9 ∷ []) {before} \
                 (after (ran (ended (ground_num (interval 4 11))) (counted 0 0 1 0)) \
                 (buffers_of (replicate 9 0) (262155 ∷ 8 ∷ []) (9 ∷ [])))"
            )
        );
        assert_eq!(
            answered(less(number(7), number(7)), &[1, 3, 3, 9]),
            format!(
                "ranging s (1 ∷ 3 ∷ 3 ∷ 9 ∷ []) {before} \
                 (after (ran (ended (ground_bool none)) (counted 0 0 0 0)) \
                 (buffers_of (replicate 9 0) (8 ∷ 8 ∷ []) (9 ∷ [])))"
            )
        );
        assert_eq!(
            answered(number(7), &[2, 1]),
            format!(
                "ranging s (2 ∷ 1 ∷ []) {before} \
                 (after (refused 35 0) (buffers_of (replicate 9 7) (8 ∷ 8 ∷ []) (9 ∷ [])))"
            )
        );
    }

    #[test]
    fn numbers_are_chosen() {
        let sheet = |number_of| cases::computing(post(number(number_of)));
        let bytes = sheet(7);
        let chosen = Choosing::answered(&decode(&bytes).unwrap(), &bytes, vec![515, 9, 9]);
        assert_eq!(chosen.bytes, sheet(515));
        let due = list(&sheet(515));
        assert_eq!(
            row("s", &bytes, &Row::Choosing(chosen)),
            format!("choosing s (515 ∷ 9 ∷ 9 ∷ []) {due}")
        );
    }

    #[test]
    fn a_piece_is_sought() {
        let sought = |sheet: Vec<u8>| {
            let entry = Entry::with_piece(sheet);
            row("s", &entry.sheet, &entry.rows[1])
        };
        let faulty = cases::computing(sum(number(1), variable(77)));
        assert_eq!(
            sought(faulty),
            "seeking s (smallest 1 1 9 1) (2 ∷ 0 ∷ 0 ∷ 77 ∷ 0 ∷ 0 ∷ 0 ∷ 0 ∷ [])"
        );
        assert_eq!(sought(cases::posting(2)), "seeking s no_piece []");
        assert_eq!(sought(Vec::new()), "seeking s (unreadable 1 0) []");
    }

    #[test]
    fn records_are_compared() {
        let row = |unit: &[u8], office: &[u8]| {
            comparison(&Compared::answered(Pair {
                unit: unit.to_vec(),
                office: office.to_vec(),
                made: Made::Otherwise,
            }))
        };
        let entry = [0, 2, 1, 1];
        assert_eq!(row(&[], &entry), "holding [] (0 ∷ 2 ∷ 1 ∷ 1 ∷ []) (fits 1)");
        assert_eq!(
            row(&entry, &[]),
            "holding (0 ∷ 2 ∷ 1 ∷ 1 ∷ []) [] (diverges 0)"
        );
        assert_eq!(row(&[], &[0]), "holding [] (0 ∷ []) (refused 34 0)");
    }

    #[test]
    fn many_equal_numbers_are_counted() {
        assert_eq!(list::<u8>(&[]), "[]");
        assert_eq!(list(&[3, 3]), "(3 ∷ 3 ∷ [])");
        assert_eq!(list(&[3; 9]), "(replicate 9 3)");
    }
}
