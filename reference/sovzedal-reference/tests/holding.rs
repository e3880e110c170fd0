//! W10: sums and differences that are held at a limit, and how many of them a
//! run tells.

use sheets::extremes::most_held;
use sheets::held;
use sheets::request::Request as Query;
use sheets::tree::*;
use sheets::{cases, hex};
use sovzedal_reference::registers::{Block, Loaded, RUN};
use sovzedal_reference::*;

/// Both runners must tell the same, by all their numbers.
fn run(sheet: &[u8], query: &Query, checks: Checks) -> Result<Run, Refusal> {
    let request = Request {
        start: &query.start,
        calls: query.calls,
        open_calls: query.open_calls,
        checks,
    };
    let (mut cells, mut posts) = (vec![9; query.cell_bytes], vec![9; query.posts]);
    let mut frames = vec![9; query.frame_numbers];
    let eager = run_eager(sheet, &request, &mut cells, &mut posts);
    let lazy = run_lazy(sheet, &request, &mut cells, &mut posts, &mut frames);
    assert_eq!(eager, lazy, "{}", hex(sheet));
    eager
}

/// An end's value or a stop's cause, and how many results were held.
#[derive(Clone, Copy, Debug, PartialEq, Eq)]
enum Summary {
    Number(u16, u32),
    Bool(bool, u32),
    Stop(u32, u32),
    Refused(u32),
}

use Summary::*;

fn summary(run: Result<Run, Refusal>) -> Summary {
    match run {
        Ok(Run { outcome, held, .. }) => match outcome {
            Outcome::End(Plain::Number(value)) => Number(value, held),
            Outcome::End(Plain::Bool(value)) => Bool(value, held),
            Outcome::Stop(stop) => Stop(stop.cause.number(), held),
        },
        Err(refusal) => Refused(refusal.cause.number()),
    }
}

#[test]
fn the_exact_result_is_past_a_limit_or_not() {
    let expected = [
        ("65,535 + 0", Number(65_535, 0)),
        ("32,767 + 32,768", Number(65_535, 0)),
        ("65,535 + 1", Number(65_535, 1)),
        ("1 + 65,535", Number(65_535, 1)),
        ("32,768 + 32,768", Number(65_535, 1)),
        ("65,535 + 65,535", Number(65_535, 1)),
        ("0 + 0", Number(0, 0)),
        ("7 - 7", Number(0, 0)),
        ("65,535 - 65,535", Number(0, 0)),
        ("7 - 8", Number(0, 1)),
        ("0 - 65,535", Number(0, 1)),
        ("65,535 - 0", Number(65_535, 0)),
        ("0 less 65,535", Bool(true, 0)),
        ("65,535 less 0", Bool(false, 0)),
        ("a held sum less the limit", Number(0, 1)),
        ("a held sum less one more", Number(0, 2)),
        ("a held difference and the limit", Number(65_535, 1)),
        ("three held sums", Number(65_535, 3)),
        ("three held differences", Number(0, 3)),
        ("in a condition", Number(3, 1)),
        ("in the branch that is chosen", Number(65_535, 1)),
        ("in the other branch", Number(4, 0)),
        ("in the yes-branch of a test", Number(0, 1)),
        ("posted", Number(65_535, 1)),
        ("in an argument and in the body", Number(65_535, 2)),
        ("in an argument alone", Number(0, 1)),
        ("in a body that isn't called", Number(2, 0)),
        ("in a body that calls itself", Number(0, 9)),
        ("stuck", Stop(18, 0)),
        ("stuck, difference", Stop(18, 0)),
        ("stuck after a held sum", Stop(18, 1)),
        ("stuck before a held sum", Stop(18, 1)),
        ("a post that is stuck", Stop(18, 2)),
        ("a check after a held sum", Stop(17, 1)),
        ("a check around a held sum", Stop(17, 0)),
        ("a call of what is no function", Stop(18, 1)),
        ("no open call", Stop(19, 1)),
        ("calls spent", Stop(20, 1)),
        ("no cell", Stop(21, 1)),
        ("no place for a post", Stop(22, 1)),
        ("turned back", Refused(14)),
    ];
    let all: Vec<_> = held::all()
        .iter()
        .map(|case| {
            let run = run(&case.sheet, &case.request, Checks::Enforced);
            (case.name, summary(run))
        })
        .collect();
    assert_eq!(all, expected);
}

/// Demand 3: where the needs are granted, checks don't matter to the count. Of
/// a check that refuses they do, since a run goes on that is stopped else.
#[test]
fn checks_passed_over() {
    for case in held::all() {
        let enforced = run(&case.sheet, &case.request, Checks::Enforced);
        let skipped = run(&case.sheet, &case.request, Checks::Skipped);
        match case.name {
            "a check after a held sum" => assert_eq!(summary(skipped), Number(65_535, 2)),
            "a check around a held sum" => assert_eq!(summary(skipped), Number(65_535, 1)),
            name => assert_eq!(enforced, skipped, "{name}"),
        }
    }
}

/// "ends and stops carry that count beside the calls": entry 7 of the answer,
/// and the end of the program's line.
#[test]
fn where_the_count_is_reported() {
    for case in held::all() {
        let run = run(&case.sheet, &case.request, Checks::Enforced);
        let reply = Reply::from(run);
        let due = run.map_or(0, |run| run.held);
        assert_eq!(reply.answer[7], due, "{}", case.name);
    }
    let held = cases::computing(sum(number(65_535), number(1)));
    let text = "terms 4\nneeds 00000000\ntype num\nend num 65535 calls 0 cells 0 posts 0 held 1\n";
    assert_eq!(report(&held), text);
    let stopped = sum(difference(number(3), number(5)), check(1, number(1)));
    let text = "terms 7\nneeds 00000002\ntype num\nstop 17 at 4 calls 0 cells 0 posts 0 held 1\n";
    assert_eq!(report(&cases::plain(&[2], sign(0, stopped))), text);
}

/// The register block has no place for the count: "the rest zero".
#[test]
fn a_block_does_not_tell_it() {
    let mut block = Block::new();
    let loaded = Loaded {
        sheet: &cases::computing(sum(number(65_535), number(1))),
        cells: &mut [0; MAX_CELL_BYTES],
        posts: &mut [0; MAX_POSTS],
    };
    let written = block.write(0, RUN, loaded);
    let mut due = [0; 16];
    (due[1], due[6], due[7]) = (1, 0xFF, 0xFF);
    assert_eq!(block.bytes, due);
    let reply = Reply::of_block(&block, written.map(|()| 0));
    assert_eq!(reply.answer, [0; 8]);
}

/// More than 16 bits hold.
#[test]
fn the_most_that_are_known() {
    let run = run(&most_held(), &Query::largest(), Checks::Enforced).unwrap();
    assert_eq!(run.outcome, Outcome::End(Plain::Number(65_535)));
    assert_eq!((run.calls, run.held), (4_095, 2_053_642));
    assert_eq!(decode(&most_held()).unwrap().terms.len(), 1_024);
    assert!(typecheck(&most_held()).is_ok());
}
