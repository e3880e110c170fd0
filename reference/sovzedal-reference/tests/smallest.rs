//! Each of the smallest sheets reaches its cause.

use sheets::smallest::{all, Smallest};
use sovzedal_reference::{run_eager, typecheck, Checks, Outcome, Request};

#[test]
fn each_sheet_reaches_its_cause() {
    for case in all() {
        assert_eq!(
            cause_of(&case),
            case.cause,
            "smallest sheet for {}",
            case.cause
        );
    }
}

fn cause_of(case: &Smallest) -> u32 {
    if let 1..=13 | 24..=26 | 31 = case.cause {
        return typecheck(&case.sheet).unwrap_err().cause.number();
    }
    let request = Request {
        start: &case.request.start,
        calls: case.request.calls,
        open_calls: case.request.open_calls,
        checks: Checks::Enforced,
    };
    let mut cells = vec![0; case.request.cell_bytes];
    let mut posts = vec![0; case.request.posts];
    match run_eager(&case.sheet, &request, &mut cells, &mut posts) {
        Err(refusal) => refusal.cause.number(),
        Ok(run) => match run.outcome {
            Outcome::Stop(stop) => stop.cause.number(),
            Outcome::End(_) => 0,
        },
    }
}
