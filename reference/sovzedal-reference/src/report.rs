//! The text that the checking program prints.

use crate::checker::{typecheck, Verdict};
use crate::refusal::Refusal;
use crate::run::{run_eager, Outcome, Plain, Request, Run, Stop, MAX_CELL_BYTES, MAX_POSTS};
use crate::sheet::Type;

/// Judges a sheet and, if it is accepted, runs it eagerly with checks in
/// force, on an empty stack, with the largest allowances and buffers.
pub fn report(bytes: &[u8]) -> String {
    match check_and_run(bytes) {
        Ok((verdict, run)) => verdict_lines(verdict) + &run_line(run),
        Err(refusal) => format!("refused {} at {}\n", refusal.cause.number(), refusal.place),
    }
}

fn check_and_run(bytes: &[u8]) -> Result<(Verdict, Run), Refusal> {
    let verdict = typecheck(bytes)?;
    let mut cells = vec![0; MAX_CELL_BYTES];
    let mut posts = [0; MAX_POSTS];
    let run = run_eager(bytes, &Request::LARGEST, &mut cells, &mut posts)?;
    Ok((verdict, run))
}

fn verdict_lines(verdict: Verdict) -> String {
    let ty = if verdict.ty == Type::BOOL {
        "bool"
    } else {
        "num"
    };
    format!(
        "terms {}\nneeds {:08X}\ntype {ty}\n",
        verdict.terms,
        verdict.needs.bits()
    )
}

fn run_line(run: Run) -> String {
    let outcome = match run.outcome {
        Outcome::End(Plain::Bool(value)) => format!("end bool {}", u8::from(value)),
        Outcome::End(Plain::Number(value)) => format!("end num {value}"),
        Outcome::Stop(Stop { cause, term }) => format!("stop {} at {term}", cause.number()),
    };
    format!(
        "{outcome} calls {} cells {} posts {} held {}\n",
        run.calls, run.cells, run.posts, run.held
    )
}
