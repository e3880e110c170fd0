//! What the runs have to do with sums and differences that are held, and what
//! has to happen.

use crate::guards::QueryResult;
use differential::{Coverage, Entry};
use sheets::tree::Kind;
use sovzedal_reference::{decode, Term, TermId};

const DONE: u32 = 0;
const STOPPED: u32 = 1;

/// What has to happen, beside an end and a stop of each runner, with checks in
/// force and passed over, and each cause of a stop.
const EXPECTED: [&str; 5] = [
    "held results, 1",
    "held results, 2 to 9",
    "held results, 10 or more",
    "held results, then stuck at Sum",
    "held results, then stuck at Difference",
];

#[derive(Default)]
pub struct Counts(pub Coverage);

impl Counts {
    pub fn count(&mut self, result: &QueryResult) {
        let held = result.answer[7];
        if !result.is_run() || held == 0 {
            return;
        }
        let coverage = &mut self.0;
        let enforced = result.query.enforce != 0;
        coverage.count(by(result.returned, result.query.entry, enforced));
        coverage.count(match held {
            1 => "held results, 1",
            2..=9 => "held results, 2 to 9",
            _ => "held results, 10 or more",
        });
        if result.returned == STOPPED {
            coverage.count(then_stopped(result.cause()));
        }
        if result.cause() == 18 {
            let sheet = decode(result.query.sheet).expect("a sheet that runs");
            match sheet.term(result.place() as TermId) {
                Term::Sum(..) => coverage.count(then_stuck(Kind::Sum)),
                Term::Difference(..) => coverage.count(then_stuck(Kind::Difference)),
                _ => {}
            }
        }
    }

    /// What should have happened and never did.
    pub fn never(&self) -> Vec<String> {
        let runs = [DONE, STOPPED].into_iter().flat_map(|returned| {
            [Entry::RunEager, Entry::RunLazy]
                .into_iter()
                .flat_map(move |entry| [true, false].map(|force| by(returned, entry, force)))
        });
        let stops = (17..=22).map(then_stopped);
        let expected = EXPECTED.map(String::from).into_iter();
        self.0.never(expected.chain(runs).chain(stops))
    }
}

fn by(returned: u32, entry: Entry, enforced: bool) -> String {
    let outcome = if returned == DONE { "end" } else { "stop" };
    let checks = if enforced { "in force" } else { "passed over" };
    format!("held results, {outcome} by {entry:?}, checks {checks}")
}

fn then_stopped(cause: u32) -> String {
    format!("held results, then stopped by {cause}")
}

fn then_stuck(kind: Kind) -> String {
    format!("held results, then stuck at {kind:?}")
}
