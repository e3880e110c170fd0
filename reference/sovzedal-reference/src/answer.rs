//! Results in the numbers of the C interface.

use crate::checker::Verdict;
use crate::compare::Comparison;
use crate::erase::Lean;
use crate::explain::Explanation;
use crate::names::Naming;
use crate::piece::Piece;
use crate::refusal::Refusal;
use crate::registers::Block;
use crate::run::{Outcome, Plain, Range, RangeRun, Run, Stop, Truth};
use crate::sheet::Sheet;
use crate::term::TermJudgement;

/// What a C function returns and the eight numbers that it writes.
#[derive(Clone, Copy, Debug, PartialEq, Eq)]
pub struct Reply {
    pub status: u32,
    pub answer: [u32; 8],
}

const DONE: u32 = 0;
const STOPPED: u32 = 1;
const REFUSED: u32 = 2;

impl From<Refusal> for Reply {
    fn from(refusal: Refusal) -> Self {
        let mut answer = [0; 8];
        answer[0] = refusal.cause.number();
        answer[1] = refusal.place;
        Reply {
            status: REFUSED,
            answer,
        }
    }
}

/// Of a job that was added there is nothing to tell.
impl From<()> for Reply {
    fn from((): ()) -> Self {
        Reply {
            status: DONE,
            answer: [0; 8],
        }
    }
}

impl From<Sheet> for Reply {
    fn from(sheet: Sheet) -> Self {
        let mut answer = [0; 8];
        answer[3] = sheet.terms.len() as u32;
        answer[4] = sheet.principals.len() as u32;
        answer[5] = sheet.types.len() as u32;
        Reply {
            status: DONE,
            answer,
        }
    }
}

impl From<Verdict> for Reply {
    fn from(verdict: Verdict) -> Self {
        let mut answer = [0; 8];
        answer[2] = u32::from(verdict.ty);
        answer[3] = verdict.terms as u32;
        answer[7] = verdict.needs.bits();
        Reply {
            status: DONE,
            answer,
        }
    }
}

/// The terms themselves stand in a list of their own.
impl From<&Explanation> for Reply {
    fn from(explanation: &Explanation) -> Self {
        let mut answer = [0; 8];
        answer[3] = explanation.terms().len() as u32;
        Reply {
            status: DONE,
            answer,
        }
    }
}

impl From<Naming> for Reply {
    fn from(naming: Naming) -> Self {
        let mut answer = [0; 8];
        if let Naming::By(term) = naming {
            answer[2] = 1;
            answer[3] = u32::from(term);
        }
        Reply {
            status: DONE,
            answer,
        }
    }
}

/// Of no piece all numbers are zero.
impl From<Option<Piece>> for Reply {
    fn from(piece: Option<Piece>) -> Self {
        let mut answer = [0; 8];
        if let Some(piece) = piece {
            answer[2] = piece.fault.number();
            answer[3] = u32::from(piece.term);
            answer[4] = piece.count as u32;
            answer[5] = piece.record.start as u32;
            answer[6] = piece.record.len() as u32;
        }
        Reply {
            status: DONE,
            answer,
        }
    }
}

/// Of the root, where nobody signs, the principal is told as 0.
impl From<TermJudgement> for Reply {
    fn from(judgement: TermJudgement) -> Self {
        let mut answer = [0; 8];
        answer[2] = u32::from(judgement.ty);
        answer[3] = judgement.principal.map_or(0, u32::from);
        answer[7] = judgement.needs.bits();
        Reply {
            status: DONE,
            answer,
        }
    }
}

/// The sheet itself stands in a buffer of its own.
impl From<&Lean> for Reply {
    fn from(lean: &Lean) -> Self {
        let mut answer = [0; 8];
        answer[3] = lean.bytes.len() as u32;
        Reply {
            status: DONE,
            answer,
        }
    }
}

impl From<Comparison> for Reply {
    fn from(comparison: Comparison) -> Self {
        let (fits, entries) = match comparison {
            Comparison::Fits { missing } => (1, missing),
            Comparison::Diverges { entry } => (0, entry),
        };
        Reply {
            status: DONE,
            answer: [0, 0, fits, entries as u32, 0, 0, 0, 0],
        }
    }
}

impl From<Run> for Reply {
    fn from(run: Run) -> Self {
        let counts = [run.calls, run.cells, run.posts, run.held];
        Reply::of_run(run.outcome, counts, u32::from, u32::from)
    }
}

/// A range is told as it is listed. Held results aren't counted.
impl From<RangeRun> for Reply {
    fn from(run: RangeRun) -> Self {
        let counts = [run.calls, run.cells, run.posts, 0];
        let truth = |truth| match truth {
            Truth::No => 0,
            Truth::Yes => 1,
            Truth::Undecided => 2,
        };
        Reply::of_run(run.outcome, counts, truth, Range::word)
    }
}

impl Reply {
    /// To a run, by the numbers of a boolean and of a number that it ends with.
    fn of_run<B, N>(
        outcome: Outcome<Plain<B, N>>,
        [calls, cells, posts, held]: [u32; 4],
        boolean: impl Fn(B) -> u32,
        number: impl Fn(N) -> u32,
    ) -> Self {
        let (status, [cause, place, ty, value]) = match outcome {
            Outcome::End(Plain::Bool(value)) => (DONE, [0, 0, 0, boolean(value)]),
            Outcome::End(Plain::Number(value)) => (DONE, [0, 0, 1, number(value)]),
            Outcome::Stop(Stop { cause, term }) => {
                (STOPPED, [cause.number(), u32::from(term), 0, 0])
            }
        };
        Reply {
            status,
            answer: [cause, place, ty, value, calls, cells, posts, held],
        }
    }

    /// To an access of a register block, as that is afterwards: the byte
    /// read, or 0 for a write. How a run went is told by the block alone.
    pub fn of_block(block: &Block, accessed: Result<u8, Refusal>) -> Self {
        let mut reply = match accessed {
            Ok(value) => Reply {
                status: DONE,
                answer: [0, 0, 0, u32::from(value), 0, 0, 0, 0],
            },
            Err(refusal) => refusal.into(),
        };
        reply.answer[2] = u32::from(block.interrupt());
        reply
    }
}

impl<T: Into<Reply>> From<Result<T, Refusal>> for Reply {
    fn from(result: Result<T, Refusal>) -> Self {
        match result {
            Ok(value) => value.into(),
            Err(refusal) => refusal.into(),
        }
    }
}
