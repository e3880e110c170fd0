//! The reference, behind the library's interface.

use crate::implementation::{Implementation, RunArguments};
use crate::implementation::{ANSWER_NUMBERS, RECORD_NUMBERS, SERVE_NUMBERS};
use sheets::lines::Job;
use sovzedal_reference::lines::{self, Lines, Served, State};
use sovzedal_reference::registers::{Block, Loaded, BLOCK_BYTES};
use sovzedal_reference::{compare, decode, erase, explain, infer_term, names, piece, typecheck};
use sovzedal_reference::{record_eager, record_lazy, run_eager, run_lazy, run_ranges};
use sovzedal_reference::{Checks, Recorded, Refusal, Reply, Request, CHAIN_TERMS};

/// What is returned where the answer or a chain has no room, or the block or
/// the lines aren't ones.
const UNFIT: u32 = 3;

/// What is returned where no line has a job.
const IDLE: u32 = 4;

pub struct Reference;

impl Implementation for Reference {
    const NAME: &'static str = "reference";

    fn decode(sheet: &[u8], answer: &mut [u32]) -> u32 {
        reply_with(answer, || decode(sheet))
    }

    fn typecheck(sheet: &[u8], answer: &mut [u32]) -> u32 {
        reply_with(answer, || typecheck(sheet))
    }

    fn run_eager(
        sheet: &[u8],
        arguments: RunArguments,
        cells: &mut [u8],
        posts: &mut [u32],
        answer: &mut [u32],
    ) -> u32 {
        reply_with(answer, || run_eager(sheet, &arguments.into(), cells, posts))
    }

    fn run_lazy(
        sheet: &[u8],
        arguments: RunArguments,
        cells: &mut [u8],
        posts: &mut [u32],
        frames: &mut [u32],
        answer: &mut [u32],
    ) -> u32 {
        reply_with(answer, || {
            run_lazy(sheet, &arguments.into(), cells, posts, frames)
        })
    }

    fn block_read(block: &[u8], address: u32, answer: &mut [u32]) -> u32 {
        let Ok(bytes) = block.try_into() else {
            return UNFIT;
        };
        let block = Block { bytes };
        reply_with(answer, || Reply::of_block(&block, block.read(address)))
    }

    fn block_write(
        block: &mut [u8],
        address: u32,
        value: u8,
        sheet: &[u8],
        cells: &mut [u8],
        posts: &mut [u32],
        answer: &mut [u32],
    ) -> u32 {
        let Ok(bytes) = <&mut [u8; BLOCK_BYTES]>::try_from(block) else {
            return UNFIT;
        };
        let loaded = Loaded {
            sheet,
            cells,
            posts,
        };
        reply_with(answer, || {
            let mut block = Block { bytes: *bytes };
            let written = block.write(address, value, loaded);
            *bytes = block.bytes;
            Reply::of_block(&block, written.map(|()| 0))
        })
    }

    fn lines_add(lines: &mut [u64], line: u32, job: Job, store: &[u8], answer: &mut [u32]) -> u32 {
        let Ok(state) = <&mut State>::try_from(lines) else {
            return UNFIT;
        };
        let job = lines::Job {
            offset: job.offset,
            length: job.length,
            calls: job.calls,
        };
        reply_with(answer, || {
            let mut lines = Lines::from(&*state);
            lines.add(line, job, store)?;
            *state = State::from(&lines);
            Ok(())
        })
    }

    fn lines_serve(
        lines: &mut [u64],
        store: &[u8],
        cells: &mut [u8],
        posts: &mut [u32],
        answer: &mut [u32],
    ) -> u32 {
        let (Ok(state), Some(room)) = (
            <&mut State>::try_from(lines),
            answer.first_chunk_mut::<SERVE_NUMBERS>(),
        ) else {
            return UNFIT;
        };
        let mut lines = Lines::from(&*state);
        let buffers = lines::Buffers {
            store,
            cells,
            posts,
        };
        let Some(Served { line, answer }) = lines.serve(buffers) else {
            *room = [0; SERVE_NUMBERS];
            return IDLE;
        };
        *state = State::from(&lines);
        room[ANSWER_NUMBERS] = line as u32;
        reply_with(room, || answer)
    }

    fn explain(sheet: &[u8], privilege: u32, chain: &mut [u16], answer: &mut [u32]) -> u32 {
        let Some(room) = chain.first_chunk_mut::<CHAIN_TERMS>() else {
            return UNFIT;
        };
        reply_with(answer, || {
            let explanation = explain(sheet, privilege)?;
            let terms = explanation.terms();
            *room = [0; CHAIN_TERMS];
            room[..terms.len()].copy_from_slice(terms);
            Ok(Reply::from(&explanation))
        })
    }

    fn erase(sheet: &[u8], lean: &mut [u8], answer: &mut [u32]) -> u32 {
        reply_with(answer, || {
            let erased = erase(sheet)?;
            erased.write_to(lean)?;
            Ok(Reply::from(&erased))
        })
    }

    fn names(sheet: &[u8], privilege: u32, answer: &mut [u32]) -> u32 {
        reply_with(answer, || names(sheet, privilege))
    }

    fn piece(sheet: &[u8], answer: &mut [u32]) -> u32 {
        reply_with(answer, || piece(sheet))
    }

    fn term(sheet: &[u8], term: u32, answer: &mut [u32]) -> u32 {
        reply_with(answer, || infer_term(sheet, term))
    }

    fn compare(unit: &[u8], office: &[u8], answer: &mut [u32]) -> u32 {
        reply_with(answer, || compare(unit, office))
    }

    fn record_eager(
        sheet: &[u8],
        arguments: RunArguments,
        cells: &mut [u8],
        posts: &mut [u32],
        record: &mut [u8],
        answer: &mut [u32],
    ) -> u32 {
        reply_recorded(answer, || {
            record_eager(sheet, &arguments.into(), cells, posts, record)
        })
    }

    fn record_lazy(
        sheet: &[u8],
        arguments: RunArguments,
        cells: &mut [u8],
        posts: &mut [u32],
        frames: &mut [u32],
        record: &mut [u8],
        answer: &mut [u32],
    ) -> u32 {
        reply_recorded(answer, || {
            record_lazy(sheet, &arguments.into(), cells, posts, frames, record)
        })
    }

    fn run_ranges(
        sheet: &[u8],
        pairs: &[u16],
        arguments: RunArguments,
        cells: &mut [u8],
        posts: &mut [u32],
        answer: &mut [u32],
    ) -> u32 {
        reply_with(answer, || {
            run_ranges(sheet, pairs, &arguments.into(), cells, posts)
        })
    }
}

impl<'a> From<RunArguments<'a>> for Request<'a> {
    fn from(arguments: RunArguments<'a>) -> Self {
        Request {
            start: arguments.start,
            calls: arguments.calls,
            open_calls: arguments.open_calls,
            checks: match arguments.enforce {
                0 => Checks::Skipped,
                _ => Checks::Enforced,
            },
        }
    }
}

/// Asks only if the answer has room, and writes its first numbers.
fn reply_with<T: Into<Reply>>(answer: &mut [u32], ask: impl FnOnce() -> T) -> u32 {
    let Some(room) = answer.first_chunk_mut::<ANSWER_NUMBERS>() else {
        return UNFIT;
    };
    let Reply { status, answer } = ask().into();
    *room = answer;
    status
}

/// The same with the number of entries behind, of which a refused run has none.
fn reply_recorded(answer: &mut [u32], ask: impl FnOnce() -> Result<Recorded, Refusal>) -> u32 {
    let Some(room) = answer.first_chunk_mut::<RECORD_NUMBERS>() else {
        return UNFIT;
    };
    let recorded = ask();
    room[ANSWER_NUMBERS] = recorded.map_or(0, |recorded| recorded.entries as u32);
    reply_with(room, || recorded.map(|recorded| recorded.run))
}
