//! One run with a record, to be had of any implementation.

use crate::implementation::{Implementation, RunArguments, ANSWER_NUMBERS, RECORD_NUMBERS};
use crate::query::{Buffers, Entry, Margined, Query};
use sheets::rng::Rng;
use sovzedal_reference::ENTRY_BYTES;

/// All that such a run may write to, with margins. Two of them are equal if
/// every number in and around the buffers is.
#[derive(Clone, Debug, PartialEq, Eq)]
pub struct Recording {
    pub buffers: Buffers,
    pub record: Margined<u8>,
}

impl Recording {
    /// Buffers as for the run without a record, filled at random, and a record
    /// of so many bytes.
    pub fn random(rng: &mut Rng, query: &Query, record: usize, answer: usize) -> Self {
        Self {
            buffers: Buffers::random(rng, query.entry, query.request, answer),
            record: Margined::random(rng, record),
        }
    }

    /// Has the run and gives the returned number.
    pub fn ask<I: Implementation>(&mut self, query: &Query) -> u32 {
        let arguments = RunArguments {
            start: &query.request.start,
            calls: query.request.calls,
            open_calls: query.request.open_calls,
            enforce: query.enforce,
        };
        let Buffers {
            cells,
            posts,
            frames,
            answer,
        } = &mut self.buffers;
        let (cells, posts, answer) = (
            cells.contents_mut(),
            posts.contents_mut(),
            answer.contents_mut(),
        );
        let record = self.record.contents_mut();
        if query.entry == Entry::RunLazy {
            let frames = frames.contents_mut();
            I::record_lazy(query.sheet, arguments, cells, posts, frames, record, answer)
        } else {
            I::record_eager(query.sheet, arguments, cells, posts, record, answer)
        }
    }

    /// The nine numbers of the answer, if there was room for them.
    pub fn answer(&self) -> Option<&[u32; RECORD_NUMBERS]> {
        self.buffers.answer.contents().first_chunk()
    }

    /// The bytes of the entries told, and those past them.
    pub fn split_entries(&self) -> (&[u8], &[u8]) {
        let answer = self.answer().expect("the answer has room");
        let entries = answer[ANSWER_NUMBERS] as usize;
        self.record.contents().split_at(entries * ENTRY_BYTES)
    }
}
