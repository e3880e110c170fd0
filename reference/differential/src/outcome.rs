//! Whole runs of the library, to be held against one another.

use crate::implementation::ANSWER_NUMBERS;
use crate::library::Library;
use crate::query::{Buffers, Entry, Query};
use sheets::request::Request;
use sheets::rng::Rng;

const ENDED: u32 = 0;
const STOPPED: u32 = 1;

/// A runner, and whether checks are in force.
#[derive(Clone, Copy, Debug, PartialEq, Eq)]
pub struct RunMode {
    pub entry: Entry,
    pub enforce: u32,
}

impl RunMode {
    pub fn random(rng: &mut Rng) -> Self {
        Self {
            enforce: rng.pick(&[0, 1, 1]),
            ..Self::enforced(rng)
        }
    }

    /// Either runner, with checks in force.
    pub fn enforced(rng: &mut Rng) -> Self {
        Self {
            entry: rng.pick(&[Entry::RunEager, Entry::RunLazy]),
            enforce: 1,
        }
    }
}

/// A run that wasn't refused.
#[derive(Clone, Debug, PartialEq, Eq)]
pub struct RunResult {
    pub status: u32,
    pub answer: [u32; ANSWER_NUMBERS],
    pub posts: Vec<u32>,
}

impl RunResult {
    /// What a run tells in buffers of its own, or `Err` with the answer if it
    /// was refused.
    pub fn of_run(
        rng: &mut Rng,
        sheet: &[u8],
        request: &Request,
        mode: RunMode,
    ) -> Result<Self, String> {
        let mut buffers = Buffers::random(rng, mode.entry, request, ANSWER_NUMBERS);
        let query = Query {
            entry: mode.entry,
            sheet,
            request,
            enforce: mode.enforce,
        };
        let status = query.of::<Library>(&mut buffers);
        let answer = *buffers.answer().expect("the answer has room");
        if status != ENDED && status != STOPPED {
            return Err(format!("{mode:?} returns {status}, {answer:?}"));
        }
        let posts = buffers.posts.contents()[..answer[6] as usize].to_vec();
        Ok(Self {
            status,
            answer,
            posts,
        })
    }

    pub fn stopped(&self) -> bool {
        self.status == STOPPED
    }
}
