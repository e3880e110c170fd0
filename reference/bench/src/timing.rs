//! Rounds by turns.

use crate::workload::Workload;
use differential::{Buffers, Entry, Implementation, Library, Query, Reference, ANSWER_NUMBERS};
use sheets::request::Request;
use sheets::rng::Rng;
use std::time::Instant;

pub const ROUNDS: usize = 21;

/// Seconds per sheet.
pub struct Times {
    pub library: f64,
    pub reference: f64,
}

/// The largest request there is, and its buffers.
pub struct Bench {
    rng: Rng,
    request: Request,
}

impl Bench {
    pub fn new() -> Self {
        Self {
            rng: Rng::new(0),
            request: Request::largest(),
        }
    }

    pub fn time(&mut self, entry: Entry, workload: &Workload) -> Times {
        let mut best = Times {
            library: f64::INFINITY,
            reference: f64::INFINITY,
        };
        for _ in 0..ROUNDS {
            let (library, left_by_library) = self.round::<Library>(entry, workload);
            let (reference, left_by_reference) = self.round::<Reference>(entry, workload);
            assert_eq!(
                left_by_library.answer(),
                left_by_reference.answer(),
                "the implementations differ"
            );
            best.library = best.library.min(library);
            best.reference = best.reference.min(reference);
        }
        best
    }

    /// Seconds per sheet, and the buffers after the last one. They are filled
    /// before the clock starts: what they hold makes no difference to a run.
    fn round<I: Implementation>(&mut self, entry: Entry, workload: &Workload) -> (f64, Buffers) {
        let mut buffers = Buffers::random(&mut self.rng, entry, &self.request, ANSWER_NUMBERS);
        let begun = Instant::now();
        for _ in 0..workload.repeats {
            for sheet in &workload.sheets {
                let query = Query {
                    entry,
                    sheet,
                    request: &self.request,
                    enforce: 1,
                };
                query.of::<I>(&mut buffers);
            }
        }
        let query = workload.repeats * workload.sheets.len();
        (begun.elapsed().as_secs_f64() / query as f64, buffers)
    }
}
