//! Sessions of four lines, drawn at random, with the library and with the
//! reference: each call returns the same, and every number in and around the
//! state of the lines and every buffer is the same. Store and list shrink and
//! grow between the calls.

mod counts;

use counts::{CallResult, Counts};
use differential::{
    settings, Library, LinesCall, Margined, Reference, ANSWER_NUMBERS, SERVE_NUMBERS,
};
use sheets::hex;
use sheets::lines::*;
use sheets::request::MAX_CELL_BYTES;
use sheets::rng::Rng;
use sheets::session::random_sheet;
use std::mem;
use std::process::ExitCode;
use std::time::Instant;

const SESSIONS: u64 = 20_000;

fn main() -> ExitCode {
    let begun = Instant::now();
    let mut counts = Counts::default();
    let mut sessions = 0;
    for batch in settings::batches(SESSIONS) {
        let items = batch.items.end - batch.items.start;
        println!("seed {}, {items} sessions of four lines", batch.seed);
        sessions += items;
        for index in batch.items {
            if let Err(difference) = compare(batch.seed, index, &mut counts) {
                println!("{difference}");
                println!("again with {}", settings::again(batch.seed, index));
                return ExitCode::FAILURE;
            }
        }
    }
    println!("{}", counts.0);
    let seconds = begun.elapsed().as_secs_f64();
    println!("{sessions} sessions of four lines in {seconds:.1} s");
    let never = counts.never();
    if settings::are_whole() && !never.is_empty() {
        println!("never happened: {never:?}");
        return ExitCode::FAILURE;
    }
    ExitCode::SUCCESS
}

/// Goes through one session with both implementations.
fn compare(seed: u64, index: u64, counts: &mut Counts) -> Result<(), String> {
    // Not the sheets that the other tests have had from this seed.
    let rng = &mut Rng::for_item(seed.rotate_left(2), index);
    let mut store = Store::random(rng);
    let state = random_state(rng, &store);
    let mut lines_calls = LinesCalls::alike(LinesCall::random(rng, &state, LIST));
    let favoured = rng.below(LINES) as u32;
    let adds = rng.pick(&[30, 50, 70, 90]);
    for _ in 0..rng.between(6, 40) {
        match rng.below(30) {
            0 => store = Store::random(rng),
            1 | 2 => store.keep(&random_sheet(rng)),
            _ => {}
        }
        let before = lines_calls.library.lines.contents().to_vec();
        let length = store.random_length(rng);
        let call = if rng.percent(adds) {
            Call::Add {
                line: random_line(rng, favoured),
                job: store.random_job(rng, length),
            }
        } else {
            Call::Serve {
                posts: random_list_length(rng, before[PLACE]),
            }
        };
        let bytes = &store.bytes[..length];
        let called = call_with_random_buffers(rng, &mut lines_calls, call, bytes);
        let (returned, other) = called.map_err(|difference| {
            format!(
                "the implementations differ\n{call:?}\nlines {before:?}\nstore {}\n{difference}",
                hex(bytes),
            )
        })?;
        counts.count_call(&CallResult {
            call,
            before: &before,
            store: bytes.len(),
            other,
            returned,
            answer: lines_calls.library.answer.contents(),
            list: lines_calls.library.posts.contents(),
        });
    }
    Ok(())
}

#[derive(Clone, Copy, Debug)]
enum Call {
    Add { line: u32, job: Job },
    Serve { posts: usize },
}

/// What is lent to a call in another length than it takes.
#[derive(Clone, Copy, Debug, PartialEq, Eq)]
enum Other {
    Nothing,
    Lines,
    Cells,
}

/// Makes one call. Now and then other lines or another cell store, of another
/// length, are lent to it.
fn call_with_random_buffers(
    rng: &mut Rng,
    lines_calls: &mut LinesCalls,
    call: Call,
    store: &[u8],
) -> Result<(u32, Other), String> {
    let answer = random_answer_length(rng, call);
    lines_calls.put(
        |lines_call| &mut lines_call.answer,
        Margined::random(rng, answer),
    );
    let (returned, other) = match rng.below(40) {
        0 => {
            let length = rng.pick(&[
                0,
                1,
                STATE_NUMBERS - 1,
                STATE_NUMBERS + 1,
                2 * STATE_NUMBERS,
            ]);
            let lines = Margined::random(rng, length);
            let returned =
                lines_calls.call_with(|lines_call| &mut lines_call.lines, lines, call, store);
            (returned, Other::Lines)
        }
        1..=3 => {
            let length = rng.pick(&[0, 8, MAX_CELL_BYTES - 1, MAX_CELL_BYTES + 1]);
            let cells = Margined::random(rng, length);
            let returned =
                lines_calls.call_with(|lines_call| &mut lines_call.cells, cells, call, store);
            (returned, Other::Cells)
        }
        _ => (lines_calls.call(call, store), Other::Nothing),
    };
    Ok((returned?, other))
}

/// Mostly just enough; sometimes too short, sometimes with a rest to keep.
fn random_answer_length(rng: &mut Rng, call: Call) -> usize {
    let enough = match call {
        Call::Add { .. } => ANSWER_NUMBERS,
        Call::Serve { .. } => SERVE_NUMBERS,
    };
    match rng.below(60) {
        0 => rng.below(enough),
        1 => enough - 1,
        2..=5 => rng.between(enough + 1, 2 * enough),
        _ => enough,
    }
}

/// The call of each implementation, kept through a session.
struct LinesCalls {
    library: LinesCall,
    reference: LinesCall,
}

impl LinesCalls {
    fn alike(lines_call: LinesCall) -> Self {
        Self {
            library: lines_call.clone(),
            reference: lines_call,
        }
    }

    /// Puts the same part into both calls and gives what they had.
    fn put<T: Clone>(&mut self, part: impl Fn(&mut LinesCall) -> &mut T, new: T) -> [T; 2] {
        [
            mem::replace(part(&mut self.library), new.clone()),
            mem::replace(part(&mut self.reference), new),
        ]
    }

    /// Gives what both returned, or tells how they differ.
    fn call(&mut self, call: Call, store: &[u8]) -> Result<u32, String> {
        let Self { library, reference } = self;
        let returned = match call {
            Call::Add { line, job } => [
                library.add::<Library>(line, job, store),
                reference.add::<Reference>(line, job, store),
            ],
            Call::Serve { posts } => [
                library.serve::<Library>(store, posts),
                reference.serve::<Reference>(store, posts),
            ],
        };
        if returned[0] == returned[1] && library == reference {
            return Ok(returned[0]);
        }
        Err(format!(
            "lent {} bytes of cells\n\
             library   returns {}, answer {:?}, lines {:?}\n\
             reference returns {}, answer {:?}, lines {:?}\n\
             first difference: lines {:?}, cells {:?}, posts {:?}, answer {:?}",
            library.cells.contents().len(),
            returned[0],
            library.answer.contents(),
            library.lines.contents(),
            returned[1],
            reference.answer.contents(),
            reference.lines.contents(),
            library.lines.first_difference(&reference.lines),
            library.cells.first_difference(&reference.cells),
            library.posts.first_difference(&reference.posts),
            library.answer.first_difference(&reference.answer),
        ))
    }

    /// The same with another part, for this call alone.
    fn call_with<T: Clone>(
        &mut self,
        part: impl Fn(&mut LinesCall) -> &mut T,
        other: T,
        call: Call,
        store: &[u8],
    ) -> Result<u32, String> {
        let [library, reference] = self.put(&part, other);
        let returned = self.call(call, store);
        *part(&mut self.library) = library;
        *part(&mut self.reference) = reference;
        returned
    }
}
