//! Every generated sheet, asked of the library and of the reference: they
//! return the same, and every number in and around every buffer is the same.

mod guards;
mod held;

use differential::{settings, Buffers, Entry, Library, Query, Reference, ANSWER_NUMBERS};
use guards::QueryResult;
use sheets::generate::sample;
use sheets::hex;
use sheets::request::Request;
use sheets::rng::Rng;
use sheets::tally::Tally;
use sovzedal_reference::{typecheck_by, Rules};
use std::process::ExitCode;
use std::time::Instant;

const SHEETS: u64 = 120_000;
/// How many of these at least are accepted by the rules of W4 alone.
const ENOUGH: usize = 2_000;

/// What the sheets have reached.
#[derive(Default)]
struct Reached {
    tally: Tally,
    /// Sheets accepted that were refused before W4.
    by_fitting_branches: usize,
    guards: guards::Counts,
    held: held::Counts,
}

fn main() -> ExitCode {
    let begun = Instant::now();
    let mut reached = Reached::default();
    let mut sheets = 0;
    for batch in settings::batches(SHEETS) {
        let items = batch.items.end - batch.items.start;
        println!("seed {}, {items} sheets", batch.seed);
        sheets += items;
        for index in batch.items {
            if let Err(difference) = compare(batch.seed, index, &mut reached) {
                println!("{difference}");
                println!("again with {}", settings::again(batch.seed, index));
                return ExitCode::FAILURE;
            }
        }
    }
    let seconds = begun.elapsed().as_secs_f64();
    println!("{}", reached.tally);
    println!("{}", reached.guards.0);
    println!("{}", reached.held.0);
    println!(
        "{} sheets accepted for branches that fit",
        reached.by_fitting_branches
    );
    println!(
        "{sheets} sheets in {seconds:.1} s, {:.0} per second",
        sheets as f64 / seconds
    );
    if settings::are_whole() {
        reached_everything(&reached)
    } else {
        ExitCode::SUCCESS
    }
}

fn reached_everything(reached: &Reached) -> ExitCode {
    let tally = &reached.tally;
    let (causes, kinds) = (tally.missing_causes(), tally.missing_kinds());
    if !causes.is_empty() || !kinds.is_empty() {
        println!("never reached: causes {causes:?}, kinds {kinds:?}");
        return ExitCode::FAILURE;
    }
    if reached.by_fitting_branches < ENOUGH {
        println!("too few sheets with branches that fit, {ENOUGH} are asked");
        return ExitCode::FAILURE;
    }
    let never = [reached.guards.never(), reached.held.never()].concat();
    if !never.is_empty() {
        println!("never happened: {never:?}");
        return ExitCode::FAILURE;
    }
    ExitCode::SUCCESS
}

/// Puts all questions about one sheet to both implementations.
fn compare(seed: u64, index: u64, reached: &mut Reached) -> Result<(), String> {
    let rng = &mut Rng::for_item(seed, index);
    let sample = sample(rng);
    let questions = [
        (Entry::Decode, 0),
        (Entry::Typecheck, 0),
        (Entry::RunEager, enforcing(rng)),
        (Entry::RunEager, 0),
        (Entry::RunLazy, enforcing(rng)),
        (Entry::RunLazy, 0),
    ];
    for (entry, enforce) in questions {
        let request = Request::random(rng, &sample.world);
        let query = Query {
            entry,
            sheet: &sample.bytes,
            request: &request,
            enforce,
        };
        let answer = random_answer_length(rng);
        let buffers = Buffers::random(rng, entry, &request, answer);
        let (returned, buffers) = ask_both(&query, buffers)?;
        if let Some(answer) = buffers.answer() {
            let result = QueryResult {
                query: &query,
                returned,
                answer,
                posts: buffers.posts.contents(),
            };
            reached.guards.count(&result);
            reached.held.count(&result);
            match entry {
                Entry::Decode => {}
                Entry::Typecheck => reached.count_judged(&sample.bytes, answer),
                Entry::RunEager | Entry::RunLazy => reached.tally.count_run(answer),
            }
        }
    }
    Ok(())
}

impl Reached {
    fn count_judged(&mut self, sheet: &[u8], answer: &[u32; ANSWER_NUMBERS]) {
        self.tally.count_judged(sheet, answer);
        if answer[0] == 0 && typecheck_by(Rules::BeforeW4, sheet).is_err() {
            self.by_fitting_branches += 1;
        }
    }
}

/// Any number but 0 has the checks in force.
fn enforcing(rng: &mut Rng) -> u32 {
    rng.pick(&[1, 1, 1, 2, 256, 65_536, u32::MAX])
}

/// Mostly just enough; sometimes too short, sometimes with a rest to keep.
fn random_answer_length(rng: &mut Rng) -> usize {
    match rng.below(20) {
        0 => rng.below(ANSWER_NUMBERS),
        1 | 2 => rng.between(ANSWER_NUMBERS + 1, 2 * ANSWER_NUMBERS),
        _ => ANSWER_NUMBERS,
    }
}

/// Gives what both returned and left in the buffers, or tells how they differ.
fn ask_both(query: &Query, buffers: Buffers) -> Result<(u32, Buffers), String> {
    let (mut library, mut reference) = (buffers.clone(), buffers);
    let library_status = query.of::<Library>(&mut library);
    let reference_status = query.of::<Reference>(&mut reference);
    if library_status == reference_status && library == reference {
        return Ok((library_status, library));
    }
    Err(format!(
        "the implementations differ\n\
         {:?}, enforce {}\n\
         sheet {}\n\
         {:?}\n\
         library   returns {library_status}, answer {:?}\n\
         reference returns {reference_status}, answer {:?}\n\
         first difference: cells {:?}, posts {:?}, frames {:?}, answer {:?}",
        query.entry,
        query.enforce,
        hex(query.sheet),
        query.request,
        library.answer.contents(),
        reference.answer.contents(),
        library.cells.first_difference(&reference.cells),
        library.posts.first_difference(&reference.posts),
        library.frames.first_difference(&reference.frames),
        library.answer.first_difference(&reference.answer),
    ))
}
