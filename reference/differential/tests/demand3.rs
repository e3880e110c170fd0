//! Demand 3 on the library's own answers: an accepted sheet, of either version,
//! on a stack that grants its needs, runs the same with its checks and guards
//! in force and passed over.

use differential::{granting_stack, settings};
use differential::{Buffers, Entry, Implementation, Library, Query, ANSWER_NUMBERS};
use sheets::generate::{nearly_accepted, Sample};
use sheets::hex;
use sheets::records::{CHANNELS, UNGUARDED};
use sheets::request::Request;
use sheets::rng::Rng;
use sovzedal_reference::typecheck;
use std::process::ExitCode;

const SHEETS: u64 = 40_000;
const ENOUGH: usize = 10_000;

const ENDED: u32 = 0;
const STOPPED: u32 = 1;

/// How many of the sheets at least have made a post that is guarded, and how
/// many had a sum or difference held.
const ENOUGH_GUARDED: usize = 1_000;
const ENOUGH_HELD: usize = 2_000;

/// How the runs that were compared came out.
#[derive(Default)]
struct Counts {
    ended: usize,
    stopped: usize,
    with_needs: usize,
    of_version_2: usize,
    /// Runs of a sheet that needs something for a guard alone.
    for_a_guard: usize,
    /// Runs with posts that are guarded.
    guarded: usize,
    /// Runs with results that were held.
    held: usize,
}

fn main() -> ExitCode {
    let mut counts = Counts::default();
    for batch in settings::batches(SHEETS) {
        println!(
            "seed {}, {} sheets",
            batch.seed,
            batch.items.end - batch.items.start
        );
        for index in batch.items {
            if let Err(broken) = try_sheet(batch.seed, index, &mut counts) {
                println!("demand 3 is broken: {broken}");
                println!("again with {}", settings::again(batch.seed, index));
                return ExitCode::FAILURE;
            }
        }
    }
    let compared = counts.ended + counts.stopped;
    println!(
        "two runs compared for {compared} sheets, {} of them with needs: {} ended, {} stopped",
        counts.with_needs, counts.ended, counts.stopped
    );
    println!(
        "{} sheets of version 2: {} need something for a guard alone, {} made guarded posts",
        counts.of_version_2, counts.for_a_guard, counts.guarded
    );
    println!("{} sheets had results held", counts.held);
    let too_few = compared < ENOUGH
        || counts.for_a_guard < ENOUGH_GUARDED
        || counts.guarded < ENOUGH_GUARDED
        || counts.held < ENOUGH_HELD;
    if settings::are_whole() && too_few {
        println!("too few, {ENOUGH}, {ENOUGH_GUARDED} and {ENOUGH_HELD} are asked");
        return ExitCode::FAILURE;
    }
    ExitCode::SUCCESS
}

fn try_sheet(seed: u64, index: u64, counts: &mut Counts) -> Result<(), String> {
    // Not the sheets that the other test has had from this seed.
    let rng = &mut Rng::for_item(!seed, index);
    let sample = nearly_accepted(rng);
    let mut verdict = [0; ANSWER_NUMBERS];
    if Library::typecheck(&sample.bytes, &mut verdict) != ENDED {
        return Ok(());
    }
    let [.., needs] = verdict;
    let start = granting_stack(rng, &sample.world, needs)
        .ok_or("no principal may use what the root, a sign, needs")?;
    let request = Request::random_admissible(rng, start);
    let (status, enforced) = run(rng, &sample, &request, 1);
    let (other_status, skipped) = run(rng, &sample, &request, 0);

    let is_same = status == other_status
        && enforced.answer() == skipped.answer()
        && posts_made(&enforced) == posts_made(&skipped);
    if !is_same {
        return Err(format!(
            "sheet {}\n{request:?}\n\
             in force    {status} {:?}, posts {:?}\n\
             passed over {other_status} {:?}, posts {:?}",
            hex(&sample.bytes),
            enforced.answer(),
            posts_made(&enforced),
            skipped.answer(),
            posts_made(&skipped),
        ));
    }
    let answer = enforced.answer().expect("the answer has room");
    match (status, answer) {
        (ENDED, [_, _, ty, ..]) if *ty == verdict[2] => counts.ended += 1,
        (STOPPED, [19..=22, ..]) => counts.stopped += 1,
        _ => {
            let sheet = hex(&sample.bytes);
            return Err(format!(
                "sheet {sheet}\n{request:?}\nboth gave {status} {answer:?}"
            ));
        }
    }
    counts.with_needs += usize::from(needs != 0);
    counts.held += usize::from(answer[7] > 0);
    if sample.world.guards.is_some() {
        counts.of_version_2 += 1;
        counts.for_a_guard += usize::from(needs_without_guards(&sample) != Some(needs));
        let posts = posts_made(&enforced).expect("the posts made");
        let is_guarded = |entry: &u32| sample.world.guard((entry >> 16) as u8).is_some();
        counts.guarded += usize::from(posts.iter().any(is_guarded));
    }
    Ok(())
}

/// What the same sheet needs if nothing guards its channels.
fn needs_without_guards(sample: &Sample) -> Option<u32> {
    let mut bytes = sample.bytes.clone();
    let guards = bytes.len() - CHANNELS;
    bytes[guards..].fill(UNGUARDED);
    let verdict = typecheck(&bytes).ok()?;
    Some(verdict.needs.bits())
}

/// A run of either runner, in buffers of its own.
fn run(rng: &mut Rng, sample: &Sample, request: &Request, enforce: u32) -> (u32, Buffers) {
    let entry = rng.pick(&[Entry::RunEager, Entry::RunLazy]);
    let mut buffers = Buffers::random(rng, entry, request, ANSWER_NUMBERS);
    let query = Query {
        entry,
        sheet: &sample.bytes,
        request,
        enforce,
    };
    (query.of::<Library>(&mut buffers), buffers)
}

fn posts_made(buffers: &Buffers) -> Option<&[u32]> {
    let posts = buffers.answer()?[6] as usize;
    buffers.posts.contents().get(..posts)
}
