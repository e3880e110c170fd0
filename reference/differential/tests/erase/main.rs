//! Random sheets, asked of the library and of the reference to be made lean,
//! with buffers of all lengths: they return the same, and every number in and
//! around the buffer and the answer is the same. The library's lean sheets are
//! also held against each sentence of W9 by itself: about their bytes, how the
//! library judges them, and how it runs them and the old ones.

mod counts;
mod runs;
mod sentences;

use counts::{Counts, Question};
use differential::{granting_stack, settings};
use differential::{
    EraseCall, Implementation, Library, Reference, RunMode, RunResult, ANSWER_NUMBERS,
};
use sentences::Pair;
use sheets::erasable::erasable;
use sheets::extremes::{deepest, many_checks, most_types, widest};
use sheets::generate::{sample, Sample};
use sheets::needy::needing;
use sheets::request::Request;
use sheets::rng::Rng;
use sheets::world::World;
use sheets::{erased, hex};
use sovzedal_reference::{decode, Accepted};
use std::process::ExitCode;
use std::time::Instant;

const SHEETS: u64 = 40_000;

/// How many pairs of runs each lean sheet has.
const RUNS: usize = 4;

const DONE: u32 = 0;

fn main() -> ExitCode {
    let begun = Instant::now();
    let mut counts = Counts::default();
    if let Err(difference) = compare_made_by_hand(&mut counts) {
        println!("{difference}");
        return ExitCode::FAILURE;
    }
    let (mut sheets, mut made_lean) = (0, 0);
    for batch in settings::batches(SHEETS) {
        let items = batch.items.end - batch.items.start;
        println!("seed {}, {items} sheets to be made lean", batch.seed);
        sheets += items;
        for index in batch.items {
            // Not the sheets that the other tests have had from this seed.
            let rng = &mut Rng::for_item(batch.seed.rotate_left(6), index);
            let sample = random_sheet(rng);
            match compare(rng, &sample, &mut counts) {
                Ok(is_lean) => made_lean += usize::from(is_lean),
                Err(difference) => {
                    println!("{difference}");
                    println!("sheet {}", hex(&sample.bytes));
                    println!("again with {}", settings::again(batch.seed, index));
                    return ExitCode::FAILURE;
                }
            }
        }
    }
    println!("{}", counts.0);
    let seconds = begun.elapsed().as_secs_f64();
    let runs = RUNS * made_lean;
    println!(
        "{sheets} sheets, {made_lean} made lean, {runs} pairs of their runs, in {seconds:.1} s"
    );
    let never = counts.never();
    if settings::are_whole() && !never.is_empty() {
        println!("never happened: {never:?}");
        return ExitCode::FAILURE;
    }
    ExitCode::SUCCESS
}

fn compare_made_by_hand(counts: &mut Counts) -> Result<(), String> {
    let erased = erased::all().into_iter().map(|case| case.sheet);
    let others = erased::without_lean_form().into_iter();
    let others = others.map(|(_, sheet)| sheet);
    let extremes = [deepest(), widest(), many_checks(), most_types()];
    for bytes in erased.chain(others).chain(extremes) {
        let rng = &mut Rng::new(0);
        let world = World::random(rng);
        let sample = Sample { bytes, world };
        compare(rng, &sample, counts)
            .map_err(|difference| format!("{difference}\nsheet {}", hex(&sample.bytes)))?;
    }
    Ok(())
}

/// Mostly one that has a lean form.
fn random_sheet(rng: &mut Rng) -> Sample {
    match rng.below(100) {
        0..60 => erasable(rng),
        60..70 => needing(rng),
        _ => sample(rng),
    }
}

/// Puts all questions about one sheet to both implementations. Tells whether
/// it has a lean form.
fn compare(rng: &mut Rng, sample: &Sample, counts: &mut Counts) -> Result<bool, String> {
    let sheet = &sample.bytes;
    let accepted = Accepted::new(sheet).ok();
    let lean = made_lean(rng, sheet)?;
    let length = lean.as_ref().map(Vec::len);
    for room in random_rooms(rng, length.unwrap_or(sheet.len()), sheet.len()) {
        let answer = random_answer_length(rng);
        let call = EraseCall::random(rng, room, answer);
        let (returned, call) = ask_both(sheet, call)?;
        let cause = call.answer.contents().first().copied();
        counts.count(&Question {
            accepted: accepted.as_ref(),
            sheet,
            lean: length,
            room,
            answer,
            returned,
            cause: cause.unwrap_or(0),
        });
    }
    if let (Some(lean), Some(accepted)) = (&lean, &accepted) {
        let lean_sheet = is_lean_form(rng, accepted, sheet, lean)?;
        counts.count_lean(accepted, &lean_sheet);
        for _ in 0..RUNS {
            runs_agree(rng, accepted, sample, lean, counts)?;
        }
    }
    Ok(lean.is_some())
}

/// The lean form by the library, if there is one. As much room as the sheet
/// takes is always enough.
fn made_lean(rng: &mut Rng, sheet: &[u8]) -> Result<Option<Vec<u8>>, String> {
    let call = EraseCall::fitting(rng, sheet);
    let (returned, call) = ask_both(sheet, call)?;
    match (returned, call.answer.contents()[0]) {
        (DONE, _) => Ok(Some(call.result().to_vec())),
        (_, 33) => Err("longer than the sheet itself".to_string()),
        _ => Ok(None),
    }
}

/// Around the length that is needed, which is no more than that of the sheet.
fn random_rooms(rng: &mut Rng, needed: usize, sheet: usize) -> [usize; 6] {
    [
        needed,
        needed.saturating_sub(1),
        rng.below(needed + 1),
        rng.between(needed, sheet.max(needed)),
        rng.between(sheet, sheet + 40),
        0,
    ]
}

/// Mostly just enough; sometimes too short, sometimes with a rest to keep.
fn random_answer_length(rng: &mut Rng) -> usize {
    match rng.below(30) {
        0 => rng.below(ANSWER_NUMBERS),
        1 => ANSWER_NUMBERS - 1,
        2 | 3 => rng.between(ANSWER_NUMBERS + 1, 2 * ANSWER_NUMBERS),
        _ => ANSWER_NUMBERS,
    }
}

/// Gives what both returned and wrote, or tells how they differ.
fn ask_both(sheet: &[u8], call: EraseCall) -> Result<(u32, EraseCall), String> {
    let (mut library, mut reference) = (call.clone(), call);
    let returned = [
        library.ask::<Library>(sheet),
        reference.ask::<Reference>(sheet),
    ];
    if returned[0] == returned[1] && library == reference {
        return Ok((returned[0], library));
    }
    Err(format!(
        "the implementations differ, with room for {} bytes\n\
         library   returns {}, answer {:?}\n\
         reference returns {}, answer {:?}\n\
         first difference: lean {:?}, answer {:?}",
        library.lean.contents().len(),
        returned[0],
        library.answer.contents(),
        returned[1],
        reference.answer.contents(),
        library.lean.first_difference(&reference.lean),
        library.answer.first_difference(&reference.answer),
    ))
}

/// Whether the library's lean sheet is as W9 says, by each of its sentences;
/// gives it as it is read. "The new sheet is accepted with type unchanged and
/// no needs", by the library's own judge, and it is its own lean form.
fn is_lean_form(
    rng: &mut Rng,
    accepted: &Accepted,
    old: &[u8],
    lean: &[u8],
) -> Result<sovzedal_reference::Sheet, String> {
    let about = |what: String| format!("{what}\nlean {}", hex(lean));
    let new = decode(lean).map_err(|refusal| about(format!("not readable: {refusal:?}")))?;
    let pair = Pair {
        old: &accepted.sheet,
        new: &new,
    };
    if let Some(broken) = pair.broken() {
        return Err(about(format!("broken: {broken}")));
    }
    let [old_verdict, new_verdict] = [old, lean].map(judged);
    let terms = new.terms.len() as u32;
    let expected = (DONE, [0, 0, old_verdict.1[2], terms, 0, 0, 0, 0]);
    if new_verdict != expected {
        let verdicts = format!("judged {old_verdict:?}, lean {new_verdict:?}");
        return Err(about(verdicts));
    }
    match made_lean(rng, lean)? {
        Some(again) if again == lean => Ok(new),
        again => Err(about(format!("made lean again {again:?}"))),
    }
}

/// What the library's judge tells.
fn judged(sheet: &[u8]) -> (u32, [u32; ANSWER_NUMBERS]) {
    let mut answer = [0; ANSWER_NUMBERS];
    (Library::typecheck(sheet, &mut answer), answer)
}

/// "From a stack that grants the old needs, where neither run is refused, it
/// ends or stops as the old one does". Both may be runs of either runner, with
/// checks in force or passed over.
fn runs_agree(
    rng: &mut Rng,
    accepted: &Accepted,
    sample: &Sample,
    lean: &[u8],
    counts: &mut Counts,
) -> Result<(), String> {
    let old = &accepted.sheet;
    let needs = accepted.judgement(old.root()).needs.bits();
    let world = World {
        principals: old.principals.iter().map(|set| set.bits()).collect(),
        ..sample.world.clone()
    };
    let start = granting_stack(rng, &world, needs)
        .ok_or("no principal may use what the root, a sign, needs")?;
    let request = Request::random_admissible(rng, start);
    let modes = [RunMode::random(rng), RunMode::random(rng)];
    let result = RunResult::of_run(rng, &sample.bytes, &request, modes[0])?;
    let lean_result = RunResult::of_run(rng, lean, &request, modes[1])?;
    if runs::made_lean(&result, old).as_ref() != Some(&lean_result) {
        return Err(format!(
            "runs differ\n{request:?}\n\
             {:?} {result:?}\n\
             {:?} {lean_result:?}, lean {}",
            modes[0],
            modes[1],
            hex(lean),
        ));
    }
    let runs = [(modes[0], &result), (modes[1], &lean_result)];
    counts.count_runs(old, needs, &request.start, runs);
    Ok(())
}
