//! Random sheets with every privilege, and some that there aren't, asked of
//! the library and of the reference: they return the same, and every number in
//! and around the list for the chain and the answer is the same. The library's
//! chains are also held against each sentence of W7 by itself.

mod counts;
mod sentences;

use counts::{Counts, ExplainResult};
use differential::{
    settings, ExplainCall, Implementation, Library, Reference, ANSWER_NUMBERS, CHAIN_NUMBERS,
};
use sentences::Question;
use sheets::extremes::{deep_calls, deep_need};
use sheets::generate::{accepted_sample, sample};
use sheets::needy::needing;
use sheets::rng::Rng;
use sheets::{explained, hex};
use sovzedal_reference::{Accepted, Privilege};
use std::process::ExitCode;
use std::time::Instant;

const SHEETS: u64 = 40_000;

/// Sheets with no more terms have all ways down looked at: one fits.
const SMALL: usize = 40;

const PRIVILEGES: u32 = 32;
const DONE: u32 = 0;

fn main() -> ExitCode {
    let begun = Instant::now();
    let mut counts = Counts::default();
    if let Err(difference) = compare_made_by_hand(&mut counts) {
        println!("{difference}");
        return ExitCode::FAILURE;
    }
    let mut sheets = 0;
    for batch in settings::batches(SHEETS) {
        let items = batch.items.end - batch.items.start;
        println!("seed {}, {items} sheets with every privilege", batch.seed);
        sheets += items;
        for index in batch.items {
            // Not the sheets that the other tests have had from this seed.
            let rng = &mut Rng::for_item(batch.seed.rotate_left(4), index);
            let sheet = random_sheet(rng);
            if let Err(difference) = compare(rng, &sheet, &mut counts) {
                println!("{difference}");
                println!("again with {}", settings::again(batch.seed, index));
                return ExitCode::FAILURE;
            }
        }
    }
    println!("{}", counts.0);
    let seconds = begun.elapsed().as_secs_f64();
    println!("{sheets} sheets with every privilege in {seconds:.1} s");
    let never = counts.never();
    if settings::are_whole() && !never.is_empty() {
        println!("never happened: {never:?}");
        return ExitCode::FAILURE;
    }
    ExitCode::SUCCESS
}

fn compare_made_by_hand(counts: &mut Counts) -> Result<(), String> {
    let cases = explained::all().into_iter().map(|case| case.sheet);
    for sheet in cases.chain([deep_need(), deep_calls()]) {
        compare(&mut Rng::new(0), &sheet, counts)?;
    }
    Ok(())
}

/// Mostly one that is accepted, often for a need of something deep inside.
fn random_sheet(rng: &mut Rng) -> Vec<u8> {
    let sample = match rng.below(100) {
        0..40 => accepted_sample(rng),
        40..75 => needing(rng),
        _ => sample(rng),
    };
    sample.bytes
}

/// Puts all questions about one sheet to both implementations.
fn compare(rng: &mut Rng, sheet: &[u8], counts: &mut Counts) -> Result<(), String> {
    let needs = needs_by_library(sheet);
    let accepted = Accepted::new(sheet).ok();
    let above = random_above(rng, needs);
    for privilege in (0..PRIVILEGES).chain(above) {
        let (chain, answer) = random_lengths(rng);
        let lists = ExplainCall::random(rng, chain, answer);
        let (returned, call) = ask_both(sheet, privilege, lists)?;
        let cause = call.answer.contents().first().copied();
        counts.count(&ExplainResult {
            accepted: accepted.as_ref(),
            needs,
            privilege,
            returned,
            chain,
            answer,
            cause: cause.unwrap_or(0),
        });
        if let (DONE, Some(accepted)) = (returned, &accepted) {
            let privilege = Privilege::new(privilege as u8).expect("one of those there are");
            let question = Question {
                accepted,
                privilege,
            };
            let chain = call.result();
            fits(&question, needs, chain).map_err(|broken| {
                format!(
                    "{broken}\n{privilege:?}, chain {chain:?}\nsheet {}",
                    hex(sheet)
                )
            })?;
            counts.count_chain(&question, needs, chain);
        }
    }
    Ok(())
}

/// The needs of an accepted sheet, by the library's judge.
fn needs_by_library(sheet: &[u8]) -> u32 {
    let mut answer = [0; ANSWER_NUMBERS];
    Library::typecheck(sheet, &mut answer);
    answer[7]
}

/// Numbers that no privilege has. Some have a privilege's lowest bits.
fn random_above(rng: &mut Rng, needs: u32) -> [u32; 3] {
    let needed = needs.trailing_zeros() % PRIVILEGES;
    let beyond = rng.pick(&[1 << 5, 1 << 6, 1 << 8, 1 << 16, 1 << 31]);
    let any = rng.bits().max(PRIVILEGES);
    [
        needed + beyond,
        rng.pick(&[32, 33, 63, 64, 255, 256, u32::MAX]),
        any,
    ]
}

/// Of the list for the chain and of the answer: mostly just enough; sometimes
/// too short, sometimes with a rest to keep.
fn random_lengths(rng: &mut Rng) -> (usize, usize) {
    let mut length = |enough: usize| match rng.below(60) {
        0 => rng.below(enough),
        1 => enough - 1,
        2..=5 => rng.between(enough + 1, 2 * enough),
        _ => enough,
    };
    (length(CHAIN_NUMBERS), length(ANSWER_NUMBERS))
}

/// Gives what both returned and wrote, or tells how they differ.
fn ask_both(
    sheet: &[u8],
    privilege: u32,
    lists: ExplainCall,
) -> Result<(u32, ExplainCall), String> {
    let (mut library, mut reference) = (lists.clone(), lists);
    let returned = [
        library.ask::<Library>(sheet, privilege),
        reference.ask::<Reference>(sheet, privilege),
    ];
    if returned[0] == returned[1] && library == reference {
        return Ok((returned[0], library));
    }
    Err(format!(
        "the implementations differ\n\
         privilege {privilege}\n\
         sheet {}\n\
         library   returns {}, answer {:?}, chain {:?}\n\
         reference returns {}, answer {:?}, chain {:?}\n\
         first difference: chain {:?}, answer {:?}",
        hex(sheet),
        returned[0],
        library.answer.contents(),
        library.chain.contents(),
        returned[1],
        reference.answer.contents(),
        reference.chain.contents(),
        library.chain.first_difference(&reference.chain),
        library.answer.first_difference(&reference.answer),
    ))
}

/// Whether the library's chain is as W7 says, by each of its sentences, and
/// whether no other is. There is none exactly if the library's judge doesn't
/// tell the privilege among the needs.
fn fits(question: &Question, needs: u32, chain: &[u16]) -> Result<(), String> {
    let needed = sovzedal_reference::Set::from_bits(needs).contains(question.privilege);
    if chain.is_empty() == needed {
        return Err(format!(
            "a chain of {} terms, needs {needs:08X}",
            chain.len()
        ));
    }
    if let (true, Some(broken)) = (needed, question.broken_by(chain)) {
        return Err(format!("broken: {broken}"));
    }
    if question.accepted.sheet.terms.len() <= SMALL {
        let unbroken = question.unbroken();
        if unbroken != usize::from(needed) {
            return Err(format!("{unbroken} chains break no sentence"));
        }
    }
    Ok(())
}
