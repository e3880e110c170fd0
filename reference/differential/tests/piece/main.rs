//! Random sheets whose smallest faulty piece is asked of the library and of the
//! reference: they return the same, and every number in and around the answer
//! is the same. The library's answers are also held against each sentence of
//! W13 by itself, with every term judged alone where it stands.

mod counts;
mod sentences;

use counts::{Answered, Counts};
use differential::settings;
use differential::{Implementation, Library, Margined, Reference, ANSWER_NUMBERS};
use sentences::{is_by_rules, record_place, smallest, Signer, Standing};
use sheets::extremes::{costly_branches, costly_fault, deepest, late_fault, longest};
use sheets::faulty::faulty;
use sheets::generate::sample;
use sheets::rng::Rng;
use sheets::{hex, pieces, smallest as smallest_sheets};
use sovzedal_reference::{decode, Sheet, TermId};
use std::process::ExitCode;
use std::time::Instant;

const SHEETS: u64 = 40_000;

/// Random sheets with more terms have their terms judged one by one only now and
/// then: that takes the square of their number.
const SMALL: usize = 120;
const MAX_TERMS: usize = 1_024;

const DONE: u32 = 0;
const REFUSED: u32 = 2;
const RECORD: u32 = 8;

fn main() -> ExitCode {
    let begun = Instant::now();
    let mut counts = Counts::default();
    if let Err(difference) = compare_made_by_hand(&mut counts) {
        println!("{difference}");
        return ExitCode::FAILURE;
    }
    let mut sheets = 0;
    for batch in settings::batches(SHEETS) {
        let items = batch.items.end - batch.items.start;
        println!("seed {}, {items} sheets", batch.seed);
        sheets += items;
        for index in batch.items {
            // Not the sheets that the other tests have had from this seed.
            let rng = &mut Rng::for_item(batch.seed.rotate_left(13), index);
            let sheet = random_sheet(rng);
            let judged = if rng.percent(20) { MAX_TERMS } else { SMALL };
            if let Err(difference) = compare(rng, &sheet, judged, &mut counts) {
                println!("{difference}");
                println!("sheet {}", hex(&sheet));
                println!("again with {}", settings::again(batch.seed, index));
                return ExitCode::FAILURE;
            }
        }
    }
    println!("{}", counts.coverage);
    let seconds = begun.elapsed().as_secs_f64();
    println!(
        "{sheets} sheets in {seconds:.1} s, {} with a piece held against W13's words, by {} terms \
         judged alone",
        counts.pieces, counts.alone
    );
    println!(
        "of {} the first fault is another, and of {} the piece would be another if the root's \
         principal signed all",
        counts.not_first, counts.by_principal
    );
    let missing = counts.missing();
    if settings::are_whole() && !missing.is_empty() {
        println!("missing: {missing:?}");
        return ExitCode::FAILURE;
    }
    ExitCode::SUCCESS
}

fn compare_made_by_hand(counts: &mut Counts) -> Result<(), String> {
    let cases = pieces::all().into_iter().map(|case| case.sheet);
    let causes = smallest_sheets::all().into_iter().map(|case| case.sheet);
    let made = [
        deepest(),
        longest(),
        late_fault(),
        costly_fault(),
        costly_branches(),
    ];
    for sheet in cases.chain(causes).chain(made) {
        compare(&mut Rng::new(0), &sheet, MAX_TERMS, counts)
            .map_err(|difference| format!("{difference}\nsheet {}", hex(&sheet)))?;
    }
    Ok(())
}

/// Mostly one with several faults.
fn random_sheet(rng: &mut Rng) -> Vec<u8> {
    let sample = match rng.below(100) {
        0..60 => faulty(rng),
        _ => sample(rng),
    };
    sample.bytes
}

/// Mostly just enough; sometimes too short, sometimes with a rest to keep.
fn random_answer_length(rng: &mut Rng) -> usize {
    match rng.below(60) {
        0 => rng.below(ANSWER_NUMBERS),
        1 => ANSWER_NUMBERS - 1,
        2..=5 => rng.between(ANSWER_NUMBERS + 1, 2 * ANSWER_NUMBERS),
        _ => ANSWER_NUMBERS,
    }
}

/// Asks both implementations, and holds what they tell against the words. Of
/// sheets with at most so many terms all are judged one by one.
fn compare(
    rng: &mut Rng,
    bytes: &[u8],
    judged_terms: usize,
    counts: &mut Counts,
) -> Result<(), String> {
    let length = random_answer_length(rng);
    let (returned, buffer) = ask_both(bytes, Margined::random(rng, length))?;
    let mut judged = [0; ANSWER_NUMBERS];
    Library::typecheck(bytes, &mut judged);
    let sheet = decode(bytes).ok();
    let answer = buffer.contents();
    counts.count(&Answered {
        judged: judged[0],
        is_readable: sheet.is_some(),
        answer: length,
        returned,
        cause: answer.first().copied().unwrap_or(0),
        has_piece: answer.get(4).is_some_and(|&count| count > 0),
    });
    let Some(answer) = answer.first_chunk() else {
        return Ok(());
    };
    match sheet {
        None => is_the_readers(bytes, returned, answer),
        Some(sheet) => {
            let query = Query {
                bytes,
                sheet: &sheet,
                first: (judged[0], judged[1] as TermId),
                returned,
                answer,
            };
            query.is_as_said(judged_terms, counts)
        }
    }
}

/// Gives what both returned and wrote, or tells how they differ.
fn ask_both(sheet: &[u8], buffer: Margined<u32>) -> Result<(u32, Margined<u32>), String> {
    let (mut library, mut reference) = (buffer.clone(), buffer);
    let returned = [
        Library::piece(sheet, library.contents_mut()),
        Reference::piece(sheet, reference.contents_mut()),
    ];
    if returned[0] == returned[1] && library == reference {
        return Ok((returned[0], library));
    }
    Err(format!(
        "the implementations differ\n\
         library   returns {}, answer {:?}\n\
         reference returns {}, answer {:?}\n\
         first difference: {:?}",
        returned[0],
        library.contents(),
        returned[1],
        reference.contents(),
        library.first_difference(&reference),
    ))
}

/// "An unreadable sheet gets the reader's refusal", of the library's own reader.
fn is_the_readers(
    bytes: &[u8],
    returned: u32,
    answer: &[u32; ANSWER_NUMBERS],
) -> Result<(), String> {
    let mut read = [0; ANSWER_NUMBERS];
    let reader = Library::decode(bytes, &mut read);
    if returned == REFUSED && reader == REFUSED && *answer == read {
        return Ok(());
    }
    Err(format!(
        "the reader returns {reader}, {read:?}; returned {returned}, {answer:?}"
    ))
}

/// A sheet that can be read, and what was told of it.
struct Query<'a> {
    bytes: &'a [u8],
    sheet: &'a Sheet,
    /// What the library's type checker tells, 0 and 0 if it accepts the sheet.
    first: (u32, TermId),
    returned: u32,
    answer: &'a [u32; ANSWER_NUMBERS],
}

impl Query<'_> {
    /// Whether the library's answer is as W13 says, by each of its sentences.
    fn is_as_said(&self, judged_terms: usize, counts: &mut Counts) -> Result<(), String> {
        if self.returned != DONE {
            return Err(format!("{} returned of a readable sheet", self.returned));
        }
        if !is_by_rules(self.first.0) {
            return match self.answer {
                [0, 0, 0, 0, 0, 0, 0, 0] => Ok(()),
                _ => Err(format!("a piece, {:?}", self.answer)),
            };
        }
        self.is_a_record()?;
        match self.sheet.terms.len() <= judged_terms {
            true => self.is_smallest(counts),
            false => Ok(()),
        }
    }

    /// "those eight bytes of the caller's own sheet that are its record".
    fn is_a_record(&self) -> Result<(), String> {
        let [cause, place, _, term, _, offset, length, last] = *self.answer;
        let record = record_place(self.bytes, term as TermId);
        let is_inside = term <= u32::from(self.sheet.root());
        let is_there = (offset as usize, length) == (record.start, RECORD);
        if is_inside && is_there && [cause, place, last] == [0; 3] {
            return Ok(());
        }
        Err(format!("{:?}, the record is at {record:?}", self.answer))
    }

    /// The term is refused where it stands, by the fault told and for itself;
    /// none with fewer terms in it is, and of those with as many none that is
    /// lower; and each child is accepted where it stands.
    fn is_smallest(&self, counts: &mut Counts) -> Result<(), String> {
        let [_, _, cause, term, count, ..] = *self.answer;
        let standing = Standing::new(self.sheet);
        let faults = standing.faults(Signer::Own);
        let Some(piece) = smallest(&faults) else {
            return Err(format!("no term is refused alone; {:?}", self.answer));
        };
        let found = (term, count as usize, cause);
        if found != (piece.term.into(), piece.count, piece.cause) || !piece.is_own {
            return Err(format!("{piece:?} is the smallest; {:?}", self.answer));
        }
        let mut children = self.sheet.term(piece.term).children();
        if children.any(|child| faults.iter().any(|it| it.term == child)) {
            return Err(format!("a child of {piece:?} is refused, too"));
        }
        counts.count_piece(self.sheet, &standing, &faults, piece, self.first);
        Ok(())
    }
}
