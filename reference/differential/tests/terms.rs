//! Random sheets with the number of every term, and some that no term has,
//! asked of the library and of the reference: they return the same, and every
//! number in and around the answer is the same. The library's answers are also
//! held against its own type checker and its own smallest faulty piece.

use differential::{
    settings, Coverage, Implementation, Library, Margined, Reference, ANSWER_NUMBERS,
};
use sheets::extremes::{deepest, late_fault, longest, widest};
use sheets::faulty::faulty;
use sheets::generate::sample;
use sheets::rng::Rng;
use sheets::{hex, pieces, smallest};
use sovzedal_reference::{decode, PrincipalId, Sheet, Term, TermId};
use std::process::ExitCode;

const SHEETS: u64 = 10_000;

/// Of random sheets with more terms not all are asked for.
const SMALL: usize = 120;
const SOME: usize = 40;

const DONE: u32 = 0;
const REFUSED: u32 = 2;
const UNFIT: u32 = 3;

const NO_TERM: u32 = 37;
const ROOT_TYPE: u32 = 13;

/// What has to happen.
const EXPECTED: [&str; 24] = [
    "a short answer",
    "a longer answer",
    "an unreadable sheet",
    "the root",
    "the root, refused by 13",
    "typed in an accepted sheet",
    "typed in a refused sheet",
    "of a function type",
    "with needs",
    "under another principal than 0",
    "the smallest faulty piece",
    "a fault of its own",
    "a fault of one in it",
    "past the last: the next",
    "past the last: another",
    "past the last: the lowest bits are a term's",
    "refused by 9",
    "refused by 10",
    "refused by 11",
    "refused by 12",
    "refused by 24",
    "refused by 25",
    "refused by 26",
    "not the first fault",
];

fn main() -> ExitCode {
    let mut coverage = Coverage::default();
    if let Err(difference) = compare_made_by_hand(&mut coverage) {
        println!("{difference}");
        return ExitCode::FAILURE;
    }
    for batch in settings::batches(SHEETS) {
        let items = batch.items.end - batch.items.start;
        println!("seed {}, {items} sheets with their terms", batch.seed);
        for index in batch.items {
            // Not the sheets that the other tests have had from this seed.
            let rng = &mut Rng::for_item(batch.seed.rotate_left(21), index);
            let sheet = random_sheet(rng);
            if let Err(difference) = compare(rng, &sheet, &mut coverage) {
                println!("{difference}");
                println!("sheet {}", hex(&sheet));
                println!("again with {}", settings::again(batch.seed, index));
                return ExitCode::FAILURE;
            }
        }
    }
    println!("{coverage}");
    let never = coverage.never(EXPECTED.map(String::from));
    if settings::are_whole() && !never.is_empty() {
        println!("never happened: {never:?}");
        return ExitCode::FAILURE;
    }
    ExitCode::SUCCESS
}

fn compare_made_by_hand(coverage: &mut Coverage) -> Result<(), String> {
    let cases = pieces::all().into_iter().map(|case| case.sheet);
    let causes = smallest::all().into_iter().map(|case| case.sheet);
    let made = [deepest(), longest(), widest(), late_fault()];
    for sheet in cases.chain(causes).chain(made) {
        compare(&mut Rng::new(0), &sheet, coverage)
            .map_err(|difference| format!("{difference}\nsheet {}", hex(&sheet)))?;
    }
    Ok(())
}

fn random_sheet(rng: &mut Rng) -> Vec<u8> {
    let sample = match rng.below(100) {
        0..50 => faulty(rng),
        _ => sample(rng),
    };
    sample.bytes
}

/// Puts all questions about one sheet to both implementations.
fn compare(rng: &mut Rng, bytes: &[u8], coverage: &mut Coverage) -> Result<(), String> {
    let subject = Subject::new(bytes);
    for number in random_numbers(rng, subject.terms()) {
        let length = random_answer_length(rng);
        let before = Margined::random(rng, length);
        let (returned, buffer) = ask_both(bytes, number, before.clone())?;
        let about = |what: String| format!("term {number}: {what}");
        let Some(&answer) = buffer.contents().first_chunk() else {
            if (returned, &buffer) != (UNFIT, &before) {
                return Err(about(format!("{returned} of a short answer")));
            }
            coverage.count("a short answer");
            continue;
        };
        coverage.count_if(length > ANSWER_NUMBERS, "a longer answer");
        let result = Answer { returned, answer };
        subject
            .is_as_said(number, result, coverage)
            .map_err(about)?;
    }
    Ok(())
}

/// Those of all terms, or of some with the root; and some that no term has.
fn random_numbers(rng: &mut Rng, terms: usize) -> Vec<u32> {
    let last = terms.max(1) as u32;
    let mut numbers: Vec<u32> = match terms <= SMALL {
        true => (0..last).collect(),
        false => (0..SOME).map(|_| rng.below(terms) as u32).collect(),
    };
    let one = rng.below(last as usize) as u32;
    let beyond = rng.pick(&[1 << 10, 1 << 15, 1 << 16, 1 << 31]);
    numbers.extend([last - 1, last, last + 1, one + beyond, rng.bits().max(last)]);
    numbers
}

/// Mostly just enough; sometimes too short, sometimes with a rest to keep.
fn random_answer_length(rng: &mut Rng) -> usize {
    match rng.below(60) {
        0 => rng.below(ANSWER_NUMBERS),
        1 => ANSWER_NUMBERS - 1,
        2..=5 => rng.between(ANSWER_NUMBERS + 1, 2 * ANSWER_NUMBERS),
        _ => ANSWER_NUMBERS,
    }
}

/// Gives what both returned and wrote, or tells how they differ.
fn ask_both(
    sheet: &[u8],
    number: u32,
    buffer: Margined<u32>,
) -> Result<(u32, Margined<u32>), String> {
    let (mut library, mut reference) = (buffer.clone(), buffer);
    let returned = [
        Library::term(sheet, number, library.contents_mut()),
        Reference::term(sheet, number, reference.contents_mut()),
    ];
    if returned[0] == returned[1] && library == reference {
        return Ok((returned[0], library));
    }
    Err(format!(
        "the implementations differ\n\
         term {number}\n\
         library   returns {}, answer {:?}\n\
         reference returns {}, answer {:?}\n\
         first difference: {:?}",
        returned[0],
        library.contents(),
        returned[1],
        reference.contents(),
        library.first_difference(&reference),
    ))
}

/// What was returned, and the first numbers of the answer.
#[derive(Clone, Copy, Debug, PartialEq, Eq)]
struct Answer {
    returned: u32,
    answer: [u32; ANSWER_NUMBERS],
}

impl Answer {
    fn of(ask: impl FnOnce(&mut [u32]) -> u32) -> Self {
        let mut answer = [0; ANSWER_NUMBERS];
        let returned = ask(&mut answer);
        Self { returned, answer }
    }

    fn is_refused_by(self, cause: u32, place: u32) -> bool {
        self.returned == REFUSED && self.answer == [cause, place, 0, 0, 0, 0, 0, 0]
    }
}

/// A sheet, and what the library's other entries tell of it.
struct Subject {
    sheet: Option<Sheet>,
    /// Who signs where each term stands, 0 at the root.
    principals: Vec<PrincipalId>,
    read: Answer,
    judged: Answer,
    piece: Answer,
}

impl Subject {
    fn new(bytes: &[u8]) -> Self {
        let sheet = decode(bytes).ok();
        Self {
            principals: sheet.as_ref().map_or(Vec::new(), principals),
            sheet,
            read: Answer::of(|answer| Library::decode(bytes, answer)),
            judged: Answer::of(|answer| Library::typecheck(bytes, answer)),
            piece: Answer::of(|answer| Library::piece(bytes, answer)),
        }
    }

    /// 0 of a sheet that cannot be read.
    fn terms(&self) -> usize {
        self.sheet.as_ref().map_or(0, |sheet| sheet.terms.len())
    }

    /// Whether the library's answer fits what its other entries tell.
    fn is_as_said(
        &self,
        number: u32,
        result: Answer,
        coverage: &mut Coverage,
    ) -> Result<(), String> {
        let expect = |holds: bool, what: &str| match holds {
            true => Ok(()),
            false => Err(format!("{what}: {result:?}")),
        };
        let Some(sheet) = &self.sheet else {
            coverage.count("an unreadable sheet");
            return expect(result == self.read, "the reader's refusal is another");
        };
        let (terms, root) = (self.terms() as u32, u32::from(sheet.root()));
        if number >= terms {
            coverage.count(match number {
                _ if number == terms => "past the last: the next",
                _ if (number & 0xFFFF) < terms => "past the last: the lowest bits are a term's",
                _ => "past the last: another",
            });
            return expect(result.is_refused_by(NO_TERM, 0), "there is no such term");
        }
        if number == root {
            self.is_the_verdict(result, coverage)?;
        }
        let is_piece = self.piece.answer[4] > 0 && self.piece.answer[3] == number;
        if is_piece {
            coverage.count("the smallest faulty piece");
            let fault = self.piece.answer[2];
            expect(
                result.is_refused_by(fault, number),
                "the piece's fault is another",
            )?;
        }
        match result.returned {
            DONE => self.is_typed(number as TermId, result, coverage),
            _ => self.is_faulty(number, result, coverage),
        }
    }

    /// The type checker's verdict is the root's judgement, but that 13 comes last.
    fn is_the_verdict(&self, result: Answer, coverage: &mut Coverage) -> Result<(), String> {
        coverage.count("the root");
        let [cause, _, ty, _, _, _, _, needs] = self.judged.answer;
        let fits = match (self.judged.returned, cause) {
            (DONE, _) => {
                (result.answer[2], result.answer[7]) == (ty, needs) && result.returned == DONE
            }
            (_, ROOT_TYPE) => {
                coverage.count("the root, refused by 13");
                result.returned == DONE && result.answer[2] > 1
            }
            _ => result == self.judged,
        };
        match fits {
            true => Ok(()),
            false => Err(format!("{:?} is the verdict: {result:?}", self.judged)),
        }
    }

    fn is_typed(&self, id: TermId, result: Answer, coverage: &mut Coverage) -> Result<(), String> {
        let [cause, place, ty, principal, fourth, fifth, sixth, needs] = result.answer;
        let others = [cause, place, fourth, fifth, sixth];
        let signer = self.principals[usize::from(id)];
        if others != [0; 5] || principal != u32::from(signer) {
            return Err(format!("under principal {signer}: {result:?}"));
        }
        let is_accepted = self.judged.returned == DONE;
        coverage.count_if(is_accepted, "typed in an accepted sheet");
        coverage.count_if(!is_accepted, "typed in a refused sheet");
        coverage.count_if(ty > 1, "of a function type");
        coverage.count_if(needs != 0, "with needs");
        coverage.count_if(signer != 0, "under another principal than 0");
        Ok(())
    }

    /// By 9 to 12 or 24 to 26, and only in a sheet that the type checker refuses
    /// by one of these.
    fn is_faulty(
        &self,
        number: u32,
        result: Answer,
        coverage: &mut Coverage,
    ) -> Result<(), String> {
        let [cause, place, ..] = result.answer;
        let is_by_rules = |cause| matches!(cause, 9..=12 | 24..=26);
        let is_refused = self.judged.returned == REFUSED && is_by_rules(self.judged.answer[0]);
        if !is_by_rules(cause)
            || place > number
            || !result.is_refused_by(cause, place)
            || !is_refused
        {
            return Err(format!("{result:?}"));
        }
        coverage.count(format!("refused by {cause}"));
        coverage.count(match place == number {
            true => "a fault of its own",
            false => "a fault of one in it",
        });
        coverage.count_if(self.judged.answer[1] != place, "not the first fault");
        Ok(())
    }
}

/// Who signs where each term stands: the nearest sign around it, 0 at the root.
fn principals(sheet: &Sheet) -> Vec<PrincipalId> {
    let mut principals = vec![0; sheet.terms.len()];
    for id in (0..=sheet.root()).rev() {
        let inside = match sheet.term(id) {
            Term::Sign { principal, .. } => principal,
            _ => principals[usize::from(id)],
        };
        for child in sheet.term(id).children() {
            principals[usize::from(child)] = inside;
        }
    }
    principals
}
