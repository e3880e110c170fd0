//! Random sheets with every privilege, and some that there aren't, asked of
//! the library and of the reference whether the sheet names it: they return
//! the same, and every number in and around the answer is the same. And W11 on
//! the library's own answers: a sheet that doesn't name a privilege runs the
//! same from two starts that differ in it alone.

mod counts;
mod sentences;
mod starts;

use counts::{Answered, Counts, Pairs};
use differential::{settings, RunMode, RunResult};
use differential::{Implementation, Library, Margined, Reference, ANSWER_NUMBERS};
use sentences::Question;
use sheets::extremes::{deepest, longest, widest};
use sheets::generate::{sample, Sample};
use sheets::quiet::quiet;
use sheets::request::Request;
use sheets::rng::Rng;
use sheets::world::World;
use sheets::{hex, named};
use sovzedal_reference::{decode, typecheck, Privilege, Set, Sheet};
use starts::Pair;
use std::process::ExitCode;
use std::time::Instant;

const SHEETS: u64 = 40_000;

const PRIVILEGES: u32 = 32;
const DONE: u32 = 0;

fn main() -> ExitCode {
    let begun = Instant::now();
    let mut counts = Counts::default();
    if let Err(difference) = compare_made_by_hand(&mut counts) {
        println!("{difference}");
        return ExitCode::FAILURE;
    }
    let mut sheets = 0;
    for batch in settings::batches(SHEETS) {
        let items = batch.items.end - batch.items.start;
        println!("seed {}, {items} sheets with every privilege", batch.seed);
        sheets += items;
        for index in batch.items {
            // Not the sheets that the other tests have had from this seed.
            let rng = &mut Rng::for_item(batch.seed.rotate_left(7), index);
            let (sample, query) = random_sheet(rng);
            if let Err(difference) = compare(rng, &sample, query, &mut counts) {
                println!("{difference}");
                println!("sheet {}", hex(&sample.bytes));
                println!("again with {}", settings::again(batch.seed, index));
                return ExitCode::FAILURE;
            }
        }
    }
    println!("{}", counts.coverage);
    let seconds = begun.elapsed().as_secs_f64();
    println!("{sheets} sheets with every privilege in {seconds:.1} s");
    print_pairs(&counts);
    let missing = counts.missing();
    if settings::are_whole() && !missing.is_empty() {
        println!("missing: {missing:?}");
        return ExitCode::FAILURE;
    }
    ExitCode::SUCCESS
}

fn print_pairs(counts: &Counts) {
    let Pairs {
        all,
        differing,
        enabled,
        enabled_with_effect,
    } = counts.pairs;
    let [checks, tests, guards] = counts.playing_a_part;
    println!(
        "{all} pairs of runs, {differing} from starts that differ in the privilege; \
         of these the sheet enables it in {enabled}, with an effect in {enabled_with_effect}"
    );
    println!(
        "pairs that come out differently: {checks} where checks alone name it, \
         {tests} where tests alone do, {guards} where guards alone do"
    );
}

fn compare_made_by_hand(counts: &mut Counts) -> Result<(), String> {
    let cases = named::all().into_iter().map(|case| case.sheet);
    for bytes in cases.chain([deepest(), longest(), widest()]) {
        let rng = &mut Rng::new(0);
        let world = World::random(rng);
        let sample = Sample { bytes, world };
        compare(rng, &sample, named::PRIVILEGE, counts)
            .map_err(|difference| format!("{difference}\nsheet {}", hex(&sample.bytes)))?;
    }
    Ok(())
}

/// Mostly one that has to do with a privilege and doesn't name it; and which
/// privilege to try first.
fn random_sheet(rng: &mut Rng) -> (Sample, u8) {
    match rng.below(100) {
        0..65 => quiet(rng),
        _ => {
            let sample = sample(rng);
            let query = sample.world.random_privilege(rng);
            (sample, query)
        }
    }
}

/// Puts all questions about one sheet to both implementations, and runs it
/// with and without some of the privileges.
fn compare(rng: &mut Rng, sample: &Sample, query: u8, counts: &mut Counts) -> Result<(), String> {
    let subject = Subject::new(&sample.bytes);
    let above = random_above(rng, subject.named);
    for privilege in (0..PRIVILEGES).chain(above) {
        subject.ask(rng, privilege, counts)?;
    }
    let Some(sheet) = &subject.sheet else {
        return Ok(());
    };
    let world = World {
        principals: sheet.principals.iter().map(|set| set.bits()).collect(),
        ..sample.world.clone()
    };
    let any = rng.below(PRIVILEGES as usize) as u8;
    for privilege in [query, query, world.random_privilege(rng), any] {
        subject.run(rng, &world, &question(sheet, privilege.into()), counts)?;
    }
    Ok(())
}

fn question(sheet: &Sheet, privilege: u32) -> Question<'_> {
    Question {
        sheet,
        privilege: Privilege::of_number(privilege).expect("one of those there are"),
    }
}

/// Whether the library says so, with an answer that has room.
fn is_named_by_library(sheet: &[u8], privilege: u32) -> bool {
    let mut answer = [0; ANSWER_NUMBERS];
    Library::names(sheet, privilege, &mut answer) == DONE && answer[2] == 1
}

/// Numbers that no privilege has. Some have a privilege's lowest bits.
fn random_above(rng: &mut Rng, named: u32) -> [u32; 3] {
    let one = named.trailing_zeros() % PRIVILEGES;
    let beyond = rng.pick(&[1 << 5, 1 << 6, 1 << 8, 1 << 16, 1 << 31]);
    let any = rng.bits().max(PRIVILEGES);
    [
        one + beyond,
        rng.pick(&[32, 33, 63, 64, 255, 256, u32::MAX]),
        any,
    ]
}

/// Mostly just enough; sometimes too short, sometimes with a rest to keep.
fn random_answer_length(rng: &mut Rng) -> usize {
    match rng.below(60) {
        0 => rng.below(ANSWER_NUMBERS),
        1 => ANSWER_NUMBERS - 1,
        2..=5 => rng.between(ANSWER_NUMBERS + 1, 2 * ANSWER_NUMBERS),
        _ => ANSWER_NUMBERS,
    }
}

/// Gives what both returned and wrote, or tells how they differ.
fn ask_both(
    sheet: &[u8],
    privilege: u32,
    buffer: Margined<u32>,
) -> Result<(u32, Margined<u32>), String> {
    let (mut library, mut reference) = (buffer.clone(), buffer);
    let returned = [
        Library::names(sheet, privilege, library.contents_mut()),
        Reference::names(sheet, privilege, reference.contents_mut()),
    ];
    if returned[0] == returned[1] && library == reference {
        return Ok((returned[0], library));
    }
    Err(format!(
        "the implementations differ\n\
         privilege {privilege}\n\
         library   returns {}, answer {:?}\n\
         reference returns {}, answer {:?}\n\
         first difference: {:?}",
        returned[0],
        library.contents(),
        returned[1],
        reference.contents(),
        library.first_difference(&reference),
    ))
}

/// Whether the library's answer is as W11's words say: yes with the lowest term
/// that names the privilege, or no.
fn is_as_said(question: &Question, answer: &[u32]) -> Result<(), String> {
    let naming = question.naming();
    let lowest = naming.first().map_or(0, |&(term, _)| u32::from(term));
    let is_named = u32::from(!naming.is_empty());
    if answer[..ANSWER_NUMBERS] == [0, 0, is_named, lowest, 0, 0, 0, 0] {
        return Ok(());
    }
    Err(format!(
        "{:?} is named by {naming:?}, answer {answer:?}",
        question.privilege
    ))
}

/// A sheet that is asked about and run.
struct Subject<'a> {
    bytes: &'a [u8],
    /// As it is read, if it can be.
    sheet: Option<Sheet>,
    is_accepted: bool,
    /// The privileges that it names, as the library tells.
    named: u32,
}

impl<'a> Subject<'a> {
    fn new(bytes: &'a [u8]) -> Self {
        let bit = |privilege| u32::from(is_named_by_library(bytes, privilege)) << privilege;
        Self {
            bytes,
            sheet: decode(bytes).ok(),
            is_accepted: typecheck(bytes).is_ok(),
            named: (0..PRIVILEGES).map(bit).sum(),
        }
    }

    /// Asks both implementations for any number.
    fn ask(&self, rng: &mut Rng, privilege: u32, counts: &mut Counts) -> Result<(), String> {
        let length = random_answer_length(rng);
        let (returned, buffer) = ask_both(self.bytes, privilege, Margined::random(rng, length))?;
        counts.count(&Answered {
            is_readable: self.sheet.is_some(),
            named: self.named,
            privilege,
            answer: length,
            returned,
            cause: buffer.contents().first().copied().unwrap_or(0),
        });
        if let (DONE, Some(sheet)) = (returned, &self.sheet) {
            let question = question(sheet, privilege);
            is_as_said(&question, buffer.contents())?;
            counts.count_naming(&question, self.is_accepted);
        }
        Ok(())
    }

    /// "two starts whose granted sets differ at most in p, neither of them
    /// turned back, give the same end or stop, posts and counts under the same
    /// allowances and buffers, with checks in force", of either runner.
    fn run(
        &self,
        rng: &mut Rng,
        world: &World,
        question: &Question,
        counts: &mut Counts,
    ) -> Result<(), String> {
        let pair = Pair::random(rng, world, question.privilege);
        let modes = [RunMode::enforced(rng), RunMode::enforced(rng)];
        let [start, other] = pair.starts.clone();
        let request = Request::random_admissible(rng, start);
        let result = RunResult::of_run(rng, self.bytes, &request, modes[0])?;
        let request = Request {
            start: other,
            ..request
        };
        let other_result = RunResult::of_run(rng, self.bytes, &request, modes[1])?;
        let is_same = result == other_result;
        if Set::from_bits(self.named).contains(question.privilege) {
            if let Some(by) = question.named_alone_by() {
                counts.count_named_pair(by, is_same);
            }
            return Ok(());
        }
        if !is_same {
            return Err(format!(
                "{:?} isn't named and plays a part\n{pair:?}\n{request:?}\n\
                 {:?} {result:?}\n\
                 {:?} {other_result:?}",
                question.privilege, modes[0], modes[1],
            ));
        }
        counts.count_pair(question, self.is_accepted, &pair, modes, &result);
        Ok(())
    }
}
