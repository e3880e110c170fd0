//! Sums and differences about the limits, where it is known without either
//! implementation what they come to: the runners of both tell the number, the
//! posts and how many results were held.

use differential::{settings, Buffers, Coverage, Entry, Implementation, Query};
use differential::{Library, Reference, ANSWER_NUMBERS};
use sheets::extremes::most_held;
use sheets::hex;
use sheets::request::Request;
use sheets::rng::Rng;
use sheets::sums::{random, Exact, Sums};
use std::process::ExitCode;

const SHEETS: u64 = 20_000;

const DONE: u32 = 0;

/// What has to happen, and in how many sheets at least.
const EXPECTED: [&str; 10] = [
    "a sum of 65,534",
    "a sum of 65,535",
    "a sum of 65,536",
    "a sum of more",
    "a difference of 1",
    "a difference of 0",
    "a difference of -1",
    "a difference of less",
    "nothing held",
    "more than one held",
];
const ENOUGH: usize = 1_000;

fn main() -> ExitCode {
    let mut coverage = Coverage::default();
    if let Err(difference) = the_most_that_are_known() {
        println!("{difference}");
        return ExitCode::FAILURE;
    }
    for batch in settings::batches(SHEETS) {
        let items = batch.items.end - batch.items.start;
        println!("seed {}, {items} sheets of sums", batch.seed);
        for index in batch.items {
            // Not the sheets that the other tests have had from this seed.
            let rng = &mut Rng::for_item(batch.seed.rotate_left(7), index);
            let sums = random(rng);
            if let Err(difference) = compare_all(rng, &sums) {
                println!("{difference}\nsheet {}", hex(&sums.sheet));
                println!("again with {}", settings::again(batch.seed, index));
                return ExitCode::FAILURE;
            }
            count(&mut coverage, &sums);
        }
    }
    println!("{coverage}");
    let is_rare = |what: &&str| coverage.times(what) < ENOUGH;
    let rare: Vec<&str> = EXPECTED.into_iter().filter(is_rare).collect();
    if settings::are_whole() && !rare.is_empty() {
        println!("fewer than {ENOUGH} sheets: {rare:?}");
        return ExitCode::FAILURE;
    }
    ExitCode::SUCCESS
}

/// By each runner, with checks in force and passed over.
fn compare_all(rng: &mut Rng, sums: &Sums) -> Result<(), String> {
    let held = sums.exact.iter().filter(|exact| exact.is_held()).count();
    let (posts, calls) = (sums.posts.len() as u32, sums.calls);
    let value = sums.value.into();
    let due = [0, 0, 1, value, calls, calls, posts, held as u32];
    for entry in [Entry::RunEager, Entry::RunLazy] {
        for enforce in [1, 0] {
            compare::<Library>(rng, sums, entry, enforce, due)?;
            compare::<Reference>(rng, sums, entry, enforce, due)?;
        }
    }
    Ok(())
}

fn compare<I: Implementation>(
    rng: &mut Rng,
    sums: &Sums,
    entry: Entry,
    enforce: u32,
    due: [u32; ANSWER_NUMBERS],
) -> Result<(), String> {
    let request = Request {
        cell_bytes: 8 * sums.calls as usize,
        posts: sums.posts.len(),
        ..Request::largest()
    };
    let mut buffers = Buffers::random(rng, entry, &request, ANSWER_NUMBERS);
    let query = Query {
        entry,
        sheet: &sums.sheet,
        request: &request,
        enforce,
    };
    let returned = query.of::<I>(&mut buffers);
    let posts: Vec<u32> = sums.posts.iter().map(|&post| post.into()).collect();
    if returned == DONE && buffers.answer() == Some(&due) && buffers.posts.contents() == posts {
        return Ok(());
    }
    Err(format!(
        "{} differs, by {entry:?}, enforce {enforce}\n\
         returned {returned}, {:?}, posts {:?}\n\
         due {DONE}, {due:?}, posts {posts:?}",
        I::NAME,
        buffers.answer(),
        buffers.posts.contents(),
    ))
}

/// More than 16 bits hold: 501 sums in each of 4,095 calls, and the sum of two
/// calls in each that isn't the last.
fn the_most_that_are_known() -> Result<(), String> {
    let held = 4_095 * 501 + 2_047;
    let due = [0, 0, 1, 65_535, 4_095, 4_096, 0, held];
    for entry in [Entry::RunEager, Entry::RunLazy] {
        let rng = &mut Rng::new(0);
        let buffers = Buffers::random(rng, entry, &Request::largest(), ANSWER_NUMBERS);
        let (mut library, mut reference) = (buffers.clone(), buffers);
        let query = Query {
            entry,
            sheet: &most_held(),
            request: &Request::largest(),
            enforce: 1,
        };
        let returned = [
            query.of::<Library>(&mut library),
            query.of::<Reference>(&mut reference),
        ];
        if returned != [DONE; 2] || library.answer() != Some(&due) || library != reference {
            let answers = [library.answer(), reference.answer()];
            return Err(format!(
                "the most held, by {entry:?}: {returned:?}, {answers:?}"
            ));
        }
    }
    Ok(())
}

/// Counts each thing once for a sheet.
fn count(coverage: &mut Coverage, sums: &Sums) {
    let has = |found: &dyn Fn(Exact) -> bool| sums.exact.iter().any(|&exact| found(exact));
    for (exact, what) in [
        (65_534, "a sum of 65,534"),
        (65_535, "a sum of 65,535"),
        (65_536, "a sum of 65,536"),
    ] {
        coverage.count_if(has(&|it| it == Exact::Sum(exact)), what);
    }
    let more = has(&|it| matches!(it, Exact::Sum(65_537..)));
    coverage.count_if(more, "a sum of more");
    for (exact, what) in [
        (1, "a difference of 1"),
        (0, "a difference of 0"),
        (-1, "a difference of -1"),
    ] {
        coverage.count_if(has(&|it| it == Exact::Difference(exact)), what);
    }
    let less = has(&|it| matches!(it, Exact::Difference(..=-2)));
    coverage.count_if(less, "a difference of less");
    match sums.exact.iter().filter(|exact| exact.is_held()).count() {
        0 => coverage.count("nothing held"),
        1 => {}
        _ => coverage.count("more than one held"),
    }
}
