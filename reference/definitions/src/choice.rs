//! Which sheets and runs are asked about: small sheets and short runs, since
//! the checker computes with lists.

use crate::row::{Choosing, Compared, Entry, Query, Ranging, Row, Runner, Running};
use sheets::faulty::faulty;
use sheets::generate::{sample, Sample};
use sheets::pairs::Pair;
use sheets::ranges::{random_pairs, random_sheet, wrong_pairs, Wrong};
use sheets::request::{
    Request, FRAME_NUMBERS, MAX_CALLS, MAX_CELL_BYTES, MAX_OPEN_CALLS, MAX_POSTS,
};
use sheets::rng::Rng;
use sheets::world::World;
use sheets::{branches, cases, held, pages, pieces, ranged};
use sheets::{recorded, smallest, type_faults, yes_branch};
use sovzedal_reference::{decode, Checks, ENTRY_BYTES};

const MAX_TYPES: usize = 12;
/// Some twenty terms, beside a few types and principals.
const MAX_BYTES: usize = 240;
/// Some forty terms. What reading takes grows faster than the sheet.
const MAX_BYTES_OF_FEW: usize = 480;
/// Of a short run.
const MAX_SHORT_CALLS: u32 = 100;

const CHECKS: [Checks; 2] = [Checks::Enforced, Checks::Skipped];

const WAYS: [(Runner, Checks); 4] = [
    (Runner::Eager, Checks::Enforced),
    (Runner::Eager, Checks::Skipped),
    (Runner::Lazy, Checks::Enforced),
    (Runner::Lazy, Checks::Skipped),
];

/// Of a record that is neither empty nor long: room for three entries, and a
/// part of one.
const SHORT_RECORD: usize = 3 * ENTRY_BYTES + 2;

/// The smallest sheet for each cause, the contract's cases and those of W1, W4,
/// W5, W8, W10 and W12 to W14, each with its own request or a shorter one, and
/// the limits of a request.
pub fn named() -> Vec<Entry> {
    let smallest = smallest::all()
        .into_iter()
        .map(|case| (case.sheet, case.request));
    let cases = cases::all()
        .into_iter()
        .chain(yes_branch::all())
        .chain(branches::all())
        .chain(type_faults::all())
        .chain(pages::all())
        .chain(held::all())
        .map(|case| (case.sheet, case.request));
    smallest
        .chain(cases)
        .map(|(sheet, request)| run_in_all_ways(sheet, &shortened(request)))
        .chain(recorded::all().into_iter().map(run_with_records))
        .chain([limits_of_requests()])
        .chain(ranged::all().into_iter().map(ranged_case))
        .chain(searched_cases())
        .collect()
}

/// `count` sheets, with requests of their own.
pub fn random(seed: u64, count: usize) -> Vec<Entry> {
    (0..)
        .filter_map(|index| random_entry(&mut Rng::for_item(seed, index)))
        .take(count)
        .collect()
}

/// `count` sheets with ranges for their numbers. One in four also gets other
/// numbers, if it can be read.
pub fn ranged(seed: u64, count: usize) -> Vec<Entry> {
    // Not the numbers that other sheets were drawn from; so below.
    let items = (0..).map(|index| Rng::for_item(seed.rotate_left(14), index));
    items
        .filter_map(|mut rng| ranged_entry(&mut rng))
        .take(count)
        .collect()
}

/// `count` sheets, most of them with several faults, of which the smallest piece
/// is sought.
pub fn searched(seed: u64, count: usize) -> Vec<Entry> {
    let items = (0..).map(|index| Rng::for_item(seed.rotate_left(13), index));
    items
        .filter_map(|mut rng| searched_entry(&mut rng))
        .take(count)
        .collect()
}

/// `count` pairs of records.
pub fn compared(seed: u64, count: usize) -> Vec<Compared> {
    // Not the numbers that the sheets were drawn from.
    let rng = &mut Rng::new(!seed);
    let pairs = (0..count).map(|_| Pair::random(rng));
    pairs.map(Compared::answered).collect()
}

fn run_in_all_ways(sheet: Vec<u8>, request: &Request) -> Entry {
    let query = in_all_ways(request, SHORT_RECORD);
    Entry::answered(sheet, query)
}

/// With a record that is too short for the last entry of a run with checks in
/// force, and with one that has room to spare.
fn run_with_records(case: recorded::Recorded) -> Entry {
    let request = shortened(case.request);
    let entries = case.enforced.len().min(MAX_SHORT_CALLS as usize);
    let bytes = entries * ENTRY_BYTES;
    let records = [bytes.saturating_sub(1), bytes + ENTRY_BYTES + 1];
    let query = records.map(|record| in_all_ways(&request, record));
    Entry::answered(case.sheet, query.into_iter().flatten())
}

fn in_all_ways(request: &Request, record: usize) -> [Query; 4] {
    WAYS.map(|(runner, checks)| Query {
        runner,
        checks,
        request: request.clone(),
        record,
    })
}

/// The smallest sheet for each cause again, and the cases of W13.
fn searched_cases() -> impl Iterator<Item = Entry> {
    let smallest = smallest::all().into_iter().map(|case| case.sheet);
    let cases = pieces::all().into_iter().map(|case| case.sheet);
    smallest.chain(cases).map(Entry::with_piece)
}

/// With checks in force and passed over.
fn ranged_case(case: ranged::Ranged) -> Entry {
    let request = shortened(case.request);
    let rows = CHECKS.map(|checks| {
        let (pairs, request) = (case.pairs.clone(), request.clone());
        Row::Ranging(Box::new(Ranging::answered(
            &case.sheet,
            pairs,
            checks,
            request,
        )))
    });
    Entry {
        sheet: case.sheet,
        rows: rows.into(),
    }
}

/// Allows fewer calls and cells, unless it is turned back for its calls.
fn shortened(request: Request) -> Request {
    const CELL_BYTES: usize = 8 * 120;
    let calls = match request.calls {
        ..=MAX_CALLS => request.calls.min(MAX_SHORT_CALLS),
        too_many => too_many,
    };
    Request {
        calls,
        cell_bytes: request.cell_bytes.min(CELL_BYTES),
        ..request
    }
}

/// A request with every part at its limit, and others with one part past it.
fn limits_of_requests() -> Entry {
    let largest = || Request::largest().with_start(&[0; 32]);
    let requests = [
        largest(),
        largest().with_start(&[0; 34]),
        Request {
            calls: MAX_CALLS + 1,
            ..largest()
        },
        Request {
            open_calls: MAX_OPEN_CALLS + 1,
            ..largest()
        },
        Request {
            cell_bytes: MAX_CELL_BYTES + 1,
            ..largest()
        },
        Request {
            posts: MAX_POSTS + 1,
            ..largest()
        },
        Request {
            frame_numbers: FRAME_NUMBERS - 1,
            ..largest()
        },
        Request {
            frame_numbers: FRAME_NUMBERS + 1,
            ..largest()
        },
    ];
    let query = requests.into_iter().flat_map(|request| {
        [Runner::Eager, Runner::Lazy].map(|runner| Query {
            runner,
            checks: Checks::Enforced,
            request: request.clone(),
            record: SHORT_RECORD,
        })
    });
    Entry::answered(cases::endless(), query)
}

/// `None` if the sheet that is drawn is too large.
fn random_entry(rng: &mut Rng) -> Option<Entry> {
    let sample = sample(rng);
    let max_bytes = if rng.percent(10) {
        MAX_BYTES_OF_FEW
    } else {
        MAX_BYTES
    };
    if !is_small(&sample, max_bytes) {
        return None;
    }
    // Whatever is asked of an unreadable sheet, the answer is its refusal.
    let ways = match decode(&sample.bytes) {
        Ok(_) => WAYS.to_vec(),
        Err(_) => vec![rng.pick(&WAYS)],
    };
    let query: Vec<Query> = ways
        .into_iter()
        .map(|(runner, checks)| random_short(rng, &sample, runner, checks))
        .collect();
    Some(Entry::answered(sample.bytes, query))
}

fn is_small(sample: &Sample, max_bytes: usize) -> bool {
    sample.bytes.len() <= max_bytes && sample.world.types.len() <= MAX_TYPES
}

/// `None` if the sheet that is drawn is too large.
fn ranged_entry(rng: &mut Rng) -> Option<Entry> {
    let sample = random_sheet(rng);
    if !is_small(&sample, MAX_BYTES) {
        return None;
    }
    let Sample { bytes, world } = sample;
    let mut rows = Vec::new();
    let read = decode(&bytes).ok();
    let ways: &[Checks] = match read {
        Some(_) => &CHECKS,
        None => &CHECKS[..1],
    };
    for &checks in ways {
        let run = random_short_ranging(rng, &bytes, &world, checks);
        rows.push(Row::Ranging(Box::new(run)));
    }
    if let Some(sheet) = read.filter(|_| rng.percent(25)) {
        let numbers = sheet.terms.iter().map(|_| rng.bits() as u16).collect();
        rows.push(Row::Choosing(Choosing::answered(&sheet, &bytes, numbers)));
    }
    Some(Entry { sheet: bytes, rows })
}

/// One sheet in eight is of any sort. `None` if it is too large. Of those that
/// have no other piece than what the judge tells, one in six is taken.
fn searched_entry(rng: &mut Rng) -> Option<Entry> {
    let sample = match rng.below(8) {
        0 => sample(rng),
        _ => faulty(rng),
    };
    if !is_small(&sample, MAX_BYTES) {
        return None;
    }
    let entry = Entry::with_piece(sample.bytes);
    (entry.piece_is_another() || rng.below(6) == 0).then_some(entry)
}

/// A run over ranges that makes few calls. One in six has wrong pairs.
fn random_short_ranging(rng: &mut Rng, sheet: &[u8], world: &World, checks: Checks) -> Ranging {
    loop {
        let right = random_pairs(rng, sheet);
        let wrong = match rng.percent(17) {
            true => {
                let way = rng.pick(&Wrong::ALL);
                wrong_pairs(rng, &right, way)
            }
            false => None,
        };
        let request = Request::random_small(rng, world);
        let run = Ranging::answered(sheet, wrong.unwrap_or(right), checks, request);
        if run.answer.map_or(0, |run| run.calls) <= MAX_SHORT_CALLS {
            return run;
        }
    }
}

/// A run that makes few calls.
fn random_short(rng: &mut Rng, sample: &Sample, runner: Runner, checks: Checks) -> Query {
    loop {
        let query = Query {
            runner,
            checks,
            request: Request::random_small(rng, &sample.world),
            record: random_record(rng),
        };
        let answer = Running::answered(&sample.bytes, query.clone()).answer;
        if answer.map_or(0, |recorded| recorded.run.calls) <= MAX_SHORT_CALLS {
            return query;
        }
    }
}

/// The length of a record: for no entry, for some, or for some and a part.
fn random_record(rng: &mut Rng) -> usize {
    match rng.below(4) {
        0 => rng.below(ENTRY_BYTES),
        1 => ENTRY_BYTES * rng.between(1, 3),
        _ => rng.between(ENTRY_BYTES, 8 * ENTRY_BYTES),
    }
}
