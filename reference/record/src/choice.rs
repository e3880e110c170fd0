//! Which sheets, requests, terms and pairs are recorded.

use crate::vector::Vector;
use sheets::cases::Case;
use sheets::extremes::{deepest, longest, most_held, widest};
use sheets::generate::sample;
use sheets::load::{frame_sheet, guarded_frame_sheet};
use sheets::ranges::{random_pairs, wrong_pairs, Wrong};
use sheets::request::{
    Request, FRAME_NUMBERS, MAX_CALLS, MAX_CELL_BYTES, MAX_OPEN_CALLS, MAX_POSTS,
};
use sheets::rng::Rng;
use sheets::{
    branches, cases, held, pages, pieces, ranged, recorded, smallest, type_faults, yes_branch,
};
use sovzedal_reference::{decode, piece};

const SEED: u64 = 20;
const PAIR_SEED: u64 = 21;
const TERM_SEED: u64 = 22;
const GENERATED: usize = 220;
/// Keeps the recording short.
const LONGEST_GENERATED: usize = 2_000;

pub fn vectors() -> Vec<Vector> {
    let mut runs = Vec::new();
    runs.extend(with_own_request(cases::all()));
    runs.extend(smallest_sheets());
    runs.extend(edges_of_requests());
    runs.extend(edges_of_sheets());
    runs.extend(generated());
    runs.extend(yes_branches());
    runs.extend(with_own_request(branches::all()));
    runs.extend(with_own_request(type_faults::all()));
    runs.extend(with_own_request(pages::all()));
    runs.extend(with_own_request(held::all()));
    runs.extend(with_decisions());
    let drawn = (0..).zip(runs).map(|(index, run)| drawn(index, run));
    drawn.chain(with_pieces()).chain(over_ranges()).collect()
}

/// A sheet and how it is run.
type Run = (Vec<u8>, Request);

/// Each with its own request.
fn with_own_request(cases: Vec<Case>) -> impl Iterator<Item = Run> {
    cases.into_iter().map(|case| (case.sheet, case.request))
}

/// Each on its own stack, where the yes-branch runs, and on the empty one.
fn yes_branches() -> impl Iterator<Item = Run> {
    yes_branch::all().into_iter().flat_map(|case| {
        [case.request, Request::largest()].map(|request| (case.sheet.clone(), request))
    })
}

fn with_decisions() -> impl Iterator<Item = Run> {
    recorded::all()
        .into_iter()
        .map(|case| (case.sheet, case.request))
}

fn smallest_sheets() -> impl Iterator<Item = Run> {
    smallest::all()
        .into_iter()
        .map(|case| (case.sheet, case.request))
}

/// The contract's first sheet and its endless one, with every part of the
/// request at and just past its limit.
fn edges_of_requests() -> impl Iterator<Item = Run> {
    let mut requests = Vec::new();
    let largest = Request::largest;
    for calls in [0, 1, 99, 100, 101, MAX_CALLS, MAX_CALLS + 1, u32::MAX] {
        requests.push(Request { calls, ..largest() });
    }
    for open_calls in [0, 1, 99, MAX_OPEN_CALLS, MAX_OPEN_CALLS + 1, u32::MAX] {
        requests.push(Request {
            open_calls,
            ..largest()
        });
    }
    for cell_bytes in [0, 7, 8, 9, 15, 16, MAX_CELL_BYTES - 1, MAX_CELL_BYTES + 1] {
        requests.push(Request {
            cell_bytes,
            ..largest()
        });
    }
    for posts in [0, 1, 2, MAX_POSTS, MAX_POSTS + 1] {
        requests.push(Request { posts, ..largest() });
    }
    for frame_numbers in [0, 1, FRAME_NUMBERS - 1, FRAME_NUMBERS + 1] {
        requests.push(Request {
            frame_numbers,
            ..largest()
        });
    }
    for principal in [0, 1, 32, 255, 256, 65_536, u32::MAX] {
        requests.push(largest().with_start(&[principal, u32::MAX]));
    }
    for numbers in [1, 31, 32, 33, 34] {
        requests.push(largest().with_start(&vec![0; numbers]));
    }
    requests.into_iter().flat_map(|request| {
        [cases::posting_without_enable(), cases::endless()].map(|sheet| (sheet, request.clone()))
    })
}

fn edges_of_sheets() -> impl Iterator<Item = Run> {
    let mut one_byte_more = longest();
    one_byte_more.push(0);
    let sheets = [
        deepest(),
        widest(),
        longest(),
        one_byte_more,
        most_held(),
        frame_sheet(0),
        frame_sheet(1),
        guarded_frame_sheet(0),
    ];
    sheets.into_iter().map(|sheet| (sheet, Request::largest()))
}

fn generated() -> impl Iterator<Item = Run> {
    (0..)
        .map(|index| {
            let rng = &mut Rng::for_item(SEED, index);
            let sample = sample(rng);
            let request = Request::random(rng, &sample.world);
            (sample.bytes, request)
        })
        .filter(|(sheet, request)| {
            sheet.len() <= LONGEST_GENERATED && request.start.len() <= Vector::MAX_START
        })
        .take(GENERATED)
}

/// Each with the term of its smallest faulty piece, if there is one.
fn with_pieces() -> impl Iterator<Item = Vector> {
    (0..).zip(pieces::all()).map(|(index, case)| {
        let found = piece(&case.sheet).ok().flatten();
        let vector = drawn(index, (case.sheet, Request::largest()));
        let term = found.map_or(vector.term, |piece| piece.term.into());
        Vector { term, ..vector }
    })
}

fn over_ranges() -> impl Iterator<Item = Vector> {
    (0..).zip(ranged::all()).map(|(index, case)| Vector {
        term: random_term(&mut Rng::for_item(TERM_SEED, index), &case.sheet),
        sheet: case.sheet,
        request: case.request,
        pairs: case.pairs,
    })
}

/// With a term, and with pairs of which one in seven are wrong.
fn drawn(index: u64, (sheet, request): Run) -> Vector {
    let rng = &mut Rng::for_item(PAIR_SEED, index);
    let right = random_pairs(rng, &sheet);
    let wrong = match rng.below(7) {
        0 => {
            let wrong = rng.pick(&Wrong::ALL);
            wrong_pairs(rng, &right, wrong)
        }
        _ => None,
    };
    Vector {
        term: random_term(rng, &sheet),
        sheet,
        request,
        pairs: wrong.unwrap_or(right),
    }
}

/// Of one of its terms or the first that it doesn't have; sometimes higher, with
/// the same lowest bits.
fn random_term(rng: &mut Rng, sheet: &[u8]) -> u32 {
    let terms = decode(sheet).map_or(0, |sheet| sheet.terms.len());
    let term = rng.below(terms + 1) as u32;
    match rng.percent(4) {
        true => term + (1 << 16),
        false => term,
    }
}
