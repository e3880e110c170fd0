//! The recorders of request W12, sentence by sentence.

use sheets::generate::sample;
use sheets::recorded::{self, Decision};
use sheets::request::Request as Query;
use sheets::rng::Rng;
use sheets::{hex, smallest};
use sovzedal_reference::{compare, record_eager, record_lazy, run_eager, run_lazy};
use sovzedal_reference::{Cause, Checks, Comparison, Entry, Outcome, Recorded, Refusal, Request};
use sovzedal_reference::{ENTRY_BYTES, FRAME_NUMBERS};

const SHEETS: u64 = 4_000;
const SEED: u64 = 12;

/// What the lent bytes are before a run.
const BEFORE: u8 = 0xA5;

const AMPLE: usize = 1 << 20;

#[derive(Clone, Copy, Debug, PartialEq, Eq)]
enum Runner {
    Eager,
    Lazy,
}

/// What a run with a record of so many bytes tells, and these bytes.
fn record(
    runner: Runner,
    sheet: &[u8],
    query: &Query,
    checks: Checks,
    length: usize,
) -> (Result<Recorded, Refusal>, Vec<u8>) {
    let request = request(query, checks);
    let mut cells = vec![0; query.cell_bytes];
    let mut posts = vec![0; query.posts];
    let mut record = vec![BEFORE; length];
    let result = match runner {
        Runner::Eager => record_eager(sheet, &request, &mut cells, &mut posts, &mut record),
        Runner::Lazy => {
            let mut frames = vec![0; FRAME_NUMBERS];
            record_lazy(
                sheet,
                &request,
                &mut cells,
                &mut posts,
                &mut frames,
                &mut record,
            )
        }
    };
    (result, record)
}

fn request(query: &Query, checks: Checks) -> Request<'_> {
    Request {
        start: &query.start,
        calls: query.calls,
        open_calls: query.open_calls,
        checks,
    }
}

fn bytes(decisions: &[Decision]) -> Vec<u8> {
    let entry = |&(term, privilege, yes): &Decision| Entry {
        term,
        privilege,
        yes,
    };
    decisions
        .iter()
        .map(entry)
        .flat_map(Entry::to_bytes)
        .collect()
}

/// Any sheets and requests.
fn drawn() -> impl Iterator<Item = (Vec<u8>, Query)> {
    (0..SHEETS).map(|index| {
        let rng = &mut Rng::for_item(SEED, index);
        let sample = sample(rng);
        let request = Query::random(rng, &sample.world);
        (sample.bytes, request)
    })
}

const WAYS: [(Runner, Checks); 4] = [
    (Runner::Eager, Checks::Enforced),
    (Runner::Eager, Checks::Skipped),
    (Runner::Lazy, Checks::Enforced),
    (Runner::Lazy, Checks::Skipped),
];

/// "Both runners can record each check, test and guard they decide", with
/// records of every length up to one that has room to spare.
#[test]
fn each_case_has_its_record() {
    for case in recorded::all() {
        for (runner, checks) in WAYS {
            let decisions = match checks {
                Checks::Enforced => &case.enforced,
                Checks::Skipped => &case.skipped,
            };
            let whole = bytes(decisions);
            for length in 0..whole.len() + 2 * ENTRY_BYTES {
                let (result, left) = record(runner, &case.sheet, &case.request, checks, length);
                let result = result.expect(case.name);
                let entries = decisions.len().min(length / ENTRY_BYTES);
                assert_eq!(
                    result.entries, entries,
                    "{}, {runner:?} {checks:?}",
                    case.name
                );
                let (taken, rest) = left.split_at(entries * ENTRY_BYTES);
                assert_eq!(taken, &whole[..taken.len()], "{}, {runner:?}", case.name);
                assert!(rest.iter().all(|&byte| byte == BEFORE), "{}", case.name);
            }
        }
    }
}

/// "Its answer is as without a record", and a refused run has none.
#[test]
fn a_record_changes_nothing_else() {
    let (mut recorded, mut refused) = (0, 0);
    let smallest = smallest::all().into_iter();
    let smallest = smallest.map(|case| (case.sheet, Query::largest()));
    for (sheet, query) in smallest.chain(drawn()) {
        for (runner, checks) in WAYS {
            let (result, left) = record(runner, &sheet, &query, checks, 64);
            let request = request(&query, checks);
            let mut cells = vec![0; query.cell_bytes];
            let mut posts = vec![0; query.posts];
            let plain = match runner {
                Runner::Eager => run_eager(&sheet, &request, &mut cells, &mut posts),
                Runner::Lazy => {
                    let mut frames = vec![0; FRAME_NUMBERS];
                    run_lazy(&sheet, &request, &mut cells, &mut posts, &mut frames)
                }
            };
            assert_eq!(result.map(|result| result.run), plain, "{}", hex(&sheet));
            if result.is_err() {
                assert_eq!(left, [BEFORE; 64]);
                refused += 1;
            }
            recorded += usize::from(result.is_ok_and(|result| result.entries > 0));
        }
    }
    assert!(
        recorded >= 1_000 && refused >= 1_000,
        "{recorded} {refused}"
    );
}

/// "their records are equal" for equal lengths, and the shorter one of two
/// lengths is a beginning of the other. What is dropped is told.
#[test]
fn any_two_runners_have_one_record() {
    let (mut decided, mut cut) = (0, 0);
    let cases = recorded::all().into_iter();
    let cases = cases.map(|case| (case.sheet, case.request));
    for (index, (sheet, query)) in cases.chain(drawn()).enumerate() {
        let rng = &mut Rng::for_item(!SEED, index as u64);
        let length = rng.below(100);
        for checks in [Checks::Enforced, Checks::Skipped] {
            let (eager, office) = record(Runner::Eager, &sheet, &query, checks, AMPLE);
            let (lazy, same) = record(Runner::Lazy, &sheet, &query, checks, AMPLE);
            let (short, beginning) = record(Runner::Lazy, &sheet, &query, checks, length);
            assert_eq!((eager, &office), (lazy, &same), "{}", hex(&sheet));
            let (Ok(eager), Ok(short)) = (eager, short) else {
                continue;
            };
            assert!(eager.entries < AMPLE / ENTRY_BYTES);
            assert_eq!(short.entries, eager.entries.min(length / ENTRY_BYTES));
            let office = &office[..eager.entries * ENTRY_BYTES];
            let unit = &beginning[..short.entries * ENTRY_BYTES];
            assert_eq!(unit, &office[..unit.len()], "{}", hex(&sheet));
            let missing = eager.entries - short.entries;
            assert_eq!(compare(unit, office), Ok(Comparison::Fits { missing }));
            decided += usize::from(eager.entries > 0);
            cut += usize::from(missing > 0);
        }
    }
    assert!(decided >= 500 && cut >= 50, "{decided} {cut}");
}

/// "A refused check or guard is recorded as no before 17": it is the last
/// entry, and no other no is of a check or a guard.
#[test]
fn the_last_entry_of_a_refused_check_is_its_no() {
    let mut refused = 0;
    for (sheet, query) in drawn() {
        for runner in [Runner::Eager, Runner::Lazy] {
            let (result, left) = record(runner, &sheet, &query, Checks::Enforced, AMPLE);
            let Ok(result) = result else {
                continue;
            };
            let Outcome::Stop(stop) = result.run.outcome else {
                continue;
            };
            if stop.cause == Cause::RefusedCheck {
                let entries = left[..result.entries * ENTRY_BYTES].chunks(ENTRY_BYTES);
                let last = entries.last().expect("an entry");
                assert_eq!(last[..2], stop.term.to_be_bytes(), "{}", hex(&sheet));
                assert_eq!(last[3], 0, "{}", hex(&sheet));
                refused += 1;
            }
        }
    }
    assert!(refused >= 100, "{refused}");
}
