//! Random sheets, run with records of all lengths by the library and by the
//! reference: they return the same, and every number in and around every buffer
//! is the same. The library's records are also held against W12's sentences,
//! and, with entries dropped, against one another.

use differential::{settings, Buffers, Coverage, Entry, Implementation, Library, Query};
use differential::{Recording, Reference, ANSWER_NUMBERS, RECORD_NUMBERS};
use sheets::extremes::most_decisions;
use sheets::generate::{sample, Sample};
use sheets::needy::needing;
use sheets::request::Request;
use sheets::rng::Rng;
use sheets::world::World;
use sheets::{hex, recorded};
use sovzedal_reference::{decode, Sheet, Term, ENTRY_BYTES};

const SHEETS: u64 = 24_000;

const REFUSED: u32 = 2;
const UNFIT: u32 = 3;

/// Room for every run's decisions but for a few, which take more.
const AMPLE: usize = 1 << 14;

/// What has to happen with each runner.
const EXPECTED_OF_EACH: [&str; 17] = [
    "a check, yes",
    "a check, no",
    "a test, yes",
    "a test, no",
    "a guard, yes",
    "a guard, no",
    "passed over, a test, yes",
    "passed over, a test, no",
    "a record without bytes",
    "a record too short for an entry",
    "a full record, nothing left over",
    "a full record, bytes left over",
    "a record with room to spare",
    "full as the last entry comes",
    "refused",
    "a short answer",
    "a longer answer",
];

/// And with any.
const EXPECTED: [&str; 16] = [
    "ended",
    "stopped, 17",
    "stopped, 18",
    "stopped, 19",
    "stopped, 20",
    "stopped, 21",
    "stopped, 22",
    "17 that a full record does not tell",
    "a run without decisions",
    "a term decided twice",
    "a term decided otherwise the second time",
    "more than 255 entries",
    "fewer decisions with checks passed over",
    "held against, nothing dropped",
    "held against, some dropped",
    "held against, all dropped",
];

#[test]
fn both_record_alike_and_as_the_sentences_say() {
    let mut coverage = Coverage::default();
    for case in recorded::all() {
        let rng = &mut Rng::new(12);
        for _ in 0..20 {
            let asking = Asking {
                sheet: &case.sheet,
                request: case.request.clone(),
                again: case.name.to_string(),
            };
            asking.ask_all(rng, &mut coverage);
        }
    }
    for batch in settings::batches(SHEETS) {
        for index in batch.items {
            // Not the sheets that the other tests have had from this seed.
            let rng = &mut Rng::for_item(batch.seed.rotate_left(12), index);
            let sample = random_sheet(rng);
            let asking = Asking {
                sheet: &sample.bytes,
                request: random_request(rng, &sample.world),
                again: settings::again(batch.seed, index),
            };
            asking.ask_all(rng, &mut coverage);
        }
    }
    println!("{coverage}");
    let of_each = [Entry::RunEager, Entry::RunLazy].into_iter();
    let of_each =
        of_each.flat_map(|entry| EXPECTED_OF_EACH.map(|what| format!("{entry:?}, {what}")));
    let never = coverage.never(of_each.chain(EXPECTED.map(String::from)));
    assert!(
        !settings::are_whole() || never.is_empty(),
        "never happened: {never:?}"
    );
}

/// The longest record known, in a list that has no room for its last entry, is
/// the office's but for that.
#[test]
fn the_longest_record_is_kept() {
    let sheet = most_decisions();
    let asking = Asking {
        sheet: &sheet,
        request: Request::largest(),
        again: "the most decisions".to_string(),
    };
    let rng = &mut Rng::new(0);
    let [eager, lazy] = [Entry::RunEager, Entry::RunLazy].map(|entry| asking.query(entry, 1));
    let office = asking.complete(rng, &eager).expect("a run that starts");
    let length = office.len() - 1;
    let mut library = Recording::random(rng, &lazy, length, RECORD_NUMBERS);
    let mut reference = library.clone();
    let returned = [
        library.ask::<Library>(&lazy),
        reference.ask::<Reference>(&lazy),
    ];
    assert_eq!(returned, [0, 0]);
    assert!(library == reference);
    let (unit, rest) = library.split_entries();
    assert_eq!(rest.len(), ENTRY_BYTES - 1);
    let mut answer = [7; ANSWER_NUMBERS];
    let returned = Library::compare(unit, &office, &mut answer);
    assert_eq!((returned, answer), (0, [0, 0, 1, 1, 0, 0, 0, 0]));
    println!("{} entries", office.len() / ENTRY_BYTES);
}

fn random_sheet(rng: &mut Rng) -> Sample {
    if rng.percent(25) {
        needing(rng)
    } else {
        sample(rng)
    }
}

/// Mostly one that isn't refused.
fn random_request(rng: &mut Rng, world: &World) -> Request {
    let request = Request::random(rng, world);
    if rng.percent(50) {
        request
    } else {
        Request::random_admissible(rng, request.start)
    }
}

/// What is asked about one sheet.
struct Asking<'a> {
    sheet: &'a [u8],
    request: Request,
    again: String,
}

impl Asking<'_> {
    /// By both runners, with checks in force and passed over.
    fn ask_all(&self, rng: &mut Rng, coverage: &mut Coverage) {
        let enforced = rng.pick(&[1, 1, 2, 256, u32::MAX]);
        let [enforced, skipped] = [enforced, 0].map(|enforce| {
            let [eager, lazy] = [Entry::RunEager, Entry::RunLazy].map(|entry| {
                let query = self.query(entry, enforce);
                self.ask_both(rng, &query, coverage);
                self.complete(rng, &query)
            });
            // A lazy run may be refused for its frame store.
            if let (Some(eager), Some(lazy)) = (&eager, &lazy) {
                assert_eq!(eager, lazy, "{}", self.what());
            }
            eager
        });
        if let (Some(enforced), Some(skipped)) = (enforced, skipped) {
            self.hold(rng, &enforced, coverage);
            coverage.count_if(
                skipped.len() < enforced.len(),
                "fewer decisions with checks passed over",
            );
        }
    }

    fn query(&self, entry: Entry, enforce: u32) -> Query<'_> {
        Query {
            entry,
            sheet: self.sheet,
            request: &self.request,
            enforce,
        }
    }

    /// One run with a record of any length.
    fn ask_both(&self, rng: &mut Rng, query: &Query, coverage: &mut Coverage) {
        let length = random_record_length(rng);
        let answer = random_answer_length(rng);
        let before = Recording::random(rng, query, length, answer);
        let [mut library, mut reference] = [before.clone(), before.clone()];
        let returned = library.ask::<Library>(query);
        let expected = reference.ask::<Reference>(query);
        assert_eq!(
            (returned, library.buffers.answer.contents()),
            (expected, reference.buffers.answer.contents()),
            "{:?}, enforce {}, {}",
            query.entry,
            query.enforce,
            self.what()
        );
        assert!(
            library == reference,
            "{:?}, enforce {}, first difference: record {:?}, {}",
            query.entry,
            query.enforce,
            library.record.first_difference(&reference.record),
            self.what()
        );
        let of_each = |what: &str| format!("{:?}, {what}", query.entry);
        if answer < RECORD_NUMBERS {
            assert!(returned == UNFIT && library == before, "{}", self.what());
            coverage.count(of_each("a short answer"));
            return;
        }
        if answer > RECORD_NUMBERS {
            coverage.count(of_each("a longer answer"));
        }
        self.is_the_plain_run(rng, query, returned, &library);
        if returned == REFUSED {
            assert!(library.split_entries().0.is_empty(), "{}", self.what());
            assert!(library.record == before.record, "{}", self.what());
            coverage.count(of_each("refused"));
            return;
        }
        self.is_a_beginning(rng, query, &library, &before, coverage);
    }

    /// "Its answer is as without a record."
    fn is_the_plain_run(&self, rng: &mut Rng, query: &Query, returned: u32, recording: &Recording) {
        let mut plain = Buffers::random(rng, query.entry, query.request, ANSWER_NUMBERS);
        let plainly = query.of::<Library>(&mut plain);
        let buffers = &recording.buffers;
        assert_eq!(
            (returned, buffers.answer()),
            (plainly, plain.answer()),
            "{}",
            self.what()
        );
        let posts = plain.answer().map_or(0, |answer| answer[6] as usize);
        assert_eq!(
            buffers.posts.contents()[..posts],
            plain.posts.contents()[..posts],
            "{}",
            self.what()
        );
    }

    /// "A full record takes no more, and the run goes on"; "bytes past the last
    /// entry are untouched".
    fn is_a_beginning(
        &self,
        rng: &mut Rng,
        query: &Query,
        library: &Recording,
        before: &Recording,
        coverage: &mut Coverage,
    ) {
        let complete = self.complete(rng, query).expect("a run that isn't refused");
        let (taken, rest) = library.split_entries();
        let length = taken.len() + rest.len();
        let room = length - length % ENTRY_BYTES;
        assert_eq!(taken.len(), room.min(complete.len()), "{}", self.what());
        assert_eq!(taken, &complete[..taken.len()], "{}", self.what());
        let untouched = &before.record.contents()[taken.len()..];
        assert_eq!(rest, untouched, "{}", self.what());
        let whole = taken.len() == complete.len();
        count_length(query.entry, length, taken.len(), whole, coverage);
        let answer = library.answer().expect("the answer has room");
        self.count_decisions(query, answer, &complete, whole, coverage);
    }

    /// All that a run decides, or `None` if it is refused.
    fn complete(&self, rng: &mut Rng, query: &Query) -> Option<Vec<u8>> {
        let mut length = AMPLE;
        loop {
            let mut recording = Recording::random(rng, query, length, RECORD_NUMBERS);
            if recording.ask::<Library>(query) == REFUSED {
                return None;
            }
            let (taken, rest) = recording.split_entries();
            if !rest.is_empty() {
                return Some(taken.to_vec());
            }
            length *= 16;
        }
    }

    /// Sees that each entry is of a check, a test or a guard of the sheet, that
    /// with checks passed over it is of a test, and that a refused check or
    /// guard is the last.
    fn count_decisions(
        &self,
        query: &Query,
        answer: &[u32; RECORD_NUMBERS],
        complete: &[u8],
        whole: bool,
        coverage: &mut Coverage,
    ) {
        let sheet = decode(self.sheet).expect("a readable sheet");
        let entries: Vec<&[u8]> = complete.chunks(ENTRY_BYTES).collect();
        for (number, entry) in entries.iter().enumerate() {
            let term = u16::from_be_bytes([entry[0], entry[1]]);
            let kind = decided(&sheet, term, entry[2]);
            let kind = kind.unwrap_or_else(|| panic!("{entry:?}, {}", self.what()));
            let yes = match entry[3] {
                0 => "no",
                1 => "yes",
                _ => panic!("{entry:?}, {}", self.what()),
            };
            let over = match query.enforce {
                0 => "passed over, ",
                _ => "",
            };
            coverage.count(format!("{:?}, {over}a {kind}, {yes}", query.entry));
            assert!(query.enforce != 0 || kind == "test", "{}", self.what());
            if kind != "test" && yes == "no" {
                assert_eq!(number + 1, entries.len(), "{}", self.what());
                assert_eq!(answer[..2], [17, term.into()], "{}", self.what());
            }
        }
        match answer[0] {
            0 => coverage.count("ended"),
            cause => coverage.count(format!("stopped, {cause}")),
        }
        if answer[0] == 17 {
            let last = entries.last().expect("an entry");
            let term = u16::from_be_bytes([last[0], last[1]]);
            assert_eq!((answer[1], last[3]), (term.into(), 0), "{}", self.what());
            coverage.count_if(!whole, "17 that a full record does not tell");
        }
        coverage.count_if(entries.is_empty(), "a run without decisions");
        coverage.count_if(entries.len() > 255, "more than 255 entries");
        count_repeated(&entries, coverage);
    }

    /// Drops entries of the complete record and holds the rest against it.
    fn hold(&self, rng: &mut Rng, office: &[u8], coverage: &mut Coverage) {
        let kept = rng.pick(&[0, 40, 80, 100]);
        let mut unit = Vec::new();
        let mut dropped = 0;
        for entry in office.chunks(ENTRY_BYTES) {
            if rng.percent(kept) {
                unit.extend(entry);
            } else {
                dropped += 1;
            }
        }
        let mut answer = [7; ANSWER_NUMBERS];
        let returned = Library::compare(&unit, office, &mut answer);
        assert_eq!(
            (returned, answer),
            (0, [0, 0, 1, dropped, 0, 0, 0, 0]),
            "unit {}, {}",
            hex(&unit),
            self.what()
        );
        if !office.is_empty() {
            coverage.count(match (dropped, unit.len()) {
                (0, _) => "held against, nothing dropped",
                (_, 0) => "held against, all dropped",
                _ => "held against, some dropped",
            });
        }
    }

    fn what(&self) -> String {
        format!(
            "sheet {}, {:?}, {}",
            hex(self.sheet),
            self.request,
            self.again
        )
    }
}

/// What this term decides about this privilege.
fn decided(sheet: &Sheet, term: u16, privilege: u8) -> Option<&'static str> {
    let (kind, named) = match sheet.term(term) {
        Term::Check { privilege, .. } => ("check", privilege),
        Term::Test { privilege, .. } => ("test", privilege),
        Term::Post { channel, .. } => ("guard", sheet.guard(channel)?),
        _ => return None,
    };
    (named.number() == privilege).then_some(kind)
}

fn count_repeated(entries: &[&[u8]], coverage: &mut Coverage) {
    let few = &entries[..entries.len().min(50)];
    let pairs = || (1..few.len()).flat_map(|later| (0..later).map(move |earlier| (earlier, later)));
    let twice = pairs().any(|(earlier, later)| few[earlier] == few[later]);
    let otherwise = pairs().any(|(earlier, later)| {
        few[earlier][..3] == few[later][..3] && few[earlier][3] != few[later][3]
    });
    coverage.count_if(twice, "a term decided twice");
    coverage.count_if(otherwise, "a term decided otherwise the second time");
}

fn count_length(entry: Entry, length: usize, taken: usize, whole: bool, coverage: &mut Coverage) {
    let full = length - taken < ENTRY_BYTES;
    let what = match (length, full, whole) {
        (0, ..) => "a record without bytes",
        (1..ENTRY_BYTES, ..) => "a record too short for an entry",
        (_, true, true) => "full as the last entry comes",
        (_, true, false) if length == taken => "a full record, nothing left over",
        (_, true, false) => "a full record, bytes left over",
        (_, false, _) => "a record with room to spare",
    };
    coverage.count(format!("{entry:?}, {what}"));
}

fn random_record_length(rng: &mut Rng) -> usize {
    match rng.below(10) {
        0 => 0,
        1 => rng.between(1, ENTRY_BYTES - 1),
        2 | 3 => ENTRY_BYTES * rng.between(1, 4),
        4 | 5 => rng.between(ENTRY_BYTES, 6 * ENTRY_BYTES),
        6 => ENTRY_BYTES * rng.between(4, 40),
        7 => rng.between(0, 2_000),
        _ => AMPLE,
    }
}

/// Mostly just enough; sometimes too short, sometimes with a rest to keep.
fn random_answer_length(rng: &mut Rng) -> usize {
    match rng.below(20) {
        0 => rng.below(RECORD_NUMBERS),
        1 | 2 => rng.between(RECORD_NUMBERS + 1, 2 * RECORD_NUMBERS),
        _ => RECORD_NUMBERS,
    }
}
