//! Random pairs of records, held against one another by the library and by the
//! reference: they return the same, and every number in and around the answer
//! is the same. The library's answers are also held against W12's sentences.

use differential::{
    settings, Coverage, Implementation, Library, Margined, Reference, ANSWER_NUMBERS,
};
use sheets::hex;
use sheets::pairs::{Made, Pair};
use sheets::rng::Rng;
use sovzedal_reference::{Entry, ENTRY_BYTES};

const PAIRS: u64 = 200_000;

const DONE: u32 = 0;
const REFUSED: u32 = 2;
const UNFIT: u32 = 3;

/// What has to happen.
const EXPECTED: [&str; 25] = [
    "fits, all there",
    "fits, the unit has nothing",
    "fits, the first is missing",
    "fits, the last is missing",
    "fits, some between are missing",
    "fits, and the same entry twice",
    "both are empty",
    "diverges at the first",
    "diverges at the last",
    "diverges between",
    "diverges, and later entries are there",
    "diverges, the office has nothing",
    "diverges, the unit has more entries",
    "diverges by the order alone",
    "diverges by the high byte of a term",
    "diverges by the low byte of a term",
    "diverges by a privilege",
    "diverges by a decision",
    "34 for a part in the unit's",
    "34 for a part in the office's",
    "34 for a byte in the unit's",
    "34 for a byte in the office's",
    "34 where the entries before would diverge",
    "a short answer",
    "a longer answer",
];

#[test]
fn both_compare_alike_and_as_the_sentences_say() {
    let mut coverage = Coverage::default();
    for batch in settings::batches(PAIRS) {
        for index in batch.items {
            let rng = &mut Rng::for_item(batch.seed.rotate_left(6), index);
            let asking = Asking {
                pair: Pair::random(rng),
                again: settings::again(batch.seed, index),
            };
            asking.ask_both(rng, &mut coverage);
        }
    }
    println!("{coverage}");
    let never = coverage.never(EXPECTED.map(String::from));
    assert!(
        !settings::are_whole() || never.is_empty(),
        "never happened: {never:?}"
    );
}

/// A pair with more entries than any run makes, in which the unit has every
/// second one.
#[test]
fn long_records_are_compared() {
    const ENTRIES: usize = 300_000;
    let entry = |number: usize| Entry {
        term: (number % 1024) as u16,
        privilege: (number % 31) as u8,
        yes: number.is_multiple_of(7),
    };
    let office: Vec<Entry> = (0..ENTRIES).map(entry).collect();
    let unit: Vec<Entry> = office.iter().copied().step_by(2).collect();
    let mut answer = [7; ANSWER_NUMBERS];
    let returned = Library::compare(&bytes(&unit), &bytes(&office), &mut answer);
    let missing = (ENTRIES / 2) as u32;
    assert_eq!((returned, answer), (DONE, [0, 0, 1, missing, 0, 0, 0, 0]));
}

/// A pair, and how to have it again.
struct Asking {
    pair: Pair,
    again: String,
}

impl Asking {
    fn ask_both(&self, rng: &mut Rng, coverage: &mut Coverage) {
        let lengths = [
            ANSWER_NUMBERS,
            ANSWER_NUMBERS,
            ANSWER_NUMBERS + 1,
            0,
            ANSWER_NUMBERS - 1,
        ];
        let length = rng.pick(&lengths);
        let before = Margined::random(rng, length);
        let [mut library, mut reference] = [before.clone(), before.clone()];
        let returned = Library::compare(&self.pair.unit, &self.pair.office, library.contents_mut());
        let expected =
            Reference::compare(&self.pair.unit, &self.pair.office, reference.contents_mut());
        let what = self.what();
        assert_eq!((returned, &library), (expected, &reference), "{what}");
        if length < ANSWER_NUMBERS {
            assert_eq!((returned, &library), (UNFIT, &before), "{what}");
            coverage.count("a short answer");
            return;
        }
        coverage.count_if(length > ANSWER_NUMBERS, "a longer answer");
        let answer = library.contents()[..ANSWER_NUMBERS].try_into();
        let answer: [u32; ANSWER_NUMBERS] = answer.expect("a long enough answer");
        self.is_as_said(returned, answer, &what);
        self.count(returned, answer, coverage);
    }

    /// W12's sentences, one by one.
    fn is_as_said(&self, returned: u32, answer: [u32; ANSWER_NUMBERS], what: &str) {
        let whole = |record: &[u8]| record.len().is_multiple_of(ENTRY_BYTES);
        let low = |record: &[u8]| record.chunks_exact(ENTRY_BYTES).all(|entry| entry[3] <= 1);
        let records = [&self.pair.unit[..], &self.pair.office[..]];
        if !records.iter().all(|record| whole(record) && low(record)) {
            assert_eq!(
                (returned, answer),
                (REFUSED, [34, 0, 0, 0, 0, 0, 0, 0]),
                "{what}"
            );
            return;
        }
        assert_eq!(returned, DONE, "{what}");
        let [unit, office] = records.map(|record| record.chunks(ENTRY_BYTES).collect::<Vec<_>>());
        let [0, 0, fits, number, 0, 0, 0, 0] = answer else {
            panic!("{answer:?}, {what}");
        };
        let number = number as usize;
        let occurs = |entries: usize| occur(&unit[..entries], &office);
        match fits {
            1 => {
                assert!(occurs(unit.len()), "{what}");
                assert_eq!(unit.len() + number, office.len(), "{what}");
            }
            0 => {
                assert!(number < unit.len() && !occurs(number + 1), "{what}");
                assert!((0..=number).all(occurs), "{what}");
            }
            _ => panic!("{answer:?}, {what}"),
        }
        if let Made::Dropped(missing) = self.pair.made {
            assert_eq!((fits, number), (1, missing), "{what}");
        }
    }

    fn count(&self, returned: u32, answer: [u32; ANSWER_NUMBERS], coverage: &mut Coverage) {
        let [unit, office] =
            [&self.pair.unit, &self.pair.office].map(|record| record.chunks(ENTRY_BYTES));
        let [unit, office] = [unit, office].map(|entries| entries.collect::<Vec<_>>());
        let number = answer[3] as usize;
        if returned == REFUSED {
            self.count_refused(coverage);
        } else if answer[2] == 1 {
            coverage.count_if(number == 0 && !unit.is_empty(), "fits, all there");
            coverage.count_if(number == 0 && unit.is_empty(), "both are empty");
            coverage.count_if(number > 0 && unit.is_empty(), "fits, the unit has nothing");
            if number > 0 && !unit.is_empty() {
                let [first, last] = [unit.first() == office.first(), unit.last() == office.last()];
                coverage.count_if(!first, "fits, the first is missing");
                coverage.count_if(!last, "fits, the last is missing");
                coverage.count_if(first && last, "fits, some between are missing");
            }
            let twice = (1..unit.len()).any(|later| unit[..later].contains(&unit[later]));
            coverage.count_if(twice, "fits, and the same entry twice");
        } else {
            let last = unit.len() - 1;
            coverage.count_if(number == 0, "diverges at the first");
            coverage.count_if(number == last, "diverges at the last");
            coverage.count_if(number > 0 && number < last, "diverges between");
            let later = unit[number + 1..]
                .iter()
                .any(|entry| office.contains(entry));
            coverage.count_if(later, "diverges, and later entries are there");
            coverage.count_if(office.is_empty(), "diverges, the office has nothing");
            coverage.count_if(
                unit.len() > office.len(),
                "diverges, the unit has more entries",
            );
            match self.pair.made {
                Made::Shuffled => coverage.count("diverges by the order alone"),
                Made::Changed(0) => coverage.count("diverges by the high byte of a term"),
                Made::Changed(1) => coverage.count("diverges by the low byte of a term"),
                Made::Changed(2) => coverage.count("diverges by a privilege"),
                Made::Changed(_) => coverage.count("diverges by a decision"),
                _ => {}
            }
        }
    }

    fn count_refused(&self, coverage: &mut Coverage) {
        let part = |record: &[u8]| !record.len().is_multiple_of(ENTRY_BYTES);
        let what = match (
            self.pair.made,
            part(&self.pair.unit),
            part(&self.pair.office),
        ) {
            (Made::Cut, true, _) => "34 for a part in the unit's",
            (Made::Cut, ..) => "34 for a part in the office's",
            _ if marked(&self.pair.unit) => "34 for a byte in the unit's",
            _ => "34 for a byte in the office's",
        };
        coverage.count(what);
        let [unit, office] =
            [&self.pair.unit, &self.pair.office].map(|record| record.first_chunk());
        let apart = |a: &[u8; ENTRY_BYTES], b: &[u8; ENTRY_BYTES]| a[..3] != b[..3];
        let first = unit
            .zip(office)
            .is_some_and(|(unit, office)| apart(unit, office));
        let only = self.pair.office.len() / ENTRY_BYTES == 1;
        coverage.count_if(first && only, "34 where the entries before would diverge");
    }

    fn what(&self) -> String {
        format!(
            "unit {}, office {}, {:?}, {}",
            hex(&self.pair.unit),
            hex(&self.pair.office),
            self.pair.made,
            self.again
        )
    }
}

/// Whether some way to leave out entries of `office` leaves `unit`.
fn occur(unit: &[&[u8]], office: &[&[u8]]) -> bool {
    match (unit, office) {
        ([], _) => true,
        (_, []) => false,
        ([first, rest @ ..], [met, behind @ ..]) => {
            (first == met && occur(rest, behind)) || occur(unit, behind)
        }
    }
}

fn marked(record: &[u8]) -> bool {
    record.chunks_exact(ENTRY_BYTES).any(|entry| entry[3] > 1)
}

fn bytes(entries: &[Entry]) -> Vec<u8> {
    entries.iter().flat_map(|entry| entry.to_bytes()).collect()
}
