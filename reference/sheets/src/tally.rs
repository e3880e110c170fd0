//! What a run of tests has reached.

use crate::tree::Kind;
use std::fmt;

/// The highest of them.
const CAUSES: usize = 31;
const KINDS: usize = Kind::ALL.len();

const TERM_BYTES: usize = 8;

#[derive(Clone, Debug, Default)]
pub struct Tally {
    judged_sheets: usize,
    readable: usize,
    accepted: usize,
    runs: usize,
    ended_bool: usize,
    ended_number: usize,
    /// Runs with results that were held, and the most of one run.
    with_held: usize,
    most_held: u32,
    /// Indexed by cause; entry 0 is unused.
    judged: [usize; CAUSES + 1],
    ran: [usize; CAUSES + 1],
    /// Terms by kind, in sheets that can be read and in those accepted.
    kinds_read: [usize; KINDS],
    kinds_accepted: [usize; KINDS],
}

impl Tally {
    /// Counts a judge's reply. `answer[0]` is the cause, 0 if accepted.
    pub fn count_judged(&mut self, sheet: &[u8], answer: &[u32; 8]) {
        let cause = answer[0];
        self.judged_sheets += 1;
        self.judged[cause as usize] += 1;
        if !matches!(cause, 1..=8 | 31) {
            self.readable += 1;
            count_kinds(sheet, &mut self.kinds_read);
        }
        if cause == 0 {
            self.accepted += 1;
            count_kinds(sheet, &mut self.kinds_accepted);
        }
    }

    /// Counts a runner's reply. `answer[2]` is an end's kind of value and
    /// `answer[7]` the count of held results.
    pub fn count_run(&mut self, answer: &[u32; 8]) {
        self.runs += 1;
        self.with_held += usize::from(answer[7] > 0);
        self.most_held = self.most_held.max(answer[7]);
        match answer {
            [0, _, 0, ..] => self.ended_bool += 1,
            [0, ..] => self.ended_number += 1,
            [cause, ..] => self.ran[*cause as usize] += 1,
        }
    }

    /// The causes that nothing has reached.
    pub fn missing_causes(&self) -> Vec<usize> {
        causes()
            .filter(|&cause| self.judged[cause] + self.ran[cause] == 0)
            .collect()
    }

    /// The kinds that no accepted sheet had.
    pub fn missing_kinds(&self) -> Vec<Kind> {
        let unseen = |kind: &Kind| self.kinds_accepted[*kind as usize] == 0;
        Kind::ALL.into_iter().filter(unseen).collect()
    }
}

/// The causes that a sheet or a request can have.
fn causes() -> impl Iterator<Item = usize> {
    (1..=22).chain(24..=26).chain([31])
}

/// Counts the kinds in a sheet that can be read.
fn count_kinds(sheet: &[u8], kinds: &mut [usize; KINDS]) {
    for record in term_records(sheet) {
        kinds[usize::from(record[0])] += 1;
    }
}

/// The fourth field's content, which is found by passing over the others.
fn term_records(sheet: &[u8]) -> impl Iterator<Item = &[u8]> {
    let mut rest = sheet;
    let mut content = rest;
    for _ in 1..=4 {
        let length = usize::from(u16::from_be_bytes([rest[1], rest[2]]));
        (content, rest) = rest[3..].split_at(length);
    }
    content.chunks_exact(TERM_BYTES)
}

impl fmt::Display for Tally {
    fn fmt(&self, f: &mut fmt::Formatter) -> fmt::Result {
        writeln!(
            f,
            "sheets judged {}, readable {}, accepted {}",
            self.judged_sheets, self.readable, self.accepted
        )?;
        writeln!(
            f,
            "runs {}, ended with a boolean {}, with a number {}",
            self.runs, self.ended_bool, self.ended_number
        )?;
        writeln!(
            f,
            "runs with held results {}, with {} at most",
            self.with_held, self.most_held
        )?;
        writeln!(f, "cause     judge      runs")?;
        for cause in causes() {
            writeln!(
                f,
                "{cause:5} {:9} {:9}",
                self.judged[cause], self.ran[cause]
            )?;
        }
        writeln!(f, "kind           read  accepted")?;
        for kind in Kind::ALL {
            let (read, accepted) = (
                self.kinds_read[kind as usize],
                self.kinds_accepted[kind as usize],
            );
            writeln!(f, "{:10} {read:8}  {accepted:8}", format!("{kind:?}"))?;
        }
        Ok(())
    }
}
