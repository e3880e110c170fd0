//! What the rows ask and tell, beside what a tally has.

use crate::row::{Compared, Entry, Ranging, Row};
use sovzedal_reference::{Cause, Checks, Comparison, Outcome, Plain, Truth, ENTRY_BYTES};
use std::fmt;

/// How often each thing has happened that should.
#[derive(Default)]
pub struct Counts(Vec<(&'static str, usize)>);

impl Counts {
    pub fn of<'a>(entries: &'a [Entry], compared: &[Compared]) -> Self {
        let mut counts = Self(EXPECTED.iter().map(|what| (*what, 0)).collect());
        let query = |entry: &'a Entry| entry.rows.iter().map(move |row| (entry, row));
        for (entry, row) in entries.iter().flat_map(query) {
            match row {
                Row::Running(run) => {
                    let taken = run.answer.map_or(0, |recorded| recorded.entries);
                    let full = taken == run.query.record / ENTRY_BYTES;
                    counts.add_if(taken > 0, "runs with entries");
                    counts.add_if(taken > 0 && full, "runs that fill the record");
                }
                Row::Ranging(run) => counts.add_ranging(run),
                Row::Choosing(_) => counts.add("sheets with other numbers"),
                Row::Seeking(piece) => counts.add(match piece {
                    Ok(Some(_)) if entry.piece_is_another() => "pieces with another",
                    Ok(Some(_)) => "pieces with the first fault",
                    Ok(None) => "sheets without a piece",
                    Err(_) => "unreadable, so without a piece",
                }),
                Row::Deciding(_) => {}
            }
        }
        for pair in compared {
            counts.add(match pair.answer {
                Ok(Comparison::Fits { .. }) => "pairs of records that fit",
                Ok(Comparison::Diverges { .. }) => "pairs of records that diverge",
                Err(_) => "pairs of records refused",
            });
        }
        counts
    }

    /// What has never happened.
    pub fn missing(&self) -> Vec<&'static str> {
        let never = self.0.iter().filter(|(_, times)| *times == 0);
        never.map(|(what, _)| *what).collect()
    }

    fn add_ranging(&mut self, run: &Ranging) {
        self.add(match run.query.checks {
            Checks::Enforced => "runs over ranges, checks in force",
            Checks::Skipped => "runs over ranges, checks passed over",
        });
        self.add(ranged(run));
        let posts = run.answer.map_or(0, |run| run.posts);
        self.add_if(posts > 0, "runs over ranges that post");
    }

    fn add(&mut self, what: &'static str) {
        let entry = self.0.iter_mut().find(|(name, _)| *name == what);
        entry.expect("what is counted is expected").1 += 1;
    }

    fn add_if(&mut self, condition: bool, what: &'static str) {
        if condition {
            self.add(what);
        }
    }
}

const EXPECTED: [&str; 20] = [
    "runs with entries",
    "runs that fill the record",
    "pairs of records that fit",
    "pairs of records that diverge",
    "pairs of records refused",
    "runs over ranges, checks in force",
    "runs over ranges, checks passed over",
    "runs over ranges that post",
    "ended in a range",
    "ended in yes or no",
    "ended undecided",
    "stopped by 36",
    "stopped otherwise",
    "refused by 35",
    "refused otherwise",
    "sheets with other numbers",
    "pieces with the first fault",
    "pieces with another",
    "sheets without a piece",
    "unreadable, so without a piece",
];

/// What a run over ranges comes to.
fn ranged(run: &Ranging) -> &'static str {
    match run.answer.map(|run| run.outcome) {
        Ok(Outcome::End(Plain::Number(_))) => "ended in a range",
        Ok(Outcome::End(Plain::Bool(Truth::Undecided))) => "ended undecided",
        Ok(Outcome::End(Plain::Bool(_))) => "ended in yes or no",
        Ok(Outcome::Stop(stop)) if stop.cause == Cause::Undecided => "stopped by 36",
        Ok(Outcome::Stop(_)) => "stopped otherwise",
        Err(refusal) if refusal.cause == Cause::Ranges => "refused by 35",
        Err(_) => "refused otherwise",
    }
}

impl fmt::Display for Counts {
    fn fmt(&self, f: &mut fmt::Formatter) -> fmt::Result {
        for (what, times) in &self.0 {
            writeln!(f, "{what} {times}")?;
        }
        Ok(())
    }
}
