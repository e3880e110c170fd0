//! Members known within limits, of request W14: numbers that are ranges, and
//! cause 35.

use super::domain::{hold, Domain};
use crate::refusal::{Cause, Refusal};
use crate::sheet::{ChannelId, Sheet, Term, TermId};

/// The numbers from the lowest to the highest, both included.
#[derive(Clone, Copy, Debug, PartialEq, Eq)]
pub struct Range {
    pub lowest: u16,
    pub highest: u16,
}

/// A boolean that may be undecided.
#[derive(Clone, Copy, Debug, PartialEq, Eq)]
pub enum Truth {
    No,
    Yes,
    Undecided,
}

impl Range {
    pub fn contains(self, number: u16) -> bool {
        self.lowest <= number && number <= self.highest
    }

    /// "A sum or difference has the range from the least to the greatest of its
    /// results, held ones too": the least sum is that of the lowest numbers.
    pub fn sum(self, other: Self) -> Self {
        Self {
            lowest: hold(i32::from(self.lowest) + i32::from(other.lowest)),
            highest: hold(i32::from(self.highest) + i32::from(other.highest)),
        }
    }

    /// The least difference is the lowest number less the other's highest.
    pub fn difference(self, other: Self) -> Self {
        Self {
            lowest: hold(i32::from(self.lowest) - i32::from(other.highest)),
            highest: hold(i32::from(self.highest) - i32::from(other.lowest)),
        }
    }

    /// "undecided unless every pair of values from its two ranges agrees".
    pub fn less(self, other: Self) -> Truth {
        if self.highest < other.lowest {
            Truth::Yes
        } else if self.lowest >= other.highest {
            Truth::No
        } else {
            Truth::Undecided
        }
    }

    /// "lowest × 65,536 + highest".
    pub fn word(self) -> u32 {
        u32::from(self.lowest) * 65_536 + u32::from(self.highest)
    }
}

impl From<bool> for Truth {
    fn from(value: bool) -> Self {
        match value {
            false => Truth::No,
            true => Truth::Yes,
        }
    }
}

impl Truth {
    pub fn contains(self, value: bool) -> bool {
        self == Truth::Undecided || self == Truth::from(value)
    }
}

/// Ranges for numbers.
pub struct Ranges {
    /// For each term its range, if it is a number.
    by_term: Vec<Option<Range>>,
}

impl Ranges {
    /// The pairs of the number terms, in term order; "a wrong number of pairs, a
    /// lowest above its highest or a version 2 sheet is 35".
    pub fn of(sheet: &Sheet, pairs: &[u16]) -> Result<Self, Refusal> {
        let refused = Cause::Ranges.anywhere();
        if sheet.guards.is_some() || !pairs.len().is_multiple_of(2) {
            return Err(refused);
        }
        let mut ranges = pairs.chunks_exact(2).map(|pair| Range {
            lowest: pair[0],
            highest: pair[1],
        });
        let mut by_term = Vec::with_capacity(sheet.terms.len());
        for term in &sheet.terms {
            by_term.push(match term {
                Term::Number(_) => Some(ranges.next().ok_or(refused)?),
                _ => None,
            });
        }
        let empty = |range: &Range| range.lowest > range.highest;
        if ranges.next().is_some() || by_term.iter().flatten().any(empty) {
            return Err(refused);
        }
        Ok(Self { by_term })
    }
}

impl Domain for Ranges {
    type Bool = Truth;
    type Number = Range;

    fn boolean(&self, value: bool) -> Truth {
        value.into()
    }

    /// The number that stands there is of no account.
    fn number(&self, id: TermId, _: u16) -> Range {
        self.by_term[usize::from(id)].expect("every number term has a range")
    }

    fn sum(&mut self, left: Range, right: Range) -> Range {
        left.sum(right)
    }

    fn difference(&mut self, left: Range, right: Range) -> Range {
        left.difference(right)
    }

    fn less(&self, left: Range, right: Range) -> Truth {
        left.less(right)
    }

    fn choose(&self, condition: Truth) -> Option<bool> {
        match condition {
            Truth::No => Some(false),
            Truth::Yes => Some(true),
            Truth::Undecided => None,
        }
    }

    /// Version 1 has channel 0 alone, and the entry has no place for one.
    fn entry(&self, _: ChannelId, number: Range) -> u32 {
        number.word()
    }
}
