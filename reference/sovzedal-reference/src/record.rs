//! The record of request W12: what a runner has decided, four bytes an entry.

use crate::sheet::TermId;

/// Bytes of an entry.
pub const ENTRY_BYTES: usize = 4;

/// A check, a test or a guard that a runner has decided.
#[derive(Clone, Copy, Debug, PartialEq, Eq)]
pub struct Entry {
    pub term: TermId,
    pub privilege: u8,
    pub yes: bool,
}

impl Entry {
    /// "Term (2, highest byte first), privilege, and 1 for yes or 0 for no."
    pub fn to_bytes(self) -> [u8; ENTRY_BYTES] {
        let [high, low] = self.term.to_be_bytes();
        [high, low, self.privilege, u8::from(self.yes)]
    }

    pub(crate) fn from_bytes(bytes: &[u8]) -> Option<Self> {
        let &[high, low, privilege, decision] = bytes else {
            return None;
        };
        let yes = match decision {
            0 => false,
            1 => true,
            _ => return None,
        };
        Some(Self {
            term: u16::from_be_bytes([high, low]),
            privilege,
            yes,
        })
    }
}

/// A record that a run fills. Bytes too few for an entry take none.
pub(crate) struct Recorder<'a> {
    buffer: &'a mut [u8],
    entries: usize,
}

impl<'a> Recorder<'a> {
    pub fn new(buffer: &'a mut [u8]) -> Self {
        Self { buffer, entries: 0 }
    }

    /// "A full record takes no more, and the run goes on."
    pub fn add(&mut self, entry: Entry) {
        let mut places = self.buffer.chunks_exact_mut(ENTRY_BYTES);
        if let Some(place) = places.nth(self.entries) {
            place.copy_from_slice(&entry.to_bytes());
            self.entries += 1;
        }
    }

    pub fn entries(&self) -> usize {
        self.entries
    }
}
