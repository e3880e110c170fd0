//! One lean sheet, to be had of any implementation.

use crate::implementation::{Implementation, ANSWER_NUMBERS};
use crate::query::Margined;
use sheets::rng::Rng;

/// The buffer for the lean sheet and the answer, with margins. Two are equal if
/// every number in and around these is.
#[derive(Clone, Debug, PartialEq, Eq)]
pub struct EraseCall {
    pub lean: Margined<u8>,
    pub answer: Margined<u32>,
}

impl EraseCall {
    /// Buffers of these lengths, filled at random.
    pub fn random(rng: &mut Rng, lean: usize, answer: usize) -> Self {
        Self {
            lean: Margined::random(rng, lean),
            answer: Margined::random(rng, answer),
        }
    }

    /// Room for any lean sheet of this one.
    pub fn fitting(rng: &mut Rng, sheet: &[u8]) -> Self {
        Self::random(rng, sheet.len(), ANSWER_NUMBERS)
    }

    /// Has the lean sheet written and gives the returned number.
    pub fn ask<I: Implementation>(&mut self, sheet: &[u8]) -> u32 {
        I::erase(sheet, self.lean.contents_mut(), self.answer.contents_mut())
    }

    /// The lean sheet, if one was told.
    pub fn result(&self) -> &[u8] {
        let length = self.answer.contents()[3] as usize;
        &self.lean.contents()[..length]
    }
}
