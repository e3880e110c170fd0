//! One question why a privilege is needed, to be put to any implementation.

use crate::implementation::{Implementation, ANSWER_NUMBERS, CHAIN_NUMBERS};
use crate::query::Margined;
use sheets::rng::Rng;

/// The list for the chain and the answer, with margins. Two are equal if every
/// number in and around these is.
#[derive(Clone, Debug, PartialEq, Eq)]
pub struct ExplainCall {
    pub chain: Margined<u16>,
    pub answer: Margined<u32>,
}

impl ExplainCall {
    /// Lists of these lengths, filled at random.
    pub fn random(rng: &mut Rng, chain: usize, answer: usize) -> Self {
        Self {
            chain: Margined::random(rng, chain),
            answer: Margined::random(rng, answer),
        }
    }

    /// Lists that are just long enough.
    pub fn fitting(rng: &mut Rng) -> Self {
        Self::random(rng, CHAIN_NUMBERS, ANSWER_NUMBERS)
    }

    /// Puts the question and gives the returned number.
    pub fn ask<I: Implementation>(&mut self, sheet: &[u8], privilege: u32) -> u32 {
        I::explain(
            sheet,
            privilege,
            self.chain.contents_mut(),
            self.answer.contents_mut(),
        )
    }

    /// The chain told, which is empty where the privilege isn't needed.
    pub fn result(&self) -> &[u16] {
        let length = self.answer.contents()[3] as usize;
        &self.chain.contents()[..length]
    }
}
