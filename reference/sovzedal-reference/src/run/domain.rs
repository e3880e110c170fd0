//! What numbers and booleans are to a run: single ones, or ranges of them.

use crate::sheet::{ChannelId, TermId};

pub trait Domain {
    type Bool: Copy;
    type Number: Copy;

    fn boolean(&self, value: bool) -> Self::Bool;

    /// What number term `id` gives, in which `written` stands.
    fn number(&self, id: TermId, written: u16) -> Self::Number;

    fn sum(&mut self, left: Self::Number, right: Self::Number) -> Self::Number;

    fn difference(&mut self, left: Self::Number, right: Self::Number) -> Self::Number;

    fn less(&self, left: Self::Number, right: Self::Number) -> Self::Bool;

    /// Whether an if takes its yes-branch, or `None` if that is undecided.
    fn choose(&self, condition: Self::Bool) -> Option<bool>;

    /// What stands in the list for a post.
    fn entry(&self, channel: ChannelId, number: Self::Number) -> u32;
}

/// A sum or a difference, held at a limit if its exact result is past it.
pub fn hold(exact: i32) -> u16 {
    exact.clamp(0, u16::MAX.into()) as u16
}

/// Single numbers.
#[derive(Default)]
pub struct Numbers {
    /// The sums and differences that were held at a limit (W10). One that just
    /// reaches it isn't.
    pub held: u32,
}

impl Numbers {
    fn hold_and_count(&mut self, exact: i32) -> u16 {
        let number = hold(exact);
        self.held += u32::from(i32::from(number) != exact);
        number
    }
}

impl Domain for Numbers {
    type Bool = bool;
    type Number = u16;

    fn boolean(&self, value: bool) -> bool {
        value
    }

    fn number(&self, _: TermId, written: u16) -> u16 {
        written
    }

    fn sum(&mut self, left: u16, right: u16) -> u16 {
        self.hold_and_count(i32::from(left) + i32::from(right))
    }

    fn difference(&mut self, left: u16, right: u16) -> u16 {
        self.hold_and_count(i32::from(left) - i32::from(right))
    }

    fn less(&self, left: u16, right: u16) -> bool {
        left < right
    }

    fn choose(&self, condition: bool) -> Option<bool> {
        Some(condition)
    }

    fn entry(&self, channel: ChannelId, number: u16) -> u32 {
        u32::from(channel) * 65_536 + u32::from(number)
    }
}
