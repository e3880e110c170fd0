//! The lazy runner's authority: frames, walked whenever something is asked.

use super::authority::Authority;
use super::frame::Frame;
use crate::set::{Privilege, Set};
use crate::sheet::{PrincipalId, Sheet};

pub struct Frames<'a> {
    principals: &'a [Set],
    /// The innermost frame last.
    frames: Vec<Frame>,
}

/// How to undo a sign or an enable.
pub enum Undo {
    Pop,
    Enabled(Set),
}

impl<'a> Frames<'a> {
    /// `start` has the innermost frame first.
    pub fn new(sheet: &'a Sheet, mut start: Vec<Frame>) -> Self {
        start.reverse();
        Self {
            principals: &sheet.principals,
            frames: start,
        }
    }

    fn first(&mut self) -> &mut Frame {
        self.frames
            .last_mut()
            .expect("the root is a sign, so it has pushed a frame")
    }
}

impl Authority for Frames<'_> {
    type Before = Undo;

    fn sign(&mut self, principal: PrincipalId) -> Undo {
        self.frames.push(Frame {
            principal,
            enabled: Set::EMPTY,
        });
        Undo::Pop
    }

    fn enable(&mut self, privilege: Privilege) -> Undo {
        let frame = self.first();
        let before = frame.enabled;
        frame.enabled = before.with(privilege);
        Undo::Enabled(before)
    }

    fn restore(&mut self, before: Undo) {
        match before {
            Undo::Pop => {
                self.frames.pop();
            }
            Undo::Enabled(before) => self.first().enabled = before,
        }
    }

    fn grants(&self, privilege: Privilege) -> bool {
        for frame in self.frames.iter().rev() {
            if !self.principals[usize::from(frame.principal)].contains(privilege) {
                return false;
            }
            if frame.enabled.contains(privilege) {
                return true;
            }
        }
        false
    }
}
