//! The eager runner's authority: the granted set, always at hand.

use super::authority::Authority;
use super::frame::{granted_by, Frame};
use crate::set::{Privilege, Set};
use crate::sheet::{PrincipalId, Sheet};

#[derive(Clone, Copy)]
pub struct Granted<'a> {
    principals: &'a [Set],
    /// What the signing principal may use.
    signer: Set,
    granted: Set,
}

impl<'a> Granted<'a> {
    pub fn new(sheet: &'a Sheet, start: &[Frame]) -> Self {
        Self {
            principals: &sheet.principals,
            // The root is a sign: nothing is enabled before it.
            signer: Set::EMPTY,
            granted: granted_by(&sheet.principals, start),
        }
    }
}

impl Authority for Granted<'_> {
    type Before = Self;

    fn sign(&mut self, principal: PrincipalId) -> Self {
        let before = *self;
        self.signer = self.principals[usize::from(principal)];
        self.granted = self.granted.meet(self.signer);
        before
    }

    fn enable(&mut self, privilege: Privilege) -> Self {
        let before = *self;
        if self.signer.contains(privilege) {
            self.granted = self.granted.with(privilege);
        }
        before
    }

    fn restore(&mut self, before: Self) {
        *self = before;
    }

    fn grants(&self, privilege: Privilege) -> bool {
        self.granted.contains(privilege)
    }
}
