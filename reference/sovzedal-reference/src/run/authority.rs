//! What a running term may do.

use crate::set::Privilege;
use crate::sheet::PrincipalId;

/// Answers which privileges are granted while signs and enables come and go.
pub trait Authority {
    /// What was before a sign or an enable, to be restored when its term ends.
    type Before;

    fn sign(&mut self, principal: PrincipalId) -> Self::Before;

    fn enable(&mut self, privilege: Privilege) -> Self::Before;

    fn restore(&mut self, before: Self::Before);

    fn grants(&self, privilege: Privilege) -> bool;
}
