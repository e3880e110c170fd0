//! Frames, and what a stack of them grants.

use crate::set::Set;
use crate::sheet::PrincipalId;

const MAX_START_FRAMES: usize = 16;

#[derive(Clone, Copy, Debug, PartialEq, Eq)]
pub struct Frame {
    pub principal: PrincipalId,
    pub enabled: Set,
}

/// The frames of a start stack, innermost first, or `None` for more than 16,
/// half a frame or an unknown principal.
pub fn start_frames(numbers: &[u32], principals: usize) -> Option<Vec<Frame>> {
    if numbers.len() > 2 * MAX_START_FRAMES || !numbers.len().is_multiple_of(2) {
        return None;
    }
    numbers
        .chunks_exact(2)
        .map(|frame| {
            let principal = PrincipalId::try_from(frame[0]).ok()?;
            let known = usize::from(principal) < principals;
            known.then_some(Frame {
                principal,
                enabled: Set::from_bits(frame[1]),
            })
        })
        .collect()
}

/// All that a stack, innermost first, grants: a frame grants what its
/// principal may use of what it enables and what the frames behind grant.
pub fn granted_by(principals: &[Set], stack: &[Frame]) -> Set {
    stack.iter().rev().fold(Set::EMPTY, |behind, frame| {
        let authorised = principals[usize::from(frame.principal)];
        authorised.meet(frame.enabled.union(behind))
    })
}
