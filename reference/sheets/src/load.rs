//! The client's load: plants with lines whose frames have members. A sheet
//! for each frame sums its members, compares them and posts the high ones.

use crate::cases::{with_functions, with_guards, FIRST_FUNCTION};
use crate::records::{TypeRecord, CHANNELS, NUMBER, UNGUARDED};
use crate::rng::Rng;
use crate::tree::*;

pub const PLANTS: u64 = 60;
pub const LINES: u64 = 4;
pub const FRAMES: u64 = 900;

const MIN_MEMBERS: usize = 40;
const MAX_MEMBERS: usize = 300;

/// Open calls are at most 100, so members come in blocks.
const BLOCK: u16 = 90;
/// Of each whole block the members above this place are posted.
const POSTED_ABOVE: u16 = 70;
/// Posting takes a privilege, which the root enables.
const POSTING: u8 = 1;
const AUTHORISED: u32 = 1 << POSTING;

/// The channel that the privilege guards, in version 2.
const PAGE: u8 = 1;

/// The sheet of frame `index`, of all the frames of all lines and plants.
pub fn frame_sheet(index: u64) -> Vec<u8> {
    let (functions, root) = frame(index, |member| check(POSTING, post(member)));
    with_functions(&[AUTHORISED], &functions, root)
}

/// The same in version 2: a guarded post in place of each check and post.
pub fn guarded_frame_sheet(index: u64) -> Vec<u8> {
    let mut guards = [UNGUARDED; CHANNELS];
    guards[usize::from(PAGE)] = POSTING;
    let (functions, root) = frame(index, |member| post_to(PAGE, member));
    with_guards(&guards, &[AUTHORISED], &functions, root)
}

/// The function types of a frame's sheet, and its terms.
fn frame(index: u64, posted: fn(Tree) -> Tree) -> ([TypeRecord; 1], Tree) {
    let rng = &mut Rng::for_item(PLANTS * LINES * FRAMES, index);
    let members = rng.between(MIN_MEMBERS, MAX_MEMBERS) as u16;
    let lowest = rng.below(50) as u16;
    let counting = [TypeRecord::function(NUMBER, NUMBER, AUTHORISED)];
    let root = sign(0, enable(POSTING, all_members(members, lowest, posted)));
    (counting, root)
}

/// Binds the loop over a block, then the loop over blocks, and calls it.
fn all_members(members: u16, lowest: u16, posted: fn(Tree) -> Tree) -> Tree {
    let (blocks, rest) = (members / BLOCK, members % BLOCK);
    let over_blocks = letrec(
        FIRST_FUNCTION,
        sign(0, block_loop(rest)),
        call(variable(0), number(blocks)),
    );
    letrec(
        FIRST_FUNCTION,
        sign(0, member_loop(lowest, posted)),
        over_blocks,
    )
}

/// g(n) = if n less 1 then f(rest) else f(block) + g(n - 1).
fn block_loop(rest: u16) -> Tree {
    let (count, itself, over_members) = (|| variable(0), variable(1), || variable(2));
    when(
        less(count(), number(1)),
        call(over_members(), number(rest)),
        sum(
            call(over_members(), number(BLOCK)),
            call(itself, difference(count(), number(1))),
        ),
    )
}

/// f(n) = if n less 1 then 0 else member(n) + f(n - 1), where a member above
/// the limit is posted.
fn member_loop(lowest: u16, posted: fn(Tree) -> Tree) -> Tree {
    let (place, itself) = (|| variable(0), variable(1));
    let member = || sum(place(), number(lowest));
    let counted = when(
        less(number(POSTED_ABOVE + lowest), member()),
        posted(member()),
        member(),
    );
    when(
        less(place(), number(1)),
        number(0),
        sum(counted, call(itself, difference(place(), number(1)))),
    )
}
