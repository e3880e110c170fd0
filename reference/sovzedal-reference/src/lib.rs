//! Rule sheets, implemented a second time.
//!
//! This crate follows the contract's words and nothing else, so that it can be
//! compared with the proved library. It reads a sheet into a tree
//! ([`decode`]), judges it ([`typecheck`]), finds the smallest faulty piece of
//! one that is refused ([`piece`]), judges single terms ([`infer_term`]), tells
//! where a need comes from ([`explain`]) and which privileges it names
//! ([`names`]), makes it lean ([`erase`]) and interprets it ([`run_eager`],
//! [`run_lazy`]), and has it run by a block of [`registers`] or in turn with
//! others that wait on four [`lines`]. A run may record what it decides
//! ([`record_eager`], [`record_lazy`]), and a unit's record is held against the
//! office's ([`compare`]). A run may also know its numbers within limits alone
//! ([`run_ranges`]). Where the words leave a choice, `READINGS.md` names it.

mod answer;
mod checker;
mod compare;
mod decode;
mod encode;
mod erase;
mod explain;
pub mod lines;
mod names;
mod piece;
mod places;
mod record;
mod refusal;
pub mod registers;
mod report;
mod run;
mod set;
mod sheet;
mod term;

pub use answer::Reply;
pub use checker::{typecheck, typecheck_by, Accepted, Judgement, Rules, Verdict};
pub use compare::{compare, Comparison};
pub use decode::decode;
pub use encode::encode;
pub use erase::{erase, Lean};
pub use explain::{explain, Explanation, CHAIN_TERMS};
pub use names::{names, Naming};
pub use piece::{piece, Piece};
pub use record::{Entry, ENTRY_BYTES};
pub use refusal::{Cause, Refusal};
pub use report::report;
pub use run::{
    granted_by, record_eager, record_lazy, run_eager, run_lazy, run_ranges, start_frames, Checks,
    Frame, Outcome, Plain, Range, RangeRun, Recorded, Request, Run, Stop, Truth, FRAME_NUMBERS,
    MAX_CALLS, MAX_CELL_BYTES, MAX_OPEN_CALLS, MAX_POSTS,
};
pub use set::{Privilege, Set};
pub use sheet::{
    ChannelId, FunctionType, Guards, PrincipalId, Sheet, Term, TermId, Type, TypeId, CHANNELS,
};
pub use term::{infer_term, TermJudgement};
