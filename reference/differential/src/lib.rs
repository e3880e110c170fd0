//! The proved library and the reference behind one interface, and what is
//! needed to ask both the same and to compare all that they leave behind.

mod block_call;
mod coverage;
mod erase_call;
mod explain_call;
mod granting;
mod implementation;
mod library;
mod lines_call;
mod outcome;
mod query;
pub mod ranging;
mod recording;
mod reference;
pub mod settings;

pub use block_call::BlockCall;
pub use coverage::Coverage;
pub use erase_call::EraseCall;
pub use explain_call::ExplainCall;
pub use granting::granting_stack;
pub use implementation::{
    Implementation, RunArguments, ANSWER_NUMBERS, CHAIN_NUMBERS, RECORD_NUMBERS, SERVE_NUMBERS,
};
pub use library::Library;
pub use lines_call::LinesCall;
pub use outcome::{RunMode, RunResult};
pub use query::{Buffers, Entry, Margined, Query};
pub use ranging::Ranging;
pub use recording::Recording;
pub use reference::Reference;
