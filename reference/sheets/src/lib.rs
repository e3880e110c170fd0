//! Sheets to test with.
//!
//! [`tree`] and [`records`] assemble sheets. [`cases`], [`yes_branch`],
//! [`branches`], [`type_faults`], [`explained`], [`pages`], [`erased`],
//! [`held`], [`named`], [`recorded`], [`pieces`], [`ranged`], [`smallest`],
//! [`extremes`] and [`load`] hold the ones made by hand, [`generate`],
//! [`needy`], [`erasable`], [`sums`], [`quiet`] and [`faulty`] draw others at
//! random, [`request`] draws what to ask of their runs, [`ranges`] the limits of
//! their numbers, [`session`] what a controller does with a register block,
//! [`lines`] what is queued on four lines and [`pairs`] records to compare, from
//! a [`seed`]. Nothing here knows how a sheet is judged or run, except [`grow`],
//! [`needy`] and [`erasable`], which build sheets that the rules accept, and
//! [`sums`], which builds some of known results.

pub mod branches;
pub mod cases;
pub mod damage;
pub mod erasable;
pub mod erased;
pub mod explained;
pub mod extremes;
pub mod faulty;
pub mod generate;
pub mod grow;
pub mod held;
pub mod lines;
pub mod load;
pub mod named;
pub mod needy;
pub mod pages;
pub mod pairs;
pub mod pieces;
pub mod quiet;
pub mod ranged;
pub mod ranges;
pub mod recorded;
pub mod records;
pub mod request;
pub mod rng;
pub mod seed;
pub mod session;
pub mod smallest;
pub mod spoil;
pub mod sums;
pub mod tally;
pub mod tree;
pub mod type_faults;
pub mod wild;
pub mod world;
pub mod yes_branch;

/// Two capital digits a byte.
pub fn hex(bytes: &[u8]) -> String {
    bytes.iter().map(|byte| format!("{byte:02X}")).collect()
}
