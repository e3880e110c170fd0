//! What is timed.

use sheets::extremes::{costly_branches, deepest, widest};
use sheets::load::{frame_sheet, guarded_frame_sheet, FRAMES, LINES, PLANTS};

pub struct Workload {
    pub name: String,
    pub sheets: Vec<Vec<u8>>,
    /// How often a round goes through all sheets.
    pub repeats: usize,
}

pub fn all() -> [Workload; 5] {
    [
        clients_load("client's load", frame_sheet),
        clients_load("client's load on a guarded page", guarded_frame_sheet),
        one("deepest sheet: nesting 32, 100 open calls", deepest(), 300),
        one("widest sheet: 256 types, 1,024 terms", widest(), 300),
        one(
            "costly branches: 1,024 terms, tests of types 12 deep that differ at the bottom",
            costly_branches(),
            3,
        ),
    ]
}

/// Every so many frames one, over all plants and lines.
fn clients_load(name: &str, sheet: fn(u64) -> Vec<u8>) -> Workload {
    const STRIDE: usize = 100;
    let frames = PLANTS * LINES * FRAMES;
    let sheets: Vec<Vec<u8>> = (0..frames).step_by(STRIDE).map(sheet).collect();
    Workload {
        name: format!(
            "{name}: {PLANTS} plants x {LINES} lines x {FRAMES} frames of 40 to 300 members, \
             every {STRIDE}th frame timed ({})",
            sheets.len()
        ),
        sheets,
        repeats: 1,
    }
}

fn one(name: &str, sheet: Vec<u8>, repeats: usize) -> Workload {
    Workload {
        name: format!("{name}, {repeats} times"),
        sheets: vec![sheet],
        repeats,
    }
}
