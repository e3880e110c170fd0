//! The C interface, as far as slices can tell it.

use sheets::lines::Job;

/// How many numbers an answer has.
pub const ANSWER_NUMBERS: usize = 8;

/// How many it has where a job of the four lines is served: the line, too.
pub const SERVE_NUMBERS: usize = 9;

/// How many it has where a run is recorded: the number of entries, too.
pub const RECORD_NUMBERS: usize = 9;

/// How many terms of a chain are written.
pub const CHAIN_NUMBERS: usize = 32;

/// What a run is asked, beside its sheet and buffers.
#[derive(Clone, Copy, Debug)]
pub struct RunArguments<'a> {
    pub start: &'a [u32],
    pub calls: u32,
    pub open_calls: u32,
    /// 0 passes over the checks.
    pub enforce: u32,
}

/// Each function returns 0 (readable, accepted, ended, a register read or
/// written, a job added, a need explained, a lean sheet written, told whether a
/// privilege is named, which piece is the smallest faulty one or what the rules
/// say of a term, or two records compared), 1 (stopped), 2 (refused), 3
/// (`answer` is shorter than [`ANSWER_NUMBERS`], [`SERVE_NUMBERS`] or
/// [`RECORD_NUMBERS`], `block` isn't of 16 bytes, `lines` not of 102 numbers or
/// `chain` is shorter than [`CHAIN_NUMBERS`]; a record longer than a `u32` can
/// tell is not made here) or 4 (no line has a job).
pub trait Implementation {
    const NAME: &'static str;

    fn decode(sheet: &[u8], answer: &mut [u32]) -> u32;

    fn typecheck(sheet: &[u8], answer: &mut [u32]) -> u32;

    fn run_eager(
        sheet: &[u8],
        arguments: RunArguments,
        cells: &mut [u8],
        posts: &mut [u32],
        answer: &mut [u32],
    ) -> u32;

    fn run_lazy(
        sheet: &[u8],
        arguments: RunArguments,
        cells: &mut [u8],
        posts: &mut [u32],
        frames: &mut [u32],
        answer: &mut [u32],
    ) -> u32;

    fn block_read(block: &[u8], address: u32, answer: &mut [u32]) -> u32;

    fn block_write(
        block: &mut [u8],
        address: u32,
        value: u8,
        sheet: &[u8],
        cells: &mut [u8],
        posts: &mut [u32],
        answer: &mut [u32],
    ) -> u32;

    fn lines_add(lines: &mut [u64], line: u32, job: Job, store: &[u8], answer: &mut [u32]) -> u32;

    fn lines_serve(
        lines: &mut [u64],
        store: &[u8],
        cells: &mut [u8],
        posts: &mut [u32],
        answer: &mut [u32],
    ) -> u32;

    fn explain(sheet: &[u8], privilege: u32, chain: &mut [u16], answer: &mut [u32]) -> u32;

    fn erase(sheet: &[u8], lean: &mut [u8], answer: &mut [u32]) -> u32;

    fn names(sheet: &[u8], privilege: u32, answer: &mut [u32]) -> u32;

    fn piece(sheet: &[u8], answer: &mut [u32]) -> u32;

    fn term(sheet: &[u8], term: u32, answer: &mut [u32]) -> u32;

    fn compare(unit: &[u8], office: &[u8], answer: &mut [u32]) -> u32;

    fn record_eager(
        sheet: &[u8],
        arguments: RunArguments,
        cells: &mut [u8],
        posts: &mut [u32],
        record: &mut [u8],
        answer: &mut [u32],
    ) -> u32;

    fn record_lazy(
        sheet: &[u8],
        arguments: RunArguments,
        cells: &mut [u8],
        posts: &mut [u32],
        frames: &mut [u32],
        record: &mut [u8],
        answer: &mut [u32],
    ) -> u32;

    fn run_ranges(
        sheet: &[u8],
        pairs: &[u16],
        arguments: RunArguments,
        cells: &mut [u8],
        posts: &mut [u32],
        answer: &mut [u32],
    ) -> u32;
}
