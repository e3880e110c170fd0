//! The proved library, `include/sovzedal.h`. All that the tool says of a sheet, but for what its bytes are, it asks here.

mod c {
    extern "C" {
        pub fn sovzedal_decode(
            sheet: *const u8,
            sheet_len: usize,
            answer: *mut u32,
            answer_len: usize,
        ) -> u32;
        pub fn sovzedal_typecheck(
            sheet: *const u8,
            sheet_len: usize,
            answer: *mut u32,
            answer_len: usize,
        ) -> u32;
        pub fn sovzedal_explain(
            sheet: *const u8,
            sheet_len: usize,
            privilege: u32,
            chain: *mut u16,
            chain_len: usize,
            answer: *mut u32,
            answer_len: usize,
        ) -> u32;
        pub fn sovzedal_erase(
            sheet: *const u8,
            sheet_len: usize,
            lean: *mut u8,
            lean_len: usize,
            answer: *mut u32,
            answer_len: usize,
        ) -> u32;
        pub fn sovzedal_names(
            sheet: *const u8,
            sheet_len: usize,
            privilege: u32,
            answer: *mut u32,
            answer_len: usize,
        ) -> u32;
        pub fn sovzedal_compare(
            unit: *const u8,
            unit_len: usize,
            office: *const u8,
            office_len: usize,
            answer: *mut u32,
            answer_len: usize,
        ) -> u32;
        pub fn sovzedal_record_eager(
            sheet: *const u8,
            sheet_len: usize,
            start: *const u32,
            start_len: usize,
            calls: u32,
            depth: u32,
            enforce: u32,
            cells: *mut u8,
            cells_len: usize,
            posts: *mut u32,
            posts_len: usize,
            record: *mut u8,
            record_len: usize,
            answer: *mut u32,
            answer_len: usize,
        ) -> u32;
        pub fn sovzedal_record_lazy(
            sheet: *const u8,
            sheet_len: usize,
            start: *const u32,
            start_len: usize,
            calls: u32,
            depth: u32,
            enforce: u32,
            cells: *mut u8,
            cells_len: usize,
            posts: *mut u32,
            posts_len: usize,
            frames: *mut u32,
            frames_len: usize,
            record: *mut u8,
            record_len: usize,
            answer: *mut u32,
            answer_len: usize,
        ) -> u32;
        pub fn sovzedal_piece(
            sheet: *const u8,
            sheet_len: usize,
            answer: *mut u32,
            answer_len: usize,
        ) -> u32;
        pub fn sovzedal_term(
            sheet: *const u8,
            sheet_len: usize,
            term: u32,
            answer: *mut u32,
            answer_len: usize,
        ) -> u32;
        pub fn sovzedal_run_ranges(
            sheet: *const u8,
            sheet_len: usize,
            pairs: *const u16,
            pairs_len: usize,
            start: *const u32,
            start_len: usize,
            calls: u32,
            depth: u32,
            enforce: u32,
            cells: *mut u8,
            cells_len: usize,
            posts: *mut u32,
            posts_len: usize,
            answer: *mut u32,
            answer_len: usize,
        ) -> u32;
    }
}

pub const MAX_SHEET: usize = 10_913;
pub const MAX_CALLS: u32 = 4_096;
pub const MAX_DEPTH: u32 = 100;
pub const MAX_CELLS: usize = 65_536;
pub const MAX_POSTS: usize = 256;
pub const MAX_DECISIONS: usize = 4_195_328;
pub const ENTRY: usize = 4;
pub const BOOLEAN: u32 = 0;
pub const NUMBER: u32 = 1;

const ANSWER: usize = 8;
const RECORD_ANSWER: usize = 9;
const CHAIN: usize = 32;
const FRAMES: usize = 6_496;
const OK: u32 = 0;
const STOPPED: u32 = 1;

/// A cause, by the headings of docs/REFUSALS.md, and its place.
#[derive(Clone, Copy, Debug, PartialEq, Eq)]
pub struct Refusal {
    pub cause: u32,
    pub place: u32,
}

fn answered<const N: usize>(status: u32, answer: [u32; N]) -> Result<[u32; N], Refusal> {
    let refusal = Refusal {
        cause: answer[0],
        place: answer[1],
    };
    if status == OK {
        Ok(answer)
    } else {
        Err(refusal)
    }
}

/// Whether the sheet is readable.
pub fn decode(sheet: &[u8]) -> Result<(), Refusal> {
    let mut answer = [0; ANSWER];
    let status =
        unsafe { c::sovzedal_decode(sheet.as_ptr(), sheet.len(), answer.as_mut_ptr(), ANSWER) };
    answered(status, answer).map(|_| ())
}

/// What an accepted sheet gives and needs.
#[derive(Clone, Copy, Debug, PartialEq, Eq)]
pub struct Verdict {
    pub ty: u32,
    pub terms: u32,
    pub needs: u32,
}

pub fn typecheck(sheet: &[u8]) -> Result<Verdict, Refusal> {
    let mut answer = [0; ANSWER];
    let status =
        unsafe { c::sovzedal_typecheck(sheet.as_ptr(), sheet.len(), answer.as_mut_ptr(), ANSWER) };
    let answer = answered(status, answer)?;
    Ok(Verdict {
        ty: answer[2],
        terms: answer[3],
        needs: answer[7],
    })
}

/// The terms of the chain from the root to the cause of a need; none if the privilege is not needed.
pub fn explain(sheet: &[u8], privilege: u32) -> Result<Vec<u16>, Refusal> {
    let mut chain = vec![0; CHAIN];
    let mut answer = [0; ANSWER];
    let status = unsafe {
        c::sovzedal_explain(
            sheet.as_ptr(),
            sheet.len(),
            privilege,
            chain.as_mut_ptr(),
            chain.len(),
            answer.as_mut_ptr(),
            ANSWER,
        )
    };
    let answer = answered(status, answer)?;
    chain.truncate(answer[3] as usize);
    Ok(chain)
}

/// The lean form. As many bytes as the sheet has are always enough for it.
pub fn erase(sheet: &[u8]) -> Result<Vec<u8>, Refusal> {
    let mut lean = vec![0; sheet.len()];
    let mut answer = [0; ANSWER];
    let status = unsafe {
        c::sovzedal_erase(
            sheet.as_ptr(),
            sheet.len(),
            lean.as_mut_ptr(),
            lean.len(),
            answer.as_mut_ptr(),
            ANSWER,
        )
    };
    let answer = answered(status, answer)?;
    lean.truncate(answer[3] as usize);
    Ok(lean)
}

/// The lowest term that names the privilege.
pub fn names(sheet: &[u8], privilege: u32) -> Result<Option<u32>, Refusal> {
    let mut answer = [0; ANSWER];
    let status = unsafe {
        c::sovzedal_names(
            sheet.as_ptr(),
            sheet.len(),
            privilege,
            answer.as_mut_ptr(),
            ANSWER,
        )
    };
    let answer = answered(status, answer)?;
    Ok((answer[2] == 1).then_some(answer[3]))
}

/// How a unit's record stands to the office's.
#[derive(Clone, Copy, Debug, PartialEq, Eq)]
pub enum Comparison {
    Fits {
        missing: u32,
    },
    /// The unit's entries up to this one, counted from 0, do not occur.
    Not {
        entry: u32,
    },
}

pub fn compare(unit: &[u8], office: &[u8]) -> Result<Comparison, Refusal> {
    let mut answer = [0; ANSWER];
    let status = unsafe {
        c::sovzedal_compare(
            unit.as_ptr(),
            unit.len(),
            office.as_ptr(),
            office.len(),
            answer.as_mut_ptr(),
            ANSWER,
        )
    };
    let answer = answered(status, answer)?;
    Ok(match answer[2] {
        1 => Comparison::Fits { missing: answer[3] },
        _ => Comparison::Not { entry: answer[3] },
    })
}

/// What is asked of a run. The lengths of the stores may be over the limits: the library refuses that.
pub struct Request<'a> {
    pub start: &'a [u32],
    pub calls: u32,
    pub depth: u32,
    pub enforce: bool,
    /// The length of the cell store, in bytes.
    pub cells: usize,
    /// The length of the list of posts, in entries.
    pub posts: usize,
    /// The length of the record, in bytes.
    pub record: usize,
}

#[derive(Clone, Copy, Debug, PartialEq, Eq)]
pub enum Outcome {
    End { ty: u32, value: u32 },
    Stop(Refusal),
}

#[derive(Debug, PartialEq, Eq)]
pub struct Run {
    pub outcome: Outcome,
    pub calls: u32,
    pub cells: u32,
    pub held: u32,
    pub posts: Vec<u32>,
    pub record: Vec<u8>,
}

impl Run {
    fn new(
        status: u32,
        answer: &[u32],
        mut posts: Vec<u32>,
        mut record: Vec<u8>,
    ) -> Result<Self, Refusal> {
        let refusal = Refusal {
            cause: answer[0],
            place: answer[1],
        };
        let outcome = match status {
            OK => Outcome::End {
                ty: answer[2],
                value: answer[3],
            },
            STOPPED => Outcome::Stop(refusal),
            _ => return Err(refusal),
        };
        posts.truncate(answer[6] as usize);
        let recorded = answer
            .get(RECORD_ANSWER - 1)
            .map_or(0, |&entries| entries as usize);
        record.truncate(recorded * ENTRY);
        Ok(Self {
            outcome,
            calls: answer[4],
            cells: answer[5],
            held: answer[7],
            posts,
            record,
        })
    }
}

pub fn run_eager(sheet: &[u8], request: &Request) -> Result<Run, Refusal> {
    let (mut cells, mut posts) = (vec![0; request.cells], vec![0; request.posts]);
    let mut record = vec![0; request.record];
    let mut answer = [0; RECORD_ANSWER];
    let status = unsafe {
        c::sovzedal_record_eager(
            sheet.as_ptr(),
            sheet.len(),
            request.start.as_ptr(),
            request.start.len(),
            request.calls,
            request.depth,
            u32::from(request.enforce),
            cells.as_mut_ptr(),
            cells.len(),
            posts.as_mut_ptr(),
            posts.len(),
            record.as_mut_ptr(),
            record.len(),
            answer.as_mut_ptr(),
            answer.len(),
        )
    };
    Run::new(status, &answer, posts, record)
}

pub fn run_lazy(sheet: &[u8], request: &Request) -> Result<Run, Refusal> {
    let (mut cells, mut posts) = (vec![0; request.cells], vec![0; request.posts]);
    let (mut frames, mut record) = (vec![0; FRAMES], vec![0; request.record]);
    let mut answer = [0; RECORD_ANSWER];
    let status = unsafe {
        c::sovzedal_record_lazy(
            sheet.as_ptr(),
            sheet.len(),
            request.start.as_ptr(),
            request.start.len(),
            request.calls,
            request.depth,
            u32::from(request.enforce),
            cells.as_mut_ptr(),
            cells.len(),
            posts.as_mut_ptr(),
            posts.len(),
            frames.as_mut_ptr(),
            frames.len(),
            record.as_mut_ptr(),
            record.len(),
            answer.as_mut_ptr(),
            answer.len(),
        )
    };
    Run::new(status, &answer, posts, record)
}

/// The run over ranges. `pairs` are the lowest and the highest of each number term.
pub fn run_ranges(sheet: &[u8], pairs: &[u16], request: &Request) -> Result<Run, Refusal> {
    let (mut cells, mut posts) = (vec![0; request.cells], vec![0; request.posts]);
    let mut answer = [0; ANSWER];
    let status = unsafe {
        c::sovzedal_run_ranges(
            sheet.as_ptr(),
            sheet.len(),
            pairs.as_ptr(),
            pairs.len(),
            request.start.as_ptr(),
            request.start.len(),
            request.calls,
            request.depth,
            u32::from(request.enforce),
            cells.as_mut_ptr(),
            cells.len(),
            posts.as_mut_ptr(),
            posts.len(),
            answer.as_mut_ptr(),
            answer.len(),
        )
    };
    Run::new(status, &answer, posts, Vec::new())
}

/// The smallest faulty piece of a sheet.
#[derive(Clone, Copy, Debug, PartialEq, Eq)]
pub struct Piece {
    pub cause: u32,
    pub term: u32,
    pub terms: u32,
    /// Where its record is in the sheet, in bytes.
    pub offset: usize,
    pub length: usize,
}

/// The piece; `None` if there is none, or if the sheet is not readable.
pub fn piece(sheet: &[u8]) -> Option<Piece> {
    let mut answer = [0; ANSWER];
    let status =
        unsafe { c::sovzedal_piece(sheet.as_ptr(), sheet.len(), answer.as_mut_ptr(), ANSWER) };
    let answer = answered(status, answer).ok()?;
    (answer[4] != 0).then_some(Piece {
        cause: answer[2],
        term: answer[3],
        terms: answer[4],
        offset: answer[5] as usize,
        length: answer[6] as usize,
    })
}

/// What the library says of one term in its place.
#[derive(Clone, Copy, Debug, PartialEq, Eq)]
pub enum TermAnswer {
    Judged {
        ty: u32,
        needs: u32,
    },
    /// The term, or one below it, is refused there.
    Refused(Refusal),
    /// The sheet is not readable.
    Nothing,
}

pub fn term(sheet: &[u8], term: u32) -> TermAnswer {
    let mut answer = [0; ANSWER];
    let status = unsafe {
        c::sovzedal_term(
            sheet.as_ptr(),
            sheet.len(),
            term,
            answer.as_mut_ptr(),
            ANSWER,
        )
    };
    match answered(status, answer) {
        Ok(answer) => TermAnswer::Judged {
            ty: answer[2],
            needs: answer[7],
        },
        Err(refusal) if matches!(refusal.cause, 9..=12 | 24..=26) => TermAnswer::Refused(refusal),
        Err(_) => TermAnswer::Nothing,
    }
}
