//! What this example needs of `include/sovzedal.h`, made safe: slices carry
//! their lengths, and results are enums.

/// Bytes of the longest readable sheet.
pub const MAX_SHEET: usize = 10_913;
/// The largest allowance of calls.
pub const MAX_CALLS: u32 = 4_096;
/// The largest allowance of open calls.
pub const MAX_DEPTH: u32 = 100;
/// Bytes of the largest cell store.
pub const MAX_CELLS: usize = 65_536;
/// Entries of the largest post list.
pub const MAX_POSTS: usize = 256;
/// Channels that a sheet can post on.
pub const CHANNELS: u32 = 16;

const OK: u32 = 0;
const STOPPED: u32 = 1;

type Answer = [u32; 8];

mod c {
    extern "C" {
        pub fn sovzedal_typecheck(
            sheet: *const u8,
            sheet_len: usize,
            answer: *mut u32,
            answer_len: usize,
        ) -> u32;

        pub fn sovzedal_run_eager(
            sheet: *const u8,
            sheet_len: usize,
            start: *const u32,
            start_len: usize,
            calls: u32,
            depth: u32,
            enforce: u32,
            cells: *mut u8,
            cells_len: usize,
            posts: *mut u32,
            posts_len: usize,
            answer: *mut u32,
            answer_len: usize,
        ) -> u32;
    }
}

/// A sheet or a request that was refused: causes 1 to 16, 24 to 26 and 31.
pub struct Refusal {
    pub cause: u32,
    pub place: u32,
}

pub enum Type {
    Boolean,
    Number,
}

/// What is told of an accepted sheet.
pub struct Verdict {
    pub terms: u32,
    pub ty: Type,
    /// Bit k, worth 2^k, stands for privilege k.
    pub needs: u32,
}

pub enum Outcome {
    End(Value),
    /// Causes 17 to 22.
    Stop {
        cause: u32,
        term: u32,
    },
}

pub enum Value {
    Boolean(bool),
    Number(u32),
}

/// What is told of a run that was not refused.
pub struct Run {
    pub outcome: Outcome,
    pub calls: u32,
    pub cells: u32,
    /// The first entries of the lent list are the posts made.
    pub posts: u32,
    /// Sums and differences that were held at a limit.
    pub held: u32,
}

/// What an entry of a list of posts stands for.
pub struct Post {
    pub channel: u32,
    pub number: u32,
}

impl From<u32> for Post {
    fn from(entry: u32) -> Self {
        Self {
            channel: entry >> 16,
            number: entry & 0xFFFF,
        }
    }
}

/// What a run is given besides its sheet and buffers.
pub struct Request<'a> {
    /// The start stack, innermost frame first: a principal and its enabled set.
    pub start: &'a [[u32; 2]],
    pub calls: u32,
    pub depth: u32,
    pub enforce: bool,
}

pub fn typecheck(sheet: &[u8]) -> Result<Verdict, Refusal> {
    let mut answer = Answer::default();
    // SAFETY: each pointer is valid for the length after it, and `answer` is
    // borrowed here alone.
    let status = unsafe {
        c::sovzedal_typecheck(
            sheet.as_ptr(),
            sheet.len(),
            answer.as_mut_ptr(),
            answer.len(),
        )
    };
    match status {
        OK => Ok(Verdict {
            terms: answer[3],
            ty: if answer[2] == 0 {
                Type::Boolean
            } else {
                Type::Number
            },
            needs: answer[7],
        }),
        _ => Err(refusal(answer)),
    }
}

pub fn run_eager(
    sheet: &[u8],
    request: &Request,
    cells: &mut [u8],
    posts: &mut [u32],
) -> Result<Run, Refusal> {
    let mut answer = Answer::default();
    let start = request.start.as_flattened();
    // SAFETY: each pointer is valid for the length after it, and what is
    // written is borrowed here alone.
    let status = unsafe {
        c::sovzedal_run_eager(
            sheet.as_ptr(),
            sheet.len(),
            start.as_ptr(),
            start.len(),
            request.calls,
            request.depth,
            request.enforce.into(),
            cells.as_mut_ptr(),
            cells.len(),
            posts.as_mut_ptr(),
            posts.len(),
            answer.as_mut_ptr(),
            answer.len(),
        )
    };
    let outcome = match (status, answer[2]) {
        (OK, 0) => Outcome::End(Value::Boolean(answer[3] == 1)),
        (OK, _) => Outcome::End(Value::Number(answer[3])),
        (STOPPED, _) => Outcome::Stop {
            cause: answer[0],
            term: answer[1],
        },
        _ => return Err(refusal(answer)),
    };
    Ok(Run {
        outcome,
        calls: answer[4],
        cells: answer[5],
        posts: answer[6],
        held: answer[7],
    })
}

fn refusal(answer: Answer) -> Refusal {
    Refusal {
        cause: answer[0],
        place: answer[1],
    }
}
