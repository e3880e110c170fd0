//! The register block of request W2: sixteen bytes, by which a controller has
//! the loaded sheet run and is told how that went.

use crate::decode::decode;
use crate::refusal::{Cause, Refusal};
use crate::run::{run_eager, Outcome, Plain, Request, Run, Stop, MAX_CELL_BYTES, MAX_POSTS};

pub const BLOCK_BYTES: usize = 16;

/// Where the registers stand. Of a pair this is the highest byte, and the
/// other one follows.
pub mod at {
    pub const COMMAND: usize = 0;
    pub const STATUS: usize = 1;
    pub const CAUSE: usize = 2;
    pub const MASK: usize = 3;
    pub const CALLS: usize = 4;
    pub const VALUE: usize = 6;
    pub const CALLS_MADE: usize = 8;
    pub const PLACE: usize = 10;
}

/// The bits of status. A run sets one of them.
pub mod status {
    pub const ENDED: u8 = 1 << 0;
    pub const STOPPED: u8 = 1 << 1;
    pub const REFUSED: u8 = 1 << 2;
}

/// The only command there is.
pub const RUN: u8 = 1;

const CALLS_LOW: usize = at::CALLS + 1;

/// The loaded sheet and the buffers lent to a run of it. A write that runs
/// nothing doesn't look at them.
pub struct Loaded<'a> {
    pub sheet: &'a [u8],
    pub cells: &'a mut [u8],
    pub posts: &'a mut [u32],
}

/// Any sixteen bytes, also some that no writes to a new block would give.
#[derive(Clone, Copy, Debug, Default, PartialEq, Eq)]
pub struct Block {
    pub bytes: [u8; BLOCK_BYTES],
}

impl Block {
    pub fn new() -> Self {
        Self::default()
    }

    pub fn read(&self, address: u32) -> Result<u8, Refusal> {
        Ok(self.bytes[register(address)?])
    }

    pub fn write(&mut self, address: u32, value: u8, loaded: Loaded) -> Result<(), Refusal> {
        match register(address)? {
            at::COMMAND if value == RUN => self.run(loaded),
            at::STATUS => self.bytes[at::STATUS] &= !value,
            kept @ (at::MASK | at::CALLS | CALLS_LOW) => self.bytes[kept] = value,
            _ => {}
        }
        Ok(())
    }

    /// Whether the interrupt is raised.
    pub fn interrupt(&self) -> bool {
        self.bytes[at::STATUS] & self.bytes[at::MASK] != 0
    }

    fn run(&mut self, loaded: Loaded) {
        let calls = u16::from_be_bytes([self.bytes[at::CALLS], self.bytes[CALLS_LOW]]);
        let registers = RunRegisters::from(answer(calls, loaded));
        self.bytes[at::COMMAND] = 0;
        self.bytes[at::STATUS] &= !(status::ENDED | status::STOPPED | status::REFUSED);
        self.bytes[at::STATUS] |= registers.status;
        self.bytes[at::CAUSE] = registers.cause;
        self.put(at::VALUE, registers.value);
        self.put(at::CALLS_MADE, registers.calls);
        self.put(at::PLACE, registers.place);
    }

    fn put(&mut self, at: usize, number: u16) {
        self.bytes[at..at + 2].copy_from_slice(&number.to_be_bytes());
    }
}

/// The register at an address, of which there are sixteen.
fn register(address: u32) -> Result<usize, Refusal> {
    match address as usize {
        register if register < BLOCK_BYTES => Ok(register),
        _ => Err(Cause::Address.anywhere()),
    }
}

/// The run that a command asks for. The stack is empty, so there is no 14
/// between the sheet's refusals and the buffers'.
fn answer(calls: u16, loaded: Loaded) -> Result<Run, Refusal> {
    let Loaded {
        sheet,
        cells,
        posts,
    } = loaded;
    decode(sheet)?;
    if cells.len() != MAX_CELL_BYTES || posts.len() != MAX_POSTS {
        return Err(Cause::Buffers.anywhere());
    }
    let request = Request {
        calls: u32::from(calls),
        ..Request::LARGEST
    };
    run_eager(sheet, &request, cells, posts)
}

/// What a run's answer puts into the block. What has no meaning in it is zero.
#[derive(Default)]
struct RunRegisters {
    status: u8,
    cause: u8,
    value: u16,
    calls: u16,
    place: u16,
}

impl From<Result<Run, Refusal>> for RunRegisters {
    fn from(answer: Result<Run, Refusal>) -> Self {
        match answer {
            Ok(run) => RunRegisters {
                calls: run.calls as u16,
                ..RunRegisters::from(run.outcome)
            },
            Err(Refusal { cause, place }) => RunRegisters {
                status: status::REFUSED,
                cause: cause.number() as u8,
                place: place as u16,
                ..RunRegisters::default()
            },
        }
    }
}

impl From<Outcome> for RunRegisters {
    fn from(outcome: Outcome) -> Self {
        match outcome {
            Outcome::End(value) => RunRegisters {
                status: status::ENDED,
                value: match value {
                    Plain::Bool(value) => u16::from(value),
                    Plain::Number(value) => value,
                },
                ..RunRegisters::default()
            },
            Outcome::Stop(Stop { cause, term }) => RunRegisters {
                status: status::STOPPED,
                cause: cause.number() as u8,
                place: term,
                ..RunRegisters::default()
            },
        }
    }
}
