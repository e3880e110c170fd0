//! What can be told instead of a result, by the contract's numbers.

/// Every cause of a refusal (1 to 16, 23 for an address of the register block,
/// 24 to 26, 27 to 29 for a job of the four lines, 30 for a privilege that is
/// asked about, 31, 32 and 33 for a sheet that is to be made lean, 34 for a
/// record that is compared, 35 for the pairs of a run over ranges, 37 for a term
/// that is asked about) or a stop (17 to 22, and 36 in a run over ranges).
#[derive(Clone, Copy, Debug, PartialEq, Eq)]
#[repr(u32)]
pub enum Cause {
    CutShort = 1,
    WrongTag = 2,
    WrongVersion = 3,
    WrongLength = 4,
    TypeRecord = 5,
    TermRecord = 6,
    Shape = 7,
    Nesting = 8,
    UnboundVariable = 9,
    /// A type fault that has no number of its own.
    TypeMismatch = 10,
    SignNeeds = 11,
    BodyNeeds = 12,
    RootType = 13,
    StartStack = 14,
    Buffers = 15,
    Allowance = 16,
    RefusedCheck = 17,
    Stuck = 18,
    TooManyOpenCalls = 19,
    CallsSpent = 20,
    NoCell = 21,
    NoPost = 22,
    Address = 23,
    NotAFunction = 24,
    Argument = 25,
    Branches = 26,
    NoLine = 27,
    OutsideStore = 28,
    QueueFull = 29,
    NoPrivilege = 30,
    Guard = 31,
    NoLeanForm = 32,
    NoRoom = 33,
    Record = 34,
    Ranges = 35,
    Undecided = 36,
    NoTerm = 37,
}

impl Cause {
    pub fn number(self) -> u32 {
        self as u32
    }

    /// A refusal for this cause at a type, a term or a channel.
    pub(crate) fn at(self, place: impl Into<u32>) -> Refusal {
        Refusal {
            cause: self,
            place: place.into(),
        }
    }

    /// A refusal for a cause that names no place.
    pub(crate) fn anywhere(self) -> Refusal {
        self.at(0u32)
    }
}

/// A sheet, a request, an address, a job, a privilege, a buffer, a record, pairs
/// or a term's number were turned back.
#[derive(Clone, Copy, Debug, PartialEq, Eq)]
pub struct Refusal {
    pub cause: Cause,
    pub place: u32,
}
