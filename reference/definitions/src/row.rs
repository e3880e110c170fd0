//! Questions about a sheet or two records, and the reference's answers.

use sheets::pairs::Pair;
use sheets::ranges::with_numbers;
use sheets::request::Request;
use sovzedal_reference::{
    compare, piece, record_eager, record_lazy, run_ranges, typecheck, Checks, Comparison, Piece,
    RangeRun, Recorded, Refusal, Request as Allowed, Sheet, Term, Verdict,
};

/// A sheet and what is asked about it.
pub struct Entry {
    pub sheet: Vec<u8>,
    pub rows: Vec<Row>,
}

pub enum Row {
    Deciding(Result<Verdict, Refusal>),
    Running(Box<Running>),
    Ranging(Box<Ranging>),
    Choosing(Choosing),
    Seeking(Result<Option<Piece>, Refusal>),
}

/// A run with a record, and the contents of the buffers before and after it.
pub struct Running {
    pub query: Query,
    pub before: Buffers,
    pub answer: Result<Recorded, Refusal>,
    pub after: Buffers,
}

/// A run over ranges, and the contents of the buffers before and after it.
pub struct Ranging {
    /// Lowest and highest of each number term.
    pub pairs: Vec<u16>,
    pub query: Query,
    pub before: Buffers,
    pub answer: Result<RangeRun, Refusal>,
    pub after: Buffers,
}

/// The sheet with other numbers.
pub struct Choosing {
    /// One for each term; what others than number terms get is of no account.
    pub numbers: Vec<u16>,
    pub bytes: Vec<u8>,
}

/// The unit's record held against the office's.
pub struct Compared {
    pub unit: Vec<u8>,
    pub office: Vec<u8>,
    pub answer: Result<Comparison, Refusal>,
}

#[derive(Clone, Copy, Debug, PartialEq, Eq)]
pub enum Runner {
    Eager,
    Lazy,
}

/// How a run is asked for.
#[derive(Clone, Debug)]
pub struct Query {
    pub runner: Runner,
    pub checks: Checks,
    pub request: Request,
    /// Bytes of the record.
    pub record: usize,
}

#[derive(Clone, Debug)]
pub struct Buffers {
    pub cells: Vec<u8>,
    pub posts: Vec<u32>,
    pub frames: Vec<u32>,
    pub record: Vec<u8>,
}

impl Entry {
    /// The sheet's verdict and these runs of it.
    pub fn answered(sheet: Vec<u8>, query: impl IntoIterator<Item = Query>) -> Self {
        let mut rows = vec![Row::Deciding(typecheck(&sheet))];
        for query in query {
            let run = Running::answered(&sheet, query);
            rows.push(Row::Running(Box::new(run)));
        }
        Self { sheet, rows }
    }

    /// The sheet's verdict and its smallest faulty piece.
    pub fn with_piece(sheet: Vec<u8>) -> Self {
        let rows = vec![
            Row::Deciding(typecheck(&sheet)),
            Row::Seeking(piece(&sheet)),
        ];
        Self { sheet, rows }
    }

    /// Whether it has a piece that isn't the fault which the verdict tells.
    pub fn piece_is_another(&self) -> bool {
        match &self.rows[..] {
            [Row::Deciding(Err(first)), Row::Seeking(Ok(Some(piece)))] => {
                first.place != piece.term.into()
            }
            _ => false,
        }
    }

    /// Each row by itself.
    pub fn split(self) -> impl Iterator<Item = Self> {
        let sheet = self.sheet;
        self.rows.into_iter().map(move |row| Self {
            sheet: sheet.clone(),
            rows: vec![row],
        })
    }
}

impl Running {
    pub fn answered(sheet: &[u8], query: Query) -> Self {
        let before = Buffers::filled(&query);
        let mut after = before.clone();
        let answer = query.run(sheet, &mut after);
        Self {
            query,
            before,
            answer,
            after,
        }
    }
}

impl Ranging {
    /// What is asked is an eager run without a record.
    pub fn answered(sheet: &[u8], pairs: Vec<u16>, checks: Checks, request: Request) -> Self {
        let query = Query {
            runner: Runner::Eager,
            checks,
            request,
            record: 0,
        };
        let before = Buffers::filled(&query);
        let mut after = before.clone();
        let Buffers { cells, posts, .. } = &mut after;
        let answer = run_ranges(sheet, &pairs, &query.allowed(), cells, posts);
        Self {
            pairs,
            query,
            before,
            answer,
            after,
        }
    }
}

impl Choosing {
    /// `bytes` are those of the sheet.
    pub fn answered(sheet: &Sheet, bytes: &[u8], numbers: Vec<u16>) -> Self {
        let terms = sheet.terms.iter().zip(&numbers);
        let of_numbers = terms.filter(|(term, _)| matches!(term, Term::Number(_)));
        let chosen: Vec<u16> = of_numbers.map(|(_, number)| *number).collect();
        Self {
            bytes: with_numbers(bytes, &chosen),
            numbers,
        }
    }
}

impl Compared {
    pub fn answered(pair: Pair) -> Self {
        Self {
            answer: compare(&pair.unit, &pair.office),
            unit: pair.unit,
            office: pair.office,
        }
    }
}

impl Query {
    fn allowed(&self) -> Allowed<'_> {
        Allowed {
            start: &self.request.start,
            calls: self.request.calls,
            open_calls: self.request.open_calls,
            checks: self.checks,
        }
    }

    fn run(&self, sheet: &[u8], buffers: &mut Buffers) -> Result<Recorded, Refusal> {
        let allowed = self.allowed();
        let Buffers {
            cells,
            posts,
            frames,
            record,
        } = buffers;
        match self.runner {
            Runner::Eager => record_eager(sheet, &allowed, cells, posts, record),
            Runner::Lazy => record_lazy(sheet, &allowed, cells, posts, frames, record),
        }
    }
}

impl Buffers {
    /// Buffers of the lengths that are asked, each with a number of its own
    /// in every entry. An eager run has no frame store; a short list stands
    /// for what it leaves alone.
    fn filled(query: &Query) -> Self {
        let frame_numbers = match query.runner {
            Runner::Eager => 1,
            Runner::Lazy => query.request.frame_numbers,
        };
        Self {
            cells: vec![7; query.request.cell_bytes],
            posts: vec![8; query.request.posts],
            frames: vec![9; frame_numbers],
            record: vec![6; query.record],
        }
    }
}
