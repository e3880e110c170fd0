//! The fourteen lines that are printed for a vector.

use crate::vector::Vector;
use sovzedal_reference::{
    decode, infer_term, piece, record_eager, record_lazy, run_eager, run_lazy, run_ranges,
    typecheck, Checks, Recorded, Refusal, Reply, Request, ENTRY_BYTES,
};

/// Of every run with a record: ten entries and a half.
const RECORD_BYTES: usize = 10 * ENTRY_BYTES + 2;

pub fn lines(vector: &Vector) -> String {
    let sheet = &vector.sheet;
    [
        line("decode", decode(sheet).into(), &[]),
        line("typecheck", typecheck(sheet).into(), &[]),
        piece_line(sheet),
        line("term", infer_term(sheet, vector.term).into(), &[]),
        eager("eager", vector, Checks::Enforced),
        eager("eager-skip", vector, Checks::Skipped),
        recorded_eager("eager-record", vector, Checks::Enforced),
        recorded_eager("eager-record-skip", vector, Checks::Skipped),
        lazy("lazy", vector, Checks::Enforced),
        lazy("lazy-skip", vector, Checks::Skipped),
        recorded_lazy("lazy-record", vector, Checks::Enforced),
        recorded_lazy("lazy-record-skip", vector, Checks::Skipped),
        ranges("ranges", vector, Checks::Enforced),
        ranges("ranges-skip", vector, Checks::Skipped),
    ]
    .concat()
}

/// What is told, and what more stands on the line.
fn line(name: &str, reply: Reply, more: &[u32]) -> String {
    let numbers = [reply.status].into_iter().chain(reply.answer);
    let numbers = numbers.chain(more.iter().copied());
    let words: String = numbers.map(|number| format!(" {number}")).collect();
    format!("{name}{words}\n")
}

/// With the sum of the bytes that are handed back.
fn piece_line(sheet: &[u8]) -> String {
    let result = piece(sheet);
    let record = match &result {
        Ok(Some(piece)) => piece.record_in(sheet).to_vec(),
        _ => Vec::new(),
    };
    let Checksum(sum) = Checksum::default().add(record);
    line("piece", result.into(), &[sum])
}

/// The number of entries is the ninth of the answer.
fn recorded_line(name: &str, result: Result<Recorded, Refusal>, Checksum(sum): Checksum) -> String {
    let entries = result.map_or(0, |recorded| recorded.entries as u32);
    let reply = result.map(|recorded| recorded.run).into();
    line(name, reply, &[entries, sum])
}

fn eager(name: &str, vector: &Vector, checks: Checks) -> String {
    let mut buffers = Buffers::filled(vector);
    let run = run_eager(
        &vector.sheet,
        &request(vector, checks),
        &mut buffers.cells,
        &mut buffers.posts,
    );
    let Checksum(sum) = Checksum::default().cells_and_posts(&buffers);
    line(name, run.into(), &[sum])
}

fn recorded_eager(name: &str, vector: &Vector, checks: Checks) -> String {
    let mut buffers = Buffers::filled(vector);
    let result = record_eager(
        &vector.sheet,
        &request(vector, checks),
        &mut buffers.cells,
        &mut buffers.posts,
        &mut buffers.record,
    );
    let checksum = Checksum::default().cells_and_posts(&buffers);
    recorded_line(name, result, checksum.add(buffers.record))
}

fn lazy(name: &str, vector: &Vector, checks: Checks) -> String {
    let mut buffers = Buffers::filled(vector);
    let run = run_lazy(
        &vector.sheet,
        &request(vector, checks),
        &mut buffers.cells,
        &mut buffers.posts,
        &mut buffers.frames,
    );
    let checksum = Checksum::default().cells_and_posts(&buffers);
    let Checksum(sum) = checksum.add(buffers.frames);
    line(name, run.into(), &[sum])
}

fn recorded_lazy(name: &str, vector: &Vector, checks: Checks) -> String {
    let mut buffers = Buffers::filled(vector);
    let result = record_lazy(
        &vector.sheet,
        &request(vector, checks),
        &mut buffers.cells,
        &mut buffers.posts,
        &mut buffers.frames,
        &mut buffers.record,
    );
    let checksum = Checksum::default().cells_and_posts(&buffers);
    let checksum = checksum.add(buffers.frames).add(buffers.record);
    recorded_line(name, result, checksum)
}

fn ranges(name: &str, vector: &Vector, checks: Checks) -> String {
    let mut buffers = Buffers::filled(vector);
    let run = run_ranges(
        &vector.sheet,
        &vector.pairs,
        &request(vector, checks),
        &mut buffers.cells,
        &mut buffers.posts,
    );
    let Checksum(sum) = Checksum::default().cells_and_posts(&buffers);
    line(name, run.into(), &[sum])
}

fn request(vector: &Vector, checks: Checks) -> Request<'_> {
    Request {
        start: &vector.request.start,
        calls: vector.request.calls,
        open_calls: vector.request.open_calls,
        checks,
    }
}

struct Buffers {
    cells: Vec<u8>,
    posts: Vec<u32>,
    frames: Vec<u32>,
    record: Vec<u8>,
}

impl Buffers {
    /// Buffers with the contents that every run of `vectors` begins with.
    fn filled(vector: &Vector) -> Self {
        let request = &vector.request;
        Self {
            cells: (0..request.cell_bytes).map(|i| (i * 7 + 1) as u8).collect(),
            posts: (0..request.posts).map(|i| (i * 3 + 2) as u32).collect(),
            frames: (0..request.frame_numbers).map(|i| i as u32 + 5).collect(),
            record: vec![6; RECORD_BYTES],
        }
    }
}

/// h = h * 31 + x for each number x in turn, starting from 0.
#[derive(Clone, Copy, Default)]
struct Checksum(u32);

impl Checksum {
    fn add<T: Into<u32>>(self, numbers: impl IntoIterator<Item = T>) -> Self {
        let numbers = numbers.into_iter().map(Into::into);
        Self(numbers.fold(self.0, |sum, number: u32| {
            sum.wrapping_mul(31).wrapping_add(number)
        }))
    }

    fn cells_and_posts(self, buffers: &Buffers) -> Self {
        self.add(buffers.cells.iter().copied())
            .add(buffers.posts.iter().copied())
    }
}
