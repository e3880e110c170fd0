//! One question, to be put to any implementation.

use crate::implementation::{Implementation, RunArguments, ANSWER_NUMBERS};
use sheets::request::Request;
use sheets::rng::Rng;

/// How many numbers are kept on either side of a lent buffer, to see that
/// nothing is written there.
const MARGIN: usize = 8;

#[derive(Clone, Copy, Debug, PartialEq, Eq)]
pub enum Entry {
    Decode,
    Typecheck,
    RunEager,
    RunLazy,
}

/// What is asked of an entry. Decoding and judging use the sheet alone.
#[derive(Clone, Debug)]
pub struct Query<'a> {
    pub entry: Entry,
    pub sheet: &'a [u8],
    pub request: &'a Request,
    pub enforce: u32,
}

impl Query<'_> {
    /// Puts the question and gives the returned number.
    pub fn of<I: Implementation>(&self, buffers: &mut Buffers) -> u32 {
        let arguments = RunArguments {
            start: &self.request.start,
            calls: self.request.calls,
            open_calls: self.request.open_calls,
            enforce: self.enforce,
        };
        let Buffers {
            cells,
            posts,
            frames,
            answer,
        } = buffers;
        let answer = answer.contents_mut();
        match self.entry {
            Entry::Decode => I::decode(self.sheet, answer),
            Entry::Typecheck => I::typecheck(self.sheet, answer),
            Entry::RunEager => I::run_eager(
                self.sheet,
                arguments,
                cells.contents_mut(),
                posts.contents_mut(),
                answer,
            ),
            Entry::RunLazy => I::run_lazy(
                self.sheet,
                arguments,
                cells.contents_mut(),
                posts.contents_mut(),
                frames.contents_mut(),
                answer,
            ),
        }
    }
}

/// All that an implementation may write to, with margins. Two of them are
/// equal if every number in and around the buffers is.
#[derive(Clone, Debug, PartialEq, Eq)]
pub struct Buffers {
    pub cells: Margined<u8>,
    pub posts: Margined<u32>,
    pub frames: Margined<u32>,
    pub answer: Margined<u32>,
}

impl Buffers {
    /// Buffers for `entry` of the lengths that `request` asks, filled at
    /// random. Those that the entry doesn't take are empty.
    pub fn random(rng: &mut Rng, entry: Entry, request: &Request, answer: usize) -> Self {
        let runs = matches!(entry, Entry::RunEager | Entry::RunLazy);
        let length = |length, taken| if taken { length } else { 0 };
        Self {
            cells: Margined::random(rng, length(request.cell_bytes, runs)),
            posts: Margined::random(rng, length(request.posts, runs)),
            frames: Margined::random(rng, length(request.frame_numbers, entry == Entry::RunLazy)),
            answer: Margined::random(rng, answer),
        }
    }

    /// The eight numbers of the answer, if there was room for them.
    pub fn answer(&self) -> Option<&[u32; ANSWER_NUMBERS]> {
        self.answer.contents().first_chunk()
    }
}

/// A lent buffer, with margins.
#[derive(Clone, Debug, PartialEq, Eq)]
pub struct Margined<T> {
    with_margins: Vec<T>,
}

impl<T: FromBits> Margined<T> {
    pub fn random(rng: &mut Rng, length: usize) -> Self {
        let mut with_margins = Vec::with_capacity(length + 2 * MARGIN + T::PER_WORD);
        while with_margins.len() < length + 2 * MARGIN {
            T::push_all(rng.word(), &mut with_margins);
        }
        with_margins.truncate(length + 2 * MARGIN);
        Self { with_margins }
    }
}

impl<T> Margined<T> {
    /// The part that is lent.
    pub fn contents_mut(&mut self) -> &mut [T] {
        let end = self.with_margins.len() - MARGIN;
        &mut self.with_margins[MARGIN..end]
    }

    pub fn contents(&self) -> &[T] {
        &self.with_margins[MARGIN..self.with_margins.len() - MARGIN]
    }

    /// Where two buffers of the same length first differ, relative to the
    /// lent part: before 0 and from its length on are the margins.
    pub fn first_difference(&self, other: &Self) -> Option<isize>
    where
        T: PartialEq,
    {
        let mut pairs = self.with_margins.iter().zip(&other.with_margins);
        let place = pairs.position(|(mine, theirs)| mine != theirs)?;
        Some(place as isize - MARGIN as isize)
    }
}

/// Numbers of which a random word makes several.
pub trait FromBits: Copy {
    const PER_WORD: usize;

    fn push_all(word: u64, buffer: &mut Vec<Self>);
}

impl FromBits for u8 {
    const PER_WORD: usize = 8;

    fn push_all(word: u64, buffer: &mut Vec<Self>) {
        buffer.extend_from_slice(&word.to_le_bytes());
    }
}

impl FromBits for u16 {
    const PER_WORD: usize = 4;

    fn push_all(word: u64, buffer: &mut Vec<Self>) {
        buffer.extend_from_slice(&[0, 16, 32, 48].map(|shift| (word >> shift) as u16));
    }
}

impl FromBits for u64 {
    const PER_WORD: usize = 1;

    fn push_all(word: u64, buffer: &mut Vec<Self>) {
        buffer.push(word);
    }
}

impl FromBits for u32 {
    const PER_WORD: usize = 2;

    fn push_all(word: u64, buffer: &mut Vec<Self>) {
        buffer.extend_from_slice(&[0, 32].map(|shift| (word >> shift) as u32));
    }
}
