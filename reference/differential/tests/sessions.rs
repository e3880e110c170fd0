//! Sessions of a controller, drawn at random, with the library and with the
//! reference: each access returns the same, and every number in and around
//! the block and every buffer is the same.

use differential::{settings, BlockCall, Coverage, Library, Margined, Reference, ANSWER_NUMBERS};
use sheets::hex;
use sheets::request::{MAX_CELL_BYTES, MAX_POSTS};
use sheets::rng::Rng;
use sheets::session::{random_accesses, random_block, random_sheet, Access, BLOCK_BYTES};
use sovzedal_reference::{decode, run_eager, Request, Term};
use std::mem;
use std::process::ExitCode;
use std::time::Instant;

const SESSIONS: u64 = 40_000;

const DONE: u32 = 0;
const REFUSED: u32 = 2;

fn main() -> ExitCode {
    let begun = Instant::now();
    let mut counts = Counts::default();
    let mut sessions = 0;
    for batch in settings::batches(SESSIONS) {
        let items = batch.items.end - batch.items.start;
        println!("seed {}, {items} sessions", batch.seed);
        sessions += items;
        for index in batch.items {
            if let Err(difference) = compare(batch.seed, index, &mut counts) {
                println!("{difference}");
                println!("again with {}", settings::again(batch.seed, index));
                return ExitCode::FAILURE;
            }
        }
    }
    println!("{}", counts.0);
    let seconds = begun.elapsed().as_secs_f64();
    println!("{sessions} sessions in {seconds:.1} s");
    let never = counts.never();
    if settings::are_whole() && !never.is_empty() {
        println!("never happened: {never:?}");
        return ExitCode::FAILURE;
    }
    ExitCode::SUCCESS
}

/// Goes through one session with both implementations.
fn compare(seed: u64, index: u64, counts: &mut Counts) -> Result<(), String> {
    // Not the sheets that the other tests have had from this seed.
    let rng = &mut Rng::for_item(seed.rotate_left(1), index);
    let block = random_block(rng);
    let mut block_calls = BlockCalls::alike(BlockCall::random(rng, &block));
    let mut sheet = random_sheet(rng);
    if block != [0; BLOCK_BYTES] {
        counts.0.count("a block that no entry made");
    }
    for access in random_accesses(rng) {
        if rng.percent(10) {
            sheet = random_sheet(rng);
        }
        let before = block_calls.library.block.contents().to_vec();
        let posts = block_calls.library.posts.contents().to_vec();
        let accessed = access_with_random_buffers(rng, &mut block_calls, access, &sheet);
        let (returned, other) = accessed.map_err(|difference| {
            format!(
                "the implementations differ\n{access:?} of {}\nsheet {}\n{difference}",
                hex(&before),
                hex(&sheet),
            )
        })?;
        counts.count_access(access, returned, other, &before, &block_calls.library);
        if (returned, access) == (DONE, Access::RUN) {
            counts.count_pages(other, &sheet, &posts, &block_calls.library);
            if other == Other::Nothing {
                counts.count_held(&sheet, &before);
            }
        }
    }
    Ok(())
}

/// What is lent to an access in another length than it takes.
#[derive(Clone, Copy, Debug, PartialEq, Eq)]
enum Other {
    Nothing,
    Block,
    Cells,
    Posts,
}

/// Makes one access. Now and then another block or buffer, of another
/// length, is lent to it.
fn access_with_random_buffers(
    rng: &mut Rng,
    block_calls: &mut BlockCalls,
    access: Access,
    sheet: &[u8],
) -> Result<(u32, Other), String> {
    let answer = random_answer_length(rng);
    block_calls.put(
        |block_call| &mut block_call.answer,
        Margined::random(rng, answer),
    );
    let (returned, other) = match rng.below(40) {
        0 => {
            let length = rng.pick(&[0, 1, BLOCK_BYTES - 1, BLOCK_BYTES + 1, 2 * BLOCK_BYTES]);
            let block = Margined::random(rng, length);
            let returned =
                block_calls.access_with(|block_call| &mut block_call.block, block, access, sheet);
            (returned, Other::Block)
        }
        1 | 2 => {
            let length = rng.pick(&[0, 8, MAX_CELL_BYTES - 1, MAX_CELL_BYTES + 1]);
            let cells = Margined::random(rng, length);
            let returned =
                block_calls.access_with(|block_call| &mut block_call.cells, cells, access, sheet);
            (returned, Other::Cells)
        }
        3 | 4 => {
            let length = rng.pick(&[0, 1, MAX_POSTS - 1, MAX_POSTS + 1]);
            let posts = Margined::random(rng, length);
            let returned =
                block_calls.access_with(|block_call| &mut block_call.posts, posts, access, sheet);
            (returned, Other::Posts)
        }
        _ => (block_calls.access(access, sheet), Other::Nothing),
    };
    Ok((returned?, other))
}

/// Mostly just enough; sometimes too short, sometimes with a rest to keep.
fn random_answer_length(rng: &mut Rng) -> usize {
    match rng.below(30) {
        0 => rng.below(ANSWER_NUMBERS),
        1 | 2 => rng.between(ANSWER_NUMBERS + 1, 2 * ANSWER_NUMBERS),
        _ => ANSWER_NUMBERS,
    }
}

/// The call of each implementation, kept through a session.
struct BlockCalls {
    library: BlockCall,
    reference: BlockCall,
}

impl BlockCalls {
    fn alike(block_call: BlockCall) -> Self {
        Self {
            library: block_call.clone(),
            reference: block_call,
        }
    }

    /// Puts the same part into both calls and gives what they had.
    fn put<T: Clone>(&mut self, part: impl Fn(&mut BlockCall) -> &mut T, new: T) -> [T; 2] {
        [
            mem::replace(part(&mut self.library), new.clone()),
            mem::replace(part(&mut self.reference), new),
        ]
    }

    /// Gives what both returned, or tells how they differ.
    fn access(&mut self, access: Access, sheet: &[u8]) -> Result<u32, String> {
        let Self { library, reference } = self;
        let library_returned = library.access::<Library>(access, sheet);
        let reference_returned = reference.access::<Reference>(access, sheet);
        if library_returned == reference_returned && library == reference {
            return Ok(library_returned);
        }
        Err(format!(
            "lent {} bytes of cells, {} posts\n\
             library   returns {library_returned}, answer {:?}, block {}\n\
             reference returns {reference_returned}, answer {:?}, block {}\n\
             first difference: block {:?}, cells {:?}, posts {:?}, answer {:?}",
            library.cells.contents().len(),
            library.posts.contents().len(),
            library.answer.contents(),
            hex(library.block.contents()),
            reference.answer.contents(),
            hex(reference.block.contents()),
            library.block.first_difference(&reference.block),
            library.cells.first_difference(&reference.cells),
            library.posts.first_difference(&reference.posts),
            library.answer.first_difference(&reference.answer),
        ))
    }

    /// The same with another part, for this access alone.
    fn access_with<T: Clone>(
        &mut self,
        part: impl Fn(&mut BlockCall) -> &mut T,
        other: T,
        access: Access,
        sheet: &[u8],
    ) -> Result<u32, String> {
        let [library, reference] = self.put(&part, other);
        let returned = self.access(access, sheet);
        *part(&mut self.library) = library;
        *part(&mut self.reference) = reference;
        returned
    }
}

#[derive(Default)]
struct Counts(Coverage);

/// What has to happen, beside an end and each cause that a run can have.
const EXPECTED: [&str; 20] = [
    "a block that no entry made",
    "a read",
    "a write that runs nothing",
    "another command than 1",
    "a run",
    "a run where status has other bits",
    "a run ended, value in both bytes",
    "a run, calls made in both bytes",
    "a run, term or place in both bytes",
    "the interrupt is raised",
    "the interrupt comes",
    "the interrupt falls",
    "23 at a read",
    "23 at a write",
    "a short answer",
    "a block of another length",
    "refused by 31 where 15 would follow",
    "stopped by 17 at a post",
    "a post on a channel above 0",
    "a run with results held",
];

impl Counts {
    /// Counts an access by what it leaves in the call.
    fn count_access(
        &mut self,
        access: Access,
        returned: u32,
        other: Other,
        before: &[u8],
        block_call: &BlockCall,
    ) {
        let answer = match block_call.answer.contents().first_chunk::<ANSWER_NUMBERS>() {
            None => return self.0.count("a short answer"),
            Some(_) if other == Other::Block => return self.0.count("a block of another length"),
            Some(answer) => answer,
        };
        let was_raised = before[1] & before[3] != 0;
        match (was_raised, answer[2] != 0) {
            (false, true) => self.0.count("the interrupt comes"),
            (true, false) => self.0.count("the interrupt falls"),
            _ => {}
        }
        if answer[2] != 0 {
            self.0.count("the interrupt is raised");
        }
        match (returned, access) {
            (REFUSED, Access::Read { .. }) => self.0.count("23 at a read"),
            (REFUSED, Access::Write { .. }) => self.0.count("23 at a write"),
            (DONE, Access::Read { .. }) => self.0.count("a read"),
            (DONE, Access::RUN) => self.count_run(other, before, block_call.block.contents()),
            (DONE, Access::Write { address: 0, .. }) => self.0.count("another command than 1"),
            (DONE, Access::Write { .. }) => self.0.count("a write that runs nothing"),
            _ => self.0.count(format!("{returned} returned")),
        }
    }

    fn count_run(&mut self, other: Other, before: &[u8], block: &[u8]) {
        const OUTCOMES: u8 = 0b111;
        self.0.count("a run");
        self.0.count(match (block[1] & OUTCOMES, block[2]) {
            (0b001, 0) => "ended".to_string(),
            (0b010, cause) => format!("stopped by {cause:2}"),
            (0b100, 15) => format!("refused by 15, by {other:?}"),
            (0b100, cause) => format!("refused by {cause:2}"),
            outcome => format!("told {outcome:?}"),
        });
        if before[1] & !OUTCOMES != 0 {
            self.0.count("a run where status has other bits");
        }
        let pairs = [
            (6, "a run ended, value in both bytes"),
            (8, "a run, calls made in both bytes"),
            (10, "a run, term or place in both bytes"),
        ];
        for (at, what) in pairs {
            if block[at] != 0 && block[at + 1] != 0 {
                self.0.count(what);
            }
        }
    }

    /// Counts what has to do with channels and guards in a run, by the list
    /// of posts before it and by what it leaves in the call.
    fn count_pages(&mut self, other: Other, sheet: &[u8], before: &[u32], block_call: &BlockCall) {
        let block = block_call.block.contents();
        let place = u16::from_be_bytes([block[10], block[11]]);
        match block[2] {
            31 if matches!(other, Other::Cells | Other::Posts) => {
                self.0.count("refused by 31 where 15 would follow");
            }
            17 => {
                let sheet = decode(sheet).expect("a sheet that runs");
                let is_post = matches!(sheet.term(place), Term::Post { .. });
                self.0.count_if(is_post, "stopped by 17 at a post");
            }
            _ => {}
        }
        let mut pairs = before.iter().zip(block_call.posts.contents());
        let on_another = pairs.any(|(old, new)| old != new && (1..16).contains(&(new >> 16)));
        self.0.count_if(on_another, "a post on a channel above 0");
    }

    /// Counts a run with held results, which a block doesn't tell, by the block
    /// before it.
    fn count_held(&mut self, sheet: &[u8], before: &[u8]) {
        let request = Request {
            calls: u16::from_be_bytes([before[4], before[5]]).into(),
            ..Request::LARGEST
        };
        let (mut cells, mut posts) = (vec![0; MAX_CELL_BYTES], vec![0; MAX_POSTS]);
        let run = run_eager(sheet, &request, &mut cells, &mut posts);
        let held = run.is_ok_and(|run| run.held > 0);
        self.0.count_if(held, "a run with results held");
    }

    /// What should have happened and never did.
    fn never(&self) -> Vec<String> {
        let refusals = (1..=8).chain([16, 31]).map(|n| format!("refused by {n:2}"));
        let buffers = [Other::Cells, Other::Posts].map(|n| format!("refused by 15, by {n:?}"));
        let stops = (17..=22).map(|n| format!("stopped by {n:2}"));
        let expected = EXPECTED.map(String::from).into_iter();
        let expected = expected
            .chain(["ended".to_string()])
            .chain(refusals)
            .chain(buffers)
            .chain(stops);
        self.0.never(expected)
    }
}
