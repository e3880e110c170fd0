//! The register block of W2, sentence by sentence.

use sheets::cases::{
    asking_for_1, computing, endless, identity_of_5, posting, posting_without_enable,
};
use sheets::rng::Rng;
use sheets::session::{random_accesses, random_block, random_sheet, Access};
use sheets::smallest;
use sheets::tree::*;
use sovzedal_reference::registers::{at, status, Block, Loaded, BLOCK_BYTES, RUN};
use sovzedal_reference::{run_eager, Cause, Checks, Refusal, Reply, Request};
use sovzedal_reference::{MAX_CELL_BYTES, MAX_OPEN_CALLS, MAX_POSTS};

const ONE: u32 = 1 << 1;

/// What a run may set of status.
const OUTCOMES: u8 = status::ENDED | status::STOPPED | status::REFUSED;

/// A block with the buffers that it lends to runs.
#[derive(Clone, Debug, PartialEq, Eq)]
struct Unit {
    block: Block,
    cells: Vec<u8>,
    posts: Vec<u32>,
}

impl Unit {
    fn with(bytes: [u8; BLOCK_BYTES]) -> Self {
        Self {
            block: Block { bytes },
            cells: vec![7; MAX_CELL_BYTES],
            posts: vec![7; MAX_POSTS],
        }
    }

    fn new() -> Self {
        Self {
            block: Block::new(),
            ..Self::with([0; BLOCK_BYTES])
        }
    }

    fn write(&mut self, sheet: &[u8], address: u32, value: u8) -> Result<(), Refusal> {
        let loaded = Loaded {
            sheet,
            cells: &mut self.cells,
            posts: &mut self.posts,
        };
        self.block.write(address, value, loaded)
    }

    /// Writes to an address that there is. No sheet is loaded.
    fn set(&mut self, address: usize, value: u8) {
        self.write(&[], address as u32, value).unwrap();
    }

    fn allow(&mut self, calls: u16) {
        let [high, low] = calls.to_be_bytes();
        self.set(at::CALLS, high);
        self.set(at::CALLS + 1, low);
    }

    fn run(&mut self, sheet: &[u8]) {
        self.write(sheet, at::COMMAND as u32, RUN).unwrap();
    }

    fn get(&self, address: usize) -> u8 {
        self.block.read(address as u32).unwrap()
    }

    fn pair(&self, address: usize) -> u16 {
        u16::from_be_bytes([self.get(address), self.get(address + 1)])
    }
}

/// A unit that has run a sheet, from a new block with this allowance.
fn having_run(sheet: &[u8], calls: u16) -> Unit {
    let mut unit = Unit::new();
    unit.allow(calls);
    unit.run(sheet);
    unit
}

/// Status, cause, value, calls made and place.
type RunRegisters = (u8, u8, u16, u16, u16);

fn run_registers(unit: &Unit) -> RunRegisters {
    (
        unit.get(at::STATUS),
        unit.get(at::CAUSE),
        unit.pair(at::VALUE),
        unit.pair(at::CALLS_MADE),
        unit.pair(at::PLACE),
    )
}

/// The cause that a run of the sheet leaves in the block.
fn cause(sheet: &[u8], calls: u16, cells: usize, posts: usize) -> u8 {
    let mut unit = Unit::new();
    unit.cells = vec![7; cells];
    unit.posts = vec![7; posts];
    unit.allow(calls);
    unit.run(sheet);
    unit.get(at::CAUSE)
}

/// Sheets with an end, a stop and a refusal, each with what has a meaning in
/// its answer: `run_registers` of them with an allowance of 4,096.
fn one_of_each() -> [(Vec<u8>, RunRegisters); 3] {
    [
        (identity_of_5(), (status::ENDED, 0, 5, 1, 0)),
        (endless(), (status::STOPPED, 19, 0, 100, 2)),
        (smallest(5), (status::REFUSED, 5, 0, 0, 1)),
    ]
}

fn smallest(cause: usize) -> Vec<u8> {
    smallest::all().swap_remove(cause - 1).sheet
}

#[test]
fn zero_at_first() {
    assert_eq!(Block::new().bytes, [0; 16]);
    assert!(!Block::new().interrupt());
}

#[test]
fn registers_of_an_end() {
    // 40,000 is 9C40 in hexadecimal digits: the highest byte comes first.
    let unit = having_run(&computing(number(40_000)), 0x0102);
    assert_eq!(
        unit.block.bytes,
        [0, 1, 0, 0, 1, 2, 0x9C, 0x40, 0, 0, 0, 0, 0, 0, 0, 0]
    );
    let unit = having_run(&identity_of_5(), 0x0102);
    assert_eq!(
        unit.block.bytes,
        [0, 1, 0, 0, 1, 2, 0, 5, 0, 1, 0, 0, 0, 0, 0, 0]
    );
}

#[test]
fn a_boolean_is_0_or_1() {
    for value in [false, true] {
        let unit = having_run(&computing(boolean(value)), 0);
        assert_eq!(
            run_registers(&unit),
            (status::ENDED, 0, u16::from(value), 0, 0)
        );
    }
}

#[test]
fn registers_of_a_stop() {
    // A boolean is posted by term 257, a number of two bytes.
    let many_terms = (0..7).fold(number(0), |tree, _| sum(tree.clone(), tree));
    let sheet = computing(post(less(many_terms, number(1))));
    let unit = having_run(&sheet, 0x0102);
    assert_eq!(
        unit.block.bytes,
        [0, 2, 18, 0, 1, 2, 0, 0, 0, 0, 1, 1, 0, 0, 0, 0]
    );
    let unit = having_run(&endless(), 0x1000);
    assert_eq!(
        unit.block.bytes,
        [0, 2, 19, 0, 0x10, 0, 0, 0, 0, 100, 0, 2, 0, 0, 0, 0]
    );
}

#[test]
fn registers_of_a_refusal() {
    // Type 1 is at fault.
    let unit = having_run(&smallest(5), 0x0102);
    assert_eq!(
        unit.block.bytes,
        [0, 4, 5, 0, 1, 2, 0, 0, 0, 0, 0, 1, 0, 0, 0, 0]
    );
    let unit = having_run(&[], 0x0102);
    assert_eq!(
        unit.block.bytes,
        [0, 4, 1, 0, 1, 2, 0, 0, 0, 0, 0, 0, 0, 0, 0, 0]
    );
}

#[test]
fn calls_made_take_two_bytes() {
    let unit = having_run(&smallest(20), 0x0203);
    assert_eq!(run_registers(&unit), (status::STOPPED, 20, 0, 0x0203, 9));
}

#[test]
fn checks_are_in_force_and_the_stack_is_empty() {
    let unit = having_run(&posting_without_enable(), 0);
    assert_eq!(run_registers(&unit), (status::STOPPED, 17, 0, 0, 2));
    let unit = having_run(&asking_for_1(), 0);
    assert_eq!(run_registers(&unit), (status::ENDED, 0, 0, 0, 0));
}

#[test]
fn a_hundred_calls_may_be_open() {
    let unit = having_run(&endless(), 4_096);
    assert_eq!(run_registers(&unit), (status::STOPPED, 19, 0, 100, 2));
}

#[test]
fn the_allowance_has_its_highest_byte_first() {
    let calls = |high, low| {
        let mut unit = Unit::new();
        unit.set(at::CALLS, high);
        unit.set(at::CALLS + 1, low);
        unit.run(&endless());
        run_registers(&unit)
    };
    assert_eq!(calls(0, 0), (status::STOPPED, 20, 0, 0, 6));
    assert_eq!(calls(0, 1), (status::STOPPED, 20, 0, 1, 2));
    assert_eq!(calls(0, 99), (status::STOPPED, 20, 0, 99, 2));
    assert_eq!(calls(1, 0), (status::STOPPED, 19, 0, 100, 2));
    assert_eq!(calls(0x10, 0), (status::STOPPED, 19, 0, 100, 2));
    assert_eq!(calls(0x10, 1), (status::REFUSED, 16, 0, 0, 0));
    assert_eq!(calls(0xFF, 0xFF), (status::REFUSED, 16, 0, 0, 0));
}

#[test]
fn the_largest_buffers_are_required() {
    let sheet = computing(number(1));
    let of = |cells, posts| cause(&sheet, 0, cells, posts);
    assert_eq!(of(65_536, 256), 0);
    for cells in [0, 8, 65_528, 65_535, 65_537] {
        assert_eq!(of(cells, 256), 15, "{cells}");
    }
    for posts in [0, 1, 255, 257] {
        assert_eq!(of(65_536, posts), 15, "{posts}");
    }
}

#[test]
fn buffers_come_after_the_sheet_and_before_the_allowance() {
    for number in 1..=8 {
        let result = cause(&smallest(number), 5_000, 8, 3);
        assert_eq!(usize::from(result), number);
    }
    let sheet = computing(number(1));
    assert_eq!(cause(&sheet, 5_000, 8, 256), 15);
    assert_eq!(cause(&sheet, 5_000, 65_536, 3), 15);
    assert_eq!(cause(&sheet, 4_097, 65_536, 256), 16);
    assert_eq!(cause(&sheet, 4_096, 65_536, 256), 0);
}

#[test]
fn a_run_does_not_judge() {
    let refused_by_the_rules = [9, 10, 11, 12, 13].map(smallest);
    let causes = refused_by_the_rules.map(|sheet| cause(&sheet, 4_096, 65_536, 256));
    assert_eq!(causes, [18, 18, 17, 18, 18]);
}

#[test]
fn one_status_bit_is_set_and_the_other_two_are_cleared() {
    for (sheet, expected) in one_of_each() {
        for before in 0..=255 {
            let mut unit = Unit::new();
            unit.allow(4_096);
            unit.block.bytes[at::STATUS] = before;
            unit.run(&sheet);
            // What no run sets no run clears.
            assert_eq!(unit.get(at::STATUS), before & !OUTCOMES | expected.0);
        }
    }
}

#[test]
fn what_has_no_meaning_becomes_zero() {
    // Every answer after every other, and after bytes that no run left.
    for (sheet, expected) in one_of_each() {
        for (sheet_before, _) in one_of_each() {
            let mut unit = having_run(&sheet_before, 4_096);
            unit.run(&sheet);
            assert_eq!(run_registers(&unit), expected);
        }
        let mut unit = Unit::with([0xA5; 16]);
        unit.allow(4_096);
        unit.block.bytes[at::STATUS] = 0;
        unit.run(&sheet);
        assert_eq!(run_registers(&unit), expected);
    }
}

#[test]
fn command_reads_as_zero() {
    for before in [0, 1, 255] {
        for (sheet, _) in one_of_each() {
            let mut unit = Unit::new();
            unit.block.bytes[at::COMMAND] = before;
            unit.run(&sheet);
            assert_eq!(unit.get(at::COMMAND), 0);
        }
    }
}

#[test]
fn mask_and_allowance_keep_what_is_written() {
    for address in [3, 4, 5] {
        for value in 0..=255 {
            let mut unit = Unit::with([0xA5; 16]);
            let mut expected = unit.clone();
            unit.set(address, value);
            expected.block.bytes[address] = value;
            assert_eq!(unit.block, expected.block);
        }
    }
    for (sheet, _) in one_of_each() {
        let mut unit = Unit::new();
        unit.set(at::MASK, 0xF3);
        unit.allow(0x0F5A);
        unit.run(&sheet);
        assert_eq!(unit.block.bytes[3..6], [0xF3, 0x0F, 0x5A]);
    }
}

#[test]
fn other_commands_change_nothing() {
    let sheet = posting(ONE);
    for before in [[0; 16], [0xA5; 16]] {
        let unit = Unit::with(before);
        let mut written = unit.clone();
        for command in (0..=255).filter(|&command| command != RUN) {
            written.write(&sheet, at::COMMAND as u32, command).unwrap();
            assert_eq!(written.block, unit.block, "{command}");
        }
        assert_eq!(written, unit);
    }
}

#[test]
fn writes_to_2_and_6_to_15_change_nothing() {
    let sheet = posting(ONE);
    for before in [[0; 16], [0xA5; 16]] {
        let unit = Unit::with(before);
        let mut written = unit.clone();
        for address in [2].into_iter().chain(6..=15) {
            for value in 0..=255 {
                written.write(&sheet, address, value).unwrap();
                assert_eq!(written.block, unit.block, "{address}");
            }
        }
        assert_eq!(written, unit);
    }
}

#[test]
fn writing_status_clears_the_bits_written_as_one() {
    let mut unit = Unit::new();
    for before in 0..=255u8 {
        for value in 0..=255u8 {
            unit.block.bytes[at::STATUS] = before;
            unit.set(at::STATUS, value);
            for bit in (0..8).map(|k| 1 << k) {
                let is_set = unit.get(at::STATUS) & bit != 0;
                assert_eq!(is_set, before & bit != 0 && value & bit == 0);
            }
        }
    }
    unit.block.bytes[at::STATUS] = 0;
    assert_eq!(unit, Unit::new(), "nothing else is changed");
}

#[test]
fn writes_that_run_nothing_leave_the_buffers() {
    let sheet = posting(ONE);
    for address in 1..=15 {
        let mut unit = Unit::new();
        unit.write(&sheet, address, RUN).unwrap();
        assert_eq!((unit.cells, unit.posts), (vec![7; 65_536], vec![7; 256]));
    }
}

#[test]
fn the_interrupt_is_raised_while_status_and_mask_share_a_bit() {
    for status in 0..=255u8 {
        for mask in 0..=255u8 {
            let mut block = Block::new();
            block.bytes[at::STATUS] = status;
            block.bytes[at::MASK] = mask;
            let shared = (0..8).any(|k| status >> k & 1 == 1 && mask >> k & 1 == 1);
            assert_eq!(block.interrupt(), shared);
        }
    }
}

#[test]
fn the_interrupt_comes_and_goes() {
    let mut unit = having_run(&identity_of_5(), 1);
    assert!(!unit.block.interrupt());
    // By the mask.
    unit.set(at::MASK, status::STOPPED | status::REFUSED);
    assert!(!unit.block.interrupt());
    unit.set(at::MASK, status::ENDED | status::REFUSED);
    assert!(unit.block.interrupt());
    // By clearing the bit, and no other.
    unit.set(at::STATUS, status::STOPPED | status::REFUSED);
    assert!(unit.block.interrupt());
    unit.set(at::STATUS, status::ENDED);
    assert!(!unit.block.interrupt());
    // By runs.
    unit.run(&identity_of_5());
    assert!(unit.block.interrupt());
    unit.run(&endless());
    assert!(!unit.block.interrupt());
    unit.run(&[]);
    assert!(unit.block.interrupt());
}

#[test]
fn reading_gives_the_byte_and_changes_nothing() {
    let mut block = Block::new();
    block.bytes = std::array::from_fn(|address| 0xF0 - address as u8);
    let before = block;
    for address in 0..16 {
        assert_eq!(block.read(address), Ok(0xF0 - address as u8));
        assert_eq!(block, before);
    }
}

#[test]
fn an_address_above_15_is_23() {
    let refusal = Refusal {
        cause: Cause::Address,
        place: 0,
    };
    assert_eq!(refusal.cause.number(), 23);
    let sheet = posting(ONE);
    for before in [[0; 16], [0xA5; 16]] {
        let unit = Unit::with(before);
        for address in [16, 17, 255, 256, 259, 65_536, 1 << 31, u32::MAX] {
            assert_eq!(unit.block.read(address), Err(refusal));
            for value in [0, RUN, 255] {
                let mut written = unit.clone();
                assert_eq!(written.write(&sheet, address, value), Err(refusal));
                assert_eq!(written, unit);
            }
        }
    }
}

#[test]
fn buffers_are_left_as_by_any_run() {
    let mut unit = Unit::new();
    unit.run(&computing(sum(post(number(4)), post(boolean(true)))));
    assert_eq!(run_registers(&unit).0, status::STOPPED);
    assert_eq!(unit.cells, [0; 65_536]);
    assert_eq!(unit.posts[0], 4);
    assert_eq!(unit.posts[1..], [7; 255]);
}

#[test]
fn refusals_leave_the_buffers() {
    let untouched = (vec![7; 65_536], vec![7; 256]);
    let unit = having_run(&posting(ONE), 4_097);
    assert_eq!(run_registers(&unit).1, 16);
    assert_eq!((unit.cells, unit.posts), untouched);
    let unit = having_run(&posting(ONE)[..77], 4_096);
    assert_eq!(run_registers(&unit).1, 1);
    assert_eq!((unit.cells, unit.posts), untouched);
    let mut unit = Unit::new();
    unit.posts.truncate(255);
    unit.run(&posting(ONE));
    assert_eq!(run_registers(&unit).1, 15);
    assert_eq!((unit.cells, unit.posts), (untouched.0, vec![7; 255]));
}

#[test]
fn a_block_that_no_entry_made() {
    // A run says nothing of bits 3 to 7 of status nor of 12 to 15.
    let mut unit = Unit::with([0xFF; 16]);
    unit.allow(1);
    unit.run(&identity_of_5());
    assert_eq!(
        unit.block.bytes,
        [0, 0xF9, 0, 0xFF, 0, 1, 0, 5, 0, 1, 0, 0, 0xFF, 0xFF, 0xFF, 0xFF]
    );
    let unit = Unit::with([0xFF; 16]);
    assert_eq!((unit.get(at::COMMAND), unit.get(15)), (0xFF, 0xFF));
}

#[test]
fn replies_tell_the_byte_and_the_interrupt() {
    let mut block = Block::new();
    block.bytes[at::STATUS] = 0b0110;
    block.bytes[at::MASK] = 0b0011;
    let reply = |status, answer| Reply { status, answer };
    assert_eq!(
        Reply::of_block(&block, block.read(1)),
        reply(0, [0, 0, 1, 6, 0, 0, 0, 0])
    );
    assert_eq!(
        Reply::of_block(&block, block.read(16)),
        reply(2, [23, 0, 1, 0, 0, 0, 0, 0])
    );
    block.bytes[at::MASK] = 0b1000;
    assert_eq!(
        Reply::of_block(&block, block.read(16)),
        reply(2, [23, 0, 0, 0, 0, 0, 0, 0])
    );
}

/// Sessions drawn at random, from any block: what a run leaves is what the
/// eager runner says, and nothing else changes what is told.
#[test]
fn sessions() {
    const SESSIONS: u64 = 2_000;
    const SEED: u64 = 2;
    for index in 0..SESSIONS {
        let rng = &mut Rng::for_item(SEED, index);
        let sheet = random_sheet(rng);
        let mut unit = Unit::with(random_block(rng));
        for access in random_accesses(rng) {
            let before = unit.clone();
            let Access::Write { address, value } = access else {
                continue;
            };
            let written = unit.write(&sheet, address, value);
            assert_eq!(written.is_err(), address > 15);
            assert_eq!(unit.block.bytes[12..], before.block.bytes[12..]);
            for kept in 3..=5 {
                let is_written = address == kept as u32;
                let expected = if is_written { value } else { before.get(kept) };
                assert_eq!(unit.get(kept), expected, "item {index}, {access:?}");
            }
            if access == Access::RUN {
                has_run(&before, &unit, &sheet);
            } else {
                assert_eq!((&unit.cells, &unit.posts), (&before.cells, &before.posts));
                assert_eq!((unit.get(0), unit.get(2)), (before.get(0), before.get(2)));
                assert_eq!(unit.block.bytes[6..], before.block.bytes[6..]);
            }
        }
    }
}

/// `after` is `before` and a run of the sheet, told by the eager runner.
fn has_run(before: &Unit, after: &Unit, sheet: &[u8]) {
    let calls = u32::from(before.pair(at::CALLS));
    let request = Request {
        start: &[],
        calls,
        open_calls: MAX_OPEN_CALLS,
        checks: Checks::Enforced,
    };
    let mut buffers = before.clone();
    let run = run_eager(sheet, &request, &mut buffers.cells, &mut buffers.posts);
    assert_eq!(
        (&after.cells, &after.posts),
        (&buffers.cells, &buffers.posts)
    );

    let Reply { status, answer } = run.into();
    let [cause, place, _, value, calls, ..] = answer.map(|number| number as u16);
    let status = before.get(at::STATUS) & !OUTCOMES | 1 << status;
    assert_eq!(
        run_registers(after),
        (status, cause as u8, value, calls, place)
    );
    assert_eq!(after.get(at::COMMAND), 0);
}
