//! How deep a call reaches into the stack: the stack is painted, the call is
//! made, and the paint that is left is looked at.

use std::mem::MaybeUninit;
use std::thread;

/// How much is painted, and the stack of the thread that it is part of.
const PAINTED: usize = 16 << 20;
const STACK: usize = 2 * PAINTED;

/// A byte that nothing is likely to write twice in a row.
const PAINT: u8 = 0xA5;

/// The bytes of stack that `call` uses, on a thread of its own.
pub fn stack_used(call: impl FnOnce() + Send) -> usize {
    thread::scope(|scope| {
        thread::Builder::new()
            .stack_size(STACK)
            .spawn_scoped(scope, || painted_then(call))
            .expect("a thread")
            .join()
            .expect("a run that returns")
    })
}

#[inline(never)]
fn painted_then(call: impl FnOnce()) -> usize {
    let lowest = paint();
    call();
    PAINTED - untouched_from(lowest)
}

/// Paints what is free below the caller's frame, and tells where it begins.
#[inline(never)]
fn paint() -> *const u8 {
    let mut region = MaybeUninit::<[u8; PAINTED]>::uninit();
    let lowest = region.as_mut_ptr().cast::<u8>();
    for offset in 0..PAINTED {
        // Within the array above; volatile, or nothing would be written.
        unsafe { lowest.add(offset).write_volatile(PAINT) };
    }
    lowest
}

/// How many bytes still have their paint, from the lowest up: the stack grows
/// downwards. The frame of the array is gone, but its memory is still this
/// thread's stack, which stays mapped.
#[inline(never)]
fn untouched_from(lowest: *const u8) -> usize {
    (0..PAINTED)
        .take_while(|&offset| unsafe { lowest.add(offset).read_volatile() } == PAINT)
        .count()
}
