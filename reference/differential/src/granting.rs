//! Start stacks on which an accepted sheet may be run.

use sheets::request::random_frame;
use sheets::rng::Rng;
use sheets::world::World;
use sovzedal_reference::{granted_by, start_frames, Set};

/// A start stack that grants `needs`: a frame that enables them, of a
/// principal that may use them, and others of such principals before it.
/// What is behind doesn't matter. `None` if no principal may use them.
pub fn granting_stack(rng: &mut Rng, world: &World, needs: u32) -> Option<Vec<u32>> {
    let principals = &world.principals;
    let able: Vec<u32> = (0..principals.len() as u32)
        .filter(|&principal| needs & !principals[principal as usize] == 0)
        .collect();
    let enabler = rng.pick_any(&able)?;
    let mut start = Vec::new();
    for _ in 0..rng.below(4) {
        start.extend([rng.pick(&able), world.random_set(rng, 50)]);
    }
    if needs != 0 || rng.percent(50) {
        start.extend([enabler, needs | world.random_set(rng, 30)]);
    }
    for _ in 0..rng.below(4) {
        start.extend(random_frame(rng, world));
    }
    let sets: Vec<Set> = principals.iter().map(|&set| Set::from_bits(set)).collect();
    let frames = start_frames(&start, sets.len()).expect("the stack is well made");
    assert!(Set::from_bits(needs).is_within(granted_by(&sets, &frames)));
    Some(start)
}
