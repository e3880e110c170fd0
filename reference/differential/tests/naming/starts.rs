//! Pairs of start stacks whose granted sets differ at most in one privilege.

use sheets::request::random_frame;
use sheets::rng::Rng;
use sheets::world::World;
use sovzedal_reference::{granted_by, start_frames, Privilege, Set};

const MAX_FRAMES: usize = 16;

/// How the second stack comes from the first, or the first from the second.
#[derive(Clone, Copy, Debug, PartialEq, Eq)]
pub enum Change {
    /// The frames without the privilege.
    TakenOut,
    /// All frames have it enabled.
    PutIn,
    /// Some have and some haven't.
    Mixed,
    /// Frames in front or behind that grant nothing else and take nothing else
    /// away.
    Around,
    /// Another stack altogether.
    Another,
}

impl Change {
    pub const ALL: [Change; 5] = [
        Change::TakenOut,
        Change::PutIn,
        Change::Mixed,
        Change::Around,
        Change::Another,
    ];
}

#[derive(Clone, Debug)]
pub struct Pair {
    pub starts: [Vec<u32>; 2],
    pub change: Change,
    /// Whether each grants the privilege.
    pub grants: [bool; 2],
    /// What both grant beside it.
    pub others: Set,
}

/// How often another pair is drawn where the granted sets are the same.
const DRAWS: usize = 5;

impl Pair {
    /// Mostly one whose granted sets really differ.
    pub fn random(rng: &mut Rng, world: &World, privilege: Privilege) -> Self {
        let maker = Maker {
            world,
            bit: 1 << privilege.number(),
        };
        let mut pair = maker.pair(rng, privilege);
        for _ in 1..DRAWS {
            if pair.differs() {
                break;
            }
            pair = maker.pair(rng, privilege);
        }
        pair
    }

    /// Whether the granted sets really differ.
    pub fn differs(&self) -> bool {
        self.grants[0] != self.grants[1]
    }
}

struct Maker<'a> {
    world: &'a World,
    /// The set that holds the privilege alone.
    bit: u32,
}

impl Maker<'_> {
    fn pair(&self, rng: &mut Rng, privilege: Privilege) -> Pair {
        let start = self.random_start(rng);
        let change = rng.pick(&Change::ALL);
        let changed = self.changed(rng, &start, change);
        let starts = match rng.percent(50) {
            true => [start, changed],
            false => [changed, start],
        };
        let granted = starts.each_ref().map(|start| self.granted(start));
        let others = granted.map(|set| set.without(privilege));
        assert_eq!(others[0], others[1], "{change:?} {starts:?}");
        Pair {
            starts,
            change,
            grants: granted.map(|set| set.contains(privilege)),
            others: others[0],
        }
    }

    fn random_start(&self, rng: &mut Rng) -> Vec<u32> {
        let frames = match rng.below(20) {
            0 | 1 => 0,
            2 => MAX_FRAMES,
            _ => rng.between(1, 4),
        };
        let frame = |_| random_frame(rng, self.world);
        (0..frames).flat_map(frame).collect()
    }

    fn changed(&self, rng: &mut Rng, start: &[u32], change: Change) -> Vec<u32> {
        let bit = self.bit;
        match change {
            Change::TakenOut => with_sets(start, |set| set & !bit),
            Change::PutIn => with_sets(start, |set| set | bit),
            Change::Mixed => self.mixed(rng, start),
            Change::Around => self.around(rng, start),
            Change::Another => self.another(rng, start),
        }
    }

    fn mixed(&self, rng: &mut Rng, start: &[u32]) -> Vec<u32> {
        with_sets(start, |set| match rng.percent(50) {
            true => set | self.bit,
            false => set & !self.bit,
        })
    }

    fn around(&self, rng: &mut Rng, start: &[u32]) -> Vec<u32> {
        let mut changed = self.mixed(rng, start);
        for _ in 0..rng.between(1, 3) {
            if changed.len() == 2 * MAX_FRAMES {
                break;
            }
            match self.in_front(rng, &changed) {
                Some(frame) if rng.percent(50) => {
                    changed.splice(0..0, frame);
                }
                _ => changed.extend(self.behind(rng)),
            }
        }
        changed
    }

    /// A frame of a principal that may use all that is granted, and in which
    /// nothing else that it may use is enabled.
    fn in_front(&self, rng: &mut Rng, start: &[u32]) -> Option<[u32; 2]> {
        let others = self.granted(start).bits() & !self.bit;
        let principal = rng.pick_any(&self.able(others))?;
        let may_use = self.world.authorised(principal as u8);
        let enabled = rng.bits() & (others | !may_use | self.bit);
        Some([principal, enabled])
    }

    /// A frame in which nothing else that its principal may use is enabled.
    fn behind(&self, rng: &mut Rng) -> [u32; 2] {
        let principal = self.world.random_principal(rng);
        let may_use = self.world.authorised(principal);
        [principal.into(), rng.bits() & (!may_use | self.bit)]
    }

    /// No frame if nothing else is granted, or else one that grants it all.
    fn another(&self, rng: &mut Rng, start: &[u32]) -> Vec<u32> {
        let others = self.granted(start).bits() & !self.bit;
        if others == 0 && rng.percent(50) {
            return Vec::new();
        }
        let Some(principal) = rng.pick_any(&self.able(others)) else {
            return self.mixed(rng, start);
        };
        let may_use = self.world.authorised(principal as u8);
        let idle = rng.bits() & (!may_use | self.bit);
        vec![principal, others | idle]
    }

    /// The principals that may use all of a set.
    fn able(&self, set: u32) -> Vec<u32> {
        let principals = self.world.principals.iter().zip(0..);
        let able = principals.filter(|(may_use, _)| set & !*may_use == 0);
        able.map(|(_, principal)| principal).collect()
    }

    fn granted(&self, start: &[u32]) -> Set {
        let principals = self.world.principals.iter();
        let principals: Vec<Set> = principals.map(|&set| Set::from_bits(set)).collect();
        let frames = start_frames(start, principals.len()).expect("the stack is well made");
        granted_by(&principals, &frames)
    }
}

/// The same principals, with other sets of enabled privileges.
fn with_sets(start: &[u32], mut change: impl FnMut(u32) -> u32) -> Vec<u32> {
    let frames = start.chunks_exact(2);
    frames
        .flat_map(|frame| [frame[0], change(frame[1])])
        .collect()
}
