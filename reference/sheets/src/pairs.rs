//! Random pairs of records of what runs decide (W12), to be held against one
//! another.

use crate::rng::Rng;

const ENTRY_BYTES: usize = 4;

/// A term, highest byte first, a privilege, and yes or no.
type Entry = [u8; ENTRY_BYTES];

/// The unit's record and the office's, and how they were made.
#[derive(Clone, Debug)]
pub struct Pair {
    pub unit: Vec<u8>,
    pub office: Vec<u8>,
    pub made: Made,
}

#[derive(Clone, Copy, Debug, PartialEq, Eq)]
pub enum Made {
    /// The unit's has so many entries fewer.
    Dropped(usize),
    /// Entries of the unit's have changed places.
    Shuffled,
    /// One byte of the unit's entries is another.
    Changed(usize),
    /// The two have nothing to do with each other, or the unit's has an entry
    /// more.
    Otherwise,
    /// A part of an entry.
    Cut,
    /// A yes-or-no byte above 1.
    Marked,
}

impl Pair {
    pub fn random(rng: &mut Rng) -> Self {
        let office = entries(rng, 12);
        let kept = rng.pick(&[0, 30, 60, 90, 100]);
        let mut unit = office.clone();
        unit.retain(|_| rng.percent(kept));
        let dropped = Made::Dropped(office.len() - unit.len());
        let made = match rng.below(100) {
            0..35 => dropped,
            35..50 => shuffled(rng, &mut unit),
            50..65 => changed(rng, &mut unit).unwrap_or(dropped),
            65..75 => {
                let place = rng.between(0, unit.len());
                unit.insert(place, entry(rng));
                Made::Otherwise
            }
            75..85 => {
                unit = entries(rng, 12);
                Made::Otherwise
            }
            85..92 => Made::Cut,
            _ => Made::Marked,
        };
        let mut pair = Self {
            unit: unit.concat(),
            office: office.concat(),
            made,
        };
        match made {
            Made::Cut => pair.cut(rng),
            Made::Marked => pair.mark(rng),
            _ => {}
        }
        pair
    }

    /// Leaves a part of an entry in either record.
    fn cut(&mut self, rng: &mut Rng) {
        let record = self.either(rng);
        for _ in 0..rng.between(1, ENTRY_BYTES - 1) {
            record.push(rng.pick(&[0, 1, 255]));
        }
    }

    /// Leaves a yes-or-no byte above 1 in either record.
    fn mark(&mut self, rng: &mut Rng) {
        let record = self.either(rng);
        if record.is_empty() {
            record.extend([0; ENTRY_BYTES]);
        }
        let entry = rng.below(record.len() / ENTRY_BYTES);
        record[entry * ENTRY_BYTES + 3] = rng.pick(&[2, 3, 128, 255]);
    }

    fn either(&mut self, rng: &mut Rng) -> &mut Vec<u8> {
        if rng.percent(50) {
            &mut self.unit
        } else {
            &mut self.office
        }
    }
}

/// At most so many, of few kinds, so that some are equal.
fn entries(rng: &mut Rng, most: usize) -> Vec<Entry> {
    let count = rng.between(0, most);
    (0..count).map(|_| entry(rng)).collect()
}

fn entry(rng: &mut Rng) -> Entry {
    let [high, low] = rng.pick(&[3u16, 4, 259, 1023]).to_be_bytes();
    let privilege = rng.pick(&[0, 1, 31]);
    [high, low, privilege, u8::from(rng.percent(70))]
}

fn shuffled(rng: &mut Rng, entries: &mut [Entry]) -> Made {
    for place in (1..entries.len()).rev() {
        entries.swap(place, rng.between(0, place));
    }
    Made::Shuffled
}

/// Another byte in one of the entries, if there are any.
fn changed(rng: &mut Rng, entries: &mut [Entry]) -> Option<Made> {
    let places: Vec<usize> = (0..entries.len()).collect();
    let entry = &mut entries[rng.pick_any(&places)?];
    let byte = rng.below(ENTRY_BYTES);
    entry[byte] ^= match byte {
        1 => 1 << rng.below(8),
        _ => 1,
    };
    Some(Made::Changed(byte))
}
