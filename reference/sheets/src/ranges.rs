//! Ranges for the number terms of a sheet, numbers within them, and the sheet
//! with these numbers.

use crate::generate::{sample, Sample};
use crate::rng::Rng;
use crate::sums;
use crate::world::World;

const HIGHEST: u16 = 65_535;

/// How the ranges of a sheet are drawn: few runs get far where all are wide.
#[derive(Clone, Copy)]
enum Manner {
    /// The number as it is written, and no other.
    Written,
    /// Close about what is written.
    Close,
    /// As written but for a few.
    Few,
    /// Each by itself.
    Mixed,
    /// All numbers.
    Full,
}

/// A lowest and a highest.
type Pair = [u16; 2];

/// Where the number terms of a sheet have their numbers, in term order: the
/// offset of the first of two bytes. Of what is no sheet only what can be found
/// by the lengths of its fields counts.
pub fn number_places(sheet: &[u8]) -> Vec<usize> {
    const TERMS: u8 = 4;
    const RECORD: usize = 8;
    const NUMBER_KIND: u8 = 1;
    let mut at = 0;
    while let Some(&[tag, high, low]) = sheet.get(at..at + 3) {
        let (begin, length) = (at + 3, usize::from(u16::from_be_bytes([high, low])));
        if tag == TERMS {
            let end = sheet.len().min(begin + length);
            let records = sheet[begin..end].chunks_exact(RECORD).enumerate();
            let numbers = records.filter(|(_, record)| record[0] == NUMBER_KIND);
            return numbers.map(|(id, _)| begin + RECORD * id + 2).collect();
        }
        at = begin + length;
    }
    Vec::new()
}

/// The numbers that stand in the number terms.
pub fn numbers_of(sheet: &[u8]) -> Vec<u16> {
    let number = |place: usize| u16::from_be_bytes([sheet[place], sheet[place + 1]]);
    number_places(sheet).into_iter().map(number).collect()
}

/// The sheet with these numbers in its number terms.
pub fn with_numbers(sheet: &[u8], numbers: &[u16]) -> Vec<u8> {
    let mut changed = sheet.to_vec();
    for (place, number) in number_places(sheet).into_iter().zip(numbers) {
        changed[place..place + 2].copy_from_slice(&number.to_be_bytes());
    }
    changed
}

/// Any sheet, mostly of version 1, and one in five of sums and differences about
/// the limits.
pub fn random_sheet(rng: &mut Rng) -> Sample {
    if rng.percent(20) {
        let world = World {
            principals: vec![0],
            guards: None,
            ..World::random(rng)
        };
        let bytes = sums::random(rng).sheet;
        return Sample { bytes, world };
    }
    let any = rng.percent(15);
    loop {
        let sample = sample(rng);
        if any || sample.world.guards.is_none() {
            return sample;
        }
    }
}

/// A pair for each number term, in term order.
pub fn random_pairs(rng: &mut Rng, sheet: &[u8]) -> Vec<u16> {
    let manner = match rng.below(20) {
        0 => Manner::Written,
        1..=6 => Manner::Close,
        7..=12 => Manner::Few,
        13..=18 => Manner::Mixed,
        _ => Manner::Full,
    };
    let numbers = numbers_of(sheet).into_iter();
    numbers
        .flat_map(|written| random_pair(rng, manner, written))
        .collect()
}

fn random_pair(rng: &mut Rng, manner: Manner, written: u16) -> Pair {
    match manner {
        Manner::Written => [written, written],
        Manner::Close => close_to(rng, written),
        Manner::Few if rng.percent(80) => [written, written],
        Manner::Few | Manner::Mixed => any_pair(rng, written),
        Manner::Full => [0, HIGHEST],
    }
}

fn any_pair(rng: &mut Rng, written: u16) -> Pair {
    match rng.below(12) {
        0 | 1 => [written, written],
        2..=4 => close_to(rng, written),
        5 => [0, written],
        6 => [written, HIGHEST],
        7 => [0, HIGHEST],
        8 => rng.pick(&[[0, 0], [0, 1], [HIGHEST - 1, HIGHEST], [HIGHEST, HIGHEST]]),
        9 => rng.pick(&[[32_767, 32_768], [32_768, 32_768], [1, HIGHEST - 1]]),
        10 => {
            let one = rng.below(65_536) as u16;
            [one, one]
        }
        _ => {
            let [one, other] = [rng.below(65_536) as u16, rng.below(65_536) as u16];
            [one.min(other), one.max(other)]
        }
    }
}

fn close_to(rng: &mut Rng, written: u16) -> Pair {
    let [below, above] = [rng.below(4) as u16, rng.below(4) as u16];
    [written.saturating_sub(below), written.saturating_add(above)]
}

/// What is wrong with pairs.
#[derive(Clone, Copy, Debug, PartialEq, Eq)]
pub enum Wrong {
    /// A number is left over, or the last one is missing.
    HalfAPair,
    Fewer,
    More,
    /// As many numbers as there should be pairs.
    NumbersForPairs,
    /// A lowest above its highest.
    Crossed,
}

impl Wrong {
    pub const ALL: [Self; 5] = [
        Self::HalfAPair,
        Self::Fewer,
        Self::More,
        Self::NumbersForPairs,
        Self::Crossed,
    ];
}

/// Such pairs, from the right ones of a sheet, if these can be made so.
pub fn wrong_pairs(rng: &mut Rng, right: &[u16], wrong: Wrong) -> Option<Vec<u16>> {
    let mut pairs = right.to_vec();
    match wrong {
        Wrong::HalfAPair if rng.percent(50) => pairs.push(0),
        Wrong::HalfAPair => {
            pairs.pop()?;
        }
        Wrong::Fewer | Wrong::NumbersForPairs | Wrong::Crossed if right.is_empty() => return None,
        Wrong::Fewer => pairs.truncate(2 * rng.below(right.len() / 2)),
        Wrong::More => pairs.extend(vec![7; 2 * rng.between(1, 3)]),
        Wrong::NumbersForPairs => pairs.truncate(right.len() / 2),
        Wrong::Crossed => {
            let last = right.len() / 2 - 1;
            let any = rng.below(last + 1);
            let pair = rng.pick(&[0, last, any]);
            let highest = rng.pick(&[pairs[2 * pair + 1], 0, HIGHEST - 1]);
            let highest = highest.min(HIGHEST - 1);
            let lowest = rng.pick(&[highest + 1, HIGHEST]);
            pairs[2 * pair..2 * pair + 2].copy_from_slice(&[lowest, highest]);
        }
    }
    Some(pairs)
}

/// A number within each pair: all lowest, all highest, of both, or any.
pub fn random_choice(rng: &mut Rng, pairs: &[u16]) -> Vec<u16> {
    let manner = rng.below(6);
    let pairs = pairs.chunks_exact(2);
    pairs
        .map(|pair| {
            let [lowest, highest] = [pair[0], pair[1]];
            match manner {
                0 => lowest,
                1 => highest,
                2 | 3 => rng.pick(&[lowest, highest]),
                _ => rng.between(lowest.into(), highest.into()) as u16,
            }
        })
        .collect()
}

#[cfg(test)]
mod tests {
    use super::*;
    use crate::cases::computing;
    use crate::tree::*;

    #[test]
    fn numbers_stand_in_term_order() {
        let sheet = computing(sum(number(3), post(difference(number(4), variable(1)))));
        assert_eq!(numbers_of(&sheet), [3, 4]);
        let changed = computing(sum(number(500), post(difference(number(6), variable(1)))));
        assert_eq!(with_numbers(&sheet, &[500, 6]), changed);
    }

    #[test]
    fn choices_are_within_and_wrong_pairs_are_not_ranges() {
        for seed in 0..1_000 {
            let rng = &mut Rng::new(seed);
            let sheet = random_sheet(rng).bytes;
            let pairs = random_pairs(rng, &sheet);
            assert_eq!(pairs.len(), 2 * numbers_of(&sheet).len());
            let choice = random_choice(rng, &pairs);
            let mut within = pairs.chunks_exact(2).zip(choice);
            assert!(within.all(|(pair, number)| pair[0] <= number && number <= pair[1]));
            for wrong in Wrong::ALL {
                let Some(changed) = wrong_pairs(rng, &pairs, wrong) else {
                    assert!(pairs.is_empty());
                    continue;
                };
                let crossed = changed.chunks_exact(2).filter(|pair| pair[0] > pair[1]);
                match wrong {
                    Wrong::Crossed => assert_eq!(crossed.count(), 1),
                    _ => assert_ne!(changed.len(), pairs.len()),
                }
            }
        }
    }
}
