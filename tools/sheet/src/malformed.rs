//! What is wrong with a type's or a term's record by itself: its first part that is not as docs/FORMAT.md asks. That a record
//! is at fault, and which, the library says.

use crate::kinds;
use crate::reading::range;
use crate::sheet::{Sheet, TermRecord, TypeRecord, CHANNELS};
use crate::show::counted;

/// How deep a function type may be.
const DEPTH: usize = 12;
/// The lowest number of a function type.
const FUNCTIONS: usize = 2;
const PRIVILEGES: usize = 32;
const PARTS: [&str; 3] = ["first", "second", "third"];

/// The first fault of a type's record, where the lower ones have none.
pub fn type_record(types: &[TypeRecord], number: usize) -> Option<String> {
    let record = types.get(number)?;
    if usize::from(record.kind) != number.min(FUNCTIONS) {
        let due = match number {
            0 => "type 0 is the boolean, of kind 0",
            1 => "type 1 is the number, of kind 1",
            _ => "every type from 2 on is a function, of kind 2",
        };
        return Some(format!("its kind is {}, and {due}", record.kind));
    }
    if record.zero != 0 {
        return Some(format!("its second byte is {}, and must be 0", record.zero));
    }
    if number < FUNCTIONS {
        base_type(record)
    } else {
        function_type(types, record, number)
    }
}

fn base_type(record: &TypeRecord) -> Option<String> {
    let parts = [
        ("argument", record.argument.into()),
        ("result", record.result.into()),
        ("latent set", record.latent),
    ];
    let (part, value) = parts.into_iter().find(|&(_, value)| value != 0)?;
    Some(format!(
        "its {part} is {value}, and must be 0, since it is no function"
    ))
}

fn function_type(types: &[TypeRecord], record: &TypeRecord, number: usize) -> Option<String> {
    for (part, ty) in [("argument", record.argument), ("result", record.result)] {
        if usize::from(ty) >= number {
            return Some(format!(
                "its {part} is type {ty}, and must be a lower type than {number}, its own"
            ));
        }
    }
    let depth = depths(&types[..=number])[number];
    if depth > DEPTH {
        return Some(format!("it is {depth} deep, and {DEPTH} is the most"));
    }
    let equal = types[..number].iter().position(|other| other == record)?;
    Some(format!("type {equal} has the same record"))
}

/// How deep each type is. What is no lower type counts nothing.
fn depths(types: &[TypeRecord]) -> Vec<usize> {
    let mut depths: Vec<usize> = Vec::with_capacity(types.len());
    for (number, record) in types.iter().enumerate() {
        let of = |ty: u16| depths.get(usize::from(ty)).copied().unwrap_or(0);
        let depth = match number {
            0..FUNCTIONS => 0,
            _ => 1 + of(record.argument).max(of(record.result)),
        };
        depths.push(depth);
    }
    depths
}

/// The first fault of a term's record.
pub fn term_record(sheet: &Sheet, number: usize) -> Option<String> {
    let term = sheet.terms.get(number)?;
    if usize::from(term.kind) >= kinds::NAMES.len() {
        let last = kinds::NAMES.len() - 1;
        return Some(format!(
            "its kind is {}, and kinds are 0 to {last}",
            term.kind
        ));
    }
    small(sheet, term).or_else(|| (0..PARTS.len()).find_map(|at| part(sheet, term, number, at)))
}

fn small(sheet: &Sheet, term: &TermRecord) -> Option<String> {
    let (count, wanted) = match term.kind {
        kinds::BOOLEAN => (2, "a boolean is 0 or 1".to_string()),
        kinds::CHECK | kinds::ENABLE | kinds::TEST => {
            (PRIVILEGES, "a privilege is 0 to 31".to_string())
        }
        kinds::SIGN => (sheet.principals.len(), principals(sheet)),
        kinds::POST if sheet.version == Some(2) => (CHANNELS, "a channel is 0 to 15".to_string()),
        kinds::POST => (1, "must be 0, since version 1 has no channels".to_string()),
        _ => (1, UNUSED.to_string()),
    };
    let value = usize::from(term.small);
    (value >= count).then(|| format!("its part 'small' is {value}, and {wanted}"))
}

const UNUSED: &str = "must be 0, since its kind does not use it";

fn principals(sheet: &Sheet) -> String {
    let count = sheet.principals.len();
    let numbers = range(0, count.saturating_sub(1) as u16);
    format!("the sheet has {}, {numbers}", counted(count, "principal"))
}

/// The fault of `first`, `second` or `third`.
fn part(sheet: &Sheet, term: &TermRecord, number: usize, at: usize) -> Option<String> {
    let (name, value) = (PARTS[at], usize::from(term.parts[at]));
    let child = kinds::children(term.kind)
        .iter()
        .find(|child| child.part == at);
    if let Some(child) = child {
        let role = if child.role.is_empty() {
            "child"
        } else {
            child.role
        };
        return (value >= number).then(|| {
            format!("its part '{name}', the {role}, is term {value}, and must be a lower term than {number}, its own")
        });
    }
    let types = sheet.types.len();
    match (term.kind, at) {
        (kinds::NUMBER | kinds::VARIABLE, 0) => None,
        (kinds::FUNCTION | kinds::LETREC, 0) if (FUNCTIONS..types).contains(&value) => None,
        (kinds::FUNCTION | kinds::LETREC, 0) => Some(format!(
            "its part '{name}' is type {value}, and {}",
            function_types(types)
        )),
        _ => (value != 0).then(|| format!("its part '{name}' is {value}, and {UNUSED}")),
    }
}

fn function_types(types: usize) -> String {
    if types <= FUNCTIONS {
        return "the sheet has no function type".to_string();
    }
    let numbers = range(FUNCTIONS as u16, (types - 1) as u16);
    let count = counted(types - FUNCTIONS, "function type");
    format!("the sheet has {count}, {numbers}")
}

#[cfg(test)]
mod tests {
    use super::*;
    use crate::library;
    use sheets::generate::sample;
    use sheets::rng::Rng;
    use sheets::seed;

    /// Of the records the library refuses the lowest that has a fault here, types first, and none if there is none.
    #[test]
    fn the_library_refuses_the_same_records() {
        let seed = seed::given_or_fresh();
        println!("SOVZEDAL_SEED={seed}");
        let mut seen = [0; 2];
        for index in 0..20_000 {
            let mut rng = Rng::for_item(seed, index);
            let mut bytes = sample(&mut rng).bytes;
            for _ in 0..rng.below(4) {
                let at = rng.below(bytes.len().max(1));
                let any = rng.bits() as u8;
                if let Some(byte) = bytes.get_mut(at) {
                    *byte = rng.pick(&[0, 1, 2, 3, 14, 15, 31, 32, any]);
                }
            }
            let sheet = Sheet::read(&bytes);
            let lowest_type =
                (0..sheet.types.len()).find(|&number| type_record(&sheet.types, number).is_some());
            let lowest_term =
                (0..sheet.terms.len()).find(|&number| term_record(&sheet, number).is_some());
            let refusal = library::decode(&bytes).err();
            match refusal.map_or((0, 0), |refusal| (refusal.cause, refusal.place as usize)) {
                (1..=4, _) => {}
                (5, place) => {
                    assert_eq!(lowest_type, Some(place), "item {index}");
                    seen[0] += 1;
                }
                (6, place) => {
                    assert_eq!(
                        (lowest_type, lowest_term),
                        (None, Some(place)),
                        "item {index}"
                    );
                    seen[1] += 1;
                }
                _ => assert_eq!((lowest_type, lowest_term), (None, None), "item {index}"),
            }
        }
        assert!(seen.iter().all(|&count| count > 500), "{seen:?}");
    }
}
