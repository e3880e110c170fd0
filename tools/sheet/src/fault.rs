//! What is to be said of a fault beyond its cause: what stands at its place, and what stands against it.

use crate::hex;
use crate::kinds;
use crate::library::Refusal;
use crate::malformed;
use crate::reading::Reading;
use crate::sheet::{record_counts, record_length, Flaw, TermRecord, TypeRecord, HEADER};
use crate::show::counted;

/// A sentence about the place, without its stop, or nothing.
pub fn detail(reading: &Reading, refusal: Refusal) -> Option<String> {
    let place = refusal.place as usize;
    match refusal.cause {
        1..=4 => reading.sheet.flaw.map(|flaw| bytes(reading, flaw)),
        5 => type_place(reading, place),
        6 => term_record(reading, place),
        7 => term_place(reading, place),
        8 => Some(format!(
            "the terms around it: {}",
            numbers(&ancestors(reading, place))
        )),
        31 => reading
            .sheet
            .guards
            .get(place)
            .map(|guard| format!("its guard is {guard}")),
        35 => pairs(reading),
        _ => by_the_rules(reading, refusal.cause, place),
    }
}

fn bytes(reading: &Reading, flaw: Flaw) -> String {
    let sheet = &reading.sheet;
    let (total, end) = (sheet.bytes.len(), sheet.end);
    match flaw {
        Flaw::Header { due } => match total - end {
            0 => format!("the sheet ends at byte {end}, where tag {due} is due"),
            left => format!(
                "at byte {end} the header of tag {due} is due, {HEADER} bytes, and {left} are left"
            ),
        },
        Flaw::Tag { due, found } => {
            let words = format!("at byte {end} stands tag {found}, where {due} is due");
            if due == 1 && hex::may_begin(found) {
                format!("{words}; it looks like hexadecimal text, which --hex reads")
            } else {
                words
            }
        }
        Flaw::Length { tag, length } => format!(
            "at byte {end} tag {tag} has the length {length}, and can have {}",
            lengths(tag)
        ),
        Flaw::Content { tag, length, left } => {
            format!("the content of tag {tag} is to have {length} bytes, and {left} are left")
        }
        Flaw::Version(version) => format!("it is {version}"),
        Flaw::Behind => format!("the last field ends at byte {end}, and more bytes follow"),
    }
}

/// The lengths that a field can have.
fn lengths(tag: u8) -> String {
    let (each, counts) = (record_length(tag), record_counts(tag));
    let records = match tag {
        2 => "principals",
        3 => "types",
        4 => "terms",
        _ => return (each * counts.end()).to_string(),
    };
    format!(
        "{each} for each of {} to {} {records}",
        counts.start(),
        counts.end()
    )
}

fn type_place(reading: &Reading, place: usize) -> Option<String> {
    let fault = malformed::type_record(&reading.sheet.types, place)?;
    let (offset, record) = reading.sheet.type_bytes(place)?;
    Some(format!(
        "{fault}; its record, at byte {offset}: {}",
        hex::type_record(record)
    ))
}

fn term_record(reading: &Reading, place: usize) -> Option<String> {
    let fault = malformed::term_record(&reading.sheet, place)?;
    let (offset, record) = reading.sheet.term_bytes(place)?;
    Some(format!(
        "{fault}; its record, at byte {offset}: {}",
        hex::term(record)
    ))
}

/// Why the pairs do not fit the sheet.
fn pairs(reading: &Reading) -> Option<String> {
    let sheet = &reading.sheet;
    if sheet.version != Some(1) {
        return Some(format!("the sheet is of version {}", sheet.version?));
    }
    let terms = sheet.terms.iter().enumerate();
    let numbers: Vec<usize> = terms
        .filter(|(_, term)| term.kind == kinds::NUMBER)
        .map(|(number, _)| number)
        .collect();
    let pairs: Vec<&[u16]> = reading.pairs.chunks_exact(2).collect();
    if pairs.len() != numbers.len() {
        let (given, due) = (pairs.len(), numbers.len());
        let verb = if given == 1 { "is" } else { "are" };
        return Some(format!(
            "there {verb} {} for {}",
            counted(given, "pair"),
            counted(due, "number")
        ));
    }
    let at = pairs.iter().position(|pair| pair[0] > pair[1])?;
    Some(format!(
        "pair {} of {}, for term {}, has the lowest {} above its highest, {}",
        at + 1,
        pairs.len(),
        numbers[at],
        pairs[at][0],
        pairs[at][1]
    ))
}

fn term_place(reading: &Reading, place: usize) -> Option<String> {
    let parents = parents(reading, place);
    let root = place + 1 == reading.sheet.terms.len();
    let kind = reading.sheet.terms.get(place)?.kind;
    Some(match parents.as_slice() {
        [] if !root => "it is a child of no term".to_string(),
        [] if kind != kinds::SIGN => "it is the root, and no sign".to_string(),
        [_, _, ..] => format!("it is a child more than once, of {}", numbers(&parents)),
        _ => "its body is no sign".to_string(),
    })
}

/// The terms of which this one is a child, as often as it is.
fn parents(reading: &Reading, place: usize) -> Vec<usize> {
    let terms = reading.sheet.terms.iter().enumerate();
    terms
        .flat_map(|(number, term)| kinds::child_numbers(term).map(move |child| (number, child)))
        .filter(|&(_, child)| child == place)
        .map(|(number, _)| number)
        .collect()
}

fn ancestors(reading: &Reading, place: usize) -> Vec<usize> {
    let mut around = Vec::new();
    let mut term = place;
    while let Some(&parent) = parents(reading, term).iter().find(|&&parent| parent > term) {
        around.push(parent);
        term = parent;
    }
    around
}

fn numbers(terms: &[usize]) -> String {
    let words: Vec<String> = terms.iter().map(usize::to_string).collect();
    words.join(", ")
}

/// What the rules ask for at a term and what is there, where the library tells the types and needs of its children.
fn by_the_rules(reading: &Reading, cause: u32, place: usize) -> Option<String> {
    let at = At {
        reading,
        term: reading.sheet.terms.get(place)?,
        place,
    };
    match cause {
        9 => at.variable(),
        10 => at.type_mismatch(),
        11 => at.sign_needs(),
        12 => at.body_needs(),
        13 => Some(format!(
            "it is of type {}",
            reading.types.short(reading.ty(place)?)
        )),
        17 => at.not_granted(),
        24 => Some(format!("what it calls is of type {}", at.child_type(0)?)),
        25 => at.argument(),
        26 => at.branches(),
        _ => None,
    }
}

/// A term at fault.
struct At<'a> {
    reading: &'a Reading<'a>,
    term: &'a TermRecord,
    place: usize,
}

impl At<'_> {
    fn child_type(&self, index: usize) -> Option<String> {
        let ty = self.reading.ty(self.reading.child(self.place, index)?)?;
        Some(self.reading.types.short(ty))
    }

    /// The needs of the only child in words.
    fn child_needs(&self) -> Option<String> {
        let needs = self.reading.needs(self.reading.child(self.place, 0)?)?;
        Some(self.reading.names.in_words(needs))
    }

    /// The record of the type that a function or letrec names.
    fn own_type(&self) -> Option<&TypeRecord> {
        self.reading
            .sheet
            .types
            .get(usize::from(self.term.parts[0]))
    }

    fn variable(&self) -> Option<String> {
        let around = self.reading.tree.as_ref()?.node(self.place).bindings;
        let count = u32::from(self.term.parts[0]) + 1;
        Some(format!(
            "it counts {count} bindings outward, and {around} are around it"
        ))
    }

    fn type_mismatch(&self) -> Option<String> {
        let first = self.child_type(0)?;
        Some(match self.term.kind {
            kinds::IF => format!("its condition is of type {first}"),
            kinds::POST => format!("what it posts is of type {first}"),
            kinds::FUNCTION | kinds::LETREC => {
                let result = self.reading.types.short(self.own_type()?.result.into());
                format!("its body is of type {first}, and its result is to be of type {result}")
            }
            _ => format!(
                "its operands are of the types {first} and {}",
                self.child_type(1)?
            ),
        })
    }

    fn sign_needs(&self) -> Option<String> {
        let signer = self
            .reading
            .names
            .principal_in_words(self.term.small.into());
        let authority = self.reading.sheet.authority(self.term.small);
        let may = self.reading.names.in_words(authority);
        Some(format!(
            "what it signs needs {}, and {signer} may use {may}",
            self.child_needs()?
        ))
    }

    fn body_needs(&self) -> Option<String> {
        let named = self.reading.names.in_words(self.own_type()?.latent);
        Some(format!(
            "its body needs {}, and its type names {named}",
            self.child_needs()?
        ))
    }

    fn not_granted(&self) -> Option<String> {
        let privilege = match self.term.kind {
            kinds::POST => self.reading.sheet.guard(self.term.small)?,
            _ => self.term.small,
        };
        Some(format!(
            "{} is not granted here",
            self.reading.names.privilege_in_words(privilege.into())
        ))
    }

    fn argument(&self) -> Option<String> {
        let called = self.reading.ty(self.reading.child(self.place, 0)?)?;
        let expected = self.reading.sheet.types.get(called)?.argument;
        let expected = self.reading.types.short(expected.into());
        Some(format!(
            "the function takes {expected}, and the argument is of type {}",
            self.child_type(1)?
        ))
    }

    fn branches(&self) -> Option<String> {
        let yes = usize::from(self.term.kind == kinds::IF);
        Some(format!(
            "they are {} and {}",
            self.child_type(yes)?,
            self.child_type(yes + 1)?
        ))
    }
}
