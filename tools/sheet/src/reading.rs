//! A sheet with all that is asked of the library before it is shown.

use crate::causes;
use crate::kinds;
use crate::library::{self, Refusal, TermAnswer, Verdict};
use crate::names::Names;
use crate::sheet::{Sheet, TermRecord};
use crate::tree::{Binding, Tree};
use crate::types::Types;

pub struct Reading<'a> {
    pub sheet: Sheet<'a>,
    pub names: &'a Names,
    pub types: Types,
    pub verdict: Result<Verdict, Refusal>,
    /// The terms as a tree, if the library could read them.
    pub tree: Option<Tree>,
    /// What the library says of each term.
    answers: Vec<TermAnswer>,
    /// Over ranges, the lowest and highest of each number of the sheet, in the order of the terms.
    pub pairs: &'a [u16],
}

impl<'a> Reading<'a> {
    pub fn new(bytes: &'a [u8], names: &'a Names) -> Self {
        let sheet = Sheet::read(bytes);
        let types = Types::new(&sheet, names);
        let verdict = library::typecheck(bytes);
        let readable = verdict.map_or_else(|refusal| causes::is_tree(refusal.cause), |_| true);
        let tree = if readable { Tree::of(&sheet) } else { None };
        let judged = if tree.is_some() { sheet.terms.len() } else { 0 };
        let answers = (0..judged as u32)
            .map(|term| library::term(bytes, term))
            .collect();
        Self {
            sheet,
            names,
            types,
            verdict,
            tree,
            answers,
            pairs: &[],
        }
    }

    /// The same where the numbers of the sheet are known within these limits alone.
    pub fn over(self, pairs: &'a [u16]) -> Self {
        Self { pairs, ..self }
    }

    pub fn answer(&self, term: usize) -> TermAnswer {
        self.answers
            .get(term)
            .copied()
            .unwrap_or(TermAnswer::Nothing)
    }

    /// The needs of a term, if the library tells them.
    pub fn needs(&self, term: usize) -> Option<u32> {
        match self.answer(term) {
            TermAnswer::Judged { needs, .. } => Some(needs),
            _ => None,
        }
    }

    /// The type of a term, if the library tells it.
    pub fn ty(&self, term: usize) -> Option<usize> {
        match self.answer(term) {
            TermAnswer::Judged { ty, .. } => Some(ty as usize),
            _ => None,
        }
    }

    /// Whether the library tells the type and needs of single terms: not of a sheet that it refuses for a guard.
    pub fn tells_terms(&self) -> bool {
        self.answers
            .iter()
            .any(|answer| *answer != TermAnswer::Nothing)
    }

    /// The number of a term's child.
    pub fn child(&self, term: usize, index: usize) -> Option<usize> {
        let record = self.sheet.terms.get(term)?;
        kinds::child_numbers(record).nth(index)
    }

    /// A term in words, for a place in the tree where its children are seen.
    pub fn in_words(&self, number: usize) -> String {
        let term = &self.sheet.terms[number];
        match term.kind {
            kinds::BOOLEAN => format!("boolean {}", term.small != 0),
            kinds::SIGN => format!(
                "sign by {}",
                self.names.principal_in_words(term.small.into())
            ),
            kinds::VARIABLE => format!("variable {}{}", term.parts[0], self.bound(number)),
            kinds::NUMBER => match self.limits(number) {
                Some([lowest, highest]) => format!("number {}", range(lowest, highest)),
                None => self.head(term),
            },
            // The type of a function is its own, so that it stands there already where types are told.
            kinds::LETREC => self.typed(term),
            kinds::FUNCTION if !self.tells_terms() => self.typed(term),
            kinds::POST => match self.sheet.guard(term.small) {
                Some(guard) => {
                    let guard = self.names.privilege_in_words(guard.into());
                    format!("{}, guarded by {guard}", self.head(term))
                }
                None => self.head(term),
            },
            _ => self.head(term),
        }
    }

    /// Within which limits a number of the sheet is known.
    fn limits(&self, number: usize) -> Option<[u16; 2]> {
        let before = self.sheet.terms[..number]
            .iter()
            .filter(|term| term.kind == kinds::NUMBER);
        let at = 2 * before.count();
        Some([*self.pairs.get(at)?, *self.pairs.get(at + 1)?])
    }

    /// A function or letrec with its type written out.
    fn typed(&self, term: &TermRecord) -> String {
        format!(
            "{}, {}",
            self.head(term),
            self.types.full(term.parts[0].into())
        )
    }

    fn bound(&self, number: usize) -> String {
        match self
            .tree
            .as_ref()
            .and_then(|tree| tree.node(number).binding)
        {
            Some(Binding::Argument(binder)) => format!(", the argument of {binder}"),
            Some(Binding::Function(binder)) => format!(", the function of {binder}"),
            None => String::new(),
        }
    }

    /// A term's record in words, with the numbers of its children: `sign 0 (2)`.
    pub fn record_in_words(&self, term: &TermRecord) -> String {
        let children: Vec<String> = kinds::child_numbers(term)
            .map(|child| child.to_string())
            .collect();
        if children.is_empty() {
            return self.head(term);
        }
        format!("{} ({})", self.head(term), children.join(", "))
    }

    /// The kind of a term with those of its parts that are no children.
    fn head(&self, term: &TermRecord) -> String {
        let Some(name) = kinds::NAMES.get(usize::from(term.kind)) else {
            return format!("kind {}, which there is not", term.kind);
        };
        let small = u32::from(term.small);
        match term.kind {
            kinds::BOOLEAN => format!("{name} {small}"),
            kinds::NUMBER | kinds::VARIABLE => format!("{name} {}", term.parts[0]),
            kinds::FUNCTION | kinds::LETREC => format!("{name} of type {}", term.parts[0]),
            kinds::CHECK | kinds::ENABLE | kinds::TEST => {
                format!("{name} {}", self.names.privilege(small))
            }
            kinds::SIGN => format!("{name} {}", self.names.principal(small)),
            kinds::POST if self.sheet.version == Some(2) => format!("{name} on channel {small}"),
            _ => name.to_string(),
        }
    }
}

/// A range of numbers; of one alone the number.
pub fn range(lowest: u16, highest: u16) -> String {
    if lowest == highest {
        lowest.to_string()
    } else {
        format!("{lowest} to {highest}")
    }
}
