//! Request W13's words about a sheet that has been read, asked of the library's
//! own type checker.
//!
//! A term "in the bindings and under the principal it has in the sheet" is
//! judged by a sheet of its own: the term and all that is in it, below the same
//! binders and signs, with a boolean for whatever else stands there. Booleans
//! aren't refused, and a term is judged before those around it. So the checker
//! tells a fault inside the term exactly if the term is refused there.

use differential::{Implementation, Library, ANSWER_NUMBERS};
use sovzedal_reference::{encode, PrincipalId, Sheet, Term, TermId};
use std::ops::Range;

const REFUSED: u32 = 2;

const HEADER: usize = 3;
const RECORD: usize = 8;

/// Who signs where a sign stands.
#[derive(Clone, Copy, Debug, PartialEq, Eq)]
pub enum Signer {
    /// The sign's own principal.
    Own,
    /// Everywhere the principal that signs the root: a wrong reading.
    Root,
}

/// A term that is refused where it stands.
#[derive(Clone, Copy, Debug, PartialEq, Eq)]
pub struct Fault {
    pub term: TermId,
    /// How many terms there are in it, itself counted.
    pub count: usize,
    pub cause: u32,
    /// Whether it is a fault of the term, and not of one in it.
    pub is_own: bool,
}

/// "refused by the rules 9 to 12 or 24 to 26".
pub fn is_by_rules(cause: u32) -> bool {
    matches!(cause, 9..=12 | 24..=26)
}

/// All terms of a sheet, and what is above each.
pub struct Standing<'a> {
    sheet: &'a Sheet,
    parents: Vec<Option<TermId>>,
}

impl<'a> Standing<'a> {
    pub fn new(sheet: &'a Sheet) -> Self {
        let mut parents = vec![None; sheet.terms.len()];
        for id in 0..=sheet.root() {
            for child in sheet.term(id).children() {
                parents[usize::from(child)] = Some(id);
            }
        }
        Self { sheet, parents }
    }

    /// The terms around this one, from the nearest to the root.
    pub fn above(&self, id: TermId) -> Vec<TermId> {
        let parent = |id: &TermId| self.parents[usize::from(*id)];
        std::iter::successors(parent(&id), parent).collect()
    }

    /// All terms in this one, itself among them, from the lowest up.
    pub fn inside(&self, id: TermId) -> Vec<TermId> {
        let mut inside = vec![id];
        let mut looked_at = 0;
        while let Some(&next) = inside.get(looked_at) {
            inside.extend(self.sheet.term(next).children());
            looked_at += 1;
        }
        inside.sort_unstable();
        inside
    }

    /// All terms that are refused where they stand, from the lowest up.
    pub fn faults(&self, signer: Signer) -> Vec<Fault> {
        let terms = 0..=self.sheet.root();
        terms.filter_map(|id| self.fault(id, signer)).collect()
    }

    /// Whether a term is refused where it stands.
    fn fault(&self, id: TermId, signer: Signer) -> Option<Fault> {
        let inside = self.inside(id);
        let alone = self.alone(id, &inside, signer);
        let mut answer = [0; ANSWER_NUMBERS];
        let returned = Library::typecheck(&encode(&alone), &mut answer);
        let [cause, place, ..] = answer;
        // The terms in this one have the lowest numbers there, and it comes last.
        let count = inside.len();
        let is_inside = returned == REFUSED && is_by_rules(cause) && place < count as u32;
        is_inside.then_some(Fault {
            term: id,
            count,
            cause,
            is_own: place + 1 == count as u32,
        })
    }

    /// The sheet of this term alone, where it stands.
    fn alone(&self, id: TermId, inside: &[TermId], signer: Signer) -> Sheet {
        let root_signer = match self.sheet.term(self.sheet.root()) {
            Term::Sign { principal, .. } => principal,
            other => unreachable!("the root is {other:?}"),
        };
        let signed = |principal| match signer {
            Signer::Own => principal,
            Signer::Root => root_signer,
        };
        let number = |old: TermId| match inside.binary_search(&old) {
            Ok(new) => new as TermId,
            Err(_) => unreachable!("{old} isn't inside"),
        };
        let kept = inside.iter().map(|&old| {
            let term = self.sheet.term(old);
            with_principal(with_children(term, number), signed)
        });
        let mut terms: Vec<Term> = kept.collect();
        let mut below = id;
        for around in self.above(id) {
            let term = self.sheet.term(around);
            let last = terms.len() as TermId - 1;
            let others = others(term, below);
            terms.extend(others.iter().flatten());
            let mut next = last + 1;
            let placed = with_children(term, |child| {
                if child == below {
                    return last;
                }
                // A body is a boolean and a sign around it.
                next += if is_body(term, child) { 2 } else { 1 };
                next - 1
            });
            let fixed = terms.iter_mut().zip(0..).skip(usize::from(last) + 1);
            for (other, number) in fixed {
                if let Term::Sign { inner, .. } = other {
                    *inner = number - 1;
                }
            }
            terms.push(with_principal(placed, signed));
            below = around;
        }
        Sheet {
            terms,
            ..self.sheet.clone()
        }
    }
}

/// What takes the place of the children but one.
fn others(term: Term, but: TermId) -> Vec<Vec<Term>> {
    const SIGNER: PrincipalId = 0;
    let others = term.children().filter(|&child| child != but);
    others
        .map(|child| match is_body(term, child) {
            true => vec![
                Term::Bool(true),
                Term::Sign {
                    principal: SIGNER,
                    inner: 0,
                },
            ],
            false => vec![Term::Bool(true)],
        })
        .collect()
}

/// Whether this child has to be a sign.
fn is_body(term: Term, child: TermId) -> bool {
    match term {
        Term::Function { body, .. } | Term::Letrec { body, .. } => body == child,
        _ => false,
    }
}

fn with_principal(term: Term, signed: impl Fn(PrincipalId) -> PrincipalId) -> Term {
    match term {
        Term::Sign { principal, inner } => Term::Sign {
            principal: signed(principal),
            inner,
        },
        other => other,
    }
}

/// The same term with other children, asked for in their order.
fn with_children(term: Term, mut to: impl FnMut(TermId) -> TermId) -> Term {
    match term {
        Term::Bool(_) | Term::Number(_) | Term::Variable(_) => term,
        Term::Function { ty, body } => Term::Function { ty, body: to(body) },
        Term::Letrec { ty, body, rest } => Term::Letrec {
            ty,
            body: to(body),
            rest: to(rest),
        },
        Term::Call { function, argument } => Term::Call {
            function: to(function),
            argument: to(argument),
        },
        Term::If { condition, yes, no } => Term::If {
            condition: to(condition),
            yes: to(yes),
            no: to(no),
        },
        Term::Check { privilege, inner } => Term::Check {
            privilege,
            inner: to(inner),
        },
        Term::Enable { privilege, inner } => Term::Enable {
            privilege,
            inner: to(inner),
        },
        Term::Sign { principal, inner } => Term::Sign {
            principal,
            inner: to(inner),
        },
        Term::Test { privilege, yes, no } => Term::Test {
            privilege,
            yes: to(yes),
            no: to(no),
        },
        Term::Sum(left, right) => Term::Sum(to(left), to(right)),
        Term::Difference(left, right) => Term::Difference(to(left), to(right)),
        Term::Less(left, right) => Term::Less(to(left), to(right)),
        Term::Post { channel, inner } => Term::Post {
            channel,
            inner: to(inner),
        },
    }
}

/// "the fewest terms in it, itself counted", "ties to the lowest number".
pub fn smallest(faults: &[Fault]) -> Option<Fault> {
    let mut smallest: Option<Fault> = None;
    for &fault in faults {
        let is_smaller = smallest.is_none_or(|it| fault.count < it.count);
        let is_tie = smallest.is_some_and(|it| fault.count == it.count && fault.term < it.term);
        if is_smaller || is_tie {
            smallest = Some(fault);
        }
    }
    smallest
}

/// Which bytes are a term's record: the fields before it are passed over.
pub fn record_place(sheet: &[u8], id: TermId) -> Range<usize> {
    let mut begin = 0;
    for _ in 1..4 {
        let length = u16::from_be_bytes([sheet[begin + 1], sheet[begin + 2]]);
        begin += HEADER + usize::from(length);
    }
    begin += HEADER + RECORD * usize::from(id);
    begin..begin + RECORD
}
