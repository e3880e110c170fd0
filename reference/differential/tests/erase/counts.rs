//! What has been made lean and run, and what has to be.

use crate::sentences::{first_alike, is_kept, kept};
use differential::{Coverage, Entry, RunMode, RunResult, ANSWER_NUMBERS};
use sovzedal_reference::{Accepted, Set, Sheet, Term, TermId, Type, TypeId};
use std::collections::BTreeSet;

const DONE: u32 = 0;
const REFUSED: u32 = 2;
const UNFIT: u32 = 3;

const NO_LEAN_FORM: u32 = 32;
const NO_ROOM: u32 = 33;

/// What has to happen, beside each cause that the judge can tell and all pairs
/// of ways to run.
const EXPECTED: [&str; 67] = [
    "a short answer",
    "a short answer, and the sheet is refused",
    "a short answer, and 32 would follow",
    "a short answer, and 33 would follow",
    "a short answer, and a lean sheet would",
    "a longer answer",
    "32 for a test",
    "32 for a test in a body",
    "32 for version 2",
    "32 for version 2 that guards nothing",
    "32 for a test in version 2",
    "32, nothing lent",
    "33 for one byte",
    "33 for more",
    "33, nothing lent",
    "room just enough",
    "room for the lean sheet and not for the old one",
    "room for the old one",
    "room for more than the old one",
    "nothing left out",
    "checks left out",
    "enables left out",
    "two left out in a row",
    "three left out in a row",
    "more than three left out in a row",
    "latent sets emptied",
    "types merged",
    "types merged for their parts alone",
    "all functions have one type",
    "types that nothing names",
    "a function of a type that was merged",
    "a letrec of a type that was merged",
    "a type that moved up",
    "an argument that only fitted",
    "branches of two types",
    "a first child with the higher number",
    "a need given up",
    "a boolean",
    "a number",
    "left out of call, child 1",
    "left out of call, child 2",
    "left out of difference, child 1",
    "left out of difference, child 2",
    "left out of if, child 1",
    "left out of if, child 2",
    "left out of if, child 3",
    "left out of less, child 1",
    "left out of less, child 2",
    "left out of letrec, child 2",
    "left out of post, child 1",
    "left out of sign, child 1",
    "left out of sum, child 1",
    "left out of sum, child 2",
    "ended in a boolean",
    "ended in a number",
    "stopped by 19 at call",
    "stopped by 20 at call",
    "stopped by 21 at call",
    "stopped by 21 at letrec",
    "stopped by 22 at post",
    "stopped at a term that has another number",
    "stopped at a term that has its old number",
    "posts made",
    "ended, with results held",
    "stopped, with results held",
    "on the empty stack",
    "on a stack that grants something needed",
];

/// A question, and what both implementations told.
pub struct Question<'a> {
    /// The sheet, if it is accepted.
    pub accepted: Option<&'a Accepted>,
    pub sheet: &'a [u8],
    /// How long its lean form is, if it has one.
    pub lean: Option<usize>,
    /// The lengths that were lent.
    pub room: usize,
    pub answer: usize,
    pub returned: u32,
    /// 0 if none was told.
    pub cause: u32,
}

#[derive(Default)]
pub struct Counts(pub Coverage);

impl Counts {
    pub fn count(&mut self, question: &Question) {
        let coverage = &mut self.0;
        let is_empty = question.room == 0;
        match (question.returned, question.cause) {
            (UNFIT, _) => self.count_short(question),
            (DONE, _) => self.count_room(question),
            (REFUSED, NO_LEAN_FORM) => {
                coverage.count_if(is_empty, "32, nothing lent");
                self.count_no_lean_form(question);
            }
            (REFUSED, NO_ROOM) => {
                let needed = question.lean.unwrap_or(0);
                coverage.count(match needed == question.room + 1 {
                    true => "33 for one byte",
                    false => "33 for more",
                });
                coverage.count_if(is_empty, "33, nothing lent");
            }
            (REFUSED, cause) => coverage.count(refused_by(cause, is_empty)),
            (returned, cause) => coverage.count(format!("{returned} returned, cause {cause}")),
        }
        let is_longer = question.returned != UNFIT && question.answer > ANSWER_NUMBERS;
        self.0.count_if(is_longer, "a longer answer");
    }

    fn count_short(&mut self, question: &Question) {
        self.0.count("a short answer");
        self.0.count(match (question.accepted, question.lean) {
            (None, _) => "a short answer, and the sheet is refused",
            (Some(_), None) => "a short answer, and 32 would follow",
            (_, Some(needed)) if needed > question.room => "a short answer, and 33 would follow",
            _ => "a short answer, and a lean sheet would",
        });
    }

    fn count_room(&mut self, question: &Question) {
        let (room, old) = (question.room, question.sheet.len());
        let is_just_enough = Some(room) == question.lean;
        self.0.count_if(is_just_enough, "room just enough");
        self.0.count(match room.cmp(&old) {
            std::cmp::Ordering::Less => "room for the lean sheet and not for the old one",
            std::cmp::Ordering::Equal => "room for the old one",
            std::cmp::Ordering::Greater => "room for more than the old one",
        });
    }

    fn count_no_lean_form(&mut self, question: &Question) {
        let Some(Accepted { sheet, .. }) = question.accepted else {
            return;
        };
        let is_test = |term: &Term| matches!(term, Term::Test { .. });
        let has_test = sheet.terms.iter().any(is_test);
        match (has_test, sheet.guards) {
            (true, Some(_)) => self.0.count("32 for a test in version 2"),
            (true, None) => {
                self.0.count("32 for a test");
                let in_body = has_test_in_body(sheet);
                self.0.count_if(in_body, "32 for a test in a body");
            }
            (false, guards) => {
                self.0.count("32 for version 2");
                let no_guard = guards.iter().flatten().all(Option::is_none);
                self.0
                    .count_if(no_guard, "32 for version 2 that guards nothing");
            }
        }
    }

    /// Counts what is left out of a sheet in its lean form.
    pub fn count_lean(&mut self, accepted: &Accepted, new: &Sheet) {
        let old = &accepted.sheet;
        let coverage = &mut self.0;
        let has = |wanted: fn(&Term) -> bool| old.terms.iter().any(wanted);
        coverage.count_if(old == new, "nothing left out");
        coverage.count_if(
            has(|it| matches!(it, Term::Check { .. })),
            "checks left out",
        );
        coverage.count_if(
            has(|it| matches!(it, Term::Enable { .. })),
            "enables left out",
        );
        let root = accepted.judgement(old.root());
        coverage.count_if(root.needs != Set::EMPTY, "a need given up");
        coverage.count(match root.ty {
            Type::BOOL => "a boolean",
            _ => "a number",
        });
        self.count_types(old, new);
        for id in kept(old) {
            self.count_term(accepted, id);
        }
    }

    fn count_types(&mut self, old: &Sheet, new: &Sheet) {
        let coverage = &mut self.0;
        let latent = |ty: &Type| match ty {
            Type::Function(function) => function.latent != Set::EMPTY,
            Type::Bool | Type::Number => false,
        };
        let merged = new.types.len() < old.types.len();
        coverage.count_if(old.types.iter().any(latent), "latent sets emptied");
        coverage.count_if(merged, "types merged");
        coverage.count_if(
            merged && new.types.len() == 3,
            "all functions have one type",
        );
        coverage.count_if(
            merged && distinct_at_once(old) > new.types.len(),
            "types merged for their parts alone",
        );
        let first = first_alike(old);
        let moved = |(&ty, number): (&TypeId, TypeId)| ty != number;
        let moved_up = first.iter().zip(0..).any(moved);
        coverage.count_if(moved_up, "a type that moved up");
        let named: BTreeSet<TypeId> = old.terms.iter().filter_map(|&it| type_of(it)).collect();
        coverage.count_if(
            (2..old.types.len()).any(|ty| !named.contains(&(ty as TypeId))),
            "types that nothing names",
        );
        for &term in &old.terms {
            let was_merged = type_of(term).is_some_and(|ty| !first.contains(&ty));
            let kind = match term {
                Term::Function { .. } => "a function of a type that was merged",
                _ => "a letrec of a type that was merged",
            };
            coverage.count_if(was_merged, kind);
        }
    }

    /// Counts what is left out right below a term that is kept.
    fn count_term(&mut self, accepted: &Accepted, id: TermId) {
        let old = &accepted.sheet;
        let coverage = &mut self.0;
        let term = old.term(id);
        let ty = |id| accepted.judgement(id).ty;
        for (place, child) in term.children().enumerate() {
            let layers = layers(old, child);
            if layers > 0 {
                let (name, place) = (name(term), place + 1);
                coverage.count(format!("left out of {name}, child {place}"));
            }
            coverage.count_if(layers == 2, "two left out in a row");
            coverage.count_if(layers == 3, "three left out in a row");
            coverage.count_if(layers > 3, "more than three left out in a row");
        }
        let children: Vec<TermId> = term.children().collect();
        coverage.count_if(
            matches!(children[..], [first, second, ..] if first > second),
            "a first child with the higher number",
        );
        match term {
            Term::Call { function, argument } => {
                let query = old.function_type(ty(function)).map(|it| it.argument);
                coverage.count_if(query != Some(ty(argument)), "an argument that only fitted");
            }
            Term::If { yes, no, .. } => {
                coverage.count_if(ty(yes) != ty(no), "branches of two types");
            }
            _ => {}
        }
    }

    /// Counts two runs that agree.
    pub fn count_runs(
        &mut self,
        old: &Sheet,
        needs: u32,
        start: &[u32],
        runs: [(RunMode, &RunResult); 2],
    ) {
        let coverage = &mut self.0;
        let [(old_mode, result), (new_mode, lean)] = runs;
        coverage.count(modes(old_mode, new_mode));
        coverage.count_if(start.is_empty(), "on the empty stack");
        coverage.count_if(needs != 0, "on a stack that grants something needed");
        coverage.count_if(!result.posts.is_empty(), "posts made");
        let [cause, term, ty, .., held] = result.answer;
        if held > 0 {
            coverage.count(match result.stopped() {
                true => "stopped, with results held",
                false => "ended, with results held",
            });
        }
        if result.stopped() {
            let kind = name(old.term(term as TermId));
            coverage.count(format!("stopped by {cause} at {kind}"));
            coverage.count(match term == lean.answer[1] {
                true => "stopped at a term that has its old number",
                false => "stopped at a term that has another number",
            });
        } else {
            coverage.count(match ty {
                0 => "ended in a boolean",
                _ => "ended in a number",
            });
        }
    }

    /// What should have happened and never did.
    pub fn never(&self) -> Vec<String> {
        let causes = (1..=13).chain(24..=26).chain([31]);
        let refusals = causes.flat_map(|cause| [false, true].map(|empty| refused_by(cause, empty)));
        let all = [Entry::RunEager, Entry::RunLazy]
            .into_iter()
            .flat_map(|entry| [0, 1].map(|enforce| RunMode { entry, enforce }));
        let pairs = all
            .clone()
            .flat_map(|old| all.clone().map(move |new| modes(old, new)));
        let expected = EXPECTED.map(String::from).into_iter();
        self.0.never(expected.chain(refusals).chain(pairs))
    }
}

fn refused_by(cause: u32, is_empty: bool) -> String {
    let buffer = if is_empty { ", nothing lent" } else { "" };
    format!("refused by {cause:2}{buffer}")
}

fn modes(old: RunMode, new: RunMode) -> String {
    let [old, new] = [old, new].map(|mode| {
        let runner = match mode.entry {
            Entry::RunLazy => "lazy",
            _ => "eager",
        };
        let checks = if mode.enforce == 0 {
            "over"
        } else {
            "in force"
        };
        format!("{runner} {checks}")
    });
    format!("{old}, lean {new}")
}

/// How many types there are if latent sets are emptied and nothing is
/// renumbered.
fn distinct_at_once(sheet: &Sheet) -> usize {
    let parts = |ty: &Type| match *ty {
        Type::Function(function) => Some((function.argument, function.result)),
        Type::Bool | Type::Number => None,
    };
    let distinct: BTreeSet<_> = sheet.types.iter().filter_map(parts).collect();
    2 + distinct.len()
}

/// How many checks and enables stand around a term in a row.
fn layers(sheet: &Sheet, id: TermId) -> usize {
    match sheet.term(id) {
        Term::Check { inner, .. } | Term::Enable { inner, .. } => 1 + layers(sheet, inner),
        _ => 0,
    }
}

fn has_test_in_body(sheet: &Sheet) -> bool {
    let body = |term: &Term| match *term {
        Term::Function { body, .. } | Term::Letrec { body, .. } => Some(body),
        _ => None,
    };
    let mut bodies = sheet.terms.iter().filter_map(body);
    bodies.any(|body| has_test(sheet, body))
}

fn has_test(sheet: &Sheet, id: TermId) -> bool {
    let term = sheet.term(id);
    let mut children = term.children();
    matches!(term, Term::Test { .. }) || children.any(|child| has_test(sheet, child))
}

fn type_of(term: Term) -> Option<TypeId> {
    match term {
        Term::Function { ty, .. } | Term::Letrec { ty, .. } => Some(ty),
        _ => None,
    }
}

fn name(term: Term) -> &'static str {
    match term {
        Term::Function { .. } => "function",
        Term::Letrec { .. } => "letrec",
        Term::Call { .. } => "call",
        Term::If { .. } => "if",
        Term::Sign { .. } => "sign",
        Term::Sum(..) => "sum",
        Term::Difference(..) => "difference",
        Term::Less(..) => "less",
        Term::Post { .. } => "post",
        _ if is_kept(term) => "leaf or test",
        _ => "check or enable",
    }
}
