//! What has been explained, and what has to be.

use crate::sentences::{steps, Question};
use differential::{Coverage, ANSWER_NUMBERS, CHAIN_NUMBERS};
use sheets::extremes::MAX_CHAIN;
use sovzedal_reference::{Accepted, Term, TermId};

const DONE: u32 = 0;
const REFUSED: u32 = 2;
const UNFIT: u32 = 3;

/// What has to happen, beside chains of every length and each cause that the
/// judge can tell.
const EXPECTED: [&str; 58] = [
    "ends in a check",
    "ends in a call",
    "ends in a letrec",
    "ends in a guarded post",
    "goes on from sign, child 1",
    "goes on from enable of another, child 1",
    "goes on from check of another, child 1",
    "goes on from unguarded post, child 1",
    "goes on from post guarded by another, child 1",
    "goes on from sum, child 1",
    "goes on from sum, child 2",
    "goes on from difference, child 1",
    "goes on from difference, child 2",
    "goes on from less, child 1",
    "goes on from less, child 2",
    "goes on from call, child 1",
    "goes on from call, child 2",
    "goes on from letrec, child 2",
    "goes on from if, child 1",
    "goes on from if, child 2",
    "goes on from if, child 3",
    "goes on from test of another, child 1",
    "goes on from test of another, child 2",
    "goes on from test of it, child 2",
    "a test of it, both branches need it",
    "several children qualify",
    "several children qualify, the first has a higher number",
    "three children qualify",
    "a later child qualifies, and an earlier one needs nothing of it",
    "a check that is a cause, its child needs it",
    "a call that is a cause, its function needs it",
    "a call that is a cause, its argument needs it",
    "a letrec that is a cause, its body needs it",
    "a letrec that is a cause, its rest needs it",
    "a guarded post that is a cause, its child needs it",
    "a need of two privileges",
    "needed, and an enable hides it elsewhere",
    "needed, and a test hides it elsewhere",
    "needed, and a body needs it",
    "not needed",
    "not needed, an enable hides it",
    "not needed, a test hides it",
    "not needed, a body needs it",
    "not needed, an enable hides a guarded post",
    "not needed, a test hides a guarded post",
    "not needed, nothing has to do with it",
    "an enable hides nothing of whom may not use it",
    "30",
    "30 for one that is needed, but for a multiple of 32",
    "30 for one that is needed, but for a multiple of 256",
    "a short chain",
    "a chain of one too few",
    "a short answer",
    "both short",
    "short, and the sheet is refused",
    "short, and 30 would follow",
    "a longer chain",
    "a longer answer",
];

/// A question, and all that both implementations told of it.
pub struct ExplainResult<'a> {
    /// The sheet, if it is accepted.
    pub accepted: Option<&'a Accepted>,
    /// What the library's judge tells, 0 if the sheet is refused.
    pub needs: u32,
    pub privilege: u32,
    pub returned: u32,
    /// The lengths of the lists that were lent.
    pub chain: usize,
    pub answer: usize,
    /// 0 if none was told.
    pub cause: u32,
}

#[derive(Default)]
pub struct Counts(pub Coverage);

impl Counts {
    /// Counts what was told, but for a chain.
    pub fn count(&mut self, result: &ExplainResult) {
        let coverage = &mut self.0;
        let above = result.privilege > 31;
        if result.returned == UNFIT {
            let [chain, answer] = [result.chain < CHAIN_NUMBERS, result.answer < ANSWER_NUMBERS];
            coverage.count(match (chain, answer) {
                (true, true) => "both short",
                (true, false) => "a short chain",
                _ => "a short answer",
            });
            coverage.count_if(result.chain == CHAIN_NUMBERS - 1, "a chain of one too few");
            coverage.count_if(result.accepted.is_none(), "short, and the sheet is refused");
            coverage.count_if(
                result.accepted.is_some() && above,
                "short, and 30 would follow",
            );
            return;
        }
        coverage.count_if(result.chain > CHAIN_NUMBERS, "a longer chain");
        coverage.count_if(result.answer > ANSWER_NUMBERS, "a longer answer");
        match (result.returned, result.cause) {
            (DONE, 0) => {}
            (REFUSED, 30) => {
                let needed = |bits: u32| result.needs >> bits & 1 == 1;
                let low = result.privilege % 256;
                coverage.count("30");
                coverage.count_if(
                    needed(result.privilege % 32),
                    "30 for one that is needed, but for a multiple of 32",
                );
                coverage.count_if(
                    low < 32 && needed(low),
                    "30 for one that is needed, but for a multiple of 256",
                );
            }
            (REFUSED, cause) => coverage.count(refused_by(cause, above)),
            (returned, cause) => coverage.count(format!("{returned} returned, cause {cause}")),
        }
    }

    /// Counts the answer to a question about an accepted sheet.
    pub fn count_chain(&mut self, question: &Question, needs: u32, chain: &[TermId]) {
        let hidden = Hidden::of(question);
        let coverage = &mut self.0;
        coverage.count_if(
            hidden.in_vain,
            "an enable hides nothing of whom may not use it",
        );
        let Some(&last) = chain.last() else {
            coverage.count("not needed");
            coverage.count_if(hidden.by_enable, "not needed, an enable hides it");
            coverage.count_if(hidden.by_test, "not needed, a test hides it");
            coverage.count_if(hidden.in_body, "not needed, a body needs it");
            coverage.count_if(
                hidden.post_by_enable,
                "not needed, an enable hides a guarded post",
            );
            coverage.count_if(
                hidden.post_by_test,
                "not needed, a test hides a guarded post",
            );
            coverage.count_if(!hidden.anywhere, "not needed, nothing has to do with it");
            return;
        };
        coverage.count(of_length(chain.len()));
        coverage.count_if(needs.count_ones() > 1, "a need of two privileges");
        coverage.count_if(hidden.by_enable, "needed, and an enable hides it elsewhere");
        coverage.count_if(hidden.by_test, "needed, and a test hides it elsewhere");
        coverage.count_if(hidden.in_body, "needed, and a body needs it");
        self.count_cause(question, last);
        for (term, next) in steps(chain) {
            self.count_step(question, term, next);
        }
    }

    fn count_cause(&mut self, question: &Question, cause: TermId) {
        let coverage = &mut self.0;
        let needs = |child| question.needs(child);
        match question.term(cause) {
            Term::Check { inner, .. } => {
                coverage.count("ends in a check");
                coverage.count_if(needs(inner), "a check that is a cause, its child needs it");
            }
            Term::Call { function, argument } => {
                coverage.count("ends in a call");
                coverage.count_if(
                    needs(function),
                    "a call that is a cause, its function needs it",
                );
                coverage.count_if(
                    needs(argument),
                    "a call that is a cause, its argument needs it",
                );
            }
            Term::Letrec { body, rest, .. } => {
                coverage.count("ends in a letrec");
                coverage.count_if(needs(body), "a letrec that is a cause, its body needs it");
                coverage.count_if(needs(rest), "a letrec that is a cause, its rest needs it");
            }
            Term::Post { inner, .. } => {
                coverage.count("ends in a guarded post");
                coverage.count_if(
                    needs(inner),
                    "a guarded post that is a cause, its child needs it",
                );
            }
            other => coverage.count(format!("ends in {other:?}")),
        }
    }

    fn count_step(&mut self, question: &Question, term: TermId, next: TermId) {
        let coverage = &mut self.0;
        let children: Vec<TermId> = question.term(term).children().collect();
        let position = children.iter().position(|&child| child == next);
        let position = position.expect("a child") + 1;
        let name = name(question, term);
        coverage.count(format!("goes on from {name}, child {position}"));

        let qualifying = question.qualifying(term);
        coverage.count_if(qualifying.len() > 1, "several children qualify");
        coverage.count_if(qualifying.len() > 2, "three children qualify");
        coverage.count_if(
            qualifying.iter().any(|&other| other < next),
            "several children qualify, the first has a higher number",
        );
        coverage.count_if(
            children[0] != next && !question.needs(children[0]),
            "a later child qualifies, and an earlier one needs nothing of it",
        );
        let yes_branch = question.yes_branch(term);
        coverage.count_if(
            yes_branch.is_some_and(|yes| question.needs(yes)),
            "a test of it, both branches need it",
        );
    }

    /// What should have happened and never did.
    pub fn never(&self) -> Vec<String> {
        let causes = (1..=13).chain(24..=26).chain([31]);
        let refusals = causes.flat_map(|cause| [false, true].map(|above| refused_by(cause, above)));
        let lengths = (2..=MAX_CHAIN).map(of_length);
        let expected = EXPECTED.map(String::from).into_iter();
        self.0.never(expected.chain(lengths).chain(refusals))
    }
}

fn refused_by(cause: u32, above: bool) -> String {
    let privilege = if above { ", privilege above 31" } else { "" };
    format!("refused by {cause:2}{privilege}")
}

fn of_length(terms: usize) -> String {
    format!("chain of {terms:2} terms")
}

/// The kind of a term that a chain goes on from, and of a check, enable or
/// test whether it names the privilege.
fn name(question: &Question, id: TermId) -> String {
    let of = |privilege| {
        if privilege == question.privilege {
            "it"
        } else {
            "another"
        }
    };
    match question.term(id) {
        Term::Check { privilege, .. } => format!("check of {}", of(privilege)),
        Term::Enable { privilege, .. } => format!("enable of {}", of(privilege)),
        Term::Test { privilege, .. } => format!("test of {}", of(privilege)),
        Term::Sign { .. } => "sign".into(),
        Term::Post { channel, .. } if question.guards(channel) => "post guarded by it".into(),
        Term::Post { channel, .. } => match question.accepted.sheet.guard(channel) {
            Some(_) => "post guarded by another".into(),
            None => "unguarded post".into(),
        },
        Term::Sum(..) => "sum".into(),
        Term::Difference(..) => "difference".into(),
        Term::Less(..) => "less".into(),
        Term::Call { .. } => "call".into(),
        Term::Letrec { .. } => "letrec".into(),
        Term::If { .. } => "if".into(),
        other => format!("{other:?}"),
    }
}

fn is_guarded_post(question: &Question, id: TermId) -> bool {
    match question.term(id) {
        Term::Post { channel, .. } => question.guards(channel),
        _ => false,
    }
}

/// Where in a sheet the privilege is needed and something takes it out.
#[derive(Default)]
struct Hidden {
    by_enable: bool,
    by_test: bool,
    /// The same, right around a guarded post.
    post_by_enable: bool,
    post_by_test: bool,
    in_body: bool,
    /// By an enable of a principal that may not use it.
    in_vain: bool,
    anywhere: bool,
}

impl Hidden {
    fn of(question: &Question) -> Self {
        let mut hidden = Self::default();
        for id in 0..=question.accepted.sheet.root() {
            let needs = question.needs(id);
            hidden.anywhere |= needs;
            match question.term(id) {
                Term::Enable { privilege, inner } if privilege == question.privilege => {
                    hidden.by_enable |= question.needs(inner) && !needs;
                    hidden.post_by_enable |= is_guarded_post(question, inner) && !needs;
                    hidden.in_vain |= question.needs(inner) && needs;
                }
                Term::Test { .. } => {
                    let yes = question.yes_branch(id);
                    hidden.by_test |= yes.is_some_and(|yes| question.needs(yes)) && !needs;
                    hidden.post_by_test |=
                        yes.is_some_and(|yes| is_guarded_post(question, yes)) && !needs;
                }
                Term::Function { body, .. } => hidden.in_body |= question.needs(body),
                _ => {}
            }
        }
        hidden
    }
}
