//! The rules: causes 9 to 13 and 24 to 26.
//!
//! Needs are always the smallest that the rules allow. A derivation may widen
//! them, but every condition bounds needs from above, so widening never helps.

use crate::decode::decode;
use crate::refusal::{Cause, Refusal};
use crate::set::Set;
use crate::sheet::{FunctionType, Sheet, Term, TermId, Type, TypeId};

/// What an accepted sheet is told.
#[derive(Clone, Copy, Debug, PartialEq, Eq)]
pub struct Verdict {
    pub terms: usize,
    /// The root's type: [`Type::BOOL`] or [`Type::NUMBER`].
    pub ty: TypeId,
    pub needs: Set,
}

/// The rules of today, or those from before a request that changed them, so
/// that the two can be compared.
#[derive(Clone, Copy, Debug, PartialEq, Eq)]
pub enum Rules {
    /// The branches of an if or a test have the same type, and all type faults
    /// are told as 10.
    BeforeW4,
    /// All type faults are told as 10.
    BeforeW5,
    Today,
}

/// Reads a sheet and judges it by the rules.
pub fn typecheck(bytes: &[u8]) -> Result<Verdict, Refusal> {
    typecheck_by(Rules::Today, bytes)
}

/// Reads a sheet and judges it by the rules of some time.
pub fn typecheck_by(rules: Rules, bytes: &[u8]) -> Result<Verdict, Refusal> {
    let accepted = accepted_by(rules, bytes)?;
    let Judgement { ty, needs } = accepted.judgement(accepted.sheet.root());
    Ok(Verdict {
        terms: accepted.sheet.terms.len(),
        ty,
        needs,
    })
}

/// A term's type and needs.
#[derive(Clone, Copy, Debug, PartialEq, Eq)]
pub struct Judgement {
    pub ty: TypeId,
    pub needs: Set,
}

/// A sheet that the rules accept, and what they say of each of its terms.
#[derive(Clone, Debug)]
pub struct Accepted {
    pub sheet: Sheet,
    /// None is missing: all terms are below the root.
    judgements: Vec<Option<Judgement>>,
}

impl Accepted {
    /// Reads a sheet and judges it by the rules.
    pub fn new(bytes: &[u8]) -> Result<Self, Refusal> {
        accepted_by(Rules::Today, bytes)
    }

    /// The term's type and needs in its bindings and under its principal. A
    /// term stands in one place only, so there is one of each.
    pub fn judgement(&self, id: TermId) -> Judgement {
        self.judgements[usize::from(id)].expect("every term was judged")
    }
}

fn accepted_by(rules: Rules, bytes: &[u8]) -> Result<Accepted, Refusal> {
    let sheet = decode(bytes)?;
    let mut checker = Checker {
        rules,
        sheet: &sheet,
        bindings: Vec::new(),
        judgements: vec![None; sheet.terms.len()],
    };
    let root = sheet.root();
    // The root is a sign, so the signer given here is never asked.
    let Judgement { ty, .. } = checker.infer(root, Set::EMPTY)?;
    if ty != Type::BOOL && ty != Type::NUMBER {
        return Err(Cause::RootType.at(root));
    }
    let judgements = checker.judgements;
    Ok(Accepted { sheet, judgements })
}

impl Judgement {
    fn needing_nothing(ty: TypeId) -> Self {
        Self {
            ty,
            needs: Set::EMPTY,
        }
    }
}

/// What the rules say of one term alone, in these bindings, the nearest last, and
/// under a principal who may use this.
pub(crate) fn infer_alone(
    sheet: &Sheet,
    id: TermId,
    bindings: &[TypeId],
    signer: Set,
) -> Result<Judgement, Refusal> {
    let mut checker = Checker {
        rules: Rules::Today,
        sheet,
        bindings: bindings.to_vec(),
        judgements: vec![None; sheet.terms.len()],
    };
    checker.infer(id, signer)
}

struct Checker<'a> {
    rules: Rules,
    sheet: &'a Sheet,
    /// The types of the variables in scope, the nearest last.
    bindings: Vec<TypeId>,
    /// Those of the terms judged so far.
    judgements: Vec<Option<Judgement>>,
}

impl Checker<'_> {
    /// Judges the children in order and then the term itself. `signer` is
    /// what the signing principal may use.
    fn infer(&mut self, id: TermId, signer: Set) -> Result<Judgement, Refusal> {
        let judgement = self.infer_kind(id, signer)?;
        self.judgements[usize::from(id)] = Some(judgement);
        Ok(judgement)
    }

    fn infer_kind(&mut self, id: TermId, signer: Set) -> Result<Judgement, Refusal> {
        match self.sheet.term(id) {
            Term::Bool(_) => Ok(Judgement::needing_nothing(Type::BOOL)),
            Term::Number(_) => Ok(Judgement::needing_nothing(Type::NUMBER)),
            Term::Variable(index) => self.variable(id, index),
            Term::Function { ty, body } => self.function(id, ty, body, signer),
            Term::Letrec { ty, body, rest } => self.letrec(id, ty, body, rest, signer),
            Term::Call { function, argument } => self.call(id, function, argument, signer),
            Term::If { condition, yes, no } => {
                let condition = self.infer(condition, signer)?;
                let yes = self.infer(yes, signer)?;
                let no = self.infer(no, signer)?;
                require_type(id, condition.ty == Type::BOOL)?;
                Ok(Judgement {
                    ty: self.wider(id, yes.ty, no.ty)?,
                    needs: condition.needs.union(yes.needs).union(no.needs),
                })
            }
            Term::Test { privilege, yes, no } => {
                let yes = self.infer(yes, signer)?;
                let no = self.infer(no, signer)?;
                // The yes-branch runs only where the privilege is granted.
                // Unlike an enable, that doesn't ask who signs.
                Ok(Judgement {
                    ty: self.wider(id, yes.ty, no.ty)?,
                    needs: yes.needs.without(privilege).union(no.needs),
                })
            }
            Term::Check { privilege, inner } => {
                let inner = self.infer(inner, signer)?;
                Ok(Judgement {
                    needs: inner.needs.with(privilege),
                    ..inner
                })
            }
            Term::Enable { privilege, inner } => {
                let inner = self.infer(inner, signer)?;
                if !signer.contains(privilege) {
                    return Ok(inner);
                }
                Ok(Judgement {
                    needs: inner.needs.without(privilege),
                    ..inner
                })
            }
            Term::Sign { principal, inner } => {
                let signer = self.sheet.authorised(principal);
                let inner = self.infer(inner, signer)?;
                require(inner.needs.is_within(signer), Cause::SignNeeds, id)?;
                Ok(inner)
            }
            Term::Sum(left, right) | Term::Difference(left, right) => {
                self.of_numbers(id, &[left, right], Type::NUMBER, signer)
            }
            Term::Less(left, right) => self.of_numbers(id, &[left, right], Type::BOOL, signer),
            Term::Post { channel, inner } => {
                let post = self.of_numbers(id, &[inner], Type::NUMBER, signer)?;
                Ok(Judgement {
                    needs: match self.sheet.guard(channel) {
                        Some(privilege) => post.needs.with(privilege),
                        None => post.needs,
                    },
                    ..post
                })
            }
        }
    }

    fn variable(&self, id: TermId, index: u16) -> Result<Judgement, Refusal> {
        let mut nearest_first = self.bindings.iter().rev();
        match nearest_first.nth(usize::from(index)) {
            Some(&ty) => Ok(Judgement::needing_nothing(ty)),
            None => Err(Cause::UnboundVariable.at(id)),
        }
    }

    fn function(
        &mut self,
        id: TermId,
        ty: TypeId,
        body: TermId,
        signer: Set,
    ) -> Result<Judgement, Refusal> {
        let function = self.expect_function(ty);
        let body = self.infer_under(&[function.argument], body, signer)?;
        require_body(id, body, function)?;
        Ok(Judgement::needing_nothing(ty))
    }

    fn letrec(
        &mut self,
        id: TermId,
        ty: TypeId,
        body: TermId,
        rest: TermId,
        signer: Set,
    ) -> Result<Judgement, Refusal> {
        let function = self.expect_function(ty);
        let body = self.infer_under(&[ty, function.argument], body, signer)?;
        let rest = self.infer_under(&[ty], rest, signer)?;
        require_body(id, body, function)?;
        Ok(Judgement {
            needs: function.latent.union(rest.needs),
            ..rest
        })
    }

    fn call(
        &mut self,
        id: TermId,
        function: TermId,
        argument: TermId,
        signer: Set,
    ) -> Result<Judgement, Refusal> {
        let callee = self.infer(function, signer)?;
        let argument = self.infer(argument, signer)?;
        let Some(function) = self.sheet.function_type(callee.ty) else {
            return Err(self.type_fault(Cause::NotAFunction).at(id));
        };
        let argument_fits = fits(self.sheet, argument.ty, function.argument);
        require(argument_fits, self.type_fault(Cause::Argument), id)?;
        Ok(Judgement {
            ty: function.result,
            needs: function.latent.union(callee.needs).union(argument.needs),
        })
    }

    /// The type of an if or a test: of its branches' types the one that the
    /// other fits. Types that fit each other are the same, so there are never
    /// two to choose from.
    fn wider(&self, id: TermId, yes: TypeId, no: TypeId) -> Result<TypeId, Refusal> {
        let may_differ = self.rules != Rules::BeforeW4;
        if yes == no || may_differ && fits(self.sheet, no, yes) {
            Ok(yes)
        } else if may_differ && fits(self.sheet, yes, no) {
            Ok(no)
        } else {
            Err(self.type_fault(Cause::Branches).at(id))
        }
    }

    /// What is told of a type fault that has this number today.
    fn type_fault(&self, cause: Cause) -> Cause {
        match self.rules {
            Rules::BeforeW4 | Rules::BeforeW5 => Cause::TypeMismatch,
            Rules::Today => cause,
        }
    }

    /// A term that takes numbers and gives a `result`.
    fn of_numbers(
        &mut self,
        id: TermId,
        operands: &[TermId],
        result: TypeId,
        signer: Set,
    ) -> Result<Judgement, Refusal> {
        let mut all_numbers = true;
        let mut needs = Set::EMPTY;
        for &operand in operands {
            let operand = self.infer(operand, signer)?;
            all_numbers &= operand.ty == Type::NUMBER;
            needs = needs.union(operand.needs);
        }
        require_type(id, all_numbers)?;
        Ok(Judgement { ty: result, needs })
    }

    /// Judges a term with more variables in scope, the nearest last.
    fn infer_under(
        &mut self,
        bindings: &[TypeId],
        id: TermId,
        signer: Set,
    ) -> Result<Judgement, Refusal> {
        let outside = self.bindings.len();
        self.bindings.extend_from_slice(bindings);
        let judgement = self.infer(id, signer);
        self.bindings.truncate(outside);
        judgement
    }

    fn expect_function(&self, ty: TypeId) -> FunctionType {
        self.sheet
            .function_type(ty)
            .expect("a decoded function or binder has a function type")
    }
}

/// Whether a value of type `a` may be given where `b` is asked.
fn fits(sheet: &Sheet, a: TypeId, b: TypeId) -> bool {
    if a == b {
        return true;
    }
    let (Some(a), Some(b)) = (sheet.function_type(a), sheet.function_type(b)) else {
        return false;
    };
    fits(sheet, b.argument, a.argument)
        && a.latent.is_within(b.latent)
        && fits(sheet, a.result, b.result)
}

/// The conditions on a body; its type is asked before its needs.
fn require_body(id: TermId, body: Judgement, function: FunctionType) -> Result<(), Refusal> {
    require_type(id, body.ty == function.result)?;
    require(body.needs.is_within(function.latent), Cause::BodyNeeds, id)
}

fn require_type(id: TermId, holds: bool) -> Result<(), Refusal> {
    require(holds, Cause::TypeMismatch, id)
}

fn require(holds: bool, cause: Cause, id: TermId) -> Result<(), Refusal> {
    if holds {
        Ok(())
    } else {
        Err(cause.at(id))
    }
}
