//! Evaluation: causes 17 to 22, and 36.

use super::authority::Authority;
use super::domain::Domain;
use super::request::{Checks, Request};
use super::{Outcome, Plain, Stop};
use crate::record::{Entry, Recorder};
use crate::refusal::Cause;
use crate::set::Privilege;
use crate::sheet::{ChannelId, Sheet, Term, TermId};

const CELL_BYTES: usize = 8;

/// A value of a run whose booleans are `B` and whose numbers are `N`.
#[derive(Clone, Copy)]
enum Value<B, N> {
    Bool(B),
    Number(N),
    Function(Closure),
}

type ValueIn<D> = Value<<D as Domain>::Bool, <D as Domain>::Number>;

#[derive(Clone, Copy)]
struct Closure {
    body: TermId,
    bindings: Bindings,
}

/// The nearest binding in scope, if any; each leads to the one outside it.
type Bindings = Option<CellId>;
type CellId = u16;

/// A binding. Cells are never freed within a run, so that closures may keep
/// hold of them.
struct Cell<V> {
    value: V,
    outside: Bindings,
}

pub struct Machine<'a, A, D: Domain> {
    sheet: &'a Sheet,
    request: &'a Request<'a>,
    authority: A,
    domain: D,
    cells: Vec<Cell<ValueIn<D>>>,
    max_cells: usize,
    posts: &'a mut [u32],
    record: Recorder<'a>,
    posts_made: usize,
    calls_made: u32,
    open_calls: u32,
}

/// How a run went, whatever its numbers are.
pub struct Finished<D: Domain> {
    pub outcome: Outcome<Plain<D::Bool, D::Number>>,
    pub calls: u32,
    pub cells: u32,
    pub posts: u32,
    /// Of the record.
    pub entries: usize,
    pub domain: D,
}

impl<'a, A: Authority, D: Domain> Machine<'a, A, D> {
    pub fn new(
        sheet: &'a Sheet,
        request: &'a Request,
        authority: A,
        domain: D,
        cell_bytes: usize,
        posts: &'a mut [u32],
        record: &'a mut [u8],
    ) -> Self {
        Self {
            sheet,
            request,
            authority,
            domain,
            cells: Vec::new(),
            max_cells: cell_bytes / CELL_BYTES,
            posts,
            record: Recorder::new(record),
            posts_made: 0,
            calls_made: 0,
            open_calls: 0,
        }
    }

    /// Runs the sheet. A root that gives a function is stuck.
    pub fn run(mut self) -> Finished<D> {
        let root = self.sheet.root();
        let outcome = match self.eval(root, None) {
            Ok(Value::Bool(value)) => Outcome::End(Plain::Bool(value)),
            Ok(Value::Number(value)) => Outcome::End(Plain::Number(value)),
            Ok(Value::Function(_)) => Outcome::Stop(Stop {
                cause: Cause::Stuck,
                term: root,
            }),
            Err(stop) => Outcome::Stop(stop),
        };
        Finished {
            outcome,
            calls: self.calls_made,
            cells: self.cells.len() as u32,
            posts: self.posts_made as u32,
            entries: self.record.entries(),
            domain: self.domain,
        }
    }

    fn eval(&mut self, id: TermId, bindings: Bindings) -> Result<ValueIn<D>, Stop> {
        match self.sheet.term(id) {
            Term::Bool(value) => Ok(Value::Bool(self.domain.boolean(value))),
            Term::Number(written) => Ok(Value::Number(self.domain.number(id, written))),
            Term::Variable(index) => self.variable(id, index, bindings),
            Term::Function { body, .. } => Ok(Value::Function(Closure { body, bindings })),
            Term::Letrec { body, rest, .. } => {
                let function = self.bind_recursive(id, body, bindings)?;
                self.eval(rest, function)
            }
            Term::Call { function, argument } => {
                let function = self.eval(function, bindings)?;
                let argument = self.eval(argument, bindings)?;
                self.call(id, function, argument)
            }
            Term::If { condition, yes, no } => {
                let Value::Bool(condition) = self.eval(condition, bindings)? else {
                    return stop(Cause::Stuck, id);
                };
                match self.domain.choose(condition) {
                    Some(true) => self.eval(yes, bindings),
                    Some(false) => self.eval(no, bindings),
                    None => stop(Cause::Undecided, id),
                }
            }
            Term::Check { privilege, inner } => {
                self.check(id, privilege)?;
                self.eval(inner, bindings)
            }
            Term::Enable { privilege, inner } => {
                let before = self.authority.enable(privilege);
                self.eval_then_restore(inner, bindings, before)
            }
            Term::Sign { principal, inner } => {
                let before = self.authority.sign(principal);
                self.eval_then_restore(inner, bindings, before)
            }
            Term::Test { privilege, yes, no } => {
                let granted = self.decide(id, privilege);
                self.eval(if granted { yes } else { no }, bindings)
            }
            Term::Sum(left, right) => {
                let (left, right) = self.numbers(id, left, right, bindings)?;
                Ok(Value::Number(self.domain.sum(left, right)))
            }
            Term::Difference(left, right) => {
                let (left, right) = self.numbers(id, left, right, bindings)?;
                Ok(Value::Number(self.domain.difference(left, right)))
            }
            Term::Less(left, right) => {
                let (left, right) = self.numbers(id, left, right, bindings)?;
                Ok(Value::Bool(self.domain.less(left, right)))
            }
            Term::Post { channel, inner } => match self.eval(inner, bindings)? {
                Value::Number(number) => self.post(id, channel, number),
                Value::Bool(_) | Value::Function(_) => stop(Cause::Stuck, id),
            },
        }
    }

    fn eval_then_restore(
        &mut self,
        inner: TermId,
        bindings: Bindings,
        before: A::Before,
    ) -> Result<ValueIn<D>, Stop> {
        let value = self.eval(inner, bindings)?;
        self.authority.restore(before);
        Ok(value)
    }

    fn variable(&self, id: TermId, index: u16, mut bindings: Bindings) -> Result<ValueIn<D>, Stop> {
        let mut index = index;
        while let Some(cell) = bindings {
            let cell = &self.cells[usize::from(cell)];
            if index == 0 {
                return Ok(cell.value);
            }
            index -= 1;
            bindings = cell.outside;
        }
        stop(Cause::Stuck, id)
    }

    /// Runs the body in the caller's authority: only the bindings are those
    /// of the place where the function was made.
    fn call(
        &mut self,
        id: TermId,
        function: ValueIn<D>,
        argument: ValueIn<D>,
    ) -> Result<ValueIn<D>, Stop> {
        let Value::Function(closure) = function else {
            return stop(Cause::Stuck, id);
        };
        if self.open_calls >= self.request.open_calls {
            return stop(Cause::TooManyOpenCalls, id);
        }
        if self.calls_made >= self.request.calls {
            return stop(Cause::CallsSpent, id);
        }
        let bindings = self.bind(id, argument, closure.bindings)?;
        self.calls_made += 1;
        self.open_calls += 1;
        let value = self.eval(closure.body, bindings)?;
        self.open_calls -= 1;
        Ok(value)
    }

    /// Binds a function whose own bindings begin with itself.
    fn bind_recursive(
        &mut self,
        id: TermId,
        body: TermId,
        outside: Bindings,
    ) -> Result<Bindings, Stop> {
        let itself = Some(self.cells.len() as CellId);
        let closure = Closure {
            body,
            bindings: itself,
        };
        self.bind(id, Value::Function(closure), outside)
    }

    fn bind(&mut self, id: TermId, value: ValueIn<D>, outside: Bindings) -> Result<Bindings, Stop> {
        if self.cells.len() >= self.max_cells {
            return stop(Cause::NoCell, id);
        }
        let cell = self.cells.len() as CellId;
        self.cells.push(Cell { value, outside });
        Ok(Some(cell))
    }

    /// Evaluates two operands, which must then both be numbers.
    fn numbers(
        &mut self,
        id: TermId,
        left: TermId,
        right: TermId,
        bindings: Bindings,
    ) -> Result<(D::Number, D::Number), Stop> {
        let left = self.eval(left, bindings)?;
        let right = self.eval(right, bindings)?;
        match (left, right) {
            (Value::Number(left), Value::Number(right)) => Ok((left, right)),
            _ => stop(Cause::Stuck, id),
        }
    }

    /// Whether a check or a guard lets the run go on: it always does where
    /// checks are passed over, and then nothing is decided.
    fn check(&mut self, id: TermId, privilege: Privilege) -> Result<(), Stop> {
        let goes_on = match self.request.checks {
            Checks::Enforced => self.decide(id, privilege),
            Checks::Skipped => true,
        };
        if !goes_on {
            return stop(Cause::RefusedCheck, id);
        }
        Ok(())
    }

    /// Whether a privilege is granted, which a check, a test or a guard asks
    /// once. The record has it, a refusal too.
    fn decide(&mut self, term: TermId, privilege: Privilege) -> bool {
        let yes = self.authority.grants(privilege);
        self.record.add(Entry {
            term,
            privilege: privilege.number(),
            yes,
        });
        yes
    }

    /// The guard is asked before a place for the post.
    fn post(
        &mut self,
        id: TermId,
        channel: ChannelId,
        number: D::Number,
    ) -> Result<ValueIn<D>, Stop> {
        if let Some(privilege) = self.sheet.guard(channel) {
            self.check(id, privilege)?;
        }
        let Some(place) = self.posts.get_mut(self.posts_made) else {
            return stop(Cause::NoPost, id);
        };
        *place = self.domain.entry(channel, number);
        self.posts_made += 1;
        Ok(Value::Number(number))
    }
}

fn stop<T>(cause: Cause, term: TermId) -> Result<T, Stop> {
    Err(Stop { cause, term })
}
