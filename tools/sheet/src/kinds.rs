//! The kinds of terms and what their parts are, the table of docs/FORMAT.md.

use crate::sheet::TermRecord;

pub const BOOLEAN: u8 = 0;
pub const NUMBER: u8 = 1;
pub const VARIABLE: u8 = 2;
pub const FUNCTION: u8 = 3;
pub const LETREC: u8 = 4;
pub const CALL: u8 = 5;
pub const IF: u8 = 6;
pub const CHECK: u8 = 7;
pub const ENABLE: u8 = 8;
pub const SIGN: u8 = 9;
pub const TEST: u8 = 10;
pub const SUM: u8 = 11;
pub const DIFFERENCE: u8 = 12;
pub const LESS: u8 = 13;
pub const POST: u8 = 14;

pub const NAMES: [&str; 15] = [
    "boolean",
    "number",
    "variable",
    "function",
    "letrec",
    "call",
    "if",
    "check",
    "enable",
    "sign",
    "test",
    "sum",
    "difference",
    "less",
    "post",
];

/// A child of a term: the part that holds its number, and what it is to the term. An only child has no role.
#[derive(Clone, Copy, Debug, PartialEq, Eq)]
pub struct Child {
    pub part: usize,
    pub role: &'static str,
}

const fn child(part: usize, role: &'static str) -> Child {
    Child { part, role }
}

const INNER: &[Child] = &[child(0, "")];
const BODY: &[Child] = &[child(1, "body")];
const BODY_AND_REST: &[Child] = &[child(1, "body"), child(2, "rest")];
const CALLED: &[Child] = &[child(0, "function"), child(1, "argument")];
const CHOICE: &[Child] = &[child(0, "condition"), child(1, "yes"), child(2, "no")];
const BRANCHES: &[Child] = &[child(0, "yes"), child(1, "no")];
const OPERANDS: &[Child] = &[child(0, "left"), child(1, "right")];

/// The children of a kind, in the order of their parts.
pub fn children(kind: u8) -> &'static [Child] {
    match kind {
        FUNCTION => BODY,
        LETREC => BODY_AND_REST,
        CALL => CALLED,
        IF => CHOICE,
        TEST => BRANCHES,
        CHECK | ENABLE | SIGN | POST => INNER,
        SUM | DIFFERENCE | LESS => OPERANDS,
        _ => &[],
    }
}

/// The numbers of a term's children.
pub fn child_numbers(term: &TermRecord) -> impl Iterator<Item = usize> + '_ {
    children(term.kind)
        .iter()
        .map(|child| usize::from(term.parts[child.part]))
}
