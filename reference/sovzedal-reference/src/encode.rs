//! From a [`Sheet`] to its bytes. Unused parts are zero and fields come in one
//! order, so that every sheet has one form.

use crate::decode::UNGUARDED;
use crate::set::Set;
use crate::sheet::{FunctionType, Sheet, Term, Type};

/// The bytes that [`decode`](crate::decode) reads as this sheet.
pub fn encode(sheet: &Sheet) -> Vec<u8> {
    let version: u16 = match sheet.guards {
        None => 1,
        Some(_) => 2,
    };
    let principals = sheet.principals.iter().flat_map(|set| set_bytes(*set));
    let types = sheet.types.iter().flat_map(|ty| type_record(*ty));
    let terms = sheet.terms.iter().flat_map(|term| term_record(*term));
    let mut bytes = Vec::new();
    put_field(&mut bytes, 1, version.to_be_bytes());
    put_field(&mut bytes, 2, principals);
    put_field(&mut bytes, 3, types);
    put_field(&mut bytes, 4, terms);
    if let Some(guards) = sheet.guards {
        let guards = guards.map(|guard| guard.map_or(UNGUARDED, |privilege| privilege.number()));
        put_field(&mut bytes, 5, guards);
    }
    bytes
}

/// A tag, the content's length in two bytes, and the content.
fn put_field(bytes: &mut Vec<u8>, tag: u8, content: impl IntoIterator<Item = u8>) {
    let content: Vec<u8> = content.into_iter().collect();
    bytes.push(tag);
    bytes.extend((content.len() as u16).to_be_bytes());
    bytes.extend(content);
}

fn set_bytes(set: Set) -> [u8; 4] {
    set.bits().to_be_bytes()
}

fn type_record(ty: Type) -> [u8; 10] {
    match ty {
        Type::Bool => [0; 10],
        Type::Number => [1, 0, 0, 0, 0, 0, 0, 0, 0, 0],
        Type::Function(FunctionType {
            argument,
            result,
            latent,
        }) => {
            let ([a1, a0], [r1, r0]) = (argument.to_be_bytes(), result.to_be_bytes());
            let [l3, l2, l1, l0] = set_bytes(latent);
            [2, 0, a1, a0, r1, r0, l3, l2, l1, l0]
        }
    }
}

fn term_record(term: Term) -> [u8; 8] {
    let (kind, small, [first, second, third]) = parts(term);
    let ([f1, f0], [s1, s0]) = (first.to_be_bytes(), second.to_be_bytes());
    let [t1, t0] = third.to_be_bytes();
    [kind, small, f1, f0, s1, s0, t1, t0]
}

/// The kind, the small part and the three others of a term's record.
fn parts(term: Term) -> (u8, u8, [u16; 3]) {
    match term {
        Term::Bool(value) => (0, value.into(), [0, 0, 0]),
        Term::Number(value) => (1, 0, [value, 0, 0]),
        Term::Variable(index) => (2, 0, [index, 0, 0]),
        Term::Function { ty, body } => (3, 0, [ty, body, 0]),
        Term::Letrec { ty, body, rest } => (4, 0, [ty, body, rest]),
        Term::Call { function, argument } => (5, 0, [function, argument, 0]),
        Term::If { condition, yes, no } => (6, 0, [condition, yes, no]),
        Term::Check { privilege, inner } => (7, privilege.number(), [inner, 0, 0]),
        Term::Enable { privilege, inner } => (8, privilege.number(), [inner, 0, 0]),
        Term::Sign { principal, inner } => (9, principal, [inner, 0, 0]),
        Term::Test { privilege, yes, no } => (10, privilege.number(), [yes, no, 0]),
        Term::Sum(left, right) => (11, 0, [left, right, 0]),
        Term::Difference(left, right) => (12, 0, [left, right, 0]),
        Term::Less(left, right) => (13, 0, [left, right, 0]),
        Term::Post { channel, inner } => (14, channel, [inner, 0, 0]),
    }
}
