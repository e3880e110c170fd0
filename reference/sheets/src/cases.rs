//! The cases that the contract names.

use crate::records::{Format, Guards, Records, TypeRecord, NUMBER};
use crate::request::Request;
use crate::tree::*;

/// A sheet and a request for its runs.
#[derive(Clone, Debug)]
pub struct Case {
    pub name: &'static str,
    pub sheet: Vec<u8>,
    pub request: Request,
}

/// The first function type of a table; it takes and gives numbers here.
pub const FIRST_FUNCTION: u16 = 2;

/// The set that holds only privilege 1.
const ONE: u32 = 1 << 1;

/// A sheet without function types.
pub fn plain(principals: &[u32], root: Tree) -> Vec<u8> {
    with_functions(principals, &[], root)
}

/// A sheet with function types from [`FIRST_FUNCTION`] on.
pub fn with_functions(principals: &[u32], functions: &[TypeRecord], root: Tree) -> Vec<u8> {
    of_format(Format::version_1(), principals, functions, root)
}

/// A sheet of version 2, with these guards.
pub fn with_guards(
    guards: &Guards,
    principals: &[u32],
    functions: &[TypeRecord],
    root: Tree,
) -> Vec<u8> {
    of_format(Format::version_2(guards), principals, functions, root)
}

fn of_format(format: Format, principals: &[u32], functions: &[TypeRecord], root: Tree) -> Vec<u8> {
    let mut types = vec![TypeRecord::bool(), TypeRecord::number()];
    types.extend(functions);
    Records {
        format,
        principals: principals.to_vec(),
        types,
        terms: root.assemble(),
    }
    .to_bytes()
}

fn number_to_number() -> TypeRecord {
    TypeRecord::function(NUMBER, NUMBER, 0)
}

/// The contract's sheet of 78 bytes, by what principal 0 may use.
pub fn posting(authorised: u32) -> Vec<u8> {
    plain(&[authorised], sign(0, enable(1, check(1, post(number(7))))))
}

pub fn posting_without_enable() -> Vec<u8> {
    plain(&[ONE], sign(0, check(1, post(number(7)))))
}

/// Tells whether the start stack grants privilege 1, which principal 0 may
/// use and principal 1 may not.
pub fn asking_for_1() -> Vec<u8> {
    plain(&[ONE, 0], sign(0, test(1, boolean(true), boolean(false))))
}

pub fn identity_of_5() -> Vec<u8> {
    let identity = function(FIRST_FUNCTION, sign(0, variable(0)));
    with_functions(
        &[0],
        &[number_to_number()],
        sign(0, call(identity, number(5))),
    )
}

/// f(x) = f x, called on 0.
pub fn endless() -> Vec<u8> {
    let body = sign(0, call(variable(1), variable(0)));
    let rest = call(variable(0), number(0));
    let root = sign(0, letrec(FIRST_FUNCTION, body, rest));
    with_functions(&[0], &[number_to_number()], root)
}

/// Its needs are what request W1 changed.
pub fn test_then_check() -> Vec<u8> {
    plain(&[ONE], sign(0, test(1, check(1, number(7)), number(0))))
}

/// A sheet that only computes.
pub fn computing(root: Tree) -> Vec<u8> {
    plain(&[0], sign(0, root))
}

/// Signs in signs around a number.
pub fn nested(levels: usize) -> Vec<u8> {
    let tree = (1..levels).fold(number(0), |inner, _| sign(0, inner));
    plain(&[0], tree)
}

/// Function types nested `depth` deep, beside a sheet that has no use for
/// them.
pub fn with_type_depth(depth: u16) -> Vec<u8> {
    let tower: Vec<TypeRecord> = (0..depth)
        .map(|floor| TypeRecord::function(FIRST_FUNCTION + floor - 1, NUMBER, 0))
        .collect();
    with_functions(&[0], &tower, sign(0, number(0)))
}

/// Every case that the contract names, in its order.
pub fn all() -> Vec<Case> {
    let case = |name, sheet, request| Case {
        name,
        sheet,
        request,
    };
    let largest = Request::largest;
    let calls = |calls, open_calls| Request {
        calls,
        open_calls,
        ..largest()
    };
    vec![
        case("the sheet above", posting(ONE), largest()),
        case("A(0) empty", posting(0), largest()),
        case("without enable", posting_without_enable(), largest()),
        case(
            "without enable, on (0, {1})",
            posting_without_enable(),
            largest().with_start(&[0, ONE]),
        ),
        case("empty file", vec![], largest()),
        case(
            "(1, {}), (0, {1}) grant nothing",
            asking_for_1(),
            largest().with_start(&[1, 0, 0, ONE]),
        ),
        case(
            "(0, {1}), (1, {}) grant 1",
            asking_for_1(),
            largest().with_start(&[0, ONE, 1, 0]),
        ),
        case(
            "(1, {1}) grants nothing",
            asking_for_1(),
            largest().with_start(&[1, ONE]),
        ),
        case("identity of 5", identity_of_5(), largest()),
        case("identity of 5, calls 0", identity_of_5(), calls(0, 100)),
        case(
            "identity of 5, nothing allowed",
            identity_of_5(),
            calls(0, 0),
        ),
        case("f(x) = f x", endless(), largest()),
        case("f(x) = f x, calls 99", endless(), calls(99, 100)),
        case("test, then check", test_then_check(), largest()),
        case(
            "65,535 + 1",
            computing(sum(number(65_535), number(1))),
            largest(),
        ),
        case(
            "3 - 5",
            computing(difference(number(3), number(5))),
            largest(),
        ),
        case("5 less 5", computing(less(number(5), number(5))), largest()),
        case("nesting 32", nested(32), largest()),
        case("nesting 33", nested(33), largest()),
        case("a type 12 deep", with_type_depth(12), largest()),
        case("a type 13 deep", with_type_depth(13), largest()),
    ]
}

#[cfg(test)]
mod tests {
    use super::*;

    #[test]
    fn the_sheet_above_has_the_bytes_of_the_contract() {
        let hex = "01 0002 0001 02 0004 00000002 \
                   03 0014 00 00 0000 0000 00000000 01 00 0000 0000 00000000 \
                   04 0028 01 00 0007 0000 0000 0E 00 0000 0000 0000 \
                   07 01 0001 0000 0000 08 01 0002 0000 0000 09 00 0003 0000 0000";
        let digits: String = hex.split_whitespace().collect();
        let bytes: Vec<u8> = (0..digits.len())
            .step_by(2)
            .map(|at| u8::from_str_radix(&digits[at..at + 2], 16).unwrap())
            .collect();
        assert_eq!(bytes.len(), 78);
        assert_eq!(posting(ONE), bytes);
    }
}
