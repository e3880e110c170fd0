//! Sheets at the limits of what can be read and run.

use crate::cases::{plain, with_functions, FIRST_FUNCTION};
use crate::records::{Format, Records, TypeRecord, BOOL, CHANNELS, NUMBER};
use crate::tree::*;

const MAX_NESTING: usize = 32;
const MAX_PRINCIPALS: usize = 32;
const MAX_TYPES: usize = 256;
const MAX_TERMS: usize = 1_024;
const MAX_TYPE_DEPTH: u16 = 12;

/// The privilege that the deepest sheet checks, and the set of it alone.
const PRIVILEGE: u8 = 1;
const ONE: u32 = 1 << PRIVILEGE;

/// The privilege that the sheets with a need have.
pub const NEEDED: u8 = 2;

/// The number of a variable that no sheet binds.
const UNBOUND: u16 = 65_535;

/// How many terms a chain from the root to a cause has at most. Every cause
/// has a child, so that it isn't nested as deep as a term may be.
pub const MAX_CHAIN: usize = MAX_NESTING - 1;

/// Nested 32 deep with 100 open calls. Each call goes through as many signs
/// as nesting allows and a check, so a lazy run walks ever more frames.
pub fn deepest() -> Vec<u8> {
    const OPEN_CALLS: u16 = 100;
    let again = call(variable(1), difference(variable(0), number(1)));
    let mut step = check(PRIVILEGE, again);
    // Above a step stand the root, the enable, the binder, the body and the if.
    while step.height() + 5 < MAX_NESTING {
        step = sign(0, step);
    }
    let base = check(PRIVILEGE, number(0));
    let body = sign(0, when(less(variable(0), number(1)), base, step));
    let rest = call(variable(0), number(OPEN_CALLS - 1));
    let root = sign(0, enable(PRIVILEGE, letrec(FIRST_FUNCTION, body, rest)));
    with_functions(&[ONE], &[TypeRecord::function(NUMBER, NUMBER, ONE)], root)
}

/// A function that calls itself forever, from as deep in its body as nesting
/// allows, through terms of one kind that evaluate the next one first. With
/// the largest allowances it is stopped after 100 open calls. The rules need
/// not accept it.
pub fn endless_through(kind: Kind) -> Vec<u8> {
    // Around these stand the root, the binder, the body, the call and its
    // parts.
    const LEVELS: u16 = MAX_NESTING as u16 - 5;
    let binders = if kind == Kind::Letrec { LEVELS } else { 0 };
    let again = call(variable(1 + binders), variable(binders));
    let step = (0..LEVELS).fold(again, |inner, _| match kind {
        Kind::Letrec => letrec(FIRST_FUNCTION, sign(0, variable(0)), inner),
        Kind::Call => call(variable(1), inner),
        Kind::If => when(inner, number(0), number(0)),
        Kind::Check => check(PRIVILEGE, inner),
        Kind::Enable => enable(PRIVILEGE, inner),
        Kind::Test => test(PRIVILEGE, inner, number(0)),
        Kind::Sum => sum(number(0), inner),
        Kind::Difference => difference(number(0), inner),
        Kind::Less => less(number(0), inner),
        Kind::Post => post(inner),
        Kind::Sign | Kind::Bool | Kind::Number | Kind::Variable | Kind::Function => sign(0, inner),
    });
    let rest = call(variable(0), number(0));
    let root = sign(0, letrec(FIRST_FUNCTION, sign(0, step), rest));
    with_functions(&[ONE], &[TypeRecord::function(NUMBER, NUMBER, ONE)], root)
}

/// As many principals, types and terms as a sheet can have. Every call gives
/// an argument whose type isn't the one asked but fits it.
pub fn widest() -> Vec<u8> {
    widest_of(Format::version_1())
}

/// The same in version 2, the longest sheet there is. Nothing is posted.
pub fn longest() -> Vec<u8> {
    widest_of(Format::version_2(&[31; CHANNELS]))
}

fn widest_of(format: Format) -> Vec<u8> {
    const CALLS: usize = 127;
    let types = twin_towers();
    let calls: Vec<Tree> = fitting_pairs(&types)
        .into_iter()
        .cycle()
        .take(CALLS)
        .map(|(callee, given)| {
            let callee = function(callee, sign(0, number(1)));
            call(callee, function(given, sign(0, number(2))))
        })
        .collect();
    let mut sums = balanced_sum(calls);
    while sums.size() + 2 < MAX_TERMS {
        sums = sum(sums, number(1));
    }
    Records {
        format,
        principals: vec![u32::MAX; MAX_PRINCIPALS],
        types,
        terms: sign(0, sums).assemble(),
    }
    .to_bytes()
}

/// Two towers of function types side by side, the left with even numbers,
/// each type taking the one below it; then two more, until the table is full.
/// The ground floors differ only in their latent sets, so of the twins on a
/// floor one fits the other: the left on the ground, then by turns, because
/// arguments turn it round.
fn twin_towers() -> Vec<TypeRecord> {
    let mut types = vec![TypeRecord::bool(), TypeRecord::number()];
    for tower in 0.. {
        types.push(TypeRecord::function(NUMBER, NUMBER, 2 * tower));
        types.push(TypeRecord::function(NUMBER, NUMBER, 2 * tower + 1));
        for _ in 1..MAX_TYPE_DEPTH {
            let below = types.len() as u16 - 2;
            types.push(TypeRecord::function(below, NUMBER, 0));
            types.push(TypeRecord::function(below + 1, NUMBER, 0));
        }
        if types.len() >= MAX_TYPES {
            break;
        }
    }
    types.truncate(MAX_TYPES);
    types
}

/// Types of the twin towers, each with the twin of its argument, where that
/// fits the argument.
fn fitting_pairs(types: &[TypeRecord]) -> Vec<(u16, u16)> {
    let mut pairs = Vec::new();
    for (callee, record) in (0..).zip(types) {
        let query = record.argument;
        if query < FIRST_FUNCTION {
            continue;
        }
        let is_right = query % 2 == 1;
        let floor = (query - FIRST_FUNCTION) / 2 % MAX_TYPE_DEPTH;
        if is_right == floor.is_multiple_of(2) {
            let twin = query ^ 1;
            pairs.push((callee, twin));
        }
    }
    pairs
}

/// As many terms as a sheet can have, nearly half of them tests whose branches
/// have types 12 deep that differ only at the bottom. On every floor both
/// parts of one type have to be compared with those of the other, so that a
/// judge that remembers nothing compares 4,095 pairs of functions for such a
/// test, and half as many for types 11 deep.
///
/// A floor has three types, each of which fits the next. With two, the parts
/// of a pair would be the same pair; with three, those of the upper two aren't.
pub fn costly_branches() -> Vec<u8> {
    costly(0, |tests| tests)
}

/// The same below a check of a privilege that the sheet needs, and that below
/// as many signs as leave the most to compare over and over to a judge who
/// goes down to the check from the root and at each step judges all that is
/// below.
pub fn costly_need() -> Vec<u8> {
    const SIGNS: usize = 10;
    costly(SIGNS, |tests| check(NEEDED, tests))
}

/// The same with a fault that is judged before all of this, so that a judge who
/// stops there has little to do, and one who looks for the smallest faulty piece
/// has to go on.
pub fn costly_fault() -> Vec<u8> {
    costly(0, |tests| when(variable(UNBOUND), tests, variable(1)))
}

/// As many principals, types and terms as a sheet can have, and one fault: the
/// last term but the root. No term's record stands further from the beginning,
/// but for the root's.
pub fn late_fault() -> Vec<u8> {
    let numbers = (0..MAX_TERMS as u16 / 2 - 1).map(number).collect();
    let root = sign(0, less(balanced_sum(numbers), boolean(true)));
    Records {
        format: Format::version_2(&[31; CHANNELS]),
        principals: vec![u32::MAX; MAX_PRINCIPALS],
        types: twin_towers(),
        terms: root.assemble(),
    }
    .to_bytes()
}

/// Tests below so many signs, which `inner` may put something around.
fn costly(signs: usize, inner: fn(Tree) -> Tree) -> Vec<u8> {
    let mut types = vec![TypeRecord::bool(), TypeRecord::number()];
    types.extend([0, ONE, ONE | 1].map(|latent| TypeRecord::function(NUMBER, NUMBER, latent)));
    for _ in 1..MAX_TYPE_DEPTH {
        let [narrow, middle, wide] = last_three(&types);
        // Arguments turn it round.
        types.push(TypeRecord::function(wide, narrow, 0));
        types.push(TypeRecord::function(middle, middle, 0));
        types.push(TypeRecord::function(narrow, wide, 0));
    }
    let [narrow, middle, wide] = last_three(&types);
    // No function takes one so deep, but there is one that takes its result.
    let called = types[usize::from(wide)];
    let taker = types.len() as u16;
    types.push(TypeRecord::function(called.result, NUMBER, 0));

    let around = |tests| {
        let given = call(inner(tests), variable(0));
        let taken = call(function(taker, sign(0, number(0))), given);
        // f(x) = f x has any function type.
        let endless = || sign(0, call(variable(1), variable(0)));
        let bound = [called.argument, wide, middle, narrow]
            .into_iter()
            .fold(taken, |rest, ty| letrec(ty, endless(), rest));
        signed(1 + signs, bound)
    };
    // Above the tests stand signs, four binders, two calls and what `inner` puts.
    let levels = MAX_NESTING - (1 + signs + 6 + inner(number(0)).height() - 1);
    let count = (MAX_TERMS - around(number(0)).size()) / 2;
    Records {
        format: Format::version_1(),
        principals: vec![1 << NEEDED],
        types,
        terms: around(tests_of_three(count, levels)).assemble(),
    }
    .to_bytes()
}

/// As many terms as a sheet can have, and a need for one of the deepest. Its
/// chain goes down through signs to ifs that have nearly all of the terms
/// below them, and there to the last child each time. So no sheet has more to
/// judge if at each step all that is below is judged, once.
pub fn deep_need() -> Vec<u8> {
    plain(&[1 << NEEDED], signed(ABOVE_IFS, needing_ifs(ABOVE_IFS)))
}

/// The same below calls, of which the function part has all that is below. Who
/// judges that part a second time, to see whether the call is the cause, has
/// more to do.
pub fn deep_calls() -> Vec<u8> {
    // A call takes one level, and one of a chosen function two.
    const LONG: usize = MAX_TYPE_DEPTH as usize + 1;
    const PAIRS: usize = 4;
    const SIGNS: usize = ABOVE_IFS - 2 - LONG - 2 * PAIRS;
    let (short, long) = (FIRST_FUNCTION, FIRST_FUNCTION + MAX_TYPE_DEPTH - 1);
    let mut types = vec![TypeRecord::function(NUMBER, BOOL, 0)];
    types.extend((short..long).map(|ty| TypeRecord::function(NUMBER, ty, 0)));
    // f(x) = f x has any function type.
    let bound = |ty, rest| letrec(ty, sign(0, call(variable(1), variable(0))), rest);
    let chosen = |condition, index| when(condition, variable(index), variable(index));
    let around = |ifs| {
        let on_all =
            (0..MAX_TYPE_DEPTH).fold(chosen(ifs, 0), |function, _| call(function, number(0)));
        let pairs = (0..PAIRS).fold(on_all, |inner, _| call(chosen(inner, 1), number(0)));
        signed(SIGNS, bound(short, bound(long, pairs)))
    };
    let others = around(boolean(true)).size() - 1;
    with_functions(&[1 << NEEDED], &types, around(needing_ifs(others)))
}

/// How many levels ifs leave above them that take all the terms there are.
const ABOVE_IFS: usize = MAX_NESTING - IFS - 2;
const IFS: usize = 5;

/// Ifs in the last branch of which are others, and in the end a check. As far
/// as nesting and the terms allow that other ones take, the other branches are
/// full.
fn needing_ifs(others: usize) -> Tree {
    let needed = check(NEEDED, boolean(true));
    (0..IFS).fold(needed, |last, below| {
        let full = (3_usize.pow(below as u32 + 2) - 1) / 2;
        let room = MAX_TERMS - others - last.size() - 1;
        let first = full.min(room / 2);
        let second = full.min(room - first);
        when(of_booleans(first), of_booleans(second), last)
    })
}

/// A low tree of so many terms.
fn of_booleans(terms: usize) -> Tree {
    match terms {
        0 | 1 => boolean(true),
        2 => enable(PRIVILEGE, boolean(true)),
        3 => test(PRIVILEGE, boolean(true), boolean(false)),
        _ => when(
            of_booleans((terms - 1) / 3),
            of_booleans(terms / 3),
            of_booleans((terms + 1) / 3),
        ),
    }
}

/// As many terms as a sheet can have, seven in eight of them checks and enables:
/// fourteen in a row around each of 64 numbers.
pub fn many_checks() -> Vec<u8> {
    const NUMBERS: usize = 64;
    const PAIRS: usize = (MAX_TERMS / NUMBERS - 2) / 2;
    let checked = |value| {
        let pair = |inner, _| check(PRIVILEGE, enable(PRIVILEGE, inner));
        (0..PAIRS).fold(number(value), pair)
    };
    let numbers = (0..NUMBERS as u16).map(checked).collect();
    plain(&[ONE], sign(0, balanced_sum(numbers)))
}

/// As many types as a sheet can have, of which no two become equal when their
/// latent sets are emptied, and as many principals and terms. No sheet has a
/// longer lean form, or more records to compare for it.
pub fn most_types() -> Vec<u8> {
    const LOWEST: u16 = 16;
    let pairs = (0..LOWEST).flat_map(|most| {
        let below = move |lower| [(lower, most), (most, lower)];
        (0..most).flat_map(below).chain([(most, most)])
    });
    let mut types = vec![TypeRecord::bool(), TypeRecord::number()];
    types.extend(
        (0..)
            .zip(pairs)
            .map(|(latent, (argument, result))| TypeRecord::function(argument, result, latent)),
    );
    types.truncate(MAX_TYPES);
    let numbers = (0..MAX_TERMS as u16 / 2 - 1).map(number).collect();
    Records {
        format: Format::version_1(),
        principals: vec![u32::MAX; MAX_PRINCIPALS],
        types,
        terms: sign(0, post(post(balanced_sum(numbers)))).assemble(),
    }
    .to_bytes()
}

/// As many terms as a sheet can have, half of them sums that are all held, and
/// about as many calls as there can be. No sheet is known to hold more.
pub fn most_held() -> Vec<u8> {
    let around = |held| sign(0, doubling(held));
    let others = around(number(0)).size() - 1;
    let numbers = (MAX_TERMS - others).div_ceil(2);
    let held = balanced_sum(vec![number(65_535); numbers]);
    with_functions(
        &[0],
        &[TypeRecord::function(NUMBER, NUMBER, 0)],
        around(held),
    )
}

/// As many terms as a sheet can have, most of them checks that all pass, and
/// about as many calls as there can be. No sheet is known to decide more.
pub fn most_decisions() -> Vec<u8> {
    // Between so many rows of checks stand sums. With fewer, the rows would be
    // nested too deep.
    const ROWS: usize = 46;
    let around = |checks| sign(0, enable(PRIVILEGE, doubling(checks)));
    let others = around(number(0)).size() - 1;
    let checks = MAX_TERMS - others - (2 * ROWS - 1);
    let row = |place| {
        let length = (checks + place) / ROWS;
        (0..length).fold(number(0), |inner, _| check(PRIVILEGE, inner))
    };
    with_functions(
        &[ONE],
        &[TypeRecord::function(NUMBER, NUMBER, ONE)],
        around(balanced_sum((0..ROWS).map(row).collect())),
    )
}

/// f(n) = work + (if n less 1 then 1 else f(n - 1) + f(n - 1)), called with 11,
/// which are about as many calls as there can be.
fn doubling(work: Tree) -> Tree {
    const ROUNDS: u16 = 11;
    let again = || call(variable(1), difference(variable(0), number(1)));
    let calls = when(
        less(variable(0), number(1)),
        number(1),
        sum(again(), again()),
    );
    let rest = call(variable(0), number(ROUNDS));
    letrec(FIRST_FUNCTION, sign(0, sum(work, calls)), rest)
}

/// The tree below so many signs.
fn signed(signs: usize, tree: Tree) -> Tree {
    (0..signs).fold(tree, |inner, _| sign(0, inner))
}

fn last_three(types: &[TypeRecord]) -> [u16; 3] {
    let count = types.len() as u16;
    [count - 3, count - 2, count - 1]
}

/// So many tests in a tree of so many levels. As far as that allows, each has
/// the type of variable 1 in one branch, and in the other by turns those of
/// variables 2 and 3.
fn tests_of_three(count: usize, levels: usize) -> Tree {
    if count < levels {
        let by_turns = [2, 3].into_iter().cycle().take(count);
        return by_turns.fold(variable(1), |inner, other| {
            test(PRIVILEGE, inner, variable(other))
        });
    }
    let left = (count - 1) / 2;
    let right = count - 1 - left;
    test(
        PRIVILEGE,
        tests_of_three(left, levels - 1),
        tests_of_three(right, levels - 1),
    )
}

fn balanced_sum(mut trees: Vec<Tree>) -> Tree {
    let right = trees.split_off(trees.len() / 2);
    match (trees.len(), right.len()) {
        (0, _) => right.into_iter().next().unwrap_or_else(|| number(0)),
        _ => sum(balanced_sum(trees), balanced_sum(right)),
    }
}
