//! The causes in words, by the table of docs/REFUSALS.md.

const CAUSES: [(&str, &str); 38] = [
    ("none", "nothing is wrong"),
    ("cut short", "the sheet ends inside a field"),
    ("wrong tag", "a field has another tag than its turn asks for, or bytes follow the last field"),
    ("version", "the version is neither 1 nor 2"),
    ("length", "a field's length is none that its tag can have"),
    ("type record", "a type's record is malformed, too deep or equal to an earlier one"),
    ("term record", "a term's record is malformed"),
    ("place", "the terms are no tree, or the root or a body is not a sign"),
    ("nesting", "a term is nested more than 32 deep"),
    ("variable", "a variable is bound by nothing"),
    (
        "type",
        "a condition is not a boolean, an operand or a post not a number, or a body has another type than its function's result",
    ),
    ("needs of a sign", "signed code needs a privilege that its principal may not use"),
    ("needs of a body", "a body needs a privilege that its function's type does not name"),
    ("type of the root", "the sheet as a whole gives a function"),
    (
        "start stack",
        "the start stack has more than 16 frames, or a frame of a principal that the sheet does not have",
    ),
    ("buffers", "there may be at most 8,192 cells and 256 posts"),
    ("allowance", "at most 4,096 calls may be allowed, and 100 open at a time"),
    ("refused check", "a privilege that is checked, or guards a post, is not granted"),
    ("stuck", "a term cannot go on with the value that it has"),
    ("open calls", "a call would pass the allowance of open calls"),
    ("calls spent", "the allowance of calls is spent"),
    ("no cell", "the cell store is full"),
    ("no place for a post", "the list of posts is full"),
    ("address", "the register block has no such address"),
    ("not a function", "what a call calls is not a function"),
    ("argument", "an argument's type does not fit the one that the function asks for"),
    ("branches", "of the types of two branches neither fits the other"),
    ("no such line", "there are lines 0 to 3 alone"),
    ("outside the store", "a job's part is not all inside the store of sheets"),
    ("queue full", "eight jobs wait on the line already"),
    ("no such privilege", "there are privileges 0 to 31 alone"),
    ("guard", "a channel's guard is neither a privilege nor 255"),
    ("no lean form", "a sheet with a test or of version 2 has no lean form"),
    ("no room", "the buffer is shorter than the lean sheet"),
    ("record", "a record ends in a part of an entry, or has a yes-or-no byte above 1"),
    (
        "ranges",
        "there must be one pair for each number of a sheet of version 1, no lowest above its highest",
    ),
    ("undecided condition", "within the limits of its numbers an if could take either branch"),
    ("no such term", "the sheet has no term of that number"),
];

/// `11, needs of a sign`.
pub fn heading(cause: u32) -> String {
    let name = CAUSES
        .get(cause as usize)
        .map_or("unknown", |&(name, _)| name);
    format!("{cause}, {name}")
}

/// What is wrong, in a sentence without its stop.
pub fn sentence(cause: u32) -> &'static str {
    CAUSES
        .get(cause as usize)
        .map_or("a cause that this tool does not know", |&(_, sentence)| {
            sentence
        })
}

/// What a refusal's place is the number of.
#[derive(Clone, Copy, Debug, PartialEq, Eq)]
pub enum Place {
    None,
    Type,
    Term,
    Channel,
}

pub fn place(cause: u32) -> Place {
    match cause {
        5 => Place::Type,
        6..=13 | 17..=22 | 24..=26 | 36 => Place::Term,
        31 => Place::Channel,
        _ => Place::None,
    }
}

/// `11, needs of a sign, at term 3`.
pub fn heading_at(cause: u32, number: u32) -> String {
    let what = match place(cause) {
        Place::None => return heading(cause),
        Place::Type => "type",
        Place::Term => "term",
        Place::Channel => "channel",
    };
    format!("{}, at {what} {number}", heading(cause))
}

/// Whether the library has read the terms as a tree before it told this cause.
pub fn is_tree(cause: u32) -> bool {
    cause == 31 || cause > 8
}

#[cfg(test)]
mod tests {
    use super::*;

    /// docs/REFUSALS.md has a row for each cause, with its number and its name.
    #[test]
    fn the_document_has_the_same_names() {
        let document = include_str!("../../../docs/REFUSALS.md");
        let rows = document.lines().filter_map(|line| line.strip_prefix("| ["));
        let headings: Vec<String> = rows
            .map(|row| {
                let (number, rest) = row.split_once(']').expect("a link");
                let name = rest.split(" | ").nth(1).expect("a name");
                format!("{number}, {name}")
            })
            .collect();
        assert_eq!(headings.len() + 1, CAUSES.len());
        for (cause, expected) in (1..).zip(&headings) {
            assert_eq!(heading(cause), *expected);
        }
    }
}
