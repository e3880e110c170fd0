//! Terms as lines of text, indented as the tree goes.

use crate::columns;
use crate::library::{Refusal, TermAnswer};
use crate::reading::Reading;
use crate::show::counted;
use crate::tree::Tree;

/// How many levels below a marked term are shown of its surroundings.
const BELOW: usize = 3;

/// What stands before a marked line, and before the others.
pub const MARK: &str = "=> ";
pub const NO_MARK: &str = "   ";

/// A term that is marked, and what is said there.
pub struct Mark {
    pub term: usize,
    pub note: Option<String>,
}

/// Lines for these terms, in the order given, one of them marked.
pub fn lines(
    reading: &Reading,
    tree: &Tree,
    terms: &[usize],
    marked: Option<&Mark>,
) -> Vec<String> {
    let mut rows = vec![titles(reading)];
    let mut marks = vec![false];
    for &term in terms {
        let mut row = row(reading, tree, term);
        if let (Some(words), hidden @ 1..) = (row.last_mut(), hidden(tree, terms, term)) {
            words.push_str(&format!(" [{}]", counted(hidden, "term")));
        }
        rows.push(row);
        let here = marked.filter(|mark| mark.term == term);
        marks.push(here.is_some());
        if let Some(note) = here.and_then(|mark| mark.note.as_ref()) {
            rows.push(note_row(reading, tree, term, note));
            marks.push(true);
        }
    }
    let lines = marks.into_iter().zip(columns::aligned(&rows));
    lines
        .map(|(marked, line)| format!("{}{line}", mark(marked)).trim_end().to_string())
        .collect()
}

pub fn mark(marked: bool) -> &'static str {
    if marked {
        MARK
    } else {
        NO_MARK
    }
}

/// How many terms are inside a term none of whose children is listed.
fn hidden(tree: &Tree, terms: &[usize], term: usize) -> usize {
    let open = terms
        .iter()
        .any(|&other| tree.node(other).parent == Some(term));
    if open {
        0
    } else {
        tree.node(term).size - 1
    }
}

fn note_row(reading: &Reading, tree: &Tree, term: usize, note: &str) -> Vec<String> {
    let mut row = vec![String::new(); titles(reading).len() - 1];
    row.push(format!("{}^ {note}", indent(tree, term)));
    row
}

fn indent(tree: &Tree, term: usize) -> String {
    "| ".repeat(tree.node(term).depth)
}

fn titles(reading: &Reading) -> Vec<String> {
    let titles: &[&str] = if reading.tells_terms() {
        &["term", "by", "type", "needs", ""]
    } else {
        &["term", "by", ""]
    };
    titles.iter().map(|title| title.to_string()).collect()
}

fn row(reading: &Reading, tree: &Tree, term: usize) -> Vec<String> {
    let node = tree.node(term);
    let by = node.signer.map_or(String::new(), |signer| {
        reading.names.principal(signer.into())
    });
    let mut row = vec![term.to_string(), by];
    if reading.tells_terms() {
        row.extend(judged(reading, term));
    }
    row.push(format!(
        "{}{}",
        indent(tree, term),
        words(reading, tree, term)
    ));
    row
}

/// Type and needs.
fn judged(reading: &Reading, term: usize) -> [String; 2] {
    match reading.answer(term) {
        TermAnswer::Judged { ty, needs } => {
            let needs = if needs == 0 {
                String::new()
            } else {
                reading.names.set(needs)
            };
            [reading.types.short(ty as usize), needs]
        }
        TermAnswer::Refused(refusal) => [refused(refusal, term).to_string(), String::new()],
        TermAnswer::Nothing => [String::new(), String::new()],
    }
}

/// Whether a term is at fault, or is refused because a term inside it is.
pub fn refused(refusal: Refusal, term: usize) -> &'static str {
    if refusal.place as usize == term {
        "refused"
    } else {
        "(refused)"
    }
}

/// What a term is to its parent, and what it is.
pub fn words(reading: &Reading, tree: &Tree, term: usize) -> String {
    match tree.node(term).role {
        "" => reading.in_words(term),
        role => format!("{role}: {}", reading.in_words(term)),
    }
}

/// A term with what is around it: the terms from the root, their other children, and what is inside it, to some depth. Where
/// children are left out, it is said how many terms that are.
pub fn surroundings(reading: &Reading, tree: &Tree, mark: &Mark) -> Vec<String> {
    let path = tree.path(mark.term);
    let depth = tree.node(mark.term).depth;
    let seen = |&other: &usize| {
        let node = tree.node(other);
        let near = node.depth <= depth + BELOW && tree.within(mark.term, other);
        near || path.contains(&other) || node.parent.is_some_and(|parent| path.contains(&parent))
    };
    let terms: Vec<usize> = tree.order.iter().copied().filter(seen).collect();
    lines(reading, tree, &terms, Some(mark))
}
