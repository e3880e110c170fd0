//! `sheet check`.

use super::why::chain;
use super::{read_request, Command, ACCEPTED, REFUSED};
use crate::arguments::{Arguments, Form};
use crate::causes;
use crate::console::{Console, Failure};
use crate::library::{self, Piece, Verdict};
use crate::reading::Reading;
use crate::show::{counted, mark_of, verdict};
use crate::{hex, listing};

pub const COMMAND: Command = Command {
    name: "check",
    form: Form {
        operands: &["FILE"],
        valued: &["--names"],
        flags: &["--hex"],
    },
    help: "\
usage: sheet check [--names NAMES] [--hex] FILE

Says whether the sheet is accepted. If it is, what it needs and where each need
comes from: the terms from the root down to the cause. If it is refused, the
cause, the place with what is around it, and the smallest piece of the sheet
that is refused by itself.

  --names NAMES  a file with lines such as 'privilege 0 stamp' and 'principal 1
                 inspector'; the names stand where a number would
  --hex          FILE is hexadecimal text, whatever its name

The exit status is 1 if the sheet is refused.
",
    run,
};

fn run(arguments: &Arguments, console: &mut Console) -> Result<u8, Failure> {
    let (bytes, names) = read_request(arguments, console)?;
    let reading = Reading::new(&bytes, &names);
    let mut lines = verdict(&reading);
    let status = match reading.verdict {
        Ok(verdict) => {
            lines.extend(needs(&reading, verdict));
            ACCEPTED
        }
        Err(_) => {
            lines.extend(fault(&reading));
            REFUSED
        }
    };
    console.write(format!("{}\n", lines.join("\n")).as_bytes())?;
    Ok(status)
}

/// Where each need comes from.
fn needs(reading: &Reading, verdict: Verdict) -> Vec<String> {
    let mut lines = Vec::new();
    for privilege in (0..32).filter(|&privilege| verdict.needs >> privilege & 1 == 1) {
        lines.push(String::new());
        match library::explain(reading.sheet.bytes, privilege) {
            Ok(terms) => lines.extend(chain(reading, privilege, &terms)),
            Err(refusal) => lines.push(causes::heading_at(refusal.cause, refusal.place)),
        }
    }
    lines
}

/// A larger piece is told without a listing.
const LISTED: u32 = 40;

/// The place of a fault of the rules, and the smallest piece.
fn fault(reading: &Reading) -> Vec<String> {
    let mut lines = Vec::new();
    let mark = mark_of(reading, reading.verdict.err());
    if let (Some(tree), Some(mark)) = (&reading.tree, &mark) {
        lines.push(String::new());
        lines.extend(listing::surroundings(reading, tree, mark));
    }
    if let Some(piece) = library::piece(reading.sheet.bytes) {
        lines.push(String::new());
        lines.extend(smallest(reading, piece));
        if mark.is_none_or(|mark| mark.term != piece.term as usize) && piece.terms <= LISTED {
            lines.extend(inside(reading, piece.term as usize));
        }
    }
    lines
}

/// The piece, with its record in the bytes that the library tells.
fn smallest(reading: &Reading, piece: Piece) -> [String; 2] {
    let end = piece.offset.saturating_add(piece.length);
    let record = reading.sheet.bytes.get(piece.offset..end).unwrap_or(&[]);
    let terms = counted(piece.terms as usize, "term");
    let cause = causes::heading(piece.cause);
    [
        format!(
            "smallest piece that is refused by itself: term {}, {terms}, by {cause}",
            piece.term
        ),
        format!(
            "  its record, at byte {}: {}",
            piece.offset,
            hex::term(record)
        ),
    ]
}

/// A term and all that is in it.
fn inside(reading: &Reading, term: usize) -> Vec<String> {
    let Some(tree) = reading
        .tree
        .as_ref()
        .filter(|_| term < reading.sheet.terms.len())
    else {
        return Vec::new();
    };
    let terms: Vec<usize> = tree
        .order
        .iter()
        .copied()
        .filter(|&other| tree.within(term, other))
        .collect();
    listing::lines(reading, tree, &terms, None)
}
