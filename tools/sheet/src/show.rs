//! A sheet as a listing.

use crate::causes::{self, Place};
use crate::columns;
use crate::fault;
use crate::library::{self, Refusal, MAX_SHEET};
use crate::listing::{self, mark, Mark};
use crate::reading::Reading;
use crate::sheet::CHANNELS;

/// The whole listing.
pub fn listing(reading: &Reading, file: &str) -> String {
    let mut lines = vec![title(reading, file)];
    lines.extend(verdict(reading));
    let fault = reading.verdict.err();
    section(&mut lines, "principals", principals(reading));
    section(
        &mut lines,
        "types",
        types(reading, place_if(fault, Place::Type)),
    );
    section(
        &mut lines,
        "guards",
        guards(reading, place_if(fault, Place::Channel)),
    );
    section(&mut lines, "terms", terms(reading, fault));
    if reading.sheet.flaw.is_some() {
        lines.push(String::new());
        lines.push(format!("=> {}", end_of_reading(reading)));
    }
    lines.push(String::new());
    lines.join("\n")
}

/// The place of a fault, if it is in this table.
pub fn place_if(fault: Option<Refusal>, table: Place) -> Option<usize> {
    let fault = fault.filter(|fault| causes::place(fault.cause) == table)?;
    Some(fault.place as usize)
}

fn section(lines: &mut Vec<String>, title: &str, content: Vec<String>) {
    if !content.is_empty() {
        lines.push(String::new());
        lines.push(title.to_string());
        lines.extend(content);
    }
}

pub fn title(reading: &Reading, file: &str) -> String {
    let sheet = &reading.sheet;
    let mut parts = vec![size(sheet.bytes.len())];
    parts.extend(sheet.version.map(|version| format!("version {version}")));
    parts.push(counted(sheet.principals.len(), "principal"));
    parts.push(counted(sheet.types.len(), "type"));
    parts.push(counted(sheet.terms.len(), "term"));
    format!("{file}: {}", parts.join(", "))
}

/// How many bytes there are. Of an input that is longer than any sheet it is not known, since no more is read than tells that.
fn size(bytes: usize) -> String {
    if bytes > MAX_SHEET {
        format!("more than {MAX_SHEET} bytes")
    } else {
        counted(bytes, "byte")
    }
}

pub fn counted(count: usize, what: &str) -> String {
    let plural = if count == 1 { "" } else { "s" };
    format!("{count} {what}{plural}")
}

/// The verdict in words: one line if the sheet is accepted, else the cause, what it means and what stands there.
pub fn verdict(reading: &Reading) -> Vec<String> {
    match reading.verdict {
        Ok(verdict) => {
            let needs = reading.names.in_words(verdict.needs);
            vec![format!(
                "accepted: gives a {}, needs {needs}",
                base_type(verdict.ty)
            )]
        }
        Err(refusal) => refused(reading, refusal),
    }
}

pub fn refused(reading: &Reading, refusal: Refusal) -> Vec<String> {
    let mut lines = vec![
        format!(
            "refused: {}",
            causes::heading_at(refusal.cause, refusal.place)
        ),
        format!("  {}", causes::sentence(refusal.cause)),
    ];
    lines.extend(fault::detail(reading, refusal).map(|detail| format!("  {detail}")));
    lines
}

pub fn base_type(ty: u32) -> &'static str {
    if ty == library::BOOLEAN {
        "boolean"
    } else {
        "number"
    }
}

fn principals(reading: &Reading) -> Vec<String> {
    let mut rows = Vec::new();
    for (number, &authority) in reading.sheet.principals.iter().enumerate() {
        let name = reading.names.principal(number as u32);
        let name = if name == number.to_string() {
            String::new()
        } else {
            name
        };
        let may = format!("may use {}", reading.names.in_words(authority));
        rows.push(if name.is_empty() {
            vec![number.to_string(), may]
        } else {
            vec![number.to_string(), name, may]
        });
    }
    columns::aligned(&rows)
        .into_iter()
        .map(|line| format!("{}{line}", mark(false)))
        .collect()
}

fn types(reading: &Reading, marked: Option<usize>) -> Vec<String> {
    let count = reading.sheet.types.len();
    let rows: Vec<_> = (0..count)
        .map(|number| vec![number.to_string(), reading.types.full(number)])
        .collect();
    marked_lines(&rows, marked)
}

fn marked_lines(rows: &[Vec<String>], marked: Option<usize>) -> Vec<String> {
    let lines = columns::aligned(rows).into_iter().enumerate();
    lines
        .map(|(number, line)| format!("{}{line}", mark(marked == Some(number))))
        .collect()
}

/// The channels that are guarded, or whose guard is at fault.
fn guards(reading: &Reading, marked: Option<usize>) -> Vec<String> {
    let guarded = (0..CHANNELS).filter_map(|channel| {
        let guard = reading.sheet.guard(channel as u8)?;
        let mark = mark(marked == Some(channel));
        Some(format!(
            "{mark}channel {channel} is guarded by {}",
            reading.names.privilege_in_words(guard.into())
        ))
    });
    let lines: Vec<String> = guarded.collect();
    if lines.is_empty() && !reading.sheet.guards.is_empty() {
        return vec![format!("{}no channel is guarded", mark(false))];
    }
    lines
}

fn terms(reading: &Reading, fault: Option<Refusal>) -> Vec<String> {
    let place = place_if(fault, Place::Term);
    match &reading.tree {
        Some(tree) => listing::lines(reading, tree, &tree.order, mark_of(reading, fault).as_ref()),
        None => records(reading, place),
    }
}

/// The mark of a fault at a term, with what is wrong there.
pub fn mark_of(reading: &Reading, fault: Option<Refusal>) -> Option<Mark> {
    let term = place_if(fault, Place::Term).filter(|&term| term < reading.sheet.terms.len())?;
    let fault = fault?;
    let what =
        fault::detail(reading, fault).unwrap_or_else(|| causes::sentence(fault.cause).into());
    Some(Mark {
        term,
        note: Some(format!("{}: {what}", causes::heading(fault.cause))),
    })
}

/// The terms as they stand in their table, where they may be no tree.
fn records(reading: &Reading, marked: Option<usize>) -> Vec<String> {
    let terms = reading.sheet.terms.iter().enumerate();
    let rows: Vec<_> = terms
        .map(|(number, term)| vec![number.to_string(), reading.record_in_words(term)])
        .collect();
    marked_lines(&rows, marked)
}

/// Where the bytes could no longer be followed.
pub fn end_of_reading(reading: &Reading) -> String {
    let (total, end) = (reading.sheet.bytes.len(), reading.sheet.end);
    match total - end {
        _ if total > MAX_SHEET => format!("the bytes from {end} on are not read"),
        0 => format!("the bytes end here, at byte {end}"),
        1 => format!("the last byte, {end}, is not read"),
        left => format!("the last {left} bytes, from byte {end} on, are not read"),
    }
}
