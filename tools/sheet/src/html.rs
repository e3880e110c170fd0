//! A sheet as one page that needs nothing but itself. What colour says is also said in words and by the lines of the boxes, and
//! folding needs no script.

use crate::boxes;
use crate::causes::{self, Place};
use crate::fault;
use crate::hex;
use crate::library::{Refusal, MAX_SHEET};
use crate::reading::Reading;
use crate::sheet::CHANNELS;
use crate::show::{base_type, end_of_reading, place_if, title};

const STYLE: &str = include_str!("page.css");

/// Line and tint of principals, told apart by people who are blind to some colours too. Red is kept for faults.
const COLOURS: [(&str, &str); 7] = [
    ("#0072b2", "#e6f1f7"),
    ("#d98e00", "#fdf5e6"),
    ("#009e73", "#e6f5f1"),
    ("#b85c93", "#faf1f6"),
    ("#3a9bd5", "#eef8fd"),
    ("#a89c00", "#fcfbe4"),
    ("#555555", "#f1f1f1"),
];
/// The next principal has another line. Their count has no factor in common with that of the colours, so that no two
/// principals have both alike.
const LINES: [&str; 5] = ["solid", "dashed", "double", "dotted", "groove"];

/// A table with more rows is folded at first.
const LONG: usize = 12;

/// How many bytes that were not read are shown.
const UNREAD: usize = 256;

pub fn page(reading: &Reading, file: &str) -> String {
    let file = escape(file);
    let facts = escape(&title(reading, ""));
    let facts = facts.trim_start_matches(": ");
    let fault = reading.verdict.err();
    let parts = [
        "<!DOCTYPE html>\n<html lang=\"en\">\n<head>\n<meta charset=\"utf-8\">\n".to_string(),
        "<meta name=\"viewport\" content=\"width=device-width, initial-scale=1\">\n".to_string(),
        format!(
            "<title>{file}</title>\n<style>\n{STYLE}{}</style>\n</head>\n<body>\n",
            principal_styles(reading)
        ),
        format!(
            "<h1>{file}</h1>\n<p class=\"facts\">{facts}</p>\n{}",
            verdict(reading)
        ),
        principals(reading),
        types(reading, place_if(fault, Place::Type)),
        guards(reading, place_if(fault, Place::Channel)),
        terms(reading, fault),
        unread(reading),
        "</body>\n</html>\n".to_string(),
    ];
    parts.concat()
}

/// Text in which nothing is markup.
pub fn escape(text: &str) -> String {
    let mut escaped = String::new();
    for character in text.chars() {
        match character {
            '&' => escaped.push_str("&amp;"),
            '<' => escaped.push_str("&lt;"),
            '>' => escaped.push_str("&gt;"),
            '"' => escaped.push_str("&quot;"),
            '\'' => escaped.push_str("&#39;"),
            _ => escaped.push(character),
        }
    }
    escaped
}

/// A type, with arrows.
pub fn type_text(text: &str) -> String {
    escape(text).replace("-&gt;", "→")
}

fn principal_styles(reading: &Reading) -> String {
    let style = |number: usize| {
        let (line, tint) = COLOURS[number % COLOURS.len()];
        let style = LINES[number % LINES.len()];
        format!(".p{number} {{ --line: {line}; --tint: {tint}; --style: {style}; }}\n")
    };
    (0..reading.sheet.principals.len()).map(style).collect()
}

fn verdict(reading: &Reading) -> String {
    match reading.verdict {
        Ok(verdict) => {
            let needs = escape(&reading.names.in_words(verdict.needs));
            let ty = base_type(verdict.ty);
            format!("<div class=\"verdict\"><p><strong>Accepted.</strong> It gives a {ty} and needs {needs}.</p></div>\n")
        }
        Err(refusal) => refused(reading, refusal),
    }
}

fn refused(reading: &Reading, refusal: Refusal) -> String {
    let heading = escape(&causes::heading_at(refusal.cause, refusal.place));
    let sentence = capital(&escape(causes::sentence(refusal.cause)));
    let detail = fault::detail(reading, refusal).map_or(String::new(), |detail| {
        format!("<p>{}.</p>", capital(&type_text(&detail)))
    });
    format!("<div class=\"verdict refused\"><p><strong>Refused</strong>: {heading}.</p><p>{sentence}.</p>{detail}</div>\n")
}

fn capital(sentence: &str) -> String {
    let mut characters = sentence.chars();
    let first = characters
        .next()
        .map(|first| first.to_uppercase().to_string());
    first.unwrap_or_default() + characters.as_str()
}

/// A table with a title, folded if it is long and has no fault; nothing if it has no rows.
fn table(title: &str, heads: &[&str], rows: &[String]) -> String {
    if rows.is_empty() {
        return String::new();
    }
    let heads: String = heads
        .iter()
        .map(|head| format!("<th>{head}</th>"))
        .collect();
    let faulty = rows.iter().any(|row| row.starts_with(FAULTY));
    let open = if rows.len() > LONG && !faulty {
        ""
    } else {
        " open"
    };
    let count = rows.len();
    format!(
        "<details{open}><summary class=\"title\">{title} ({count})</summary>\n<table>\n<tr>{heads}</tr>\n{}</table>\n</details>\n",
        rows.concat()
    )
}

/// The beginning of a row that is at fault.
const FAULTY: &str = "<tr class=\"fault\">";

fn row(cells: &[String], faulty: bool) -> String {
    let begin = if faulty { FAULTY } else { "<tr>" };
    let cells: String = cells
        .iter()
        .map(|cell| format!("<td>{cell}</td>"))
        .collect();
    format!("{begin}{cells}</tr>\n")
}

fn principals(reading: &Reading) -> String {
    let mut rows = Vec::new();
    for (number, &authority) in reading.sheet.principals.iter().enumerate() {
        let swatch = format!("<span class=\"swatch p{number}\"></span> {number}");
        let name = escape(&reading.names.principal_in_words(number as u32));
        rows.push(row(
            &[swatch, name, escape(&reading.names.in_words(authority))],
            false,
        ));
    }
    table("Principals", &["box", "principal", "may use"], &rows)
}

fn types(reading: &Reading, faulty: Option<usize>) -> String {
    let count = reading.sheet.types.len();
    let cells = |number: usize| {
        [
            number.to_string(),
            format!("<code>{}</code>", type_text(&reading.types.full(number))),
        ]
    };
    let rows: Vec<String> = (0..count)
        .map(|number| row(&cells(number), faulty == Some(number)))
        .collect();
    table("Types", &["number", "type"], &rows)
}

fn guards(reading: &Reading, faulty: Option<usize>) -> String {
    let mut rows = Vec::new();
    for channel in 0..CHANNELS {
        if let Some(guard) = reading.sheet.guard(channel as u8) {
            let guard = escape(&reading.names.privilege_in_words(guard.into()));
            rows.push(row(&[channel.to_string(), guard], faulty == Some(channel)));
        }
    }
    table("Guards", &["channel", "guarded by"], &rows)
}

fn terms(reading: &Reading, fault: Option<Refusal>) -> String {
    match &reading.tree {
        Some(tree) => format!(
            "<h2>Terms ({})</h2>\n{}{}",
            tree.order.len(),
            boxes::legend(reading),
            boxes::tree(reading, tree, fault)
        ),
        None => records(reading, place_if(fault, Place::Term)),
    }
}

/// The terms as they stand in their table, where they may be no tree.
fn records(reading: &Reading, faulty: Option<usize>) -> String {
    let terms = reading.sheet.terms.iter().enumerate();
    let rows = terms.map(|(number, term)| {
        row(
            &[number.to_string(), escape(&reading.record_in_words(term))],
            faulty == Some(number),
        )
    });
    table("Terms", &["number", "record"], &rows.collect::<Vec<_>>())
}

fn unread(reading: &Reading) -> String {
    if reading.sheet.flaw.is_none() {
        return String::new();
    }
    let rest = &reading.sheet.bytes[reading.sheet.end..];
    let words = capital(&end_of_reading(reading));
    let mut bytes = hex::spaced(&rest[..rest.len().min(UNREAD)]);
    if rest.len() > UNREAD || reading.sheet.bytes.len() > MAX_SHEET {
        bytes.push_str(" …");
    }
    let block = if rest.is_empty() {
        String::new()
    } else {
        format!("<p class=\"bytes\">{bytes}</p>\n")
    };
    format!("<h2>Bytes</h2>\n<p class=\"note\">{words}.</p>\n{block}")
}
