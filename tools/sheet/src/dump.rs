//! A sheet as commented hex, in the form of the examples. All its bytes are there, whatever they are.

use crate::hex;
use crate::names;
use crate::reading::Reading;
use crate::sheet::{Field, HEADER, NO_GUARD, PRINCIPAL, TERM, TYPE};
use crate::show::counted;

/// Where comments begin.
const COMMENT: usize = 24;
/// How many bytes a line has that are no record.
const PLAIN: usize = 8;

pub fn dump(reading: &Reading) -> String {
    let mut text = String::new();
    for (index, field) in reading.sheet.fields.iter().enumerate() {
        if index > 0 {
            text.push('\n');
        }
        dump_field(&mut text, reading, field);
    }
    dump_rest(&mut text, reading);
    text
}

fn line(text: &mut String, bytes: &str, comment: &str) {
    text.push_str(&format!("{bytes:<COMMENT$}  # {comment}\n"));
}

fn dump_field(text: &mut String, reading: &Reading, field: &Field) {
    let sheet = &reading.sheet;
    let header = &sheet.bytes[field.header..field.header + HEADER];
    let said = usize::from(u16::from_be_bytes([header[1], header[2]]));
    let content = &sheet.bytes[field.content.clone()];
    let title = match field.tag {
        1 => "version".to_string(),
        2 => counted(said / PRINCIPAL, "principal"),
        3 => counted(said / TYPE, "type"),
        4 => counted(said / TERM, "term"),
        _ => counted(said, "guard"),
    };
    line(text, &hex::header(header), &title);
    match field.tag {
        1 => dump_version(text, content),
        2 => dump_principals(text, reading, content),
        3 => dump_types(text, reading, content),
        4 => dump_terms(text, reading, content),
        _ => dump_guards(text, reading, content),
    }
}

fn dump_version(text: &mut String, content: &[u8]) {
    for version in content.chunks_exact(2) {
        line(
            text,
            &hex::plain(version),
            &u16::from_be_bytes([version[0], version[1]]).to_string(),
        );
    }
}

fn dump_principals(text: &mut String, reading: &Reading, content: &[u8]) {
    let names = reading.names;
    for (number, record) in content.chunks_exact(PRINCIPAL).enumerate() {
        let may = names.set(reading.sheet.principals[number]);
        let name = names.principal(number as u32);
        let who = if name == number.to_string() {
            name
        } else {
            format!("{number}, {name},")
        };
        line(
            text,
            &hex::plain(record),
            &format!("principal {who} may use {may}"),
        );
    }
}

fn dump_types(text: &mut String, reading: &Reading, content: &[u8]) {
    for (number, record) in content.chunks_exact(TYPE).enumerate() {
        let ty = &reading.sheet.types[number];
        let words = match ty.kind {
            0 => "boolean".to_string(),
            1 => "number".to_string(),
            2 => {
                let latent = reading.names.set(ty.latent);
                format!(
                    "function from {} to {}, latent set {latent}",
                    ty.argument, ty.result
                )
            }
            kind => format!("kind {kind}, which there is not"),
        };
        line(
            text,
            &hex::type_record(record),
            &format!("type {number}: {words}"),
        );
    }
}

fn dump_terms(text: &mut String, reading: &Reading, content: &[u8]) {
    let root = reading
        .tree
        .as_ref()
        .and_then(|tree| tree.order.first().copied());
    for (number, record) in content.chunks_exact(TERM).enumerate() {
        let words = reading.record_in_words(&reading.sheet.terms[number]);
        let root = if root == Some(number) {
            "; the root"
        } else {
            ""
        };
        line(
            text,
            &hex::term(record),
            &format!("{number}: {words}{root}"),
        );
    }
}

/// A line for each guarded channel, and one for up to eight in a row that are not.
fn dump_guards(text: &mut String, reading: &Reading, content: &[u8]) {
    let mut channel = 0;
    while let Some(&guard) = content.get(channel) {
        let open = content[channel..]
            .iter()
            .take(PLAIN)
            .take_while(|&&guard| guard == NO_GUARD)
            .count();
        let end = channel + open.max(1);
        let which = if end == channel + 1 {
            format!("channel {channel}")
        } else {
            format!("channels {channel} to {}", end - 1)
        };
        let what = match open {
            0 => reading.names.privilege_in_words(guard.into()),
            _ => names::NO_GUARD.to_string(),
        };
        line(
            text,
            &hex::spaced(&content[channel..end]),
            &format!("{which}: {what}"),
        );
        channel = end;
    }
}

/// What is left where the fields cannot be followed any further.
fn dump_rest(text: &mut String, reading: &Reading) {
    let rest = &reading.sheet.bytes[reading.sheet.end..];
    for (index, bytes) in rest.chunks(PLAIN).enumerate() {
        let at = reading.sheet.end + index * PLAIN;
        if index == 0 && !text.is_empty() {
            text.push('\n');
        }
        line(
            text,
            &hex::spaced(bytes),
            &format!("from byte {at} on, not read"),
        );
    }
    if reading.sheet.bytes.is_empty() {
        text.push_str("# no bytes\n");
    }
}
