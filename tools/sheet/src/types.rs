//! Types written out.

use crate::names::Names;
use crate::sheet::{Sheet, TypeRecord};

/// A part of a type that takes more characters is named by its number.
const PART: usize = 40;

/// The types of a sheet, each written out from those before it.
#[derive(Debug)]
pub struct Types(Vec<String>);

impl Types {
    pub fn new(sheet: &Sheet, names: &Names) -> Self {
        let mut types = Self(Vec::new());
        for (number, record) in sheet.types.iter().enumerate() {
            let text = match (record.kind, number) {
                (0, _) => "boolean".to_string(),
                (1, _) => "number".to_string(),
                (2, _) => types.function(record, names),
                (kind, _) => format!("of no kind that there is, {kind}"),
            };
            types.0.push(text);
        }
        types
    }

    fn function(&self, record: &TypeRecord, names: &Names) -> String {
        let argument = self.short(record.argument.into());
        let result = self.short(record.result.into());
        let argument = if argument.contains("->") {
            format!("({argument})")
        } else {
            argument
        };
        format!("{argument} {} {result}", arrow(record.latent, names))
    }

    /// The type, however long.
    pub fn full(&self, number: usize) -> String {
        self.0
            .get(number)
            .cloned()
            .unwrap_or_else(|| format!("type {number}"))
    }

    /// The type, or its number where it takes many characters.
    pub fn short(&self, number: usize) -> String {
        match self.0.get(number) {
            Some(text) if text.chars().count() <= PART => text.clone(),
            _ => format!("type {number}"),
        }
    }
}

/// The arrow of a function type, with what a call may need.
fn arrow(latent: u32, names: &Names) -> String {
    if latent == 0 {
        "->".into()
    } else {
        format!("-{}->", names.set(latent))
    }
}
