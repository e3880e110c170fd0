//! The arguments of a command: operands, and options with or without a value.

use std::ffi::{OsStr, OsString};

use crate::console::Failure;
use crate::names::decimal;

/// What a command takes.
pub struct Form {
    pub operands: &'static [&'static str],
    /// Options that take a value.
    pub valued: &'static [&'static str],
    /// Options that take none.
    pub flags: &'static [&'static str],
}

#[derive(Debug, Default)]
pub struct Arguments {
    pub operands: Vec<OsString>,
    values: Vec<(&'static str, OsString)>,
    flags: Vec<&'static str>,
    pub help: bool,
}

impl Arguments {
    pub fn parse(form: &Form, words: &[OsString]) -> Result<Self, Failure> {
        let mut arguments = Self::default();
        let mut words = words.iter();
        let mut options = true;
        while let Some(word) = words.next() {
            if options && word == "--" {
                options = false;
            } else if options && is_option(word) {
                arguments.add_option(form, word, &mut words)?;
            } else {
                arguments.operands.push(word.clone());
            }
        }
        if arguments.help || arguments.operands.len() == form.operands.len() {
            return Ok(arguments);
        }
        Err(Failure::Usage(
            match form.operands.get(arguments.operands.len()) {
                Some(missing) => format!("{missing} is missing"),
                None => format!(
                    "one argument too many, {}",
                    shown(&arguments.operands[form.operands.len()])
                ),
            },
        ))
    }

    fn add_option<'a>(
        &mut self,
        form: &Form,
        word: &OsStr,
        words: &mut impl Iterator<Item = &'a OsString>,
    ) -> Result<(), Failure> {
        if word == "--help" || word == "-h" {
            self.help = true;
        } else if let Some(&flag) = form.flags.iter().find(|&&flag| word == flag) {
            self.flags.push(flag);
        } else if let Some(&option) = form.valued.iter().find(|&&option| word == option) {
            let value = words.next();
            let value = value.ok_or_else(|| Failure::Usage(format!("{option} takes a value")))?;
            if option != "--start" && self.value(option).is_some() {
                return Err(Failure::Usage(format!("{option} is given twice")));
            }
            self.values.push((option, value.clone()));
        } else {
            return Err(Failure::Usage(format!(
                "there is no option {}",
                shown(word)
            )));
        }
        Ok(())
    }

    pub fn has(&self, flag: &str) -> bool {
        self.flags.contains(&flag)
    }

    pub fn value(&self, option: &str) -> Option<&OsString> {
        self.values
            .iter()
            .find(|(name, _)| *name == option)
            .map(|(_, value)| value)
    }

    pub fn all<'a>(&'a self, option: &'a str) -> impl Iterator<Item = &'a OsString> {
        self.values
            .iter()
            .filter(move |(name, _)| *name == option)
            .map(|(_, value)| value)
    }

    /// The number that an option gives.
    pub fn number(&self, option: &str, default: u32) -> Result<u32, Failure> {
        let Some(value) = self.value(option) else {
            return Ok(default);
        };
        let number = value.to_str().and_then(decimal);
        number.ok_or_else(|| {
            Failure::Usage(format!("{option} takes a number, and not {}", shown(value)))
        })
    }
}

fn is_option(word: &OsStr) -> bool {
    word.as_encoded_bytes().starts_with(b"-") && word != "-"
}

/// An argument for people.
pub fn shown(word: &OsStr) -> String {
    format!("'{}'", word.to_string_lossy().escape_debug())
}
