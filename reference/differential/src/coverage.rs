//! What has happened in a test, and how often, so that it doesn't pass for
//! want of anything to compare.

use std::collections::BTreeMap;
use std::fmt;

#[derive(Default)]
pub struct Coverage(BTreeMap<String, usize>);

impl Coverage {
    pub fn count(&mut self, what: impl Into<String>) {
        *self.0.entry(what.into()).or_default() += 1;
    }

    pub fn count_if(&mut self, condition: bool, what: &str) {
        if condition {
            self.count(what);
        }
    }

    /// How often this has happened.
    pub fn times(&self, what: &str) -> usize {
        self.0.get(what).copied().unwrap_or(0)
    }

    /// What should have happened and never did.
    pub fn never(&self, expected: impl IntoIterator<Item = String>) -> Vec<String> {
        let expected = expected.into_iter();
        expected.filter(|what| !self.0.contains_key(what)).collect()
    }
}

impl fmt::Display for Coverage {
    fn fmt(&self, f: &mut fmt::Formatter) -> fmt::Result {
        for (what, times) in &self.0 {
            writeln!(f, "{times:9}  {what}")?;
        }
        Ok(())
    }
}
