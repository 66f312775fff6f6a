//! A mistake in what a person gave. It carries the line it stands in, so that it can be found and
//! mended.

use std::fmt;

#[derive(Clone, Debug, PartialEq, Eq)]
pub struct Mistake {
    /// Lines count from 1; nothing if the mistake is in no one line.
    pub line: Option<usize>,
    pub what: String,
}

impl Mistake {
    pub fn in_line(line: usize, what: impl Into<String>) -> Mistake {
        Mistake { line: Some(line), what: what.into() }
    }

    pub fn in_all(what: impl Into<String>) -> Mistake {
        Mistake { line: None, what: what.into() }
    }
}

impl fmt::Display for Mistake {
    fn fmt(&self, out: &mut fmt::Formatter<'_>) -> fmt::Result {
        match self.line {
            Some(line) => write!(out, "line {line}: {}", self.what),
            None => write!(out, "{}", self.what),
        }
    }
}
