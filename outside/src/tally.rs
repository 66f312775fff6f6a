//! What a run over many files has looked at, so that a pass says what it passed. A run that met no full file
//! or no ring would be worth less than its number of files.

use crate::compare::Seen;
use second::job::{MOST_LINKS, MOST_PIECES};
use std::collections::BTreeMap;
use std::fmt::{self, Display, Formatter};

#[derive(Clone, Debug, Default)]
pub struct Tally {
    pub passed: u64,
    pub failed: u64,
    /// Files by the number of their refusal, 0 for accepted ones.
    pub by_number: BTreeMap<i64, u64>,
    /// Accepted files of 256 pieces, and those that have 1,024 links too.
    pub most_pieces: u64,
    pub full: u64,
    pub sheets: u64,
    pub stretches: u64,
    /// Files that were read and written again, and forms by the number of their refusal, 0 for written ones.
    pub rewritten: u64,
    pub forms: BTreeMap<i64, u64>,
}

impl Tally {
    pub fn add(&mut self, seen: Seen) {
        self.passed += 1;
        *self.by_number.entry(seen.number).or_default() += 1;
        self.most_pieces += u64::from(seen.pieces == MOST_PIECES);
        self.full += u64::from(seen.pieces == MOST_PIECES && seen.links == MOST_LINKS);
        self.sheets += seen.sheets;
        self.stretches += seen.stretches;
        self.rewritten += seen.rewritten;
    }

    /// A form by the number of its refusal, 0 if it was written.
    pub fn add_form(&mut self, number: i64) {
        *self.forms.entry(number).or_default() += 1;
    }

    pub fn accepted(&self) -> u64 {
        self.by_number.get(&0).copied().unwrap_or(0)
    }
}

impl Display for Tally {
    fn fmt(&self, to: &mut Formatter) -> fmt::Result {
        let by_number = refused(&self.by_number);
        writeln!(to, "accepted {}, refused by number {by_number}", self.accepted())?;
        writeln!(to, "with 256 pieces {}, and 1,024 links too {}", self.most_pieces, self.full)?;
        writeln!(to, "block sheets {}, stretches of runs {}", self.sheets, self.stretches)?;
        writeln!(to, "files read and written again {}", self.rewritten)?;
        let written = self.forms.get(&0).copied().unwrap_or(0);
        let by_number = refused(&self.forms);
        writeln!(to, "forms written {written}, refused by number {by_number}")?;
        write!(to, "{} passed, {} failed", self.passed, self.failed)
    }
}

/// The counts behind each number but 0.
fn refused(by_number: &BTreeMap<i64, u64>) -> String {
    let numbers = by_number.iter().filter(|(number, _)| **number != 0);
    numbers.map(|(number, count)| format!("{number}: {count}")).collect::<Vec<_>>().join(", ")
}
