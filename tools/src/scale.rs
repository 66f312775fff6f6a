//! How slots go into the columns of a terminal. A short plan gets several columns for a slot, a
//! long one several slots in a column.

use crate::time::length;

/// One of the two numbers is 1.
pub struct Scale {
    columns_per_slot: i64,
    slots_per_column: i64,
}

impl Scale {
    /// Fits the slots before the end, at least one, into so many columns.
    pub fn new(end: i64, columns: i64) -> Scale {
        Scale {
            // More than four columns for a slot only make the eye wander.
            columns_per_slot: (columns / end).clamp(1, 4),
            slots_per_column: divided_up(end, columns),
        }
    }

    /// The column in which a slot begins.
    pub fn column(&self, slot: i64) -> i64 {
        slot * self.columns_per_slot / self.slots_per_column
    }

    /// How many columns the slots before the end take.
    pub fn columns(&self, end: i64) -> i64 {
        divided_up(end * self.columns_per_slot, self.slots_per_column)
    }

    /// The first slot that a column shows and the first that it shows no more.
    pub fn slots(&self, column: i64) -> (i64, i64) {
        let from = column * self.slots_per_column / self.columns_per_slot;
        (from, from + self.slots_per_column)
    }

    pub fn words(&self) -> String {
        match (self.columns_per_slot, self.slots_per_column) {
            (1, 1) => "One column is one slot (15 min).".to_string(),
            (columns, 1) => format!("One slot (15 min) is {columns} columns."),
            (_, slots) => format!("One column is {slots} slots ({}).", length(slots)),
        }
    }
}

fn divided_up(number: i64, by: i64) -> i64 {
    (number + by - 1) / by
}
