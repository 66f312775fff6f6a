//! Whether the comparison is worth its name: it finds nothing between the proved calls and the second
//! planner, it finds each of a list of wrong calls, and it expects what the second planner's calls answer.

mod bites;
mod expected;

use outside::{Calls, Comparison, Difference, Tally};
use second::make::{case, form, records};

/// The first difference on the files of a seed, or what was seen without one.
fn compared(calls: Calls, seed: u64, files: u64) -> Result<Tally, Difference> {
    let mut comparison = Comparison::new(calls);
    let mut tally = Tally::default();
    for index in 0..files {
        tally.add(comparison.check(&case(seed, index), &records(seed, index))?);
        tally.add_form(comparison.check_form(&form(seed, index))?);
    }
    Ok(tally)
}
