//! Tests of the proved calls from outside: through the library that other programs link, against the second
//! planner, on random and damaged files. A difference is shown with the file, so that it can be looked at
//! without running anything again.

pub mod calls;
pub mod compare;
pub mod difference;
pub mod expected;
pub mod forms;
pub mod lent;
pub mod tally;

pub use calls::Calls;
pub use compare::{Comparison, Seen};
pub use difference::Difference;
pub use tally::Tally;
