//! The calls with all their numbers as the library answers them. A test that compares them sees every bit; whoever
//! plans takes the functions of the crate, which let no refusal pass unseen.
//!
//! ```
//! let answer = desk::raw::plan(&[0; 17], &mut []);
//! assert_eq!((answer.number, answer.place), (2, 0));
//! ```
//!
//! Here is the only unsafe code, a call of the library in a file for each. Nothing checks these declarations against
//! the library's source, so they are few, and all are on numbers and slices of numbers. Why it is sound: the library's
//! functions are proved for every input to end, to read nothing but the slices and to write nothing but the lent buffer
//! and the answer. A slice's pointer holds for its length; that of an empty slice dangles, and a length of 0 asks
//! nothing of its pointer, which may even be null. The borrow checker sees to it that a lent buffer overlaps no file,
//! and the answers are this module's own. The library keeps no state and no pointer, so calls from several threads do
//! not meet.

#![allow(unsafe_code)]

/// What all answers have: a refusal or none, and so many bytes written.
macro_rules! answer {
    ($name:ident, $call:literal, |$answer:ident| $written:expr) => {
        impl $name {
            /// Why the call was refused, if it was.
            ///
            /// ```
            #[doc = concat!("assert!(desk::raw::", stringify!($name), "::default().refusal().is_none());")]
            /// ```
            pub fn refusal(&self) -> Option<$crate::raw::Refusal> {
                let (number, place) = (self.number, self.place);
                (number != 0).then_some($crate::raw::Refusal { number, place })
            }

            #[doc = concat!("How many bytes at the front of the buffer are ", $call, ".")]
            ///
            /// ```
            #[doc = concat!("assert_eq!(desk::raw::", stringify!($name), "::default().written(), 0);")]
            /// ```
            pub fn written(&self) -> usize {
                let $answer = self;
                usize::try_from($written).unwrap_or(0)
            }
        }
    };
}

mod blocks;
mod listing;
mod plan;
mod runs;
mod write;

pub use blocks::{BlockAnswer, blocks};
pub use listing::listing;
pub use plan::{PlanAnswer, plan};
pub use runs::runs;
pub use write::{WriteAnswer, write};

/// A refusal by its number on the list of the rules page, with the place that the list names for it.
///
/// ```
/// let refusal: desk::Refusal = desk::raw::Refusal { number: 11, place: 4 }.into();
/// assert_eq!((refusal.fault, refusal.place), (desk::Fault::Ring, 4));
/// ```
#[derive(Clone, Copy, Debug, PartialEq, Eq)]
pub struct Refusal {
    /// Its number on the list.
    pub number: i64,
    /// The place.
    pub place: i64,
}

/// So many records in bytes; anybody may make up an answer, so a sum too large is as large as can be.
fn bytes_of(first: i64, second: i64) -> i64 {
    first.saturating_add(second).saturating_mul(crate::RECORD as i64)
}
