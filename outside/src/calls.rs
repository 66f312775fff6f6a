//! The calls under test as values. The tests of this package put wrong calls in their place and see that the
//! comparison finds them.

use desk::raw::{self, BlockAnswer, PlanAnswer, WriteAnswer};
use desk::LISTING_ROOM;

/// The room that a listing is written into.
pub type Text = [u8; LISTING_ROOM];

pub type Plan = fn(&[u8], &mut [u8]) -> PlanAnswer;
pub type Blocks = fn(&[u8], u8, &mut [u8]) -> BlockAnswer;
pub type Runs = fn(&[u8], u8) -> &[u8];
pub type Listing = for<'a> fn(&[u8], &'a mut Text) -> &'a [u8];
pub type Write = fn(&[u32], &[u32], &mut [u8]) -> WriteAnswer;

#[derive(Clone, Copy)]
pub struct Calls {
    pub plan: Plan,
    pub blocks: Blocks,
    pub runs: Runs,
    pub listing: Listing,
    pub write: Write,
}

/// The calls of the proved library.
pub const PROVED: Calls = Calls {
    plan: raw::plan,
    blocks: raw::blocks,
    runs: raw::runs,
    listing: raw::listing,
    write: raw::write,
};
