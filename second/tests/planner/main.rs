//! The tests of the second planner. Expectations are worked out by hand from the rules page, or
//! checked by code that decides whether an answer is right instead of working one out.

mod agreement;
mod best;
mod block_method;
mod bounds;
mod checks;
mod notation;
mod order;
mod programs;
mod properties;
mod reach;
mod refusals;
mod runs_call;
mod sheets;
mod urgency;
mod writer;
