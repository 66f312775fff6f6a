//! The sheets and the bounds of the rules page through the library that other programs link. Every
//! expectation is written by hand from the page; no planner works one out.

mod bounds;
mod extremes;
mod notation;
mod refusals;
mod runs;
mod sheets;
mod writer;
