//! Tools for people around the desk planner. Job files are made from a readable text and shown as
//! one, and the listing that `deskplan` prints is drawn as a chart. None of this judges a job file:
//! that is the planner's work, which is asked for its refusal.

#![deny(unsafe_code)]

pub mod arguments;
pub mod chart;
pub mod fields;
pub mod input;
pub mod judge;
pub mod listing;
pub mod make;
pub mod mistake;
pub mod plan;
pub mod quote;
pub mod ring;
pub mod scale;
pub mod show;
pub mod svg;
pub mod terminal;
pub mod text;
pub mod time;
pub mod words;
