//! The calls to be timed, each on one shape, and the two sides that answer them.

use crate::fast;
use crate::shapes::{self, Shape};
use desk::{raw, ROOM};
use std::hint::black_box;

#[derive(Clone, Copy, Debug, PartialEq, Eq)]
pub enum Side {
    Proved,
    Plain,
}

pub const SIDES: [Side; 2] = [Side::Proved, Side::Plain];

impl Side {
    pub fn name(self) -> &'static str {
        match self {
            Side::Proved => "proved",
            Side::Plain => "plain",
        }
    }
}

#[derive(Clone, Copy, Debug, PartialEq, Eq)]
pub enum Call {
    Plan,
    Sheet(u8),
    Runs(u8),
}

impl Call {
    pub fn name(self) -> &'static str {
        match self {
            Call::Plan => "plan",
            Call::Sheet(_) => "sheet",
            Call::Runs(_) => "runs",
        }
    }
}

/// One call on one shape.
pub struct Task {
    pub shape: &'static str,
    pub what: &'static str,
    pub call: Call,
    /// The job file, or for the runs call the records of its plan.
    input: Vec<u8>,
}

/// All numbers of an answer; of the runs call, where the stretch begins and ends.
pub type Answer = [i64; 6];

impl Task {
    pub fn run(&self, side: Side, buffer: &mut [u8; ROOM]) -> Answer {
        let input = black_box(&self.input[..]);
        match (self.call, side) {
            (Call::Plan, Side::Proved) => of_plan(raw::plan(input, buffer)),
            (Call::Plan, Side::Plain) => of_plan(fast::plan(input, buffer)),
            (Call::Sheet(desk), Side::Proved) => of_sheet(raw::blocks(input, desk, buffer)),
            (Call::Sheet(desk), Side::Plain) => of_sheet(fast::blocks(input, desk, buffer)),
            (Call::Runs(desk), Side::Proved) => of_runs(input, raw::runs(input, desk)),
            (Call::Runs(desk), Side::Plain) => of_runs(input, fast::runs(input, desk)),
        }
    }

    /// Whether both sides give the same answer and leave the same bytes in a marked buffer.
    pub fn agrees(&self) -> bool {
        let (mut one, mut other) = ([0xA5; ROOM], [0xA5; ROOM]);
        self.run(Side::Proved, &mut one) == self.run(Side::Plain, &mut other) && one == other
    }
}

/// The plan of every shape, and of the accepted ones the sheet and the runs of a desk.
pub fn tasks() -> Vec<Task> {
    let of_shape = |Shape { name, what, file, desk }: Shape| {
        let mut buffer = [0; ROOM];
        let written = raw::plan(&file, &mut buffer).written();
        let task = |call, input: &[u8]| Task { shape: name, what, call, input: input.to_vec() };
        let of_desk = desk.map(|desk| {
            [task(Call::Sheet(desk), &file), task(Call::Runs(desk), &buffer[..written])]
        });
        [task(Call::Plan, &file)].into_iter().chain(of_desk.into_iter().flatten())
    };
    shapes::all().into_iter().flat_map(of_shape).collect()
}

fn of_plan(answer: raw::PlanAnswer) -> Answer {
    let raw::PlanAnswer { number, place, pieces, runs, end, worst } = answer;
    [number, place, pieces, runs, end, worst]
}

fn of_sheet(answer: raw::BlockAnswer) -> Answer {
    let raw::BlockAnswer { number, place, blocks, runs, worst } = answer;
    [number, place, blocks, runs, worst, 0]
}

fn of_runs(records: &[u8], stretch: &[u8]) -> Answer {
    let first = stretch.as_ptr() as i64 - records.as_ptr() as i64;
    [first, first + stretch.len() as i64, 0, 0, 0, 0]
}
