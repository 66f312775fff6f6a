//! The plain Rust program against the second planner, by the comparison that the proved calls have to stand.
//! A yardstick that answers wrongly, or answers less, would measure nothing.

use deskbench::fast;
use deskbench::sides::tasks;
use outside::calls::{Calls, PROVED};
use outside::{Comparison, Tally};
use second::make::{case, records};

#[test]
fn the_plain_program_answers_as_the_second_planner() {
    let calls = Calls { plan: fast::plan, blocks: fast::blocks, runs: fast::runs, ..PROVED };
    let mut comparison = Comparison::new(calls);
    let mut tally = Tally::default();
    for index in 0..20_000 {
        match comparison.check(&case(5, index), &records(5, index)) {
            Ok(seen) => tally.add(seen),
            Err(difference) => panic!("the file of seed 5 index {index}\n{difference}"),
        }
    }
    assert!(tally.accepted() > 10_000 && tally.full > 50, "{tally}");
}

#[test]
fn both_sides_agree_on_every_shape() {
    for task in tasks() {
        assert!(task.agrees(), "{} {}", task.shape, task.call.name());
    }
}

/// The shapes are what their words say.
#[test]
fn the_shapes_as_described() {
    let answer = |name: &str| {
        let shapes = deskbench::shapes::all();
        let shape = shapes.iter().find(|shape| shape.name == name).unwrap();
        fast::plan(&shape.file, &mut [0; desk::ROOM])
    };
    for name in ["chain", "turned", "wide", "desks", "links", "nested", "falling", "shuffled"] {
        assert_eq!((answer(name).number, answer(name).pieces), (0, 256), "{name}");
    }
    assert_eq!(answer("nested").runs, 511);
    assert_eq!((answer("falling").runs, answer("falling").end), (256, 512));
    assert_eq!((answer("shuffled").runs, answer("shuffled").end), (256, 512));
    assert_eq!((answer("ring").number, answer("ring").place), (11, 254));
    assert_eq!((answer("refused").number, answer("refused").place), (8, 1279));
}
