//! The Markdown table of the benchmark, with a line for each call on each shape.

use crate::count::Counts;
use crate::sides::{Side, Task};

const HEAD: &str = "\
| shape | call | proved | plain Rust | ratio | proved, instructions | plain Rust, instructions | ratio |
|---|---|---|---|---|---|---|---|";

pub fn head() -> &'static str {
    HEAD
}

/// One line; counts are left empty where there are none.
pub fn line(task: &Task, [proved, plain]: [f64; 2], counts: &Counts) -> String {
    let count = |side: Side| {
        let name = (task.shape.into(), task.call.name().into(), side.name().into());
        counts.get(&name).copied()
    };
    let counted = match (count(Side::Proved), count(Side::Plain)) {
        (Some(proved), Some(plain)) => {
            let ratio = proved as f64 / plain as f64;
            format!("{} | {} | {ratio:.2}", grouped(proved), grouped(plain))
        }
        _ => " | | ".into(),
    };
    let (shape, call, ratio) = (task.shape, task.call.name(), proved / plain);
    format!("| {shape} | {call} | {} | {} | {ratio:.2} | {counted} |", time(proved), time(plain))
}

/// Three digits of a time.
fn time(nanoseconds: f64) -> String {
    let (value, unit) = match nanoseconds {
        0.0..1_000.0 => (nanoseconds, "ns"),
        1_000.0..1_000_000.0 => (nanoseconds / 1_000.0, "µs"),
        _ => (nanoseconds / 1_000_000.0, "ms"),
    };
    match value {
        0.0..10.0 => format!("{value:.2} {unit}"),
        10.0..100.0 => format!("{value:.1} {unit}"),
        _ => format!("{value:.0} {unit}"),
    }
}

/// A number with its digits in groups of three.
fn grouped(number: u64) -> String {
    let digits = number.to_string();
    let mut text = String::new();
    for (place, digit) in digits.chars().enumerate() {
        if place > 0 && (digits.len() - place) % 3 == 0 {
            text.push(',');
        }
        text.push(digit);
    }
    text
}

#[test]
fn numbers_and_times_as_text() {
    assert_eq!([7, 999, 1_000, 1_234_567].map(grouped), ["7", "999", "1,000", "1,234,567"]);
    let times = [1.234, 56.78, 999.4, 1_234.0, 98_760.0, 1_500_000.0].map(time);
    assert_eq!(times, ["1.23 ns", "56.8 ns", "999 ns", "1.23 µs", "98.8 µs", "1.50 ms"]);
}
