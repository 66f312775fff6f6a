//! Times the proved calls and the plain Rust program on the same inputs and prints a Markdown table. Before
//! that it checks that both give the same answers and buffers, and it stops where they do not.

use deskbench::count::{self, Counts};
use deskbench::measure::medians;
use deskbench::sides::{tasks, Task, SIDES};
use deskbench::{shapes, table};
use std::process::ExitCode;

const USAGE: &str = "usage: bench [--counts FILE]    times, and counts where a file has them
       bench --list             every shape, call and side that can be counted
       bench --count SHAPE CALL SIDE    one call, for a program that counts instructions";

fn main() -> ExitCode {
    let words: Vec<String> = std::env::args().skip(1).collect();
    let words: Vec<&str> = words.iter().map(String::as_str).collect();
    let tasks = tasks();
    match words[..] {
        [] => return print_table(&tasks, &Counts::new()),
        ["--counts", file] => match std::fs::read_to_string(file) {
            Ok(text) => return print_table(&tasks, &count::read(&text)),
            Err(error) => {
                eprintln!("{file}: {error}");
                return ExitCode::FAILURE;
            }
        },
        ["--list"] => print_list(&tasks),
        ["--count", shape, call, side] => {
            let task = tasks.iter().find(|task| task.shape == shape && task.call.name() == call);
            let side = SIDES.into_iter().find(|of| of.name() == side);
            let (Some(task), Some(side)) = (task, side) else { return usage() };
            count::count(task, side);
        }
        _ => return usage(),
    }
    ExitCode::SUCCESS
}

fn usage() -> ExitCode {
    eprintln!("{USAGE}");
    ExitCode::from(2)
}

fn print_list(tasks: &[Task]) {
    for task in tasks {
        for side in SIDES {
            println!("{} {} {}", task.shape, task.call.name(), side.name());
        }
    }
}

fn print_table(tasks: &[Task], counts: &Counts) -> ExitCode {
    if let Some(task) = tasks.iter().find(|task| !task.agrees()) {
        eprintln!("{} {}: the two sides differ", task.shape, task.call.name());
        return ExitCode::FAILURE;
    }
    println!("Median time and instructions of one call. Both sides answer alike on every line.");
    println!("Buffers are made once and not cleared between calls.\n");
    for shape in shapes::all() {
        println!("- {}: {}", shape.name, shape.what);
    }
    println!("\n{}", table::head());
    for task in tasks {
        println!("{}", table::line(task, medians(task), counts));
    }
    ExitCode::SUCCESS
}
