//! Writes the random file of a seed and an index to standard output. It is meant for a file on
//! which two planners differ and that someone wants to look at.

use std::io::{self, Write};
use std::process::ExitCode;

fn main() -> ExitCode {
    let numbers: Vec<Option<u64>> =
        std::env::args().skip(1).map(|number| number.parse().ok()).collect();
    let [Some(seed), Some(index)] = numbers[..] else {
        eprintln!("usage: make SEED INDEX, both whole numbers");
        return ExitCode::FAILURE;
    };
    match io::stdout().write_all(&second::make::file(seed, index)) {
        Ok(()) => ExitCode::SUCCESS,
        Err(error) => {
            eprintln!("make: {error}");
            ExitCode::FAILURE
        }
    }
}
