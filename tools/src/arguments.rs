//! What the program is asked for: a command, the file that it reads, and for a chart the width.

use crate::chart::{LEAST_WIDTH, MOST_WIDTH};
use crate::quote::quoted;

#[derive(Clone, Copy, Debug, PartialEq, Eq)]
pub enum Command {
    Make,
    Show,
    Chart,
    Svg,
    Help,
}

#[derive(Clone, Debug, PartialEq, Eq)]
pub struct Asked {
    pub command: Command,
    /// Standard input if there is none.
    pub file: Option<String>,
    pub width: Option<i64>,
}

/// Why a call cannot be done.
#[derive(Clone, Debug, PartialEq, Eq)]
pub enum Wrong {
    /// It is no call that the program knows.
    Call,
    /// It has a value that cannot be; this is why.
    Value(String),
}

/// Reads the words after the name of the program.
pub fn asked(words: &[&str]) -> Result<Asked, Wrong> {
    let (command, mut rest) = words.split_first().ok_or(Wrong::Call)?;
    let command = match *command {
        "make" => Command::Make,
        "show" => Command::Show,
        "chart" => Command::Chart,
        "svg" => Command::Svg,
        "help" | "--help" | "-h" => {
            return Ok(Asked { command: Command::Help, file: None, width: None })
        }
        _ => return Err(Wrong::Call),
    };
    let mut asked = Asked { command, file: None, width: None };
    while let Some((word, after)) = rest.split_first() {
        let (number, after) = match (word.strip_prefix("--width"), after) {
            (Some(""), [number, after @ ..]) => (Some(*number), after),
            (Some(joined), _) => (Some(joined.strip_prefix('=').ok_or(Wrong::Call)?), after),
            (None, _) => (None, after),
        };
        match number {
            Some(number) if command == Command::Chart && asked.width.is_none() => {
                asked.width = Some(width(number)?);
            }
            None if asked.file.is_none() && (*word == "-" || !word.starts_with('-')) => {
                asked.file = Some(word.to_string());
            }
            _ => return Err(Wrong::Call),
        }
        rest = after;
    }
    Ok(asked)
}

fn width(number: &str) -> Result<i64, Wrong> {
    let known = |width: &i64| (LEAST_WIDTH..=MOST_WIDTH).contains(width);
    let why = || {
        let number = quoted(number);
        Wrong::Value(format!(
            "the width {number} is not a number from {LEAST_WIDTH} to {MOST_WIDTH}"
        ))
    };
    number.parse().ok().filter(known).ok_or_else(why)
}
