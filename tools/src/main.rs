//! The program `desk`: makes and shows job files and draws listings. It reads a file or standard input and writes
//! standard output; mistakes and warnings go to standard error.

use desktools::arguments::{asked, Asked, Command, Wrong};
use desktools::listing::{self, Listing};
use desktools::plan::Plan;
use desktools::{chart, input, judge, make, show, svg, terminal, words};
use std::io::{self, ErrorKind, Write};
use std::process::ExitCode;

const USAGE: &str = "\
usage: desk make [TEXT] > JOBFILE               a job file from its text form
       desk show [JOBFILE]                      the text form of a job file
       desk chart [--width N] [LISTING]         a chart of what deskplan printed
       desk svg [LISTING] > chart.svg           the same as a picture for the browser
Each reads the file named, or standard input if none is named or - is.

The text form, one line for each piece, then one for each link:
       piece translate desk 0 duration 4 release 0 due 20   # a comment
       piece check desk 1 duration 3 due 12
       link translate > check handover 2
Names may be left out; pieces are then 0, 1, 2 and so on. Times are in slots of 15 minutes.
A release or handover not given is 0. A line 'bytes 01 00 ...' gives a record as it is.
What the planner would refuse is made all the same, with a warning that names its line.
";

fn main() -> ExitCode {
    let arguments: Vec<String> =
        std::env::args_os().skip(1).map(|word| word.to_string_lossy().into_owned()).collect();
    let arguments: Vec<&str> = arguments.iter().map(String::as_str).collect();
    let done = match asked(&arguments) {
        Ok(asked) => answer(&asked).and_then(|output| print(&output)),
        Err(Wrong::Value(why)) => Err(why),
        Err(Wrong::Call) => {
            tell(USAGE);
            return ExitCode::from(2);
        }
    };
    match done {
        Ok(()) => ExitCode::SUCCESS,
        Err(why) => {
            tell(&format!("desk: {why}\n"));
            ExitCode::FAILURE
        }
    }
}

/// On standard error. Where nobody reads it, there is nobody to be told of that.
fn tell(words: &str) {
    let _ = io::stderr().write_all(words.as_bytes());
}

/// A reader that has seen enough and closes the pipe is no failure.
fn print(output: &[u8]) -> Result<(), String> {
    let mut to = io::stdout().lock();
    match to.write_all(output).and_then(|()| to.flush()) {
        Err(error) if error.kind() != ErrorKind::BrokenPipe => {
            Err(format!("standard output: {error}"))
        }
        _ => Ok(()),
    }
}

fn answer(asked: &Asked) -> Result<Vec<u8>, String> {
    let file = asked.file.as_deref();
    match asked.command {
        Command::Make => made(&input::text(file)?),
        Command::Show => Ok(show::show(&input::bytes(file)?).into_bytes()),
        Command::Chart => {
            let width = asked.width.or_else(terminal::columns).unwrap_or(80);
            Ok(chart::chart(&plan(&input::text(file)?)?, width).into_bytes())
        }
        Command::Svg => Ok(svg::svg(&plan(&input::text(file)?)?).into_bytes()),
        Command::Help => Ok(USAGE.into()),
    }
}

/// The file is made as asked, also where the planner would refuse it: that is how refusals are tried out.
fn made(text: &str) -> Result<Vec<u8>, String> {
    let made = make::made(text).map_err(|mistake| mistake.to_string())?;
    if let Some(warning) = judge::warning(&made) {
        tell(&format!("desk: warning: {warning}\n"));
    }
    Ok(made.file)
}

/// A refused file has no plan to draw; the planner's reason is told instead.
fn plan(text: &str) -> Result<Plan, String> {
    match listing::read(text) {
        Ok(Listing::Planned(plan)) => Ok(plan),
        Ok(Listing::Refused { number, place }) => Err(words::refusal(number, place)),
        Err(mistake) => Err(mistake.to_string()),
    }
}
