//! What a plan or a refusal says in words. The chart in the terminal and the one for the browser
//! share these sentences.

use crate::plan::Plan;
use crate::time::length;

pub const NO_PIECES: &str = "The plan has no pieces.";

pub fn count(number: i64, noun: &str) -> String {
    match number {
        1 => format!("1 {noun}"),
        _ => format!("{number} {noun}s"),
    }
}

/// A sentence in lines of at most this width, broken between words.
pub fn wrapped(sentence: &str, width: usize) -> Vec<String> {
    let mut lines: Vec<String> = Vec::new();
    for word in sentence.split(' ') {
        match lines.last_mut() {
            Some(line) if line.len() + 1 + word.len() <= width => *line += &format!(" {word}"),
            _ => lines.push(word.to_string()),
        }
    }
    lines
}

/// What is planned and how long it takes.
pub fn title(plan: &Plan) -> String {
    let pieces = count(plan.pieces.len() as i64, "piece");
    let desks = count(plan.desks().len() as i64, "desk");
    format!("Plan of {pieces} on {desks}, finished at slot {} ({}).", plan.end, length(plan.end))
}

/// Whether anything is late.
pub fn verdict(plan: &Plan) -> String {
    let all = plan.pieces.len();
    let late = plan.pieces.iter().filter(|piece| piece.late > 0).count();
    let by = |slots: i64| format!("{} ({})", count(slots, "slot"), length(slots));
    match plan.worst {
        1.. => {
            let (pieces, verb) = (count(all as i64, "piece"), if late == 1 { "is" } else { "are" });
            format!("{late} of {pieces} {verb} late, the worst by {}.", by(plan.worst))
        }
        0 => "No piece is late; the tightest is finished just in time.".to_string(),
        early => format!("No piece is late; the tightest is {} early.", by(-early)),
    }
}

/// The lateness of one piece. Late ones shout, so that they are found without colour.
pub fn lateness(late: i64) -> String {
    match late {
        1.. => format!("LATE by {}", count(late, "slot")),
        0 => "just in time".to_string(),
        early => format!("{} early", count(-early, "slot")),
    }
}

/// The meaning of a refusal on one line, in the words of the planner's own calls.
pub fn refusal(number: i64, place: i64) -> String {
    let refusal: planner::Refusal = planner::raw::Refusal { number, place }.into();
    format!("the job file was {refusal}")
}
