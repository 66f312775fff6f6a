//! Draws a plan in the terminal, one row for each desk and time from left to right. Plain letters
//! and marks do all of it, so that it reads the same on paper and without colour.

use crate::plan::{Piece, Plan, Run};
use crate::scale::Scale;
use crate::time::{hour, marks};
use crate::words::{lateness, title, verdict, wrapped, NO_PIECES};

/// Room for "desk 31 " before the columns.
const LABEL: i64 = 8;
pub const LEAST_WIDTH: i64 = 40;
pub const MOST_WIDTH: i64 = 1000;

const REST: char = '.';
const SEVERAL: char = '*';
const LATE: char = '!';
const SYMBOLS: &[u8] = b"0123456789abcdefghijklmnopqrstuvwxyzABCDEFGHIJKLMNOPQRSTUVWXYZ";

/// The whole chart for a terminal of this width, within the least and the most.
pub fn chart(plan: &Plan, width: i64) -> String {
    if plan.pieces.is_empty() {
        return format!("{NO_PIECES}\n");
    }
    let width = width.clamp(LEAST_WIDTH, MOST_WIDTH);
    let scale = Scale::new(plan.end, width - LABEL);
    let symbols = symbols(plan);
    let desks = plan.desks().into_iter();
    let rows: Vec<String> = desks.flat_map(|desk| rows(plan, desk, &scale, &symbols)).collect();
    let wrapped = |sentences: Vec<String>| -> Vec<String> {
        sentences.iter().flat_map(|sentence| wrapped(sentence, width as usize)).collect()
    };
    let parts = [
        wrapped(vec![title(plan), verdict(plan), scale.words()]),
        [axis(plan.end, &scale, width as usize), rows.clone()].concat(),
        table(plan, &symbols, width as usize),
        wrapped(key(plan, &rows)),
    ];
    parts
        .map(|lines| lines.iter().map(|line| format!("{}\n", line.trim_end())).collect::<String>())
        .join("\n")
}

/// A letter for each piece. Few pieces have letters of their own; many share them, but two pieces
/// of one desk only where it has more pieces than there are letters.
fn symbols(plan: &Plan) -> Vec<char> {
    let all_differ = plan.pieces.len() <= SYMBOLS.len();
    let place = |number: usize| {
        let same_desk = |piece: &&Piece| piece.desk == plan.pieces[number].desk;
        plan.pieces[..number].iter().filter(same_desk).count()
    };
    (0..plan.pieces.len())
        .map(|number| if all_differ { number } else { place(number) })
        .map(|place| char::from(SYMBOLS[place % SYMBOLS.len()]))
        .collect()
}

/// Slots and hours above a ruler. A label that would run over the edge is left out.
fn axis(end: i64, scale: &Scale, width: usize) -> Vec<String> {
    let columns = scale.columns(end);
    let mut slots = "slot    ".to_string();
    let mut hours = "hour    ".to_string();
    let mut ruler = vec!['-'; columns as usize];
    let put = |labels: &mut String, at: usize, label: String| {
        if at + label.len() <= width {
            *labels = format!("{labels:<at$}{label}");
        }
    };
    // Seven letters are the most a label takes, and one space parts it from the next.
    for mark in marks(end - 1, columns / 8) {
        let column = scale.column(mark) as usize;
        let at = LABEL as usize + column;
        put(&mut slots, at, mark.to_string());
        put(&mut hours, at, hour(mark));
        ruler[column] = '+';
    }
    vec![slots, hours, format!("{:8}{}", "", String::from_iter(ruler))]
}

/// The row of a desk and, if it has late pieces, a row that marks where they are worked.
fn rows(plan: &Plan, desk: i64, scale: &Scale, symbols: &[char]) -> Vec<String> {
    let runs: Vec<&Run> = plan.runs.iter().filter(|run| run.desk == desk).collect();
    let mut work = format!("desk {desk:<3}");
    let mut late = format!("{:8}", "");
    for column in 0..scale.columns(plan.end) {
        let (from, until) = scale.slots(column);
        let here = || runs.iter().filter(|run| run.from < until && from < run.until);
        let first = here().map(|run| run.piece).next();
        work.push(match first {
            None => REST,
            Some(piece) if here().all(|run| run.piece == piece) => symbols[piece],
            Some(_) => SEVERAL,
        });
        late.push(if here().any(|run| plan.late(run.piece)) { LATE } else { ' ' });
    }
    if late.contains(LATE) {
        vec![work, late]
    } else {
        vec![work]
    }
}

/// All pieces with their letters and numbers. Words that do not fit go to a line of their own.
fn table(plan: &Plan, symbols: &[char], width: usize) -> Vec<String> {
    let mut lines = vec!["   piece  desk  start  finish   latest".to_string()];
    for (number, (piece, symbol)) in plan.pieces.iter().zip(symbols).enumerate() {
        let numbers = format!(
            "{symbol}{number:>7}{:>6}{:>7}{:>8}{:>9}",
            piece.desk, piece.start, piece.finish, piece.latest,
        );
        let words = lateness(piece.late);
        if numbers.len() + 2 + words.len() <= width {
            lines.push(format!("{numbers}  {words}"));
        } else {
            lines.extend([numbers, format!("{:8}{words}", "")]);
        }
    }
    lines
}

/// What the marks mean, as far as they are used.
fn key(plan: &Plan, rows: &[String]) -> Vec<String> {
    let drawn = |mark: char| rows.iter().any(|row| row[LABEL as usize..].contains(mark));
    let mut key = vec!["A letter or digit is a piece as in the table.".to_string()];
    let of_desk = |desk: i64| plan.pieces.iter().filter(|piece| piece.desk == desk).count();
    if plan.desks().into_iter().any(|desk| of_desk(desk) > SYMBOLS.len()) {
        key.push(format!("They repeat after {} pieces of a desk.", SYMBOLS.len()));
    } else if plan.pieces.len() > SYMBOLS.len() {
        key.push("Each desk has its own: the same one on two desks is two pieces.".to_string());
    }
    if drawn(REST) {
        key.push(format!("{REST} the desk rests"));
    }
    if drawn(SEVERAL) {
        key.push(format!("{SEVERAL} several pieces in one column"));
    }
    if plan.worst > 0 {
        key.push(format!("{LATE} the piece above it is late"));
    }
    key
}
