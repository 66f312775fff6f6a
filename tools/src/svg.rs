//! Draws a plan as an SVG picture for the browser: a row for each desk, a time axis in slots and
//! hours, and a colour for each piece. Late pieces have a red frame and a mark, so that they are
//! found without colour as well.

use crate::plan::Plan;
use crate::time::{hour, length, marks};
use crate::words::{lateness, title, verdict, NO_PIECES};

const WIDTH: i64 = 1000;
const LEFT: f64 = 100.0;
/// The room for all slots; 20 are left free on the right.
const ROOM: f64 = 880.0;
const FIRST_ROW: i64 = 100;
const ROW: i64 = 34;
const LEGEND_ROW: i64 = 18;

/// The whole picture.
pub fn svg(plan: &Plan) -> String {
    if plan.pieces.is_empty() {
        let text = text(20.0, 28, "", NO_PIECES);
        return whole(60, NO_PIECES, &[text]);
    }
    let rows_end = FIRST_ROW + ROW * plan.desks().len() as i64;
    let legend_rows = (plan.pieces.len() as i64 + 1) / 2;
    let mut parts =
        vec![text(20.0, 28, " font-size=\"18\"", &title(plan)), text(20.0, 50, "", &verdict(plan))];
    parts.extend(axis(plan.end, rows_end));
    parts.extend(rows(plan));
    parts.extend(legend(plan, rows_end + 30));
    whole(rows_end + 40 + LEGEND_ROW * legend_rows, &title(plan), &parts)
}

fn whole(height: i64, title: &str, parts: &[String]) -> String {
    let mut all = format!(
        "<svg xmlns=\"http://www.w3.org/2000/svg\" width=\"{WIDTH}\" height=\"{height}\" \
         viewBox=\"0 0 {WIDTH} {height}\" font-family=\"sans-serif\" font-size=\"12\">\n\
         <title>{title}</title>\n\
         <rect width=\"{WIDTH}\" height=\"{height}\" fill=\"#ffffff\"/>\n"
    );
    for part in parts {
        all += part;
        all += "\n";
    }
    all + "</svg>\n"
}

/// Every text drawn is made of plain words and numbers, so nothing needs to be escaped.
fn text(x: f64, y: i64, more: &str, words: &str) -> String {
    format!("<text x=\"{x:.2}\" y=\"{y}\"{more}>{words}</text>")
}

/// The place of a moment from the left.
fn x(moment: i64, end: i64) -> f64 {
    LEFT + ROOM * moment as f64 / end as f64
}

/// A line down for each marked moment, with its slot and its hour above.
fn axis(end: i64, bottom: i64) -> Vec<String> {
    let middle = " text-anchor=\"middle\"";
    let mut parts = vec![text(20.0, 76, "", "slot"), text(20.0, 91, "", "hour")];
    for mark in marks(end, 12) {
        let x = x(mark, end);
        parts.push(text(x, 76, middle, &mark.to_string()));
        parts.push(text(x, 91, middle, &hour(mark)));
        let top = FIRST_ROW - 5;
        parts.push(format!(
            "<line x1=\"{x:.2}\" y1=\"{top}\" x2=\"{x:.2}\" y2=\"{bottom}\" stroke=\"#cccccc\"/>"
        ));
    }
    parts
}

fn rows(plan: &Plan) -> Vec<String> {
    let mut parts = Vec::new();
    for (place, desk) in plan.desks().into_iter().enumerate() {
        let top = FIRST_ROW + ROW * place as i64;
        parts.push(text(20.0, top + 20, "", &format!("desk {desk}")));
        for run in plan.runs.iter().filter(|run| run.desk == desk) {
            let (from, until) = (x(run.from, plan.end), x(run.until, plan.end));
            parts.push(run_box(plan, run.piece, (run.from, run.until), (from, until), top));
        }
    }
    parts
}

/// One run: its box, what it is when pointed at, and the number of its piece where it has room.
fn run_box(plan: &Plan, piece: usize, slots: (i64, i64), ends: (f64, f64), top: i64) -> String {
    let late = plan.late(piece);
    let words = lateness(plan.pieces[piece].late);
    let (from, until) = slots;
    let told =
        format!("piece {piece}: slots {from} to {until} ({}), {words}", length(until - from));
    // A single slot of a long plan would be too thin to be seen.
    let width = (ends.1 - ends.0).max(0.5);
    let frame = if late { "#c00000\" stroke-width=\"2" } else { "#444444\" stroke-width=\"0.5" };
    let label = if late { format!("{piece}!") } else { piece.to_string() };
    let shown = if width < 8.0 * label.len() as f64 + 2.0 {
        String::new()
    } else {
        text((ends.0 + ends.1) / 2.0, top + 20, " text-anchor=\"middle\"", &label)
    };
    format!(
        "<g><title>{told}</title><rect x=\"{:.2}\" y=\"{}\" width=\"{width:.2}\" height=\"24\" \
         fill=\"{}\" stroke=\"{frame}\"/>{shown}</g>",
        ends.0,
        top + 4,
        colour(piece),
    )
}

/// All pieces in two columns.
fn legend(plan: &Plan, top: i64) -> Vec<String> {
    let mut parts = Vec::new();
    for (number, piece) in plan.pieces.iter().enumerate() {
        let (left, y) = (20 + 480 * (number as i64 % 2), top + LEGEND_ROW * (number as i64 / 2));
        parts.push(format!(
            "<rect x=\"{left}\" y=\"{}\" width=\"12\" height=\"12\" fill=\"{}\"/>",
            y - 10,
            colour(number),
        ));
        let words = format!(
            "piece {number}: desk {}, {} to {}, latest {}, {}",
            piece.desk,
            piece.start,
            piece.finish,
            piece.latest,
            lateness(piece.late),
        );
        let more = if plan.late(number) { " fill=\"#c00000\" font-weight=\"bold\"" } else { "" };
        parts.push(text(left as f64 + 18.0, y, more, &words));
    }
    parts
}

/// A light colour on which black is read well. 137 has no factor in common with 360, so no two of
/// 360 pieces have the same hue, and neighbours lie far apart.
pub fn colour(piece: usize) -> String {
    let hue = piece * 137 % 360;
    let (low, high) = (137, 230);
    let step = (high - low) * (hue % 60) / 60;
    let (up, down) = (low + step, high - step);
    let [red, green, blue] = match hue / 60 {
        0 => [high, up, low],
        1 => [down, high, low],
        2 => [low, high, up],
        3 => [low, down, high],
        4 => [up, low, high],
        _ => [high, low, down],
    };
    format!("#{red:02x}{green:02x}{blue:02x}")
}
