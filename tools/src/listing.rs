//! Reads the listing that `deskplan` prints. Every line is a word or two and then words with their
//! numbers, so fields that are added later do no harm here. A listing that contradicts itself is
//! told with its line.

use crate::mistake::Mistake;
use crate::plan::{Piece, Plan, Run};
use crate::quote::quoted;
use crate::text::is_number;

#[derive(Clone, Debug, PartialEq, Eq)]
pub enum Listing {
    Planned(Plan),
    Refused { number: i64, place: i64 },
}

/// No number of a plan is further from zero: its records have four bytes for each.
const FURTHEST: u64 = 4_294_967_295;
const MOST_PIECES: usize = 256;
const LAST_DESK: i64 = 31;

/// Reads a whole listing. It ends with its total line, so that one cut short is noticed.
pub fn read(text: &str) -> Result<Listing, Mistake> {
    let mut plan = Plan::default();
    let mut ended = false;
    for (place, line) in text.lines().enumerate() {
        let mistake = |what| Mistake::in_line(place + 1, what);
        if ended {
            return Err(mistake("nothing should follow the last line of a listing".to_string()));
        }
        let words: Vec<&str> = line.split_whitespace().collect();
        match words.first().copied() {
            Some("piece") => {
                let piece = piece(&words, &plan).map_err(mistake)?;
                plan.pieces.push(piece);
            }
            Some("run") => {
                let run = run(&words[1..], &plan).map_err(mistake)?;
                plan.runs.push(run);
            }
            Some("total") => {
                worked(&plan)?;
                total(&words[1..], &mut plan).map_err(mistake)?;
                ended = true;
            }
            Some("refused") if place == 0 => return refused(&words, text).map_err(mistake),
            _ => {
                let line = quoted(line);
                let what = format!("{line} is no line of a listing (piece, run, total, refused)");
                return Err(mistake(what));
            }
        }
    }
    if ended {
        Ok(Listing::Planned(plan))
    } else {
        Err(Mistake::in_all("the listing is cut short: it has no line 'total'"))
    }
}

fn piece(words: &[&str], plan: &Plan) -> Result<Piece, String> {
    let number = plan.pieces.len();
    if !plan.runs.is_empty() || number == MOST_PIECES {
        return Err(format!("at most {MOST_PIECES} pieces stand before the first run"));
    }
    if field(words, "piece")? != number as i64 {
        return Err(format!("piece {number} should stand here"));
    }
    let piece = Piece {
        desk: field(words, "desk")?,
        start: field(words, "start")?,
        finish: field(words, "finish")?,
        latest: field(words, "latest")?,
        late: field(words, "late")?,
    };
    if piece.desk < 0 || piece.start < 0 || piece.finish <= piece.start {
        return Err("desk and start are not below 0, and the finish is after the start".into());
    }
    if piece.desk > LAST_DESK {
        return Err(format!("desk {} is above {LAST_DESK}", piece.desk));
    }
    if piece.late != piece.finish - piece.latest {
        return Err("late is not the finish less the latest moment".into());
    }
    Ok(piece)
}

fn run(words: &[&str], plan: &Plan) -> Result<Run, String> {
    let number = field(words, "piece")?;
    let known = usize::try_from(number).ok().filter(|&number| number < plan.pieces.len());
    let piece = known.ok_or(format!("the run is of piece {number}, which is not listed"))?;
    let run = Run {
        desk: field(words, "desk")?,
        piece,
        from: field(words, "from")?,
        until: field(words, "until")?,
    };
    let of = plan.pieces[piece];
    if run.desk != of.desk || run.from < of.start || run.until > of.finish || run.until <= run.from
    {
        return Err(format!("the run does not fit the line of piece {piece}"));
    }
    match plan.runs.last() {
        Some(above) if run.desk < above.desk => {
            Err(format!("runs go by desk, and desk {} stands above it", above.desk))
        }
        Some(above) if run.desk == above.desk && run.from < above.until => {
            Err(format!("the run begins before the one above it ends, at {}", above.until))
        }
        _ => Ok(run),
    }
}

/// Every piece has runs, the first from its start and the last up to its finish. Pieces stand in
/// the first lines, so that a piece's line is one more than its number.
fn worked(plan: &Plan) -> Result<(), Mistake> {
    for (number, piece) in plan.pieces.iter().enumerate() {
        let of = || plan.runs.iter().filter(|run| run.piece == number);
        let ends = of().next().zip(of().next_back()).map(|(first, last)| (first.from, last.until));
        if ends != Some((piece.start, piece.finish)) {
            let what = format!("the runs of piece {number} do not go from its start to its finish");
            return Err(Mistake::in_line(number + 1, what));
        }
    }
    Ok(())
}

fn total(words: &[&str], plan: &mut Plan) -> Result<(), String> {
    let found = [("pieces", plan.pieces.len()), ("runs", plan.runs.len())];
    for (name, found) in found {
        let said = field(words, name)?;
        if said != found as i64 {
            return Err(format!("the listing has {found} {name}, but its total says {said}"));
        }
    }
    plan.end = field(words, "end")?;
    plan.worst = field(words, "worst")?;
    if plan.end != plan.pieces.iter().map(|piece| piece.finish).max().unwrap_or(0) {
        return Err("the end is not the largest finish".to_string());
    }
    if plan.worst != plan.pieces.iter().map(|piece| piece.late).max().unwrap_or(0) {
        return Err("the worst is not the greatest lateness".to_string());
    }
    Ok(())
}

fn refused(words: &[&str], text: &str) -> Result<Listing, String> {
    if text.lines().count() > 1 {
        return Err("a refused listing has one line".to_string());
    }
    Ok(Listing::Refused { number: field(words, "refused")?, place: field(words, "at")? })
}

/// The number after a word; words and numbers come in turn.
fn field(words: &[&str], name: &str) -> Result<i64, String> {
    let pair = words.chunks(2).find(|pair| pair[0] == name);
    let word = pair.and_then(|pair| pair.get(1)).ok_or(format!("the line has no {name}"))?;
    if !is_number(word.strip_prefix('-').unwrap_or(word)) {
        return Err(format!("{name} {} is not a whole number", quoted(word)));
    }
    let number = word.parse().ok().filter(|number: &i64| number.unsigned_abs() <= FURTHEST);
    number.ok_or_else(|| format!("{name} {} is beyond every plan", quoted(word)))
}
