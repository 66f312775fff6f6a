//! Asks the proved planner about a file that was made, and says its refusal in the words of the text: the line, the
//! piece or link, and the value that is wrong.

use crate::fields::{Record, AFTER, BEFORE, LINK, LINK_FIELDS, PIECE, PIECE_FIELDS, RECORD};
use crate::make::{is_piece, Made};
use crate::quote::shown;
use crate::ring;
use crate::text::{Content, Entry};
use crate::words::count;
use planner::{Fault, Refusal, ROOM};

/// What the planner would refuse in the file, if anything.
pub fn warning(made: &Made) -> Option<String> {
    let refusal = planner::plan(&made.file, &mut [0; ROOM]).err()?;
    let place = usize::try_from(refusal.place).unwrap_or(usize::MAX);
    let told = match refusal.fault {
        Fault::Ring => on_a_ring(made, place),
        _ => in_a_record(made, &refusal, place),
    };
    let (number, place) = (refusal.fault.number(), refusal.place);
    let told = told.unwrap_or_else(|| refusal.to_string());
    Some(format!("{told} (the planner refuses the file: {number} at {place})"))
}

/// Line and words of the entry, then what is wrong with it.
fn in_entry(made: &Made, place: usize, what: &str) -> Option<String> {
    let Entry { line, content } = made.entries.get(place)?;
    let entry = match content {
        Content::Piece { name: Some(name), .. } => format!("piece {}", shown(name)),
        Content::Piece { name: None, .. } => {
            let before = made.entries.iter().take(place);
            format!("piece {}", before.filter(|entry| is_piece(&entry.content)).count())
        }
        Content::Link { before, after, .. } => format!("link {} > {}", shown(before), shown(after)),
        Content::Bytes(_) => "bytes".to_string(),
    };
    Some(format!("line {line}, {entry}: {what}"))
}

fn in_a_record(made: &Made, refusal: &Refusal, place: usize) -> Option<String> {
    let bytes = made.file.chunks(RECORD).nth(place)?;
    let pieces = made.file.chunks(RECORD).take(place).filter(|record| record[0] == PIECE).count();
    let what = match Record::try_from(bytes) {
        Ok(record) => wrong(&record, refusal.fault, pieces as u64)?,
        Err(_) => format!("{} after the last whole record", count(bytes.len() as i64, "byte")),
    };
    in_entry(made, place, &what)
}

/// The value that is wrong in a whole record, with so many pieces before it.
fn wrong(record: &Record, fault: Fault, pieces: u64) -> Option<String> {
    let [desk, duration, release, due] = PIECE_FIELDS.each_ref().map(|field| field.get(record));
    let [handover] = LINK_FIELDS.each_ref().map(|field| field.get(record));
    Some(match fault {
        Fault::UnknownKind => format!("the kind {} is unknown", record[0]),
        Fault::PieceAfterLink => "a piece after a link".to_string(),
        Fault::TooMany if record[0] == PIECE => "the 257th piece, and 256 are the most".to_string(),
        Fault::TooMany => "the 1,025th link, and 1,024 are the most".to_string(),
        Fault::Desk => format!("the desk {desk} is above 31"),
        Fault::Duration if duration == 0 => "the duration 0 is below 1".to_string(),
        Fault::Duration => format!("the duration {duration} is above 960"),
        Fault::ReleaseOrDue if release > 40_000 => format!("the release {release} is above 40000"),
        Fault::ReleaseOrDue => format!("the due {due} is above 40000"),
        Fault::NotZero => "a byte that must be zero is not".to_string(),
        Fault::NoSuchPiece => {
            let ends = [BEFORE.get(record), AFTER.get(record)];
            let missing = ends.into_iter().find(|&end| end >= pieces)?;
            format!("there is no piece {missing} above it")
        }
        Fault::Handover => format!("the handover {handover} is above 480"),
        _ => return None,
    })
}

/// The ring whole, in the line of its first link.
fn on_a_ring(made: &Made, piece: usize) -> Option<String> {
    let links: Vec<(usize, usize)> = made.file.chunks_exact(RECORD).filter_map(tied).collect();
    let ring = ring::through(piece, &links)?;
    let names: Vec<String> = ring.iter().map(|&piece| name(made, piece)).collect();
    let first = |record: &[u8]| tied(record) == Some((ring[0], ring[1]));
    let place = made.file.chunks_exact(RECORD).position(first)?;
    in_entry(made, place, &format!("a ring: {}", names.join(" > ")))
}

/// The pieces before and after, if the record is a link.
fn tied(record: &[u8]) -> Option<(usize, usize)> {
    let record = Record::try_from(record).ok().filter(|record| record[0] == LINK)?;
    Some((BEFORE.get(&record) as usize, AFTER.get(&record) as usize))
}

/// The name that the text gives a piece, or else its number.
fn name(made: &Made, piece: usize) -> String {
    let mut pieces = made.entries.iter().filter(|entry| is_piece(&entry.content));
    match pieces.nth(piece).map(|entry| &entry.content) {
        Some(Content::Piece { name: Some(name), .. }) => shown(name),
        _ => piece.to_string(),
    }
}
