//! Shows a job file in the text form from which it can be made again, byte for byte. What is
//! neither a piece nor a link by its bytes is shown as bytes with the reason.

use crate::fields::{Field, Record, AFTER, BEFORE, LINK, LINK_FIELDS, PIECE, PIECE_FIELDS, RECORD};

/// The text form of any bytes.
pub fn show(file: &[u8]) -> String {
    let mut text = String::new();
    let mut pieces = 0;
    for (place, chunk) in file.chunks(RECORD).enumerate() {
        text += &match Record::try_from(chunk) {
            Ok(record) => record_line(&record, place, pieces),
            Err(_) => bytes_line(chunk, &format!("record {place} is cut short")),
        };
        text += "\n";
        pieces += usize::from(chunk.len() == RECORD && chunk[0] == PIECE);
    }
    text
}

fn record_line(record: &Record, place: usize, pieces: usize) -> String {
    let (line, known) = match record[0] {
        PIECE => {
            let line = format!("piece {pieces}{}", words(record, &PIECE_FIELDS));
            (line, with_fields(record, PIECE_FIELDS.iter()))
        }
        LINK => {
            let (before, after) = (BEFORE.get(record), AFTER.get(record));
            let line = format!("link {before} > {after}{}", words(record, &LINK_FIELDS));
            (line, with_fields(record, [&BEFORE, &AFTER].into_iter().chain(&LINK_FIELDS)))
        }
        kind => return bytes_line(record, &format!("record {place} is of unknown kind {kind}")),
    };
    if known == *record {
        return line;
    }
    bytes_line(record, &format!("record {place}, {line}, has bytes that should be zero"))
}

/// The record with its fields alone; a difference lies in bytes that no field has.
fn with_fields<'a>(record: &Record, fields: impl Iterator<Item = &'a Field>) -> Record {
    let mut known = [0; RECORD];
    known[0] = record[0];
    for field in fields {
        field.put(&mut known, field.get(record));
    }
    known
}

fn words(record: &Record, fields: &[Field]) -> String {
    fields.iter().map(|field| format!(" {} {}", field.name, field.get(record))).collect()
}

fn bytes_line(bytes: &[u8], reason: &str) -> String {
    let digits: String = bytes.iter().map(|byte| format!(" {byte:02x}")).collect();
    format!("bytes{digits}  # {reason}")
}
