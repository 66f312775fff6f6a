//! Makes a job file from its text form. Values are written as they were typed if they fit their
//! bytes, so that a person can also try what the planner refuses.

use crate::fields::{Field, Record, AFTER, BEFORE, LINK, LINK_FIELDS, PIECE, PIECE_FIELDS, RECORD};
use crate::mistake::Mistake;
use crate::quote::shown;
use crate::text::{self, Content, Entry};
use std::collections::HashMap;

/// A job file with what it was made of: each record of its own entry, in the same order.
pub struct Made {
    pub file: Vec<u8>,
    pub entries: Vec<Entry>,
}

/// The bytes of the job file that the text describes.
pub fn make(text: &str) -> Result<Vec<u8>, Mistake> {
    Ok(made(text)?.file)
}

/// The same with the entries of the text.
pub fn made(text: &str) -> Result<Made, Mistake> {
    let entries = text::entries(text)?;
    let names = names(&entries)?;
    let mut file = Vec::new();
    for (place, Entry { line, content }) in entries.iter().enumerate() {
        let mistake = |what| Mistake::in_line(*line, what);
        match content {
            Content::Piece { values, .. } => file.extend(record(PIECE, &PIECE_FIELDS, values)),
            Content::Link { before, after, values } => {
                let mut link = record(LINK, &LINK_FIELDS, values);
                for (field, word) in [(BEFORE, before), (AFTER, after)] {
                    field.put(&mut link, named(word, &field, &names).map_err(mistake)?);
                }
                file.extend(link);
            }
            Content::Bytes(bytes) => {
                if bytes.len() < RECORD && place + 1 < entries.len() {
                    let what = format!("fewer than {RECORD} bytes can stand in the last line only");
                    return Err(mistake(what));
                }
                file.extend(bytes);
            }
        }
    }
    Ok(Made { file, entries })
}

fn record(kind: u8, fields: &[Field], values: &[u64]) -> Record {
    let mut record = [0; RECORD];
    record[0] = kind;
    for (field, &value) in fields.iter().zip(values) {
        field.put(&mut record, value);
    }
    record
}

/// The number of each named piece, and the line that named it.
type Names = HashMap<String, (usize, usize)>;

fn names(entries: &[Entry]) -> Result<Names, Mistake> {
    let mut names = Names::new();
    let mut pieces = 0;
    for Entry { line, content } in entries {
        if let Content::Piece { name: Some(name), .. } = content {
            let mistake = |what| Mistake::in_line(*line, what);
            add_name(&mut names, name, pieces, *line).map_err(mistake)?;
        }
        pieces += usize::from(is_piece(content));
    }
    Ok(names)
}

/// A number in place of a name must be the piece's own number.
fn add_name(names: &mut Names, name: &str, piece: usize, line: usize) -> Result<(), String> {
    if text::is_number(name) {
        return if name == piece.to_string() {
            Ok(())
        } else {
            let name = shown(name);
            Err(format!("this is piece {piece} and not {name}; they count from 0 line by line"))
        };
    }
    match names.insert(name.to_string(), (piece, line)) {
        Some((_, before)) => {
            Err(format!("the name {} was given before, in line {before}", shown(name)))
        }
        None => Ok(()),
    }
}

/// A record given by its bytes counts as a piece if the planner would take it for one.
pub fn is_piece(content: &Content) -> bool {
    match content {
        Content::Piece { .. } => true,
        Content::Link { .. } => false,
        Content::Bytes(bytes) => bytes.len() == RECORD && bytes[0] == PIECE,
    }
}

/// The number that a link gives for a piece: a number as typed, a name by its piece.
fn named(word: &str, field: &Field, names: &Names) -> Result<u64, String> {
    if text::is_number(word) {
        return text::number(word, field);
    }
    match names.get(word) {
        Some((number, _)) => text::number(&number.to_string(), field),
        None => Err(format!("no piece has the name {}", shown(word))),
    }
}
