//! The text form of a job file, read line by line into entries. Names are kept as typed here, since
//! a link may name a piece that stands further down.

use crate::fields::{Field, LINK_FIELDS, PIECE_FIELDS, RECORD};
use crate::mistake::Mistake;
use crate::quote::{quoted, shown};

/// One line that says something.
pub struct Entry {
    pub line: usize,
    pub content: Content,
}

pub enum Content {
    /// The values stand in the order of the fields of a piece.
    Piece { name: Option<String>, values: Vec<u64> },
    /// The values stand in the order of the fields of a link.
    Link { before: String, after: String, values: Vec<u64> },
    /// Bytes to be taken over as they are.
    Bytes(Vec<u8>),
}

/// Reads the whole text; the first mistake ends the reading.
pub fn entries(text: &str) -> Result<Vec<Entry>, Mistake> {
    let mut entries = Vec::new();
    for (place, full) in text.lines().enumerate() {
        let line = place + 1;
        // A comment goes to the end of its line. The arrow needs no spaces around it.
        let said = full.split('#').next().unwrap_or("").replace('>', " > ");
        let words: Vec<&str> = said.split_whitespace().collect();
        if let Some((first, rest)) = words.split_first() {
            let content = content(first, rest).map_err(|what| Mistake::in_line(line, what))?;
            entries.push(Entry { line, content });
        }
    }
    Ok(entries)
}

fn content(first: &str, rest: &[&str]) -> Result<Content, String> {
    match first {
        "piece" => piece(rest),
        "link" => link(rest),
        "bytes" => bytes(rest),
        _ => {
            Err(format!("{} is not known; a line begins with piece, link or bytes", quoted(first)))
        }
    }
}

fn piece(words: &[&str]) -> Result<Content, String> {
    let is_field = |word: &str| PIECE_FIELDS.iter().any(|field| field.name == word);
    let (name, words) = match words.split_first() {
        Some((word, rest)) if !is_field(word) => (Some(word.to_string()), rest),
        _ => (None, words),
    };
    if name.as_deref() == Some(">") || words.first() == Some(&">") {
        return Err("a name must not contain '>'".to_string());
    }
    Ok(Content::Piece { name, values: values(words, &PIECE_FIELDS, "piece")? })
}

fn link(words: &[&str]) -> Result<Content, String> {
    let [before, ">", after, rest @ ..] = words else {
        return Err("a link reads: link BEFORE > AFTER handover N".to_string());
    };
    let values = values(rest, &LINK_FIELDS, "link")?;
    Ok(Content::Link { before: before.to_string(), after: after.to_string(), values })
}

/// Words and numbers in turn, in any order of the words, each at most once.
fn values(words: &[&str], fields: &[Field], of: &str) -> Result<Vec<u64>, String> {
    let mut found = vec![None; fields.len()];
    for pair in words.chunks(2) {
        let Some(place) = fields.iter().position(|field| field.name == pair[0]) else {
            let names: Vec<&str> = fields.iter().map(|field| field.name).collect();
            let word = quoted(pair[0]);
            return Err(format!("{word} is no field of a {of} ({})", names.join(", ")));
        };
        let field = &fields[place];
        let Some(word) = pair.get(1) else {
            return Err(format!("{} is without its number", field.name));
        };
        if found[place].replace(number(word, field)?).is_some() {
            return Err(format!("{} is given twice", field.name));
        }
    }
    let given = found.into_iter().zip(fields);
    given
        .map(|(value, field)| value.or(field.otherwise).ok_or((field.name, of)))
        .collect::<Result<Vec<u64>, (&str, &str)>>()
        .map_err(|(name, of)| format!("the {of} has no {name}"))
}

/// A number that fits the bytes of its field. Whether the planner takes it is not asked.
pub fn number(word: &str, field: &Field) -> Result<u64, String> {
    if !is_number(word) {
        return Err(format!("{} {} is not a whole number from 0 on", field.name, quoted(word)));
    }
    match word.parse() {
        Ok(value) if value <= field.most() => Ok(value),
        _ => {
            let (name, bytes, most) = (field.name, field.bytes, field.most());
            let word = shown(word);
            let noun = if bytes == 1 { "byte" } else { "bytes" };
            Err(format!("{name} {word} does not fit in its {bytes} {noun} (at most {most})"))
        }
    }
}

pub fn is_number(word: &str) -> bool {
    !word.is_empty() && word.bytes().all(|byte| byte.is_ascii_digit())
}

fn bytes(words: &[&str]) -> Result<Content, String> {
    if words.is_empty() || words.len() > RECORD {
        return Err(format!("a line of bytes has 1 to {RECORD} of them, here are {}", words.len()));
    }
    let byte = |word: &&str| {
        let two_digits = word.len() == 2 && word.bytes().all(|byte| byte.is_ascii_hexdigit());
        let byte = two_digits.then(|| u8::from_str_radix(word, 16).ok()).flatten();
        byte.ok_or_else(|| format!("{} is not a byte of two hexadecimal digits", quoted(word)))
    };
    Ok(Content::Bytes(words.iter().map(byte).collect::<Result<Vec<u8>, String>>()?))
}
