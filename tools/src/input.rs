//! Reads what the program works on: a file that is named, or standard input. A text may begin with a byte order mark,
//! which some editors write; it is passed over.

use crate::quote::shown;
use std::io::{self, Read};

/// The bytes of a file, of standard input if none is named or `-` is.
pub fn bytes(file: Option<&str>) -> Result<Vec<u8>, String> {
    match file {
        None | Some("-") => {
            let mut bytes = Vec::new();
            let read = io::stdin().read_to_end(&mut bytes);
            read.map(|_| bytes).map_err(|error| format!("standard input: {error}"))
        }
        Some(name) => std::fs::read(name).map_err(|error| format!("{}: {error}", shown(name))),
    }
}

pub fn text(file: Option<&str>) -> Result<String, String> {
    let text = String::from_utf8(bytes(file)?);
    let text = text.map_err(|_| "the input is not a text (UTF-8)".to_string())?;
    Ok(text.strip_prefix('\u{feff}').map(str::to_string).unwrap_or(text))
}
