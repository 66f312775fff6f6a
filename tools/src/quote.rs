//! What a person gave, as it is told back in a message. Letters that would move the cursor or hide others are shown by
//! their code, and a long word is cut, so that a message stays one line of a terminal.

/// The most letters that are told back.
const MOST: usize = 40;

/// The word without quotes.
pub fn shown(word: &str) -> String {
    let mut letters = word.chars();
    let mut shown: String = letters.by_ref().take(MOST).map(letter).collect();
    if letters.next().is_some() {
        shown += "...";
    }
    shown
}

/// The word in quotes.
pub fn quoted(word: &str) -> String {
    format!("'{}'", shown(word))
}

fn letter(letter: char) -> String {
    match letter {
        // These would be escaped too, and do no harm.
        '\'' | '"' | '\\' => letter.to_string(),
        _ => letter.escape_debug().to_string(),
    }
}
