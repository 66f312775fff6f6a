//! Compares the proved calls with the second planner on as many random files as one likes. The last line is
//! 'N passed, M failed', counted in files, and the exit status is 0 only where none failed.

use outside::calls::PROVED;
use outside::difference::hex_lines;
use outside::{Comparison, Tally};
use second::make::{case, form, records};
use std::process::ExitCode;

const USAGE: &str = "usage: outside [--files N] [--seed S] [--from INDEX]";

/// Failed files that are shown in full; the others are only counted.
const SHOWN: u64 = 10;

struct Asked {
    files: u64,
    seed: u64,
    from: u64,
}

fn main() -> ExitCode {
    let Some(asked) = asked(std::env::args().skip(1)) else {
        eprintln!("{USAGE}");
        return ExitCode::from(2);
    };
    let mut comparison = Comparison::new(PROVED);
    let mut tally = Tally::default();
    for index in asked.from..asked.from.saturating_add(asked.files) {
        let note = Note { seed: asked.seed, index };
        let (case, records) = (case(asked.seed, index), records(asked.seed, index));
        let form = form(asked.seed, index);
        let seen = comparison.check(&case, &records);
        match seen.and_then(|seen| Ok((seen, comparison.check_form(&form)?))) {
            Ok((seen, number)) => {
                tally.add(seen);
                tally.add_form(number);
            }
            Err(difference) => {
                tally.failed += 1;
                if tally.failed <= SHOWN {
                    println!("FAILED: the file of seed {} index {index}", asked.seed);
                    println!("{difference}");
                    println!("  the file, {} bytes:", case.file.len());
                    print!("{}", hex_lines(&case.file));
                    println!("  the form: pieces {:?}", form.pieces);
                    println!("  links {:?}", form.links);
                }
            }
        }
        drop(note);
        if (index + 1 - asked.from) % 50_000 == 0 {
            eprintln!("{} files compared", index + 1 - asked.from);
        }
    }
    println!("{tally}");
    ExitCode::from(u8::from(tally.failed > 0))
}

/// Names the file where one of the planners breaks off instead of answering.
struct Note {
    seed: u64,
    index: u64,
}

impl Drop for Note {
    fn drop(&mut self) {
        if std::thread::panicking() {
            eprintln!("at the file of seed {} index {}", self.seed, self.index);
        }
    }
}

fn asked(mut words: impl Iterator<Item = String>) -> Option<Asked> {
    let mut asked = Asked { files: 200_000, seed: 1, from: 0 };
    while let Some(word) = words.next() {
        let number = words.next()?.parse().ok()?;
        match word.as_str() {
            "--files" => asked.files = number,
            "--seed" => asked.seed = number,
            "--from" => asked.from = number,
            _ => return None,
        }
    }
    Some(asked)
}
