//! The naive twin of `deskplan`: a job file on standard input, its listing on standard output. It
//! reads no more than the deciding bytes.

use std::io::{self, Read, Write};

fn main() -> io::Result<()> {
    let mut file = Vec::new();
    io::stdin().take(second::listing::DECIDING_BYTES as u64).read_to_end(&mut file)?;
    io::stdout().write_all(&second::listing(&file))
}
