//! The program of the second machine: plays the script on standard input.

use second::script::{play, MOST_BYTES};
use std::io::{stdin, stdout, Read, Write};

fn main() -> std::io::Result<()> {
    let mut bytes = Vec::new();
    // one byte more than a script may have is enough to know that it is too long
    stdin().take(MOST_BYTES as u64 + 1).read_to_end(&mut bytes)?;
    stdout().write_all(play(&bytes).as_bytes())
}
