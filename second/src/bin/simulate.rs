//! Reads a scenario from standard input and writes the answers.

use std::io::{self, Read, Write};

fn main() -> io::Result<()> {
    let mut input = Vec::new();
    let first = second::scenario::INPUT_BYTES as u64;
    // Standard input that cannot be read counts as ended.
    let _ = io::stdin().lock().take(first).read_to_end(&mut input);
    io::stdout().lock().write_all(&second::scenario::simulate(&input))
}
