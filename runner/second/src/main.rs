//! Reads clause text on standard input and prints the listing or the X line.

use std::io::{self, Read, Write};

fn main() -> io::Result<()> {
    let mut text = Vec::new();
    // One byte past the greatest text tells a full one from a longer one.
    io::stdin().lock().take(second::numbers::TEXT as u64 + 1).read_to_end(&mut text)?;
    io::stdout().write_all(&second::program(&text))
}
