//! "The program reads a script from standard input" and prints its text, by the
//! newest rules.

use reference::text::text;
use std::io::{Read, Write};

fn main() -> std::io::Result<()> {
    let mut script = Vec::new();
    std::io::stdin().read_to_end(&mut script)?;
    std::io::stdout().write_all(text(&script).as_bytes())
}
