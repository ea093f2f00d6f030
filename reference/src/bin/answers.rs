//! Reads a batch on standard input and prints every answer.

use reference::case::{answer, decode_batch};
use std::io::{BufWriter, Read, Write};

fn main() -> std::io::Result<()> {
    let mut batch = Vec::new();
    std::io::stdin().read_to_end(&mut batch)?;
    let Some(cases) = decode_batch(&batch) else {
        eprintln!("the batch is at fault");
        std::process::exit(1);
    };
    let mut out = BufWriter::new(std::io::stdout().lock());
    for (k, case) in cases.iter().enumerate() {
        out.write_all(answer(k, case).as_bytes())?;
    }
    out.flush()
}
