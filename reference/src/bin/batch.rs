//! Makes batches: `batch stored`, or `batch random SEED COUNT`.

use reference::case::Case;
use reference::{random, stored};
use std::io::{BufWriter, Write};

fn main() -> std::io::Result<()> {
    let arguments: Vec<String> = std::env::args().skip(1).collect();
    let arguments: Vec<&str> = arguments.iter().map(String::as_str).collect();
    let cases = match arguments[..] {
        ["stored"] => stored::cases(),
        ["random", seed, count] => match (seed.parse(), count.parse()) {
            (Ok(seed), Ok(count)) => random::cases(seed, count),
            _ => usage(),
        },
        _ => usage(),
    };
    print(&cases)
}

fn print(cases: &[Case]) -> std::io::Result<()> {
    let mut out = BufWriter::new(std::io::stdout().lock());
    for case in cases {
        out.write_all(&case.encode())?;
    }
    out.flush()
}

fn usage() -> ! {
    eprintln!("usage: batch stored | batch random SEED COUNT");
    std::process::exit(1);
}
