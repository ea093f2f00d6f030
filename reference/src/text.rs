//! What the program prints: "has room for 4,096 steps, and prints `steps S
//! pixels P`, then each step as decimal count, space, four upper-case hex
//! digits; or `refused N P` alone; LF ends each line." At 10 the output and the
//! toggle follow: `refused 10 P O T`.

use crate::list::{compile_by, Compiled};
use crate::refusal::{Refusal, TOGGLE_ORDER};
use crate::script::read;
use crate::version::NEWEST;

const ROOM: usize = 4096;

/// The text for a script by the newest rules, which the program goes by.
pub fn text(script: &[u8]) -> String {
    text_by(NEWEST, script)
}

/// The text for a script by a rule version.
pub fn text_by(version: u16, script: &[u8]) -> String {
    let mut counts = [0; ROOM];
    let mut words = [0; ROOM];
    match read(script).and_then(|profile| compile_by(version, &profile, &mut counts, &mut words)) {
        Ok(compiled) => steps(compiled, &counts, &words),
        Err(refusal) => refused(refusal),
    }
}

fn refused(Refusal { number, place, output, toggle }: Refusal) -> String {
    match number {
        TOGGLE_ORDER => format!("refused {number} {place} {output} {toggle}\n"),
        _ => format!("refused {number} {place}\n"),
    }
}

fn steps(compiled: Compiled, counts: &[u32], words: &[u16]) -> String {
    let mut out = format!("steps {} pixels {}\n", compiled.steps, compiled.pixels);
    for i in 0..compiled.steps as usize {
        out += &format!("{} {:04X}\n", counts[i], words[i]);
    }
    out
}
