//! Hold lists: compiling a field, playing a list.

use crate::profile::Profile;
use crate::refusal::*;
use crate::rules::{check, line_length};
use crate::version::NEWEST;
use crate::word::Line;

/// What a compile that answers 0 reports.
#[derive(Clone, Copy, PartialEq, Eq, Debug)]
pub struct Compiled {
    /// 01's S
    pub steps: u64,
    /// 01's P
    pub pixels: u64,
}

/// Compiles the field into the two lent lists by the newest rules.
pub fn compile(profile: &Profile, counts: &mut [u32], words: &mut [u16]) -> Result<Compiled, Refusal> {
    compile_by(NEWEST, profile, counts, words)
}

/// Compiles the field by a rule version. "room is the shorter length"; too
/// little is 18 with "the fewest [steps] of any list that plays the field", its
/// number of runs of equal words. Entries past the used ones are kept, and at a
/// refusal all are.
pub fn compile_by(version: u16, profile: &Profile, counts: &mut [u32], words: &mut [u16]) -> Result<Compiled, Refusal> {
    check(profile)?;
    let room = counts.len().min(words.len());
    let mut needed = 0;
    let mut steps = Vec::new();
    for_each_run(version, profile, |count, word| {
        needed += 1;
        if needed <= room {
            steps.push((count, word));
        }
    });
    demand(needed <= room, NO_ROOM, needed)?;
    for (i, step) in steps.into_iter().enumerate() {
        (counts[i], words[i]) = step;
    }
    Ok(Compiled { steps: needed as u64, pixels: pixels(profile) })
}

/// The runs of equal words of an accepted profile's field, by a rule version.
pub fn steps_needed(version: u16, profile: &Profile) -> usize {
    let mut runs = 0;
    for_each_run(version, profile, |_, _| runs += 1);
    runs
}

/// "the field's pixel count (the sum of its line lengths; the program's P)"
pub fn pixels(profile: &Profile) -> u64 {
    (0..profile.field.lines as u64).map(|line| line_length(profile, line)).sum()
}

/// Hands on each run of equal words, through line ends and region seams:
/// "equal words at a seam share one step".
fn for_each_run(version: u16, profile: &Profile, mut hand_on: impl FnMut(u32, u16)) {
    let mut count = 0;
    let mut held = 0;
    for number in 0..profile.field.lines as u64 {
        let line = Line::new(version, profile, number);
        for pixel in 0..line.length() {
            let word = line.word(pixel);
            if count != 0 && word != held {
                hand_on(count, held);
                count = 0;
            }
            held = word;
            count += 1;
        }
    }
    if count != 0 {
        hand_on(count, held);
    }
}

/// "Playing a list reads no profile: 20 first, then 19." "position n shows the
/// word of the step in which the running sum first exceeds n".
pub fn play(counts: &[u32], words: &[u16], used: u64, position: u64) -> Result<u16, Refusal> {
    let room = counts.len().min(words.len()) as u64;
    demand(used <= room, PLAY_COUNT, 0)?;
    let mut left = position;
    for i in 0..used as usize {
        let count = counts[i] as u64;
        if left < count {
            return Ok(words[i]);
        }
        left -= count;
    }
    Err(refusal(NO_SUCH_PLACE, 0))
}
