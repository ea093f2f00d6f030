//! The stored batch: fixed, by hand. Every number of refusal at several places,
//! every mode, edge and slip that 01 names. What depends on the rule version is
//! asked by both, and every compile of both engines.

mod chunks;
mod edges;
mod full;
mod gate_lines;
mod lists;
mod ranges;
mod reading;
mod rules;
mod runs;
mod w;
mod words;

use crate::case::{Case, Engine, ENTRIES_MOST};
use crate::list::steps_needed;
use crate::make::*;
use crate::profile::Profile;
use crate::ranges::check_ranges;
use crate::rules::check;
use crate::upload::Upload;
use crate::version::NEWEST;

pub fn cases() -> Vec<Case> {
    let mut batch = Batch { cases: Vec::new() };
    w::add(&mut batch);
    reading::add(&mut batch);
    chunks::add(&mut batch);
    ranges::add(&mut batch);
    rules::add(&mut batch);
    gate_lines::add(&mut batch);
    words::add(&mut batch);
    runs::add(&mut batch);
    lists::add(&mut batch);
    edges::add(&mut batch);
    full::add(&mut batch);
    asked_of_both_engines(batch.cases)
}

/// The cases, and then every compile among them again, of the engine that jumps
/// from edge to edge.
fn asked_of_both_engines(mut cases: Vec<Case>) -> Vec<Case> {
    for i in 0..cases.len() {
        let mut again = cases[i].clone();
        if let Case::Compile { engine, .. } = &mut again {
            *engine = Engine::Jumping;
            cases.push(again);
        }
    }
    cases
}

struct Batch {
    cases: Vec<Case>,
}

impl Batch {
    fn read(&mut self, script: Vec<u8>) {
        self.cases.push(Case::Read { script });
    }

    fn chunks_by(&mut self, version: u16, script: &[u8], lengths: &[u16]) {
        self.cases.push(Case::ReadChunks { version, lengths: lengths.to_vec(), script: script.to_vec() });
    }

    fn chunks(&mut self, script: &[u8], lengths: &[u16]) {
        self.chunks_by(NEWEST, script, lengths);
    }

    fn read_on_by(&mut self, version: u16, upload: &Upload, bytes: &[u8], lengths: &[u16]) {
        let (lengths, bytes) = (lengths.to_vec(), bytes.to_vec());
        self.cases.push(Case::ReadOn { upload: upload.clone(), version, lengths, bytes });
    }

    fn read_on(&mut self, upload: &Upload, bytes: &[u8], lengths: &[u16]) {
        self.read_on_by(NEWEST, upload, bytes, lengths);
    }

    fn check(&mut self, profile: &Profile) {
        self.cases.push(Case::Check { profile: *profile });
    }

    fn write(&mut self, profile: &Profile, room: usize) {
        self.cases.push(Case::Write { profile: *profile, slice: lent_slice(room) });
    }

    fn level_by(&mut self, version: u16, profile: &Profile, line: u64, pixel: u64) {
        self.cases.push(Case::Level { profile: *profile, version, line, pixel });
    }

    fn level(&mut self, profile: &Profile, line: u64, pixel: u64) {
        for version in VERSIONS {
            self.level_by(version, profile, line, pixel);
        }
    }

    fn next_edge_by(&mut self, version: u16, profile: &Profile, line: u64, pixel: u64) {
        self.cases.push(Case::NextEdge { profile: *profile, version, line, pixel });
    }

    fn next_edge(&mut self, profile: &Profile, line: u64, pixel: u64) {
        for version in VERSIONS {
            self.next_edge_by(version, profile, line, pixel);
        }
    }

    fn locate(&mut self, profile: &Profile, n: u64) {
        self.cases.push(Case::Locate { profile: *profile, n });
    }

    fn compile_by(&mut self, version: u16, profile: &Profile, counts: usize, words: usize) {
        let (counts, words) = (lent_counts(counts), lent_words(words));
        self.cases.push(Case::Compile { engine: Engine::Plain, profile: *profile, version, counts, words });
    }

    fn compile(&mut self, profile: &Profile, counts: usize, words: usize) {
        for version in VERSIONS {
            self.compile_by(version, profile, counts, words);
        }
    }

    fn play(&mut self, counts: &[u32], words: &[u16], used: u64, position: u64) {
        self.cases.push(Case::Play { counts: counts.to_vec(), words: words.to_vec(), used, position });
    }

    fn text_by(&mut self, version: u16, script: Vec<u8>) {
        self.cases.push(Case::Text { version, script });
    }

    fn text(&mut self, script: Vec<u8>) {
        for version in VERSIONS {
            self.text_by(version, script.clone());
        }
    }

    /// Checked as it is handed in, and read where a script can carry it.
    fn judge(&mut self, profile: &Profile) {
        self.check(profile);
        if check_ranges(profile).is_ok() {
            self.read(short_script(profile));
        }
    }

    /// Judged, and all its words compiled with two entries to spare.
    fn show(&mut self, profile: &Profile) {
        self.judge(profile);
        for version in VERSIONS {
            self.compile_whole(version, profile);
        }
    }

    /// All words compiled with two entries to spare.
    fn compile_whole(&mut self, version: u16, profile: &Profile) {
        let room = match check(profile) {
            Ok(()) => (steps_needed(version, profile) + 2).min(ENTRIES_MOST),
            Err(_) => 3,
        };
        self.compile_by(version, profile, room, room);
    }

    /// Every entry point that takes a profile, asked what it would accept.
    fn ask_all(&mut self, profile: &Profile) {
        self.judge(profile);
        self.write(profile, 1320);
        self.level(profile, 0, 0);
        self.next_edge(profile, 0, 0);
        self.locate(profile, 0);
        self.compile(profile, 40, 41);
        if check_ranges(profile).is_ok() {
            self.text(short_script(profile));
        }
    }

    /// Every entry point that takes a profile, asked for what is not there: a
    /// refused profile is refused first, "18 or 19 last".
    fn ask_all_too_much(&mut self, profile: &Profile) {
        self.write(profile, 5);
        self.level(profile, u64::MAX, u64::MAX);
        self.next_edge(profile, u64::MAX, u64::MAX);
        self.locate(profile, u64::MAX);
        self.compile(profile, 0, 0);
    }
}
