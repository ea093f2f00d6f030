//! The batch format of tests/cases/FORMAT.md: cases as bytes, answers as text.

use crate::edge::next_edge_by;
use crate::list::{compile_by, play, Compiled};
use crate::profile::{Profile, NUMBERS};
use crate::refusal::Refusal;
use crate::rules::check;
use crate::script::{read, write};
use crate::text::text_by;
use crate::upload::{cut, read_chunks, read_on, Upload, ROOM};
use crate::word::{level_by, locate};
use std::fmt::{Display, Write as _};

/// "payload of at most 65,536 bytes"
pub const PAYLOAD_MOST: usize = 65_536;
pub const SCRIPT_MOST_IN_A_CASE: usize = 40_000;
pub const ENTRIES_MOST: usize = 4096;

/// One question to one entry point. A version may be any number. Lengths are
/// those of all chunks but the last; bytes follow what an upload has got.
#[derive(Clone, PartialEq, Eq, Debug)]
pub enum Case {
    Read { script: Vec<u8> },
    ReadChunks { version: u16, lengths: Vec<u16>, script: Vec<u8> },
    ReadOn { upload: Upload, version: u16, lengths: Vec<u16>, bytes: Vec<u8> },
    Check { profile: Profile },
    Write { profile: Profile, slice: Vec<u8> },
    Level { profile: Profile, version: u16, line: u64, pixel: u64 },
    NextEdge { profile: Profile, version: u16, line: u64, pixel: u64 },
    Locate { profile: Profile, n: u64 },
    Compile { engine: Engine, profile: Profile, version: u16, counts: Vec<u32>, words: Vec<u16> },
    Play { counts: Vec<u32>, words: Vec<u16>, used: u64, position: u64 },
    Text { version: u16, script: Vec<u8> },
}

/// Which engine a compile asks. "Both engines give the same list, need in
/// refusal 18 and untouched entries on every profile": one answers for both here.
#[derive(Clone, Copy, PartialEq, Eq, Debug)]
pub enum Engine {
    Plain,
    /// "jumps from edge to edge"
    Jumping,
}

// ---------------------------------------------------------------------------
// Cases as bytes

impl Case {
    pub fn kind(&self) -> char {
        match self {
            Case::Read { .. } => 'R',
            Case::ReadChunks { .. } => 'U',
            Case::ReadOn { .. } => 'V',
            Case::Check { .. } => 'C',
            Case::Write { .. } => 'W',
            Case::Level { .. } => 'L',
            Case::NextEdge { .. } => 'E',
            Case::Locate { .. } => 'N',
            Case::Compile { engine: Engine::Plain, .. } => 'K',
            Case::Compile { engine: Engine::Jumping, .. } => 'J',
            Case::Play { .. } => 'P',
            Case::Text { .. } => 'T',
        }
    }

    /// Kind byte, payload length as u32, payload.
    pub fn encode(&self) -> Vec<u8> {
        let payload = self.payload();
        assert!(payload.len() <= PAYLOAD_MOST, "a payload over its limit");
        let mut out = vec![self.kind() as u8];
        out.extend((payload.len() as u32).to_le_bytes());
        out.extend(payload);
        out
    }

    fn payload(&self) -> Vec<u8> {
        let mut out = Vec::new();
        match self {
            Case::Read { script } => put_script(&mut out, script),
            Case::ReadChunks { version, lengths, script } => {
                out.extend(version.to_le_bytes());
                put_chunk_lengths(&mut out, lengths);
                put_script(&mut out, script);
            }
            Case::ReadOn { upload, version, lengths, bytes } => {
                put_profile(&mut out, &upload.profile);
                out.extend(version.to_le_bytes());
                put_arrived(&mut out, upload);
                put_chunk_lengths(&mut out, lengths);
                put_script(&mut out, bytes);
            }
            Case::Check { profile } => put_profile(&mut out, profile),
            Case::Write { profile, slice } => {
                put_profile(&mut out, profile);
                out.extend(slice);
            }
            Case::Level { profile, version, line, pixel } | Case::NextEdge { profile, version, line, pixel } => {
                put_profile(&mut out, profile);
                out.extend(version.to_le_bytes());
                out.extend(line.to_le_bytes());
                out.extend(pixel.to_le_bytes());
            }
            Case::Locate { profile, n } => {
                put_profile(&mut out, profile);
                out.extend(n.to_le_bytes());
            }
            Case::Compile { engine: _, profile, version, counts, words } => {
                put_profile(&mut out, profile);
                out.extend(version.to_le_bytes());
                put_lengths(&mut out, counts, words);
                put_lists(&mut out, counts, words);
            }
            Case::Play { counts, words, used, position } => {
                put_lengths(&mut out, counts, words);
                out.extend(used.to_le_bytes());
                out.extend(position.to_le_bytes());
                put_lists(&mut out, counts, words);
            }
            Case::Text { version, script } => {
                out.extend(version.to_le_bytes());
                put_script(&mut out, script);
            }
        }
        out
    }
}

fn put_script(out: &mut Vec<u8>, script: &[u8]) {
    assert!(script.len() <= SCRIPT_MOST_IN_A_CASE, "a script over its limit");
    out.extend(script);
}

fn put_profile(out: &mut Vec<u8>, profile: &Profile) {
    for n in profile.numbers() {
        out.extend(n.to_le_bytes());
    }
}

/// An upload but for its profile.
fn put_arrived(out: &mut Vec<u8>, upload: &Upload) {
    out.extend(upload.length.to_le_bytes());
    out.extend(upload.number.to_le_bytes());
    out.extend(upload.place.to_le_bytes());
    out.extend(upload.held.to_le_bytes());
    out.extend(upload.room);
}

/// How many lengths there are, and the lengths.
fn put_chunk_lengths(out: &mut Vec<u8>, lengths: &[u16]) {
    let count = u16::try_from(lengths.len()).expect("lengths over their limit");
    for n in [count].iter().chain(lengths) {
        out.extend(n.to_le_bytes());
    }
}

fn put_lengths(out: &mut Vec<u8>, counts: &[u32], words: &[u16]) {
    assert!(counts.len() <= ENTRIES_MOST && words.len() <= ENTRIES_MOST, "a list over its limit");
    out.extend((counts.len() as u32).to_le_bytes());
    out.extend((words.len() as u32).to_le_bytes());
}

fn put_lists(out: &mut Vec<u8>, counts: &[u32], words: &[u16]) {
    for c in counts {
        out.extend(c.to_le_bytes());
    }
    for w in words {
        out.extend(w.to_le_bytes());
    }
}

/// The cases of a batch; nothing where the batch is at fault.
pub fn decode_batch(batch: &[u8]) -> Option<Vec<Case>> {
    let mut rest = Bytes { left: batch };
    let mut cases = Vec::new();
    while !rest.left.is_empty() {
        let kind = rest.take(1)?[0];
        let length = rest.u32()? as usize;
        if length > PAYLOAD_MOST {
            return None;
        }
        cases.push(decode(kind, rest.take(length)?)?);
    }
    Some(cases)
}

/// A payload has exactly the bytes its kind asks for.
fn decode(kind: u8, payload: &[u8]) -> Option<Case> {
    let mut rest = Bytes { left: payload };
    let case = match kind {
        b'R' => Case::Read { script: rest.script()? },
        b'U' => {
            let (version, lengths) = (rest.u16()?, rest.chunk_lengths()?);
            Case::ReadChunks { version, lengths, script: rest.script()? }
        }
        b'V' => {
            let (profile, version) = (rest.profile()?, rest.u16()?);
            let (upload, lengths) = (rest.upload(profile)?, rest.chunk_lengths()?);
            Case::ReadOn { upload, version, lengths, bytes: rest.script()? }
        }
        b'C' => Case::Check { profile: rest.profile()? },
        b'W' => Case::Write { profile: rest.profile()?, slice: rest.all() },
        b'L' | b'E' => {
            let (profile, version) = (rest.profile()?, rest.u16()?);
            let (line, pixel) = (rest.u64()?, rest.u64()?);
            match kind {
                b'L' => Case::Level { profile, version, line, pixel },
                _ => Case::NextEdge { profile, version, line, pixel },
            }
        }
        b'N' => Case::Locate { profile: rest.profile()?, n: rest.u64()? },
        b'K' | b'J' => {
            let engine = if kind == b'K' { Engine::Plain } else { Engine::Jumping };
            let (profile, version) = (rest.profile()?, rest.u16()?);
            let (counts, words) = (rest.u32()?, rest.u32()?);
            Case::Compile { engine, profile, version, counts: rest.u32s(counts)?, words: rest.u16s(words)? }
        }
        b'P' => {
            let (counts, words) = (rest.u32()?, rest.u32()?);
            let (used, position) = (rest.u64()?, rest.u64()?);
            Case::Play { counts: rest.u32s(counts)?, words: rest.u16s(words)?, used, position }
        }
        b'T' => Case::Text { version: rest.u16()?, script: rest.script()? },
        _ => return None,
    };
    if rest.left.is_empty() {
        Some(case)
    } else {
        None
    }
}

/// Takes little-endian numbers from the front of a slice.
struct Bytes<'a> {
    left: &'a [u8],
}

impl<'a> Bytes<'a> {
    fn take(&mut self, n: usize) -> Option<&'a [u8]> {
        let taken = self.left.get(..n)?;
        self.left = &self.left[n..];
        Some(taken)
    }

    fn all(&mut self) -> Vec<u8> {
        std::mem::take(&mut self.left).to_vec()
    }

    /// All that is left, where a script may be that long.
    fn script(&mut self) -> Option<Vec<u8>> {
        if self.left.len() <= SCRIPT_MOST_IN_A_CASE {
            Some(self.all())
        } else {
            None
        }
    }

    fn u16(&mut self) -> Option<u16> {
        Some(u16::from_le_bytes(self.take(2)?.try_into().ok()?))
    }

    fn u32(&mut self) -> Option<u32> {
        Some(u32::from_le_bytes(self.take(4)?.try_into().ok()?))
    }

    fn u64(&mut self) -> Option<u64> {
        Some(u64::from_le_bytes(self.take(8)?.try_into().ok()?))
    }

    fn u16s(&mut self, n: u32) -> Option<Vec<u16>> {
        (0..n).map(|_| self.u16()).collect()
    }

    fn u32s(&mut self, n: u32) -> Option<Vec<u32>> {
        (0..n).map(|_| self.u32()).collect()
    }

    fn profile(&mut self) -> Option<Profile> {
        Profile::from_numbers(&self.u16s(NUMBERS as u32)?)
    }

    fn upload(&mut self, profile: Profile) -> Option<Upload> {
        Some(Upload {
            profile,
            length: self.u64()?,
            number: self.u16()?,
            place: self.u64()?,
            held: self.u64()?,
            room: self.take(ROOM)?.try_into().ok()?,
        })
    }

    fn chunk_lengths(&mut self) -> Option<Vec<u16>> {
        let count = self.u16()?;
        self.u16s(count as u32)
    }
}

// ---------------------------------------------------------------------------
// Answers as text

/// The lines of case k. At a refusal every part after the toggle is 0 or the
/// empty profile.
pub fn answer(k: usize, case: &Case) -> String {
    let mut out = format!("CASE {k} {}\n", case.kind());
    match case {
        Case::Read { script } => put_read(&mut out, read(script)),
        // What is read is the same by every rule version.
        Case::ReadChunks { version: _, lengths, script } => put_read(&mut out, read_chunks(&cut(script, lengths))),
        Case::ReadOn { upload, version: _, lengths, bytes } => {
            put_read(&mut out, read_on(upload, &cut(bytes, lengths)));
        }
        Case::Check { profile } => put_line(&mut out, head(&check(profile))),
        Case::Write { profile, slice } => {
            let mut slice = slice.clone();
            let written = write(profile, &mut slice);
            put_line(&mut out, head(&written).into_iter().chain([written.unwrap_or(0) as u64]));
            for byte in &slice {
                write!(out, "{byte:02X}").unwrap();
            }
            out.push('\n');
        }
        Case::Level { profile, version, line, pixel } => {
            let word = level_by(*version, profile, *line, *pixel);
            put_line(&mut out, head(&word).into_iter().chain([word.unwrap_or(0) as u64]));
        }
        Case::NextEdge { profile, version, line, pixel } => {
            let edge = next_edge_by(*version, profile, *line, *pixel);
            let found = edge.unwrap_or(None);
            let (line, pixel) = found.unwrap_or((0, 0));
            put_line(&mut out, head(&edge).into_iter().chain([found.is_some() as u64, line, pixel]));
        }
        Case::Locate { profile, n } => {
            let place = locate(profile, *n);
            let (line, pixel) = place.unwrap_or((0, 0));
            put_line(&mut out, head(&place).into_iter().chain([line, pixel]));
        }
        Case::Compile { engine: _, profile, version, counts, words } => {
            let (mut counts, mut words) = (counts.clone(), words.clone());
            let compiled = compile_by(*version, profile, &mut counts, &mut words);
            let Compiled { steps, pixels } = compiled.unwrap_or(Compiled { steps: 0, pixels: 0 });
            put_line(&mut out, head(&compiled).into_iter().chain([steps, pixels]));
            put_line(&mut out, counts);
            put_line(&mut out, words);
        }
        Case::Play { counts, words, used, position } => {
            let word = play(counts, words, *used, *position);
            put_line(&mut out, head(&word).into_iter().chain([word.unwrap_or(0) as u64]));
        }
        Case::Text { version, script } => out += &text_by(*version, script),
    }
    out
}

fn put_read(out: &mut String, read: Result<Profile, Refusal>) {
    put_line(out, head(&read));
    put_line(out, read.unwrap_or(Profile::empty()).numbers());
}

/// Number, place, output and toggle: all 0 where accepted.
fn head<T>(result: &Result<T, Refusal>) -> [u64; 4] {
    match result {
        Ok(_) => [0; 4],
        Err(r) => [r.number as u64, r.place, r.output as u64, r.toggle as u64],
    }
}

/// Decimal numbers separated by single spaces, and an LF.
fn put_line<T: Display>(out: &mut String, numbers: impl IntoIterator<Item = T>) {
    for (i, n) in numbers.into_iter().enumerate() {
        let before = if i == 0 { "" } else { " " };
        write!(out, "{before}{n}").unwrap();
    }
    out.push('\n');
}
