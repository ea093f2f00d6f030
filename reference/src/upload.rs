//! Scripts that arrive in chunks: "a reader that takes each chunk and answers
//! once, at the end, with the number, place and profile of the whole script."
//! Here the chunks are joined first: what they are together is read.

use crate::profile::Profile;
use crate::refusal::*;
use crate::script::{read, read_records, HEADER, SCRIPT_MOST};

/// The bytes of the longest record: a field with two gate lines and seven regions.
pub const ROOM: usize = 58;

/// What an upload has come to. Any numbers may be handed in, also such as no
/// chunks lead to.
#[derive(Clone, PartialEq, Eq, Debug)]
pub struct Upload {
    /// of the records that were taken
    pub profile: Profile,
    /// how many bytes have come
    pub length: u64,
    /// number of the refusal of a record, 0 for none
    pub number: u16,
    /// its place
    pub place: u64,
    /// how many bytes of a record that is not whole are held
    pub held: u64,
    /// the first of these are the bytes held
    pub room: [u8; ROOM],
}

impl Upload {
    /// Nothing has come.
    pub fn start() -> Upload {
        Upload { profile: Profile::empty(), length: 0, number: 0, place: 0, held: 0, room: [0; ROOM] }
    }

    /// The bytes held that count: those that there is room for, and of them none
    /// past the end of the record that they begin with, by its own length.
    fn record_held(&self) -> &[u8] {
        let whole = HEADER + u16::from_le_bytes([self.room[0], self.room[1]]) as usize;
        let held = self.held.min(ROOM as u64) as usize;
        &self.room[..held.min(whole)]
    }

    /// The refusal held. A cut is known at the end alone, and 1 by the length;
    /// so only 3, 4 and 5 can be held, and any other number is none.
    fn refused(&self) -> Option<Refusal> {
        match u8::try_from(self.number) {
            Ok(number @ (UNKNOWN_KIND | LENGTH_NOT_ALLOWED | OUT_OF_RANGE)) => {
                Some(Refusal { place: self.place, ..refusal(number, 0) })
            }
            _ => None,
        }
    }
}

/// Chunks of the given lengths, one after the other, each as far as there are
/// bytes; what is left after the last length is one chunk more.
pub fn cut<'a>(bytes: &'a [u8], lengths: &[u16]) -> Vec<&'a [u8]> {
    let mut chunks = Vec::new();
    let mut left = bytes;
    for length in lengths {
        let (chunk, after) = left.split_at(left.len().min(*length as usize));
        chunks.push(chunk);
        left = after;
    }
    chunks.push(left);
    chunks
}

/// The answer to chunks from the start of an upload on: that of the script which
/// they are together.
pub fn read_chunks(chunks: &[&[u8]]) -> Result<Profile, Refusal> {
    read(&chunks.concat())
}

/// The answer to an upload and the chunks that follow. "A total above 16,384 is
/// 1, even if a bad record came first"; then a refusal that is held; then the
/// record held is read as if it had just come, and what follows it. Where more
/// bytes are held than have come, as many have come.
pub fn read_on(upload: &Upload, chunks: &[&[u8]]) -> Result<Profile, Refusal> {
    let (held, following) = (upload.record_held(), chunks.concat());
    let come = upload.length.max(held.len() as u64);
    let total = come.saturating_add(following.len() as u64);
    demand(total <= SCRIPT_MOST as u64, SCRIPT_TOO_LONG, 0)?;
    match upload.refused() {
        Some(refusal) => Err(refusal),
        None => read_records(&[held, &following].concat(), come as usize - held.len(), upload.profile),
    }
}
