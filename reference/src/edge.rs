//! The next edge by itself.

use crate::profile::Profile;
use crate::refusal::Refusal;
use crate::version::NEWEST;
use crate::word::{level_by, Line};

/// The next edge by the newest rules.
pub fn next_edge(profile: &Profile, line: u64, pixel: u64) -> Result<Option<(u64, u64)>, Refusal> {
    next_edge_by(NEWEST, profile, line, pixel)
}

/// The next edge by a rule version: "from a given line and pixel, the nearest
/// later pixel in the field whose word differs from the word there, as line and
/// pixel, or none; refusals as for a level." Later pixels are looked at one by
/// one, up to the field's end and no further.
pub fn next_edge_by(version: u16, profile: &Profile, line: u64, pixel: u64) -> Result<Option<(u64, u64)>, Refusal> {
    let asked = level_by(version, profile, line, pixel)?;
    for number in line..profile.field.lines as u64 {
        let later = Line::new(version, profile, number);
        let first = if number == line { pixel + 1 } else { 0 };
        if let Some(edge) = (first..later.length()).find(|pixel| later.word(*pixel) != asked) {
            return Ok(Some((number, edge)));
        }
    }
    Ok(None)
}
