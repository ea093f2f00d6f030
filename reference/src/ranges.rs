//! Refusal 5: "a value outside its range". The ranges are those of "Script
//! records". Reading asks them of each record's item, the check of every item
//! of a profile handed in.

use crate::profile::*;
use crate::refusal::*;

const HALF_MOST: u16 = 4095;
/// Six start levels: "bits 6..11 must be 0 (else 5)".
const LEVELS_MOST: u16 = 63;

/// "A profile handed in directly is held to the same ranges first (5): a number
/// no record can carry, or an absent item (a region past n too) that is not all
/// zeros." The place is 0.
pub fn check_ranges(profile: &Profile) -> Result<(), Refusal> {
    let registers = (0..HALVES).all(|i| half_in_range(i, profile.registers[i]));
    let sequences = profile.sequences.iter().all(|s| in_range_or_absent(s, s.present, sequence_in_range));
    let gates = profile.gates.iter().all(|g| in_range_or_absent(g, g.present, gate_in_range));
    let subck = in_range_or_absent(&profile.subck, profile.subck.present, subck_in_range);
    let shutters = profile.shutters.iter().all(|s| in_range_or_absent(s, s.present, shutter_in_range));
    let field = in_range_or_absent(&profile.field, profile.field.present, field_in_range);
    demand(registers && sequences && gates && subck && shutters && field, OUT_OF_RANGE, 0)
}

/// A present item is held to its ranges, an absent one to zeros.
fn in_range_or_absent<T: Default + PartialEq>(item: &T, present: bool, in_range: fn(&T) -> bool) -> bool {
    if present {
        in_range(item)
    } else {
        *item == T::default()
    }
}

/// A half register by its number; the first half of each pattern holds the
/// start levels and must leave its bits 6..11 at 0.
pub fn half_in_range(i: usize, value: u16) -> bool {
    if i % HALVES_OF_A_PATTERN == 0 {
        value <= LEVELS_MOST
    } else {
        value <= HALF_MOST
    }
}

/// "pattern 0..9, line length 1..4095, start 0..4095, odd repetitions 0..4095,
/// even repetitions 0..4095, mask 0..3"
pub fn sequence_in_range(s: &Sequence) -> bool {
    s.pattern <= 9
        && (1..=4095).contains(&s.length)
        && s.start <= 4095
        && s.odd <= 4095
        && s.even <= 4095
        && s.mask <= 3
}

/// "lines 1..4095, last-line length 1..4095, gate line 0..4094, second pattern
/// 0..9 or 65,535 for none, n [1..7], then n regions"; the second gate line
/// "0..4094, or 65,535 for none". A region past n is all zeros.
pub fn field_in_range(f: &Field) -> bool {
    (1..=4095).contains(&f.lines)
        && (1..=4095).contains(&f.last)
        && f.gate <= 4094
        && (f.gate2 <= 4094 || f.gate2 == NO_GATE2)
        && (f.second <= 9 || f.second == NO_SECOND)
        && (1..=7).contains(&f.count)
        && f.regions[..f.count as usize].iter().all(region_in_range)
        && f.regions[f.count as usize..].iter().all(|r| *r == Region::default())
}

/// "first line 0..4094, sequence 0..9"; the mode is in range by its type.
fn region_in_range(r: &Region) -> bool {
    r.first <= 4094 && r.sequence <= 9
}

/// "on 0..1, start level 0..1, toggle 1, toggle 2 (each 0..4095)"
pub fn gate_in_range(g: &Gate) -> bool {
    g.on <= 1 && g.level <= 1 && g.toggle1 <= 4095 && g.toggle2 <= 4095
}

/// "start level 0..1, toggle 1, toggle 2, suppressed lines, count (each 0..4095)"
pub fn subck_in_range(b: &Subck) -> bool {
    b.level <= 1 && b.toggle1 <= 4095 && b.toggle2 <= 4095 && b.suppressed <= 4095 && b.count <= 4095
}

/// "active level 0..1, on line, on pixel, off line, off pixel (each 0..4095)"
pub fn shutter_in_range(s: &Shutter) -> bool {
    s.active <= 1 && s.on_line <= 4095 && s.on_pixel <= 4095 && s.off_line <= 4095 && s.off_pixel <= 4095
}
