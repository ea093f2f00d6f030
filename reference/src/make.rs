//! Building blocks for the batches: profiles, scripts, uploads, lent lists.

use crate::profile::*;
use crate::refusal::CUT_SHORT;
use crate::script::{record, records, take_records, SCRIPT_MOST};
use crate::upload::Upload;

/// An output that uses no toggle under any rule.
pub const UNUSED: [u16; 3] = [4095; 3];
/// Toggles of an output out of order first at 2, under every rule of use over a
/// pattern of length 4: after an unused one, equal, falling; 3 in order, out of
/// order too, or unused.
pub const BREAKS_AT_2: [[u16; 3]; 9] = [
    [4095, 1, 3],
    [4095, 1, 1],
    [4095, 1, 4095],
    [2, 2, 3],
    [2, 2, 0],
    [2, 2, 4095],
    [3, 1, 2],
    [3, 2, 1],
    [3, 1, 4095],
];
/// Likewise first at 3, where toggles 1 and 2 are used, 2 is not, or none is.
pub const BREAKS_AT_3: [[u16; 3]; 6] = [[1, 4095, 3], [1, 4095, 0], [4095, 4095, 0], [1, 2, 2], [1, 3, 2], [1, 3, 0]];
/// Freeze and resume pairs of a pattern that no mask turns on.
pub const NO_PAIRS: [u16; 4] = [0; 4];

/// The rule versions.
pub const VERSIONS: [u16; 2] = [1, 2];
/// Numbers that are no version: 0 acts as 1, the others act as 2.
pub const OTHER_VERSIONS: [u16; 3] = [0, 3, 65_535];

/// A copy of a profile with an edit.
pub fn with(profile: &Profile, edit: impl FnOnce(&mut Profile)) -> Profile {
    let mut copy = *profile;
    edit(&mut copy);
    copy
}

/// Sets the registers of pattern k. Outputs not named use no toggle.
pub fn set_pattern(p: &mut Profile, k: usize, levels: u16, length: u16, toggles: &[[u16; 3]], pairs: [u16; 4]) {
    let halves = &mut p.registers[24 * k..24 * k + 24];
    halves[0] = levels;
    halves[1] = length;
    for output in 0..OUTPUTS {
        let three = toggles.get(output).unwrap_or(&UNUSED);
        halves[2 + 3 * output..5 + 3 * output].copy_from_slice(three);
    }
    halves[20..24].copy_from_slice(&pairs);
}

/// The three toggles of an output of pattern k.
pub fn set_toggles(p: &mut Profile, k: usize, output: usize, three: [u16; 3]) {
    let from = 24 * k + 2 + 3 * output;
    p.registers[from..from + 3].copy_from_slice(&three);
}

pub fn set_levels(p: &mut Profile, k: usize, levels: u16) {
    p.registers[24 * k] = levels;
}

pub fn set_length(p: &mut Profile, k: usize, length: u16) {
    p.registers[24 * k + 1] = length;
}

/// Freeze 1, resume 1, freeze 2, resume 2 of pattern k.
pub fn set_pairs(p: &mut Profile, k: usize, pairs: [u16; 4]) {
    p.registers[24 * k + 20..24 * k + 24].copy_from_slice(&pairs);
}

pub fn sequence(pattern: u16, length: u16, start: u16, odd: u16, even: u16, mask: u16) -> Sequence {
    Sequence { present: true, pattern, length, start, odd, even, mask }
}

pub fn region(first: u16, sequence: u16, mode: Mode) -> Region {
    Region { first, sequence, mode }
}

/// A field without a second gate line.
pub fn field(lines: u16, last: u16, gate: u16, second: u16, regions: &[Region]) -> Field {
    let mut all = [Region::default(); REGIONS];
    all[..regions.len()].copy_from_slice(regions);
    let count = regions.len() as u16;
    Field { present: true, lines, last, gate, gate2: NO_GATE2, second, count, regions: all }
}

/// Sets both gate lines, the one named first and the second.
pub fn set_gate_lines(p: &mut Profile, gate: u16, gate2: u16) {
    p.field.gate = gate;
    p.field.gate2 = gate2;
}

pub fn gate(on: u16, level: u16, toggle1: u16, toggle2: u16) -> Gate {
    Gate { present: true, on, level, toggle1, toggle2 }
}

pub fn subck(level: u16, toggle1: u16, toggle2: u16, suppressed: u16, count: u16) -> Subck {
    Subck { present: true, level, toggle1, toggle2, suppressed, count }
}

pub fn shutter(active: u16, on: (u16, u16), off: (u16, u16)) -> Shutter {
    Shutter { present: true, active, on_line: on.0, on_pixel: on.1, off_line: off.0, off_pixel: off.1 }
}

/// "Base profile A"
pub fn profile_a() -> Profile {
    let mut p = Profile::empty();
    set_pattern(&mut p, 0, 1, 4, &[[1, 3, 4095]], NO_PAIRS);
    p.sequences[0] = sequence(0, 10, 2, 1, 2, 0);
    p.field = field(2, 10, 0, NO_SECOND, &[region(0, 0, Mode::Plain)]);
    p
}

/// A profile with every item present, all modes, masks, a second pattern and
/// seven regions. Lines 0 to 15; region 3 has the gate line 8.
pub fn profile_rich() -> Profile {
    let mut p = Profile::empty();
    set_pattern(&mut p, 0, 0b000001, 5, &[[0, 2, 4], [1, 3, 9], [4, 4095, 5], [0, 1, 2]], [2, 6, 6, 30]);
    set_pattern(&mut p, 1, 0b101010, 7, &[[3, 5, 7], [0, 6, 4095], [1, 2, 3], [6, 8, 7]], NO_PAIRS);
    set_pattern(&mut p, 2, 0b010000, 4, &[[0, 2, 5], [1, 3, 4095], UNUSED, [4, 4095, 4095]], NO_PAIRS);
    set_pattern(&mut p, 3, 0b001100, 3, &[[1, 3, 3], [0, 1, 2]], [7, 11, 0, 0]);
    set_pattern(&mut p, 4, 0b111111, 1, &[[0, 1, 1]], [4, 4, 0, 3]);
    set_pattern(&mut p, 5, 0b000000, 2, &[[1, 2, 3], [0, 4095, 4095]], NO_PAIRS);
    set_pattern(&mut p, 6, 0b100001, 6, &[[1, 2, 4095], UNUSED, UNUSED, UNUSED, UNUSED, [0, 2, 4095]], NO_PAIRS);
    set_pattern(&mut p, 7, 0b011110, 8, &[[0, 4, 4095], [1, 2, 3], UNUSED, [3, 9, 2000]], [9, 3, 5, 5]);
    p.sequences[0] = sequence(0, 17, 3, 2, 3, 3);
    p.sequences[1] = sequence(1, 13, 5, 4, 4, 0);
    p.sequences[2] = sequence(2, 11, 2, 5, 5, 0);
    p.sequences[3] = sequence(3, 15, 2, 2, 5, 1);
    p.sequences[4] = sequence(4, 6, 1, 2, 3, 2);
    p.sequences[5] = sequence(5, 9, 0, 9, 9, 0);
    p.sequences[6] = sequence(6, 8, 1, 2, 2, 0);
    p.sequences[9] = sequence(9, 1, 4095, 4095, 0, 3);
    p.field = field(
        16,
        14,
        8,
        7,
        &[
            region(0, 0, Mode::Plain),
            region(2, 1, Mode::Sweep),
            region(5, 2, Mode::Multiplier),
            region(8, 3, Mode::Plain),
            region(10, 4, Mode::Plain),
            region(11, 5, Mode::Sweep),
            region(13, 6, Mode::Multiplier),
        ],
    );
    p.gates = [gate(1, 1, 0, 14), gate(1, 0, 3, 4), gate(0, 0, 9, 2), gate(1, 1, 6, 9), gate(0, 1, 0, 0)];
    p.subck = subck(1, 2, 7, 2, 4);
    p.shutters = [shutter(1, (1, 16), (8, 3)), shutter(0, (7, 10), (15, 13))];
    p
}

/// `profile_rich` with a second gate line before the first: on line 0 the first
/// pattern ends at 3 + 1 × 5, which is the second's length.
pub fn profile_two() -> Profile {
    with(&profile_rich(), |p| {
        p.sequences[0].odd = 1;
        p.field.gate2 = 0;
    })
}

/// A profile whose script has every record, the longest there is: 1,312 bytes,
/// and with a second gate line 1,314.
pub fn with_all_sequences(profile: &Profile) -> Profile {
    with(profile, |p| {
        for i in 7..10 {
            p.sequences[i] = sequence(i as u16, 9, 1, 2, 3, 1);
        }
    })
}

/// Seven regions of two lines of ten pixels, all of one mode; region i has
/// sequence i and pattern i, and 20 pixels.
pub fn profile_seven(mode: Mode) -> Profile {
    let mut p = Profile::empty();
    let count = match mode {
        Mode::Plain => 2,
        Mode::Sweep => 4,
        Mode::Multiplier => 3,
    };
    let mut regions = Vec::new();
    for i in 0..REGIONS {
        let toggles = [[1, 3, 4095], [2, 4095, 4095], UNUSED, [0, 1, 2]];
        set_pattern(&mut p, i, i as u16, 4, &toggles, [2, 5, 5, 9]);
        p.sequences[i] = sequence(i as u16, 10, 1, count, count, 0);
        regions.push(region(2 * i as u16, i as u16, mode));
    }
    p.field = field(14, 10, 0, NO_SECOND, &regions);
    p
}

// ---------------------------------------------------------------------------
// The numbers of the raw order

/// What a number of the raw order may be, for a present item.
pub enum Limits {
    Between(u16, u16),
    Flag,
    Mode,
}

/// The limits of the i-th number of the raw order. A second gate line and a
/// second pattern may also be 65,535.
pub fn limits(i: usize) -> Limits {
    use Limits::*;
    match i {
        0..=239 => Between(0, if i % 24 == 0 { 63 } else { 4095 }),
        240..=309 => match (i - 240) % 7 {
            0 => Flag,
            1 => Between(0, 9),
            2 => Between(1, 4095),
            6 => Between(0, 3),
            _ => Between(0, 4095),
        },
        310..=334 => match (i - 310) % 5 {
            0 => Flag,
            1 | 2 => Between(0, 1),
            _ => Between(0, 4095),
        },
        335..=340 => match i - 335 {
            0 => Flag,
            1 => Between(0, 1),
            _ => Between(0, 4095),
        },
        341..=352 => match (i - 341) % 6 {
            0 => Flag,
            1 => Between(0, 1),
            _ => Between(0, 4095),
        },
        353 => Flag,
        354 | 355 => Between(1, 4095),
        356 | 357 => Between(0, 4094),
        358 => Between(0, 9),
        359 => Between(1, 7),
        _ => match (i - 360) % 3 {
            0 => Between(0, 4094),
            1 => Between(0, 9),
            _ => Mode,
        },
    }
}

/// A copy of a profile with the i-th number of the raw order set.
pub fn with_number(profile: &Profile, i: usize, value: u16) -> Profile {
    let mut numbers = profile.numbers();
    numbers[i] = value;
    Profile::from_numbers(&numbers).expect("a flag of 0 or 1 and a mode of 0, 1 or 2")
}

// ---------------------------------------------------------------------------
// Scripts

/// The profile's records with no register that is 0: a short script that reads
/// as the profile, for any profile in range.
pub fn short_records(profile: &Profile) -> Vec<Vec<u8>> {
    let is_zero_register = |r: &Vec<u8>| r[2] == 1 && r[5..8] == [0, 0, 0];
    records(profile).into_iter().filter(|r| !is_zero_register(r)).collect()
}

pub fn short_script(profile: &Profile) -> Vec<u8> {
    short_records(profile).concat()
}

/// A field record without a second gate line in the new form, 65,535 after its
/// gate line; any other record as it is.
pub fn in_new_form(record: &[u8]) -> Vec<u8> {
    let mut out = record.to_vec();
    let body = record.len() - 4;
    if record[2] == 3 && body % 6 == 4 {
        out[0] = body as u8 + 2;
        out.splice(10..10, NO_GATE2.to_le_bytes());
    }
    out
}

pub fn register(address: u8, data: u32) -> Vec<u8> {
    let d = data.to_le_bytes();
    vec![4, 0, 1, 0, address, d[0], d[1], d[2]]
}

/// A's script, byte by byte as 01 gives it.
pub fn script_a() -> Vec<u8> {
    let mut script = [register(0, 0x004001), register(1, 0x003001)].concat();
    for word in 2..=9 {
        script.extend(register(word, 0xFFFFFF));
    }
    script.extend(SEQUENCE_A);
    script.extend(FIELD_A);
    script
}

pub const SEQUENCE_A: [u8; 18] =
    [0x0E, 0x00, 0x02, 0x00, 0x00, 0x00, 0x00, 0x00, 0x0A, 0x00, 0x02, 0x00, 0x01, 0x00, 0x02, 0x00, 0x00, 0x00];
pub const FIELD_A: [u8; 20] = [
    0x10, 0x00, 0x03, 0x00, 0x02, 0x00, 0x0A, 0x00, 0x00, 0x00, 0xFF, 0xFF, 0x01, 0x00, 0x00, 0x00, 0x00, 0x00, 0x00,
    0x00,
];

/// A's field with second gate line 1.
pub const FIELD_A_TWO: [u8; 22] = [
    0x12, 0x00, 0x03, 0x00, 0x02, 0x00, 0x0A, 0x00, 0x00, 0x00, 0x01, 0x00, 0xFF, 0xFF, 0x01, 0x00, 0x00, 0x00, 0x00,
    0x00, 0x00, 0x00,
];

/// A record whose header and body are as told, right or not.
pub fn raw_record(length: u16, kind: u16, body: &[u8]) -> Vec<u8> {
    let mut out = record(kind, &[]);
    out[..2].copy_from_slice(&length.to_le_bytes());
    out.extend(body);
    out
}

// ---------------------------------------------------------------------------
// Uploads

/// What the front of a script leaves: the profile of its whole records, what it
/// has of the next one, or the refusal of one of them. Past 16,384 it is too long,
/// and counted no further.
pub fn upload_after(front: &[u8]) -> Upload {
    let length = front.len().min(SCRIPT_MOST + 1) as u64;
    let mut upload = Upload { length, ..Upload::start() };
    match take_records(front, 0, &mut upload.profile) {
        Ok(()) => {}
        Err(r) if r.number == CUT_SHORT => hold(&mut upload, &front[r.place as usize..]),
        Err(r) => {
            upload.number = r.number as u16;
            upload.place = r.place;
        }
    }
    upload
}

/// Puts bytes in the room's front, and says that as many are held.
pub fn hold(upload: &mut Upload, bytes: &[u8]) {
    upload.room[..bytes.len()].copy_from_slice(bytes);
    upload.held = bytes.len() as u64;
}

/// Lengths of chunks of one length, enough for so many bytes.
pub fn chunks_of(length: u16, bytes: &[u8]) -> Vec<u16> {
    vec![length; bytes.len().div_ceil(length as usize)]
}

// ---------------------------------------------------------------------------
// Lent lists and slices: what they hold before is told apart entry by entry.

pub fn lent_counts(length: usize) -> Vec<u32> {
    (0..length as u32).map(|i| 0xC0DE_0000 + 3 * i).collect()
}

pub fn lent_words(length: usize) -> Vec<u16> {
    (0..length as u16).map(|i| 0xB000_u16.wrapping_add(5 * i)).collect()
}

pub fn lent_slice(length: usize) -> Vec<u8> {
    (0..length).map(|i| 0x5A ^ (i * 7) as u8).collect()
}
