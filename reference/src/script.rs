//! Reading a script into a profile, and writing a profile as a script.

use crate::profile::*;
use crate::ranges::*;
use crate::refusal::*;
use crate::rules::{check, check_rules};

pub const SCRIPT_MOST: usize = 16_384;
pub const HEADER: usize = 4;

const KIND_REGISTER: u16 = 1;
const KIND_SEQUENCE: u16 = 2;
const KIND_FIELD: u16 = 3;
const KIND_GATE: u16 = 4;
const KIND_SUBCK: u16 = 5;
const KIND_SHUTTER: u16 = 6;

// ---------------------------------------------------------------------------
// Reading

/// "Order: 1; then record by record ...; then 6; then 7 ..."
pub fn read(script: &[u8]) -> Result<Profile, Refusal> {
    demand(script.len() <= SCRIPT_MOST, SCRIPT_TOO_LONG, 0)?;
    read_records(script, 0, Profile::empty())
}

/// A part of a script, up to its end, read into the profile of what came before
/// it; its first record lies at an offset in the script.
pub fn read_records(part: &[u8], offset: usize, mut profile: Profile) -> Result<Profile, Refusal> {
    take_records(part, offset, &mut profile)?;
    check_rules(&profile)?;
    Ok(profile)
}

/// "record by record": all of them, or those before the first that is refused.
pub fn take_records(part: &[u8], offset: usize, profile: &mut Profile) -> Result<(), Refusal> {
    let mut reader = Reader { rest: part, offset };
    while !reader.rest.is_empty() {
        let record = reader.next_record()?;
        let taken = take(&record, profile);
        demand(taken.is_some(), OUT_OF_RANGE, record.offset)?;
    }
    Ok(())
}

/// What is left of the script, and where in it that begins.
struct Reader<'a> {
    rest: &'a [u8],
    offset: usize,
}

struct Record<'a> {
    offset: usize,
    kind: u16,
    body: &'a [u8],
}

impl<'a> Reader<'a> {
    /// "inside one: header cut (2), kind (3), length (4), body cut (2)"
    fn next_record(&mut self) -> Result<Record<'a>, Refusal> {
        let Reader { rest, offset } = *self;
        demand(rest.len() >= HEADER, CUT_SHORT, offset)?;
        let length = number(rest, 0) as usize;
        let kind = number(rest, 1);
        demand(kind_known(kind), UNKNOWN_KIND, offset)?;
        demand(length_allowed(kind, length), LENGTH_NOT_ALLOWED, offset)?;
        demand(rest.len() >= HEADER + length, CUT_SHORT, offset)?;
        let (record, after) = rest.split_at(HEADER + length);
        *self = Reader { rest: after, offset: offset + record.len() };
        Ok(Record { offset, kind, body: &record[HEADER..] })
    }
}

fn kind_known(kind: u16) -> bool {
    (KIND_REGISTER..=KIND_SHUTTER).contains(&kind)
}

fn length_allowed(kind: u16, length: usize) -> bool {
    match kind {
        KIND_REGISTER => length == 4,
        KIND_SEQUENCE => length == 14,
        KIND_FIELD => field_form(length).is_some(),
        KIND_GATE => length == 10,
        KIND_SUBCK => length == 10,
        KIND_SHUTTER => length == 12,
        _ => false,
    }
}

/// The two forms of a field record.
enum Form {
    /// "10 + 6n bytes": "still read and means none"
    OneGateLine,
    /// "The field record gains a second gate line after the first: body 12 + 6n"
    TwoGateLines,
}

/// The form of a field record and its n, 1 to 7, by the length of its body
/// alone; nothing where no form has that length.
fn field_form(length: usize) -> Option<(Form, usize)> {
    for n in 1..=REGIONS {
        if length == 10 + 6 * n {
            return Some((Form::OneGateLine, n));
        }
        if length == 12 + 6 * n {
            return Some((Form::TwoGateLines, n));
        }
    }
    None
}

/// The i-th 2-byte little-endian number.
fn number(bytes: &[u8], i: usize) -> u16 {
    u16::from_le_bytes([bytes[2 * i], bytes[2 * i + 1]])
}

/// Takes a record into the profile: "A later record for the same item replaces
/// the earlier." Nothing where a value is outside its range.
fn take(record: &Record, profile: &mut Profile) -> Option<()> {
    match record.kind {
        KIND_REGISTER => take_register(record.body, profile),
        KIND_SEQUENCE => take_sequence(record.body, profile),
        KIND_FIELD => take_field(record.body, profile),
        KIND_GATE => take_gate(record.body, profile),
        KIND_SUBCK => take_subck(record.body, profile),
        KIND_SHUTTER => take_shutter(record.body, profile),
        _ => None,
    }
}

/// `Some` where the condition holds.
fn only_if(holds: bool) -> Option<()> {
    if holds {
        Some(())
    } else {
        None
    }
}

/// "address byte, 3 data bytes. Address 0x00 to 0x77."
fn take_register(body: &[u8], profile: &mut Profile) -> Option<()> {
    let address = body[0] as usize;
    only_if(address <= 0x77)?;
    let data = u32::from_le_bytes([body[1], body[2], body[3], 0]);
    let (low, high) = ((data & 0xFFF) as u16, (data >> 12) as u16);
    only_if(half_in_range(2 * address, low) && half_in_range(2 * address + 1, high))?;
    profile.registers[2 * address] = low;
    profile.registers[2 * address + 1] = high;
    Some(())
}

fn take_sequence(body: &[u8], profile: &mut Profile) -> Option<()> {
    let sequence = Sequence {
        present: true,
        pattern: number(body, 1),
        length: number(body, 2),
        start: number(body, 3),
        odd: number(body, 4),
        even: number(body, 5),
        mask: number(body, 6),
    };
    only_if(sequence_in_range(&sequence))?;
    *profile.sequences.get_mut(number(body, 0) as usize)? = sequence;
    Some(())
}

/// "An n that disagrees with the length is refusal 5."
fn take_field(body: &[u8], profile: &mut Profile) -> Option<()> {
    let (form, n) = field_form(body.len())?;
    // The second gate line, and where the numbers after the gate lines begin.
    let (gate2, after) = match form {
        Form::OneGateLine => (NO_GATE2, 3),
        Form::TwoGateLines => (number(body, 3), 4),
    };
    let mut field = Field {
        present: true,
        lines: number(body, 0),
        last: number(body, 1),
        gate: number(body, 2),
        gate2,
        second: number(body, after),
        count: number(body, after + 1),
        regions: [Region::default(); REGIONS],
    };
    only_if(field.count as usize == n)?;
    for i in 0..n {
        let at = after + 2 + 3 * i;
        field.regions[i] = Region {
            first: number(body, at),
            sequence: number(body, at + 1),
            mode: Mode::from_number(number(body, at + 2))?,
        };
    }
    only_if(field_in_range(&field))?;
    profile.field = field;
    Some(())
}

fn take_gate(body: &[u8], profile: &mut Profile) -> Option<()> {
    let gate = Gate {
        present: true,
        on: number(body, 1),
        level: number(body, 2),
        toggle1: number(body, 3),
        toggle2: number(body, 4),
    };
    only_if(gate_in_range(&gate))?;
    *profile.gates.get_mut(number(body, 0) as usize)? = gate;
    Some(())
}

fn take_subck(body: &[u8], profile: &mut Profile) -> Option<()> {
    let subck = Subck {
        present: true,
        level: number(body, 0),
        toggle1: number(body, 1),
        toggle2: number(body, 2),
        suppressed: number(body, 3),
        count: number(body, 4),
    };
    only_if(subck_in_range(&subck))?;
    profile.subck = subck;
    Some(())
}

fn take_shutter(body: &[u8], profile: &mut Profile) -> Option<()> {
    let shutter = Shutter {
        present: true,
        active: number(body, 1),
        on_line: number(body, 2),
        on_pixel: number(body, 3),
        off_line: number(body, 4),
        off_pixel: number(body, 5),
    };
    only_if(shutter_in_range(&shutter))?;
    *profile.shutters.get_mut(number(body, 0) as usize)? = shutter;
    Some(())
}

// ---------------------------------------------------------------------------
// Writing

/// Writes the script to the front of the lent slice and returns its length. "It
/// refuses what the check refuses, then 18", with the bytes needed.
pub fn write(profile: &Profile, slice: &mut [u8]) -> Result<usize, Refusal> {
    check(profile)?;
    let script = records(profile).concat();
    demand(script.len() <= slice.len(), NO_ROOM, script.len())?;
    slice[..script.len()].copy_from_slice(&script);
    Ok(script.len())
}

/// "all 120 registers by address, sequences present by number, the field, gates
/// present by number, SUBCK, MSHUT, STROBE", each as one record; for any
/// profile in range.
pub fn records(profile: &Profile) -> Vec<Vec<u8>> {
    let mut out: Vec<Vec<u8>> = (0..HALVES / 2).map(|address| register_record(profile, address)).collect();
    for (i, s) in profile.sequences.iter().enumerate().filter(|(_, s)| s.present) {
        out.push(record(KIND_SEQUENCE, &[i as u16, s.pattern, s.length, s.start, s.odd, s.even, s.mask]));
    }
    if profile.field.present {
        out.push(field_record(&profile.field));
    }
    for (i, g) in profile.gates.iter().enumerate().filter(|(_, g)| g.present) {
        out.push(record(KIND_GATE, &[i as u16, g.on, g.level, g.toggle1, g.toggle2]));
    }
    let b = &profile.subck;
    if b.present {
        out.push(record(KIND_SUBCK, &[b.level, b.toggle1, b.toggle2, b.suppressed, b.count]));
    }
    for (i, s) in profile.shutters.iter().enumerate().filter(|(_, s)| s.present) {
        out.push(record(KIND_SHUTTER, &[i as u16, s.active, s.on_line, s.on_pixel, s.off_line, s.off_pixel]));
    }
    out
}

fn register_record(profile: &Profile, address: usize) -> Vec<u8> {
    let low = profile.registers[2 * address] as u32;
    let high = profile.registers[2 * address + 1] as u32;
    let data = ((low & 0xFFF) | (high & 0xFFF) << 12).to_le_bytes();
    vec![4, 0, KIND_REGISTER as u8, 0, address as u8, data[0], data[1], data[2]]
}

/// "The writer uses the old form when there is no second gate line".
fn field_record(f: &Field) -> Vec<u8> {
    let mut numbers = vec![f.lines, f.last, f.gate];
    if f.gate2 != NO_GATE2 {
        numbers.push(f.gate2);
    }
    numbers.extend([f.second, f.count]);
    for r in f.regions.iter().take(f.count as usize) {
        numbers.extend([r.first, r.sequence, r.mode.number()]);
    }
    record(KIND_FIELD, &numbers)
}

/// A record whose body is 2-byte numbers.
pub fn record(kind: u16, numbers: &[u16]) -> Vec<u8> {
    let mut out = Vec::new();
    out.extend((2 * numbers.len() as u16).to_le_bytes());
    out.extend(kind.to_le_bytes());
    for n in numbers {
        out.extend(n.to_le_bytes());
    }
    out
}
