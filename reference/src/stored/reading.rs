//! Reading: sizes, cut records, kinds, lengths, values, order, replacing.

use super::Batch;
use crate::make::*;
use crate::profile::*;
use crate::script::{record, SCRIPT_MOST};

pub fn add(batch: &mut Batch) {
    sizes(batch);
    cuts(batch);
    kinds(batch);
    lengths(batch);
    order_inside_a_record(batch);
    order_of_records(batch);
    values(batch);
    register_values(batch);
    field_values(batch);
    replacing(batch);
    every_item(batch);
    texts(batch);
}

/// "script over 16,384 bytes"
fn sizes(batch: &mut Batch) {
    let full = full_script();
    batch.read(full.clone());
    batch.read([full.clone(), vec![0]].concat());
    batch.read([full.clone(), register(20, 1)].concat());
    // As long as allowed, but the last record is cut, unknown, out of range.
    let last_records: [&[u8]; 7] = [
        &[4, 0, 1, 0, 20, 1, 2],
        &[10, 0, 4, 0, 0, 0, 0, 0],
        &[0, 0, 4, 0, 10, 0, 4, 0],
        &[4, 0, 9, 0, 20, 1, 2, 3],
        &[4, 0, 1, 0, 0x78, 1, 2, 3],
        &[4, 0, 1, 0, 0x77, 1, 2, 3],
        &[4, 0, 1, 0, 0, 1, 0, 0],
    ];
    for last in last_records {
        batch.read([&full[8..], last].concat());
    }
    // Over it, 1 comes before anything inside.
    batch.read(vec![0; SCRIPT_MOST + 1]);
    batch.read(vec![0xFF; 40_000]);
    batch.read([script_a(), vec![0xFF; 39_000]].concat());
    batch.read(vec![0; SCRIPT_MOST]);
}

/// Registers, one more sequence and A's script, 16,384 bytes in all.
pub fn full_script() -> Vec<u8> {
    let end = [record(2, &[5, 9, 4095, 4095, 4095, 4095, 3]), script_a()].concat();
    let mut script = Vec::new();
    while script.len() + end.len() < SCRIPT_MOST {
        let i = script.len() / 8;
        script.extend(register(13 + (i % 11) as u8, 0x010101 * (i % 251) as u32));
    }
    script.extend(end);
    script
}

/// "record header or body cut short": A's script, and one with every kind, cut
/// at every length.
fn cuts(batch: &mut Batch) {
    let a = script_a();
    for length in 0..a.len() {
        batch.read(a[..length].to_vec());
    }
    let every = one_of_each_kind().concat();
    for length in 0..=every.len() {
        batch.read(every[..length].to_vec());
    }
}

pub fn one_of_each_kind() -> Vec<Vec<u8>> {
    vec![
        register(17, 0xABCDEF),
        record(2, &[3, 0, 10, 2, 1, 2, 0]),
        record(3, &[2, 10, 0, NO_SECOND, 1, 0, 3, 0]),
        record(3, &[2, 10, 0, 1, NO_SECOND, 1, 0, 3, 0]),
        record(4, &[2, 1, 0, 3, 5]),
        record(5, &[1, 3, 5, 1, 2]),
        record(6, &[1, 1, 0, 3, 1, 5]),
    ]
}

/// "unknown kind"
fn kinds(batch: &mut Batch) {
    for kind in [0, 7, 8, 255, 256, 257, 258, 0x0102, 0x0300, 0xFF01, 65_535] {
        batch.read(raw_record(4, kind, &[0; 4]));
        batch.read(raw_record(16, kind, &[0; 16]));
        batch.read([script_a(), raw_record(0, kind, &[])].concat());
    }
}

/// "length not allowed for the kind"
fn lengths(batch: &mut Batch) {
    for kind in 1..=6 {
        for length in (0..=66).chain([256, 260, 266, 270, 274, 65_535]) {
            batch.read(raw_record(length, kind, &[0; 70][..(length as usize).min(70)]));
        }
        batch.read([script_a(), raw_record(5, kind, &[0; 5])].concat());
    }
}

/// "inside one: header cut (2), kind (3), length (4), body cut (2), values (5)"
fn order_inside_a_record(batch: &mut Batch) {
    let before = register(17, 5);
    let bodies: [&[u8]; 3] = [&[], &[0xFF], &[0xFF; 60]];
    for kind in [0, 1, 2, 3, 4, 5, 6, 7] {
        for length in [4, 10, 12, 14, 15, 16, 18, 52, 54, 65_535] {
            for body in bodies {
                let record = raw_record(length, kind, body);
                batch.read(record.clone());
                batch.read([before.clone(), record].concat());
            }
        }
    }
    // Unknown kind and length not allowed, header alone and cut to 3 bytes.
    for cut in 1..4 {
        batch.read([before.clone(), raw_record(9, 9, &[])[..cut].to_vec()].concat());
    }
}

/// "then record by record": an earlier record's refusal comes first, whatever
/// its number; and all of them come before 6.
fn order_of_records(batch: &mut Batch) {
    let wrong = [
        raw_record(4, 9, &[0; 4]),
        raw_record(5, 1, &[0; 5]),
        register(0x78, 0),
        record(2, &[0, 0, 0, 0, 0, 0, 0]),
        record(3, &[0, 1, 0, 0, 1, 0, 0, 0]),
        record(3, &[1, 1, 0, 4095, 0, 1, 0, 0, 0]),
    ];
    for first in &wrong {
        for second in &wrong {
            batch.read([first.clone(), second.clone()].concat());
        }
        batch.read([script_a(), first.clone(), vec![1, 2, 3]].concat());
        batch.read([script_a(), first.clone(), script_a()].concat());
        batch.read([SEQUENCE_A.to_vec(), first.clone()].concat());
    }
    // A value out of range is refused though a later record would replace it.
    batch.read([register(0, 0x004041), script_a()].concat());
    batch.read([record(2, &[0, 0, 4096, 0, 0, 0, 0]), script_a()].concat());
    batch.read([record(3, &[2, 10, 4095, NO_SECOND, 1, 0, 0, 0]), script_a()].concat());
}

/// A record's body with the least and most each number may be.
struct Form {
    kind: u16,
    numbers: Vec<u16>,
    limits: Vec<(u16, u16)>,
}

fn forms() -> Vec<Form> {
    let any = (0, 4095);
    vec![
        Form {
            kind: 2,
            numbers: vec![1, 1, 10, 2, 1, 2, 0],
            limits: vec![(0, 9), (0, 9), (1, 4095), any, any, any, (0, 3)],
        },
        Form {
            kind: 3,
            numbers: vec![2, 10, 0, NO_SECOND, 1, 0, 0, 0],
            limits: vec![(1, 4095), (1, 4095), (0, 4094), (0, 9), (1, 1), (0, 4094), (0, 9), (0, 2)],
        },
        Form {
            kind: 3,
            numbers: vec![2, 10, 0, 1, NO_SECOND, 1, 0, 0, 0],
            limits: vec![(1, 4095), (1, 4095), (0, 4094), (0, 4094), (0, 9), (1, 1), (0, 4094), (0, 9), (0, 2)],
        },
        Form { kind: 4, numbers: vec![1, 0, 1, 3, 5], limits: vec![(0, 4), (0, 1), (0, 1), any, any] },
        Form { kind: 5, numbers: vec![1, 3, 5, 1, 2], limits: vec![(0, 1), any, any, any, any] },
        Form { kind: 6, numbers: vec![1, 1, 0, 3, 1, 5], limits: vec![(0, 1), (0, 1), any, any, any, any] },
    ]
}

/// "a value outside its range": each number at its edges and one past, alone
/// and after A's script.
fn values(batch: &mut Batch) {
    for form in forms() {
        for (i, (least, most)) in form.limits.iter().enumerate() {
            let below = if *least == 0 { None } else { Some(least - 1) };
            let past = [most + 1, most | 0x8000, least | 0x1000, 65_534, 65_535];
            for value in [*least, *most].into_iter().chain(below).chain(past) {
                let mut numbers = form.numbers.clone();
                numbers[i] = value;
                let record = record(form.kind, &numbers);
                batch.read(record.clone());
                batch.read([script_a(), record].concat());
            }
        }
    }
}

/// "Address 0x00 to 0x77", and word 0's "bits 6..11 must be 0 (else 5)".
fn register_values(batch: &mut Batch) {
    for address in [0x77, 0x78, 0x79, 0x7F, 0x80, 0xFF] {
        batch.read([script_a(), register(address, 0x123456)].concat());
        batch.read(register(address, 0));
    }
    for pattern in 0..10 {
        for bit in 5..13 {
            batch.read([script_a(), register(12 * pattern, 0x001001 | 1 << bit)].concat());
        }
        batch.read([script_a(), register(12 * pattern + 1, 0x004FC1)].concat());
        batch.read([script_a(), register(12 * pattern + 11, 0xFFFFFF)].concat());
    }
    for address in 12..120 {
        batch.read([script_a(), register(address, 0xFFFFFF)].concat());
    }
}

/// "An n that disagrees with the length is refusal 5", and the values of each
/// region, in both forms.
fn field_values(batch: &mut Batch) {
    for gate_lines in [vec![0], vec![0, 8], vec![0, NO_GATE2]] {
        let head = |n: u16| [&[9, 10], &gate_lines[..], &[NO_SECOND, n]].concat();
        let size = head(1).len();
        for regions in 1..=7 {
            for n in [0, 1, 2, 3, 6, 7, 8, 9, 256 + regions, 65_535] {
                let mut numbers = head(n);
                for i in 0..regions {
                    numbers.extend([i, 0, 0]);
                }
                batch.read([script_a(), record(3, &numbers)].concat());
            }
            // The regions that n leaves out are all zeros.
            for n in 1..regions {
                let mut numbers = head(n);
                numbers.extend((0..n).flat_map(|i| [i, 0, 0]));
                numbers.resize(size + 3 * regions as usize, 0);
                batch.read([script_a(), record(3, &numbers)].concat());
            }
            for i in 0..regions {
                for (which, value) in [(0, 4094), (0, 4095), (1, 9), (1, 10), (2, 2), (2, 3), (2, 256)] {
                    let mut numbers = head(regions);
                    for j in 0..regions {
                        numbers.extend([j, 0, 0]);
                    }
                    numbers[size + (3 * i + which) as usize] = value;
                    batch.read([script_a(), record(3, &numbers)].concat());
                }
            }
        }
    }
    for second in [0, 9, 10, 255, 256, 4095, 65_534, 65_535] {
        batch.read([script_a(), record(3, &[2, 10, 0, second, 1, 0, 0, 0])].concat());
        batch.read([script_a(), record(3, &[2, 10, 0, 1, second, 1, 0, 0, 0])].concat());
    }
}

/// "A later record for the same item replaces the earlier."
fn replacing(batch: &mut Batch) {
    let a = script_a();
    let earlier_and_later = [
        (register(0, 0x000000), register(0, 0x005003)),
        (register(15, 0xABCDEF), register(15, 0x000012)),
        (record(2, &[0, 9, 4095, 9, 9, 9, 3]), record(2, &[0, 0, 11, 1, 2, 1, 0])),
        (
            record(3, &[9, 9, 1, 0, 3, 0, 0, 1, 3, 4, 1, 4, 5, 2]),
            record(3, &[4, 12, 0, NO_SECOND, 2, 0, 0, 0, 2, 0, 0]),
        ),
        (record(4, &[3, 1, 0, 9, 3]), record(4, &[3, 1, 1, 2, 6])),
        (record(5, &[0, 9, 3, 0, 7]), record(5, &[1, 2, 6, 1, 1])),
        (record(6, &[0, 1, 9, 9, 9, 9]), record(6, &[0, 0, 0, 3, 1, 4])),
        (record(6, &[1, 1, 9, 9, 9, 9]), record(6, &[1, 0, 0, 3, 1, 4])),
    ];
    for (earlier, later) in &earlier_and_later {
        batch.read([earlier.clone(), a.clone()].concat());
        batch.read([a.clone(), later.clone()].concat());
        batch.read([a.clone(), earlier.clone()].concat());
        batch.read([a.clone(), earlier.clone(), later.clone()].concat());
        batch.read([a.clone(), later.clone(), earlier.clone()].concat());
        batch.read([later.clone(), later.clone(), a.clone(), later.clone()].concat());
    }
    // A field of seven regions replaced by one of one: nothing of it is left.
    let seven = short_script(&profile_seven(Mode::Plain));
    batch.read([seven.clone(), FIELD_A.to_vec()].concat());
    batch.read([FIELD_A.to_vec(), seven].concat());
    // The same records in another order.
    let mut records = short_records(&profile_rich());
    records.reverse();
    batch.read(records.concat());
}

/// All 120 registers apart from each other, every sequence, gate and shutter.
fn every_item(batch: &mut Batch) {
    let mut p = profile_rich();
    for i in 8 * 24..240 {
        p.registers[i] = if i % 24 == 0 { 63 } else { 1000 + i as u16 };
    }
    for i in 7..10 {
        p.sequences[i] = sequence(i as u16, 100 + i as u16, 200 + i as u16, 300 + i as u16, 400 + i as u16, 2);
    }
    batch.ask_all(&p);
    batch.ask_all(&profile_rich());
    batch.ask_all(&Profile::empty());
    // The least a written script can have: one sequence, one region.
    batch.ask_all(&profile_a());
}

/// What the program prints: of scripts as long as allowed and longer, and of
/// those that are refused with 2 to 5 at their front, or after A's script.
fn texts(batch: &mut Batch) {
    let full = full_script();
    let too_long = [full.clone(), vec![0]].concat();
    for script in [full, too_long, vec![0; SCRIPT_MOST], vec![0xFF; 40_000]] {
        batch.text(script);
    }
    let bad = [vec![4, 0, 1], raw_record(4, 1, &[0; 3]), raw_record(4, 9, &[0; 4]), raw_record(5, 1, &[0; 5]), register(0x78, 1)];
    for bad in bad {
        batch.text([script_a(), bad.clone()].concat());
        batch.text(bad);
    }
    batch.text([script_a(), FIELD_A_TWO.to_vec()].concat());
}
