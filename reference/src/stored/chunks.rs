//! Scripts in chunks: from the start of an upload, and on from any state.

use super::reading::{full_script, one_of_each_kind};
use super::{w, Batch};
use crate::make::*;
use crate::profile::*;
use crate::script::{record, records, SCRIPT_MOST};
use crate::upload::Upload;

pub fn add(batch: &mut Batch) {
    empty_chunks(batch);
    examples(batch);
    cut_in_two(batch);
    cut_in_a_record(batch);
    longer_than_what_is_left(batch);
    refused_records(batch);
    cut_off(batch);
    sizes(batch);
    sizes_with_a_bad_record(batch);
    fronts(batch);
    too_long(batch);
    at_the_limit(batch);
    refusals_held(batch);
    counted_after_a_refusal(batch);
    numbers_of_no_refusal(batch);
    bytes_held(batch);
    past_a_record(batch);
    own_lengths(batch);
    whole_records(batch);
    headers(batch);
    more_held_than_come(batch);
    not_held(batch);
    out_of_range(batch);
    rules(batch);
    versions(batch);
}

/// A record's 58 bytes: two gate lines and seven regions.
fn longest_field() -> Vec<u8> {
    records(&profile_two()).into_iter().find(|r| r[2] == 3).expect("a field record")
}

/// An unknown kind; a length not allowed; a value out of range, also in the very
/// last number of the longest record.
fn bad_records() -> [Vec<u8>; 4] {
    let mut long = longest_field();
    long[56] = 3;
    [raw_record(4, 9, &[0; 4]), raw_record(5, 1, &[0; 5]), register(0x78, 0), long]
}

/// One profile for each of 6 to 17.
fn breaks_each_rule() -> Vec<Profile> {
    let a = |edit: fn(&mut Profile)| with(&profile_a(), edit);
    vec![
        a(|p| p.field = Field::default()),
        a(|p| p.field.regions[0].first = 1),
        a(|p| p.field.regions[0].sequence = 3),
        a(|p| set_length(p, 0, 0)),
        w::w2(),
        w::frozen(3, 3),
        w::multiplier(4, 4),
        w::sweep(8),
        a(|p| p.field.gate = 2),
        a(|p| p.gates[3] = gate(1, 1, 5, 5)),
        a(|p| p.subck = subck(0, 3, 3, 1, 1)),
        a(|p| p.shutters[1] = shutter(1, (1, 1), (0, 5))),
    ]
}

// ---------------------------------------------------------------------------
// From the start

/// "chunks of any length, 0 too"; no bytes at all are the empty script.
fn empty_chunks(batch: &mut Batch) {
    for lengths in [&[][..], &[0], &[0, 0, 0], &[5], &[65_535, 0]] {
        batch.chunks(&[], lengths);
    }
    for lengths in [&[][..], &[0, 0, 0], &[118, 0, 0], &[0, 60, 0, 0, 1, 0]] {
        batch.chunks(&script_a(), lengths);
    }
}

/// W1 to W10, and scripts with every kind of record: byte by byte, and in chunks
/// that do not go by the records.
fn examples(batch: &mut Batch) {
    let longest = records(&with_all_sequences(&profile_two())).concat();
    let others = [short_script(&profile_rich()), short_script(&profile_two()), longest];
    for script in w::scripts().into_iter().chain(others) {
        for length in [1, 2, 3, 7] {
            batch.chunks(&script, &chunks_of(length, &script));
        }
    }
}

fn cut_in_two(batch: &mut Batch) {
    let a = script_a();
    for at in 0..=a.len() {
        batch.chunks(&a, &[at as u16]);
    }
}

/// In the header and in the body of a record of each kind; the longest at every
/// offset.
fn cut_in_a_record(batch: &mut Batch) {
    let records = short_records(&profile_two());
    let script = records.concat();
    for kind in 1..=6 {
        let which = records.iter().rposition(|r| r[2] == kind).expect("a record of each kind");
        let start = records[..which].concat().len() as u16;
        let length = records[which].len() as u16;
        let cuts = if kind == 3 { (0..=length).collect() } else { vec![1, 3, 4, 5, length - 1] };
        for at in cuts {
            batch.chunks(&script, &[start + at]);
        }
        batch.chunks(&script, &[vec![start], vec![1; length as usize]].concat());
    }
}

fn longer_than_what_is_left(batch: &mut Batch) {
    for lengths in [&[119][..], &[118, 1], &[117, 2], &[5, 65_535], &[65_535, 65_535, 3], &[100, 0, 19, 0]] {
        batch.chunks(&script_a(), lengths);
        batch.chunks(&script_a()[..117], lengths);
    }
}

/// 3, 4 and 5 at a later record: cut before it, in it and after it, with more
/// bytes behind it and with none; and the first of two is the one told.
fn refused_records(batch: &mut Batch) {
    let a = script_a();
    for bad in bad_records() {
        let (start, end) = (a.len() as u16, (a.len() + bad.len()) as u16);
        let followed = [&a[..], &bad, &a].concat();
        for lengths in [&[][..], &[start], &[start + 3], &[start + 4], &[end - 1], &[end], &[start, 0, 4, 0, 1, 0, 9]] {
            batch.chunks(&followed, lengths);
        }
        batch.chunks(&followed, &chunks_of(1, &followed));
        batch.chunks(&followed[..end as usize], &[start + 4, 1]);
        batch.chunks(&followed[..end as usize - 1], &[start + 4, 1]);
        for later in bad_records() {
            let both = [&bad[..], &later, &[4, 0]].concat();
            batch.chunks(&both, &[bad.len() as u16 - 1, 3]);
        }
    }
}

/// "record header or body cut short" after A's script, known at the end alone.
fn cut_off(batch: &mut Batch) {
    let a = script_a();
    let long = longest_field();
    let tails = [&[4][..], &[4, 0], &[4, 0, 1], &[4, 0, 1, 0], &[4, 0, 1, 0, 5, 6, 7], &long[..4], &long[..57]];
    // A header cut, whatever it would say; a whole header is judged before its body.
    let wrong = [&[9, 0, 9][..], &[9, 0, 9, 0], &[5, 0, 1, 0], &[255, 255, 1, 0], &[54, 0, 9, 0, 1], &[55, 0, 3, 0, 1]];
    for tail in tails.into_iter().chain(wrong) {
        let script = [&a, tail].concat();
        let (start, end) = (a.len() as u16, script.len() as u16);
        for lengths in [&[start][..], &[start + 1, 1], &[end - 1, 0], &[end, 0, 0]] {
            batch.chunks(&script, lengths);
        }
    }
}

/// "A total above 16,384 is 1".
fn sizes(batch: &mut Batch) {
    let full = full_script();
    for lengths in [&[][..], &[16_384], &[16_384, 0], &[16_383], &[16_380, 3, 0], &[8192, 8191, 0, 1], &[65_535]] {
        batch.chunks(&full, lengths);
    }
    batch.chunks(&full, &chunks_of(1, &full));
    batch.chunks(&full[..16_383], &[16_370]);
    let more = [&full[..], &register(20, 1)].concat();
    for lengths in [&[][..], &[16_383], &[16_384], &[16_385], &[16_383, 1, 1], &[16_384, 0, 0], &[8192, 8192]] {
        batch.chunks(&more[..16_385], lengths);
    }
    batch.chunks(&more[..16_385], &chunks_of(1, &more));
    batch.chunks(&more, &[16_384, 4]);
    // A record that goes on past the limit, or is cut off at it.
    let across = [&full[8..], &register(20, 1)[..4], &register(20, 1)].concat();
    for length in [16_380, 16_383, 16_384, 16_385, 16_388] {
        batch.chunks(&across[..length], &[16_380]);
    }
    for lengths in [&[][..], &[16_384], &[16_385, 1], &[20_000, 20_000]] {
        batch.chunks(&[&full[..], &vec![0xFF; 40_000 - full.len()]].concat(), lengths);
    }
}

/// ".., even if a bad record came first": after it bytes still count.
fn sizes_with_a_bad_record(batch: &mut Batch) {
    for bad in &bad_records()[..3] {
        let script = [&bad[..], &lent_slice(20_000)].concat();
        let end = bad.len() as u16;
        for length in [SCRIPT_MOST, SCRIPT_MOST + 1] {
            for lengths in [&[][..], &[end], &[16_384], &[4, 16_380]] {
                batch.chunks(&script[..length], lengths);
            }
        }
        batch.chunks(&script, &[end, 0, 16_384 - end, 0, 1]);
        // It comes last.
        let last = [&full_script()[bad.len()..], &bad[..], &[0]].concat();
        batch.chunks(&last[..SCRIPT_MOST], &[16_384 - 4]);
        batch.chunks(&last, &[16_384]);
    }
    let first = &bad_records()[0];
    let script = [&first[..], &lent_slice(SCRIPT_MOST)].concat();
    batch.chunks(&script[..SCRIPT_MOST + 1], &chunks_of(1, &script[..SCRIPT_MOST + 1]));
}

// ---------------------------------------------------------------------------
// On from a state

/// An upload after which the reading goes on: no bytes, a few, and many.
fn follow(batch: &mut Batch, upload: &Upload, rest: &[u8]) {
    batch.read_on(upload, &[], &[0]);
    batch.read_on(upload, &rest[..3], &[1, 0]);
    batch.read_on(upload, rest, &chunks_of(7, rest));
}

/// A profile, nothing held.
fn given(length: u64, profile: &Profile) -> Upload {
    Upload { profile: *profile, length, ..Upload::start() }
}

/// A profile, and a room that begins with some bytes, so many of them held.
fn holding(length: u64, profile: &Profile, room: &[u8], held: u64) -> Upload {
    let mut upload = given(length, profile);
    hold(&mut upload, room);
    Upload { held, ..upload }
}

/// What the front of a script leaves, and the rest of the script behind it.
fn fronts(batch: &mut Batch) {
    follow(batch, &Upload::start(), &script_a());
    let a = script_a();
    for at in 76..=a.len() {
        batch.read_on(&upload_after(&a[..at]), &a[at..], &[]);
    }
    let records = short_records(&profile_two());
    let script = records.concat();
    let start = script.len() - records.iter().skip_while(|r| r[2] != 3).flatten().count();
    for at in [0, 1, 3, 4, 5, 30, 57, 58] {
        let (front, rest) = script.split_at(start + at);
        batch.read_on(&upload_after(front), rest, &[1, 0, 1]);
    }
}

/// "`length` above 16,384, whatever else it holds"; also such as a narrower
/// number, or a sum that wraps, would take for a small one.
fn too_long(batch: &mut Batch) {
    let a = script_a();
    let uploads = [upload_after(&a), upload_after(&a[..100]), upload_after(&[&a[..], &bad_records()[1]].concat())];
    for length in [16_385, 1 << 16, 1 << 32, 1 << 63, u64::MAX - 57, u64::MAX] {
        for upload in &uploads {
            follow(batch, &Upload { length, ..upload.clone() }, &a);
        }
    }
}

/// Up to 16,384 with what has come before, and past it.
fn at_the_limit(batch: &mut Batch) {
    let (a, full, register) = (profile_a(), full_script(), register(20, 1));
    for length in [0, 1, 16_375, 16_376, 16_377, 16_383, 16_384, 16_385] {
        follow(batch, &given(length, &a), &register);
    }
    for length in [16_380, 16_381, 16_382] {
        batch.read_on(&holding(length, &a, &register, 5), &register[5..], &[1, 1]);
    }
    for (length, bytes) in [(0, &full[..]), (1, &full), (8, &full[8..]), (9, &full[8..]), (16_266, &script_a())] {
        batch.read_on(&given(length, &a), bytes, &[5, 0, 16_000]);
        batch.read_on(&given(length, &Profile::empty()), &[bytes, &[0]].concat(), &[bytes.len() as u16]);
    }
}

/// "`number` 3, 4 or 5, with any `place`, bytes held and profile".
fn refusals_held(batch: &mut Batch) {
    for number in [3, 4, 5] {
        for place in [0, 7, 16_384, 1 << 32, u64::MAX] {
            let refused = Upload { number, place, ..given(400, &profile_a()) };
            follow(batch, &refused, &script_a());
        }
        let wild = with(&profile_two(), |p| p.field.count = 65_535);
        let wild = Upload { number, place: 12, ..holding(16_000, &wild, &bad_records()[2], u64::MAX) };
        follow(batch, &wild, &script_a());
    }
}

/// A refusal is held, and what follows it is counted, for 1.
fn counted_after_a_refusal(batch: &mut Batch) {
    let bytes = lent_slice(17_000);
    let refused = |number: u16, upload: Upload| Upload { number, place: 8, ..upload };
    for (length, more) in [(16_380, 4), (16_380, 5), (16_384, 0), (16_384, 1), (0, 16_384), (0, 16_385)] {
        batch.read_on(&refused(3, given(length, &profile_a())), &bytes[..more], &[3, 0]);
    }
    // More is held than has come: 58 bytes, and 8 of a record that ends there.
    let (long, short) = (longest_field(), [register(17, 5), vec![0xFF; 50]].concat());
    for (room, more) in [(&long, 16_326), (&long, 16_327), (&short, 16_376), (&short, 16_377)] {
        for length in [0, 7] {
            batch.read_on(&refused(5, holding(length, &profile_a(), room, 58)), &bytes[..more], &[16_326]);
        }
    }
}

/// "`number` another than 0, 3, 4, 5", and "0 with a `place`".
fn numbers_of_no_refusal(batch: &mut Batch) {
    let (front, rest) = (&script_a()[..100], &script_a()[100..]);
    for number in [0, 1, 2, 6, 17, 18, 255, 256, 259, 261, 0x0400, 65_535] {
        let upload = Upload { number, place: u64::MAX, ..upload_after(front) };
        follow(batch, &upload, rest);
    }
    follow(batch, &Upload { place: 5, ..upload_after(front) }, rest);
}

/// "`held` above 58": the longest record in the room, held up to there.
fn bytes_held(batch: &mut Batch) {
    let field = longest_field();
    let before = with(&profile_two(), |p| p.field = Field::default());
    for held in [0, 1, 57, 58, 59, 116, 1 << 16, 1 << 32, (1 << 32) + 57, u64::MAX] {
        let rest = [&field[held.min(58) as usize..], &record(5, &[1, 3, 5, 1, 2])].concat();
        follow(batch, &holding(1000, &before, &field, held), &rest);
    }
}

/// "bytes held past the end of the record that they begin with", be they a whole
/// record or none.
fn past_a_record(batch: &mut Batch) {
    let rest = [record(4, &[2, 1, 0, 3, 5]), bad_records()[0].clone()].concat();
    for behind in [FIELD_A_TWO.to_vec(), bad_records()[0].clone(), vec![0xFF; 50]] {
        let room = [register(17, 0xABCDEF), behind].concat();
        for held in [9, 16, 58, u64::MAX] {
            follow(batch, &holding(30, &profile_a(), &room, held), &rest);
        }
    }
}

/// What a header says alone counts, also where it is no kind's length, or one
/// that would wrap with the header's.
fn own_lengths(batch: &mut Batch) {
    let wraps = [(65_531, 1), (65_532, 9), (65_535, 1), (65_535, 9)];
    for (length, kind) in [(0, 1), (0, 9), (3, 1), (53, 3), (54, 9), (55, 3)].into_iter().chain(wraps) {
        let room = raw_record(length, kind, &[0; 54]);
        for held in [4, 58] {
            batch.read_on(&holding(100, &profile_a(), &room, held), &[], &[]);
            batch.read_on(&holding(100, &profile_a(), &room, held), &script_a(), &[1]);
        }
    }
}

/// "a whole record held": one of each kind, the longest, and bad ones.
fn whole_records(batch: &mut Batch) {
    let rest = [register(17, 1), bad_records()[0].clone()].concat();
    let good = one_of_each_kind().into_iter().chain([longest_field()]);
    for record in good.chain(bad_records()) {
        follow(batch, &holding(500, &profile_two(), &record, record.len() as u64), &rest);
    }
}

/// A header held, whole or cut, and the first byte of a body.
fn headers(batch: &mut Batch) {
    for record in [FIELD_A.to_vec(), bad_records()[0].clone(), bad_records()[1].clone()] {
        for held in [1, 3, 4, 5] {
            let rest = [&record[held..], &SEQUENCE_A].concat();
            follow(batch, &holding(90, &profile_a(), &record, held as u64), &rest);
        }
    }
}

/// "more bytes held than `length` says have come": places are counted from there.
fn more_held_than_come(batch: &mut Batch) {
    let room = [register(17, 0xABCDEF), vec![0xFF; 50]].concat();
    for length in [0, 3, 7, 8, 20] {
        for held in [5, 8, 58] {
            let rest = [&room[held.min(8)..8], &register(18, 1), &bad_records()[0]].concat();
            follow(batch, &holding(length, &profile_a(), &room, held as u64), &rest);
        }
    }
}

/// "bytes in the room past those held": a whole record there is none.
fn not_held(batch: &mut Batch) {
    let there = [FIELD_A_TWO.to_vec(), bad_records()[0].clone(), vec![0xFF; 20]].concat();
    for held in [0, 1, 5] {
        let rest = [&FIELD_A[held..], &SEQUENCE_A].concat();
        let mut upload = holding(300, &profile_a(), &there, held as u64);
        follow(batch, &upload, &rest);
        upload.room[..held].copy_from_slice(&FIELD_A[..held]);
        follow(batch, &upload, &rest);
    }
}

/// "a profile that no records give": judged by 6 to 17 as it is, and what follows
/// can mend it.
fn out_of_range(batch: &mut Batch) {
    let of_two: [fn(&mut Profile); 32] = [
        |p| p.registers[239] = 4096,
        |p| p.registers[0] = 65_535,
        |p| set_length(p, 0, 65_535),
        |p| set_toggles(p, 3, 0, [1, 65_535, 65_535]),
        |p| set_toggles(p, 2, 5, [0, 5, 4096]),
        |p| set_pairs(p, 0, [2, 6, 6, 65_535]),
        |p| p.sequences[9].pattern = 10,
        |p| p.sequences[0].pattern = 10,
        |p| p.sequences[6].pattern = 65_535,
        |p| p.sequences[0].mask = 7,
        |p| p.sequences[1].mask = 4,
        |p| p.sequences[0].length = 0,
        |p| p.sequences[4].start = 65_535,
        |p| (p.sequences[1].odd, p.sequences[1].even) = (65_535, 65_535),
        |p| p.sequences[8].start = 5,
        |p| p.field.regions[6].sequence = 10,
        |p| p.field.regions[0].sequence = 65_535,
        |p| p.field.regions[3].first = 65_535,
        |p| p.field.count = 0,
        |p| p.field.count = 8,
        |p| p.field.count = 65_535,
        |p| p.field.lines = 0,
        |p| p.field.lines = 65_535,
        |p| p.field.last = 0,
        |p| set_gate_lines(p, 65_535, NO_GATE2),
        |p| p.field.gate2 = 65_534,
        |p| p.field.second = 10,
        |p| p.field.second = 65_534,
        |p| p.field.present = false,
        |p| p.gates[1].toggle2 = 65_535,
        |p| (p.subck.level, p.subck.suppressed, p.subck.count) = (2, 65_535, 65_535),
        |p| p.shutters[0].off_line = 65_535,
    ];
    let mend = short_script(&profile_two());
    for edit in of_two {
        follow(batch, &given(900, &with(&profile_two(), edit)), &mend);
    }
    // Absent items that are not zeros, a line without pixels, regions past the
    // count, flags above 1.
    let of_a: [fn(&mut Profile); 8] = [
        |p| p.subck.count = 3,
        |p| p.shutters[0].on_line = 9,
        |p| p.gates[4].on = 1,
        |p| p.sequences[0].length = 0,
        |p| p.field.regions[6].sequence = 65_535,
        |p| (p.field.count, p.field.second) = (0, 3),
        |p| p.gates[0] = gate(2, 2, 9, 3),
        |p| p.shutters[0] = shutter(2, (0, 1), (1, 9)),
    ];
    for edit in of_a {
        follow(batch, &given(900, &with(&profile_a(), edit)), &script_a());
    }
    let all = (0..NUMBERS).map(|i| match limits(i) {
        Limits::Flag => 1,
        Limits::Mode => 2,
        Limits::Between(..) => 65_535,
    });
    let all = Profile::from_numbers(&all.collect::<Vec<_>>()).expect("flags and modes in range");
    follow(batch, &given(900, &all), &mend);
}

// ---------------------------------------------------------------------------
// Both

/// 6 to 17 come at the end, whatever the chunks were.
fn rules(batch: &mut Batch) {
    for p in breaks_each_rule() {
        let script = short_script(&p);
        batch.chunks(&script, &chunks_of(5, &script));
        batch.read_on(&given(200, &p), &[], &[]);
        let (front, rest) = script.split_at(script.len() - 9);
        batch.read_on(&upload_after(front), rest, &[2]);
    }
}

/// What is read is the same by every version.
fn versions(batch: &mut Batch) {
    let scripts = [script_a(), short_script(&w::multiplier(5, 5)), short_script(&w::w2())];
    for version in VERSIONS.into_iter().chain(OTHER_VERSIONS) {
        for script in &scripts {
            batch.chunks_by(version, script, &[5, 0, 7]);
            batch.read_on_by(version, &upload_after(&script[..50]), &script[50..], &[3]);
        }
    }
}
