//! Scripts in chunks: cases computed by hand, and what the batches have of them.

use super::*;
use crate::ranges::check_ranges;
use crate::script::SCRIPT_MOST;
use crate::upload::{cut, read_chunks, read_on, Upload, ROOM};

// ---------------------------------------------------------------------------
// By hand

#[test]
fn chunks_are_as_long_as_there_are_bytes() {
    assert_eq!(cut(b"abcde", &[]), [b"abcde"]);
    assert_eq!(cut(b"abcde", &[0, 3, 0, 4, 1]), [&b""[..], b"abc", b"", b"de", b"", b""]);
    assert_eq!(cut(b"", &[0, 65_535]), [b"", b"", b""]);
}

#[test]
fn no_bytes_are_the_empty_script() {
    let no_bytes: &[u8] = b"";
    for chunks in [&[][..], &[no_bytes], &[no_bytes; 3]] {
        assert_eq!(read_chunks(chunks), refused(6, 0));
        assert_eq!(read_on(&Upload::start(), chunks), refused(6, 0));
    }
}

/// A's script, 118 bytes, and one more record behind it.
fn a_and_one_more() -> Vec<(Vec<u8>, Result<Profile, Refusal>)> {
    let more = [
        (vec![], Ok(profile_a())),
        (vec![4, 0, 1], refused(2, 118)),
        (register(20, 1)[..7].to_vec(), refused(2, 118)),
        (raw_record(4, 9, &[0; 4]), refused(3, 118)),
        (raw_record(5, 1, &[0; 5]), refused(4, 118)),
        (register(0x78, 1), refused(5, 118)),
        (FIELD_A_TWO.to_vec(), Ok(with(&profile_a(), |p| p.field.gate2 = 1))),
        ([FIELD_A_TWO.to_vec(), vec![9]].concat(), refused(2, 140)),
    ];
    more.into_iter().map(|(more, answer)| ([script_a(), more].concat(), answer)).collect()
}

#[test]
fn a_script_may_be_cut_anywhere() {
    for (script, answer) in a_and_one_more() {
        assert_eq!(read_chunks(&cut(&script, &chunks_of(1, &script))), answer);
        for at in 0..=script.len() {
            for then in [0, 1, 5, 65_535] {
                assert_eq!(read_chunks(&cut(&script, &[at as u16, then])), answer);
            }
        }
    }
}

#[test]
fn a_total_above_16384_is_1_even_if_a_bad_record_came_first() {
    for (bad, answer) in [
        (raw_record(4, 9, &[0; 4]), refused(3, 0)),
        (raw_record(5, 1, &[0; 5]), refused(4, 0)),
        (register(0x78, 1), refused(5, 0)),
        (raw_record(0, 0, &[]), refused(3, 0)),
    ] {
        let script = [bad, vec![0; SCRIPT_MOST]].concat();
        for lengths in [&[][..], &[4], &[8, 16_376], &[16_384], &[16_383, 1]] {
            assert_eq!(read_chunks(&cut(&script[..16_384], lengths)), answer);
            assert_eq!(read_chunks(&cut(&script[..16_385], lengths)), refused(1, 0));
        }
    }
}

/// What the front of a script leaves answers, with the rest behind it, what the
/// whole script does.
#[test]
fn an_upload_goes_on_where_its_front_ends() {
    for (script, answer) in a_and_one_more() {
        for at in 0..=script.len() {
            let (front, rest) = script.split_at(at);
            assert_eq!(read_on(&upload_after(front), &cut(rest, &[3, 0])), answer);
        }
    }
    for case in random::cases(5, 3000) {
        let Case::ReadChunks { lengths, script, .. } = case else { continue };
        let mut at = 0;
        for length in lengths.into_iter().take(200) {
            at = script.len().min(at + length as usize);
            assert_eq!(read_on(&upload_after(&script[..at]), &[&script[at..]]), read(&script));
        }
    }
}

/// An upload with A's profile.
fn with_a(length: u64) -> Upload {
    Upload { profile: profile_a(), length, ..Upload::start() }
}

/// The same, whose room begins with some bytes, so many of them held.
fn holding(length: u64, room: &[u8], held: u64) -> Upload {
    let mut upload = with_a(length);
    hold(&mut upload, room);
    Upload { held, ..upload }
}

#[test]
fn a_refusal_that_is_held() {
    let told = |number: u8, place: u64| Err(Refusal { place, ..refusal(number, 0) });
    for number in [3, 4, 5] {
        let upload = Upload { number: number as u16, place: u64::MAX, ..with_a(16_380) };
        assert_eq!(read_on(&upload, &[b""]), told(number, u64::MAX));
        assert_eq!(read_on(&upload, &[b"12", b"34"]), told(number, u64::MAX));
        assert_eq!(read_on(&upload, &[b"1234", b"", b"5"]), refused(1, 0));
    }
    for number in [0, 1, 2, 6, 17, 256 + 3, 65_535] {
        let upload = Upload { number, place: 7, ..with_a(16_380) };
        assert_eq!(read_on(&upload, &[b""]), Ok(profile_a()));
        assert_eq!(read_on(&upload, &[b"1234"]), refused(3, 16_380));
    }
    // With more held than has come: 58 bytes, of which 8 count.
    let room = [register(17, 1), vec![0xFF; 50]].concat();
    let upload = Upload { number: 5, place: 3, ..holding(2, &room, 58) };
    assert_eq!(read_on(&upload, &[&[0; 16_376]]), refused(5, 3));
    assert_eq!(read_on(&upload, &[&[0; 16_377]]), refused(1, 0));
}

/// The room begins with a register record of 8 bytes. Where a record of an
/// unknown kind follows, its place tells from where places are counted.
#[test]
fn more_held_than_has_come() {
    let room = [register(17, 0xABCDEF), vec![0xFF; 50]].concat();
    let bad = raw_record(4, 9, &[0; 4]);
    let rest = [&room[5..8], &bad].concat();
    for (length, held, following, place) in [
        (3, 8, &bad, 8),
        (3, 58, &bad, 8),
        (3, u64::MAX, &bad, 8),
        (3, 5, &rest, 8),
        (8, 58, &bad, 8),
        (20, 8, &bad, 20),
        (20, 58, &bad, 20),
        (20, 5, &rest, 23),
        (5, 5, &rest, 8),
    ] {
        assert_eq!(read_on(&holding(length, &room, held), &[following]), refused(3, place));
    }
    let read = with(&profile_a(), |p| (p.registers[34], p.registers[35]) = (0xDEF, 0xABC));
    for (length, held, answer) in [
        (3, 5, refused(2, 0)),
        (20, 5, refused(2, 15)),
        (3, 8, Ok(read)),
        (3, 58, Ok(read)),
        (16_384, 58, Ok(read)),
        (16_385, 58, refused(1, 0)),
        (3, 0, Ok(profile_a())),
    ] {
        assert_eq!(read_on(&holding(length, &room, held), &[b""]), answer);
    }
}

/// The longest record, held up to its end and as if there were more.
#[test]
fn more_held_than_there_is_room_for() {
    let field = records(&profile_two()).into_iter().find(|r| r[2] == 3).unwrap();
    assert_eq!(field.len(), ROOM);
    let before = with(&profile_two(), |p| p.field = Field::default());
    let upload = |held| Upload { profile: before, ..holding(1000, &field, held) };
    assert_eq!(read_on(&upload(57), &[b""]), refused(2, 943));
    assert_eq!(read_on(&upload(57), &[b"", &field[57..]]), Ok(profile_two()));
    for held in [58, 59, 1 << 32, u64::MAX] {
        assert_eq!(read_on(&upload(held), &[b""]), Ok(profile_two()));
        assert_eq!(read_on(&upload(held), &[b"x"]), refused(2, 1000));
    }
}

/// A record ends where its own length says, whatever its kind.
#[test]
fn a_record_held_ends_by_its_own_length() {
    for (length, kind, held, answer) in [
        (0, 1, 58, refused(4, 96)),
        (0, 9, 58, refused(3, 96)),
        (3, 1, 58, refused(4, 93)),
        (3, 1, 6, refused(4, 94)),
        (65_535, 9, 58, refused(3, 42)),
        (65_532, 1, 58, refused(4, 42)),
        (65_535, 1, 4, refused(4, 96)),
        (65_535, 1, 3, refused(2, 97)),
    ] {
        let room = raw_record(length, kind, &[0; 54]);
        for following in [&b""[..], b"xyz"] {
            // Three bytes make a header whole.
            let answer = if held == 3 && !following.is_empty() { refused(3, 97) } else { answer };
            assert_eq!(read_on(&holding(100, &room, held), &[following]), answer, "{length} {kind} {held}");
        }
    }
}

#[test]
fn no_number_of_bytes_wraps() {
    let register = register(17, 1);
    for length in [16_385, 1 << 16, 1 << 32, u64::MAX - 7, u64::MAX] {
        for held in [0, 5, 8, u64::MAX] {
            for following in [&b""[..], b"x", &[0; 57], &script_a()] {
                assert_eq!(read_on(&holding(length, &register, held), &[following]), refused(1, 0));
            }
        }
    }
    assert_eq!(read_on(&with_a(16_376), &[&register[..4], &register[4..]]).is_ok(), true);
    assert_eq!(read_on(&with_a(16_377), &[&register[..4], &register[4..]]), refused(1, 0));
}

/// By 6 to 17 as it is, and not by 5: seven regions at most, and a sequence or a
/// pattern that is none of the ten is one of zeros.
#[test]
fn a_profile_out_of_range_is_judged_by_6_to_17() {
    let judged = |edit: fn(&mut Profile)| {
        let profile = with(&profile_a(), edit);
        assert_eq!(check(&profile), refused(5, 0));
        let answer = read_on(&Upload { profile, ..with_a(100) }, &[b""]);
        assert!(answer.is_err() || answer == Ok(profile));
        answer.err()
    };
    assert_eq!(judged(|p| p.registers[239] = 4096), None);
    assert_eq!(judged(|p| p.sequences[7].start = 1), None);
    assert_eq!(judged(|p| p.field.regions[6].sequence = 99), None);
    assert_eq!(judged(|p| p.field.count = 0), None);
    assert_eq!(judged(|p| p.field.present = false), Some(refusal(6, 0)));
    assert_eq!(judged(|p| p.field.lines = 0), Some(refusal(7, 0)));
    // Region 1 is all zeros, and starts with region 0.
    assert_eq!(judged(|p| p.field.count = 65_535), Some(refusal(7, 1)));
    assert_eq!(judged(|p| p.field.regions[0].sequence = 10), Some(refusal(8, 0)));
    assert_eq!(judged(|p| p.sequences[0].pattern = 65_535), Some(refusal(9, 0)));
    assert_eq!(judged(|p| p.field.gate = 65_535), Some(refusal(14, 0)));
    assert_eq!(judged(|p| p.field.second = 10), Some(refusal(14, 0)));
    let seven = with(&profile_seven(Mode::Sweep), |p| p.field.count = 8);
    assert_eq!(read_on(&Upload { profile: seven, ..with_a(0) }, &[b""]), Ok(seven));
    let wild = with(&profile_a(), |p| p.field.count = 65_535);
    assert_eq!(read_on(&Upload { profile: wild, ..with_a(0) }, &[&FIELD_A]), Ok(profile_a()));
}

// ---------------------------------------------------------------------------
// The format

/// Both have as many lengths as are said, and 0 to 40,000 bytes behind them; a
/// payload has at most 65,536.
#[test]
fn chunks_at_fault() {
    let state = vec![0; 762 + 2 + 84];
    for (kind, front) in [(b'U', vec![0; 2]), (b'V', state)] {
        let right = |lengths: u16, bytes: usize| {
            let payload = [&front[..], &lengths.to_le_bytes(), &vec![0; bytes]].concat();
            decode_batch(&batch_of(kind, &payload)).is_some()
        };
        for (lengths, bytes, is_right) in [
            (0, 0, true),
            (0, 40_000, true),
            (0, 40_001, false),
            (1, 1, false),
            (1, 2, true),
            (1, 40_002, true),
            (1, 40_003, false),
            (12_000, 64_000, true),
            (12_000, 64_001, false),
            (32_000, 63_999, false),
            (32_000, 64_000, true),
            (32_768, 65_536, false),
            (65_535, 131_070, false),
        ] {
            assert_eq!(right(lengths, bytes), is_right, "{} {lengths} {bytes}", kind as char);
        }
        for length in 0..front.len() + 2 {
            assert_eq!(decode_batch(&batch_of(kind, &vec![0; length])), None);
        }
    }
}

#[test]
fn chunks_as_bytes() {
    let case = Case::ReadChunks { version: 0x103, lengths: vec![5, 0x201], script: vec![7, 8] };
    assert_eq!(case.encode(), [b'U', 10, 0, 0, 0, 3, 1, 2, 0, 5, 0, 1, 2, 7, 8]);
    let mut upload = Upload { profile: profile_two(), length: 1 << 40, number: 0x405, place: 6, ..Upload::start() };
    hold(&mut upload, &[9, 10]);
    let on = Case::ReadOn { upload, version: 0x103, lengths: vec![4], bytes: vec![7] };
    let bytes = on.encode();
    assert_eq!(bytes[..5], [b'V', 0x55, 3, 0, 0]);
    assert_eq!(bytes[767..795], [3, 1, 0, 0, 0, 0, 0, 1, 0, 0, 5, 4, 6, 0, 0, 0, 0, 0, 0, 0, 2, 0, 0, 0, 0, 0, 0, 0]);
    assert_eq!((&bytes[795..798], &bytes[853..]), (&[9, 10, 0][..], &[1, 0, 4, 0, 7][..]));
    let both = [case.encode(), on.encode()].concat();
    assert_eq!(decode_batch(&both), Some(vec![case, on]));
}

// ---------------------------------------------------------------------------
// What the batches have

/// The rows of docs/STATES.md that an upload is in; those of a run have one too.
fn rows(upload: &Upload) -> Vec<&'static str> {
    let whole = 4 + u16::from_le_bytes([upload.room[0], upload.room[1]]) as u64;
    let held = upload.held.min(ROOM as u64);
    let a_refusal = matches!(upload.number, 3..=5);
    let told = [
        (upload.length > 16_384, "too long"),
        (upload.length <= 16_384 && a_refusal, "a refusal held"),
        (upload.number != 0 && !a_refusal, "a number of no refusal"),
        (upload.number == 0 && upload.place != 0, "a place and no number"),
        (upload.held > ROOM as u64, "more held than there is room for"),
        (held > whole, "bytes held past their record"),
        (held == whole, "a whole record held"),
        (held > 0 && held < 4, "a header cut"),
        (held >= 4 && held < whole, "a body cut"),
        (held.min(whole) > upload.length, "more held than has come"),
        (upload.room[held as usize..].iter().any(|byte| *byte != 0), "bytes that are not held"),
        (check_ranges(&upload.profile).is_err(), "a profile out of range"),
        (*upload == with_a(upload.length), "a good profile, nothing held"),
        (*upload == Upload::start(), "the start"),
    ];
    told.into_iter().filter(|(right, _)| *right).map(|(_, row)| row).collect()
}

const ROWS: [&str; 14] = [
    "too long",
    "a refusal held",
    "a number of no refusal",
    "a place and no number",
    "more held than there is room for",
    "bytes held past their record",
    "a whole record held",
    "a header cut",
    "a body cut",
    "more held than has come",
    "bytes that are not held",
    "a profile out of range",
    "a good profile, nothing held",
    "the start",
];

/// Each row with what follows: no bytes, a few, or many.
fn rows_asked(cases: &[Case]) -> BTreeSet<(&'static str, &'static str)> {
    let mut asked = BTreeSet::new();
    for case in cases {
        let Case::ReadOn { upload, bytes, .. } = case else { continue };
        let follows = match bytes.len() {
            0 => "none",
            1..=5 => "few",
            _ => "many",
        };
        asked.extend(rows(upload).into_iter().map(|row| (row, follows)));
    }
    asked
}

/// The kinds of records that chunks end in, and how far in: of each its header
/// and its body, and the longest at every offset.
fn cuts_asked(cases: &[Case]) -> BTreeSet<(u8, usize, usize)> {
    let mut asked = BTreeSet::new();
    for case in cases {
        let Case::ReadChunks { lengths, script, .. } = case else { continue };
        if read(script).is_err() {
            continue;
        }
        let mut cuts = BTreeSet::new();
        let mut at = 0;
        for length in lengths {
            at += *length as usize;
            cuts.insert(at);
        }
        let mut start = 0;
        while start < script.len() {
            let end = start + 4 + script[start] as usize;
            asked.extend(cuts.range(start + 1..end).map(|cut| (script[start + 2], end - start, cut - start)));
            start = end;
        }
    }
    asked
}

#[test]
fn the_stored_batch_has_every_state_and_cut() {
    let cases = stored::cases();
    let asked = rows_asked(&cases);
    for row in ROWS {
        for follows in ["none", "few", "many"] {
            assert!(asked.contains(&(row, follows)), "{row}, {follows} following");
        }
    }
    let cuts = cuts_asked(&cases);
    for (kind, length) in [(1, 8), (2, 18), (3, 20), (3, 58), (4, 14), (5, 14), (6, 16)] {
        for into in 1..length {
            assert!(cuts.contains(&(kind, length, into)), "kind {kind} of {length} bytes, cut at {into}");
        }
    }
    let has = |right: &dyn Fn(&Case) -> bool| assert!(cases.iter().any(right));
    for version in [0, 1, 2, 3, 65_535] {
        has(&|case| matches!(case, Case::ReadChunks { version: by, .. } if *by == version));
        has(&|case| matches!(case, Case::ReadOn { version: by, .. } if *by == version));
    }
}

/// As many cases as are compared: every state, and every number up to 6 of both
/// kinds; most of the rules' numbers.
#[test]
fn a_random_batch_has_every_state() {
    for seed in 1..=3 {
        let mut cases = random::cases(seed, 6000);
        let rows: BTreeSet<&str> = rows_asked(&cases).into_iter().map(|(row, _)| row).collect();
        for row in ROWS.iter().filter(|row| **row != "a good profile, nothing held") {
            assert!(rows.contains(row), "seed {seed}: {row}");
        }
        cases.retain(|case| matches!(case, Case::ReadChunks { .. } | Case::ReadOn { .. }));
        let heads = heads_of(&cases);
        for kind in ['U', 'V'] {
            let numbers: BTreeSet<u64> = heads.iter().filter(|h| h.kind == kind).map(|h| h.number).collect();
            assert!((0..=6).all(|number| numbers.contains(&number)), "seed {seed}: {kind} {numbers:?}");
            assert!(numbers.len() >= 13, "seed {seed}: {kind} {numbers:?}");
        }
    }
}
