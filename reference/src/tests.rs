//! Cases computed by hand from 01, and what the batches must cover.

mod chunks;
mod edges;
mod gate_lines;
mod places;
mod runs;

use crate::case::{answer, decode_batch, Case, Engine};
use crate::edge::{next_edge, next_edge_by};
use crate::list::{compile, compile_by, play, Compiled};
use crate::make::*;
use crate::profile::*;
use crate::refusal::{refusal, Refusal};
use crate::rules::check;
use crate::script::{read, records, write};
use crate::version::NEWEST;
use crate::word::{level, level_by, locate};
use crate::{random, stored};
use std::collections::BTreeSet;

fn refused<T>(number: u8, place: usize) -> Result<T, Refusal> {
    Err(refusal(number, place))
}

/// 10, with the output and the toggle it names.
fn out_of_order<T>(place: usize, output: usize, toggle: usize) -> Result<T, Refusal> {
    Err(Refusal { output, toggle, ..refusal(10, place) })
}

/// The bits of one output over a line's pixels.
fn output(p: &Profile, bit: u16, line: u64, pixels: u64) -> String {
    output_by(NEWEST, p, bit, line, pixels)
}

fn output_by(version: u16, p: &Profile, bit: u16, line: u64, pixels: u64) -> String {
    let word = |pixel: u64| level_by(version, p, line, pixel).unwrap();
    (0..pixels).map(|pixel| if word(pixel) >> bit & 1 == 1 { '1' } else { '0' }).collect()
}

/// The steps of a compile with one entry to spare.
fn steps(p: &Profile, room: usize) -> Vec<(u32, u16)> {
    steps_by(NEWEST, p, room)
}

fn steps_by(version: u16, p: &Profile, room: usize) -> Vec<(u32, u16)> {
    let (mut counts, mut words) = (lent_counts(room + 1), lent_words(room));
    let used = compile_by(version, p, &mut counts, &mut words).unwrap().steps as usize;
    assert_eq!(counts[used..], lent_counts(room + 1)[used..]);
    assert_eq!(words[used..], lent_words(room)[used..]);
    counts[..used].iter().copied().zip(words[..used].iter().copied()).collect()
}

#[test]
fn w1_base_profile() {
    assert_eq!(read(&script_a()), Ok(profile_a()));
    let seven = [(3, 0x0FC1), (2, 0x0FC0), (8, 0x0FC1), (2, 0x0FC0), (2, 0x0FC1), (2, 0x0FC0), (1, 0x0FC1)];
    assert_eq!(steps(&profile_a(), 9), seven);
}

#[test]
fn w2_zero_is_a_used_toggle() {
    let p = with(&profile_a(), |p| p.registers[4..20].fill(0));
    assert_eq!(check(&p), out_of_order(0, 1, 3));
    assert_eq!(read(&[&script_a()[..16], &SEQUENCE_A, &FIELD_A].concat()), out_of_order(0, 1, 3));
}

#[test]
fn w5_a_frozen_line() {
    let p = with(&profile_a(), |p| {
        p.sequences[0].mask = 1;
        set_pairs(p, 0, [3, 6, 0, 0]);
    });
    assert_eq!(output(&p, 0, 0, 10), "1110001111");
}

#[test]
fn w9_a_multiplier_pulse_over_line_ends() {
    let p = with(&profile_a(), |p| {
        set_pattern(p, 0, 0, 4, &[[2, 5, 4095]], NO_PAIRS);
        p.sequences[0] = sequence(0, 10, 1, 5, 5, 0);
        p.field = field(3, 10, 0, NO_SECOND, &[region(0, 0, Mode::Multiplier)]);
    });
    assert_eq!(steps(&p, 3), [(9, 0x0FC0), (12, 0x0FC1), (9, 0x0FC0)]);
    for n in 0..30 {
        let (line, pixel) = locate(&p, n).unwrap();
        assert_eq!(level(&p, line, pixel).unwrap() & 1 == 1, (9..=20).contains(&n));
    }
    assert_eq!(locate(&p, 30), refused(19, 0));
}

#[test]
fn w11_room_for_six_steps() {
    for (c, w) in [(6, 6), (6, 9), (9, 6)] {
        let (mut counts, mut words) = (lent_counts(c), lent_words(w));
        assert_eq!(compile(&profile_a(), &mut counts, &mut words), refused(18, 7));
        assert_eq!((counts, words), (lent_counts(c), lent_words(w)));
    }
}

#[test]
fn w12_no_such_pixel() {
    assert_eq!(level(&profile_a(), 1, 10), refused(19, 0));
}

/// Three lines of 8, 8 and 6 pixels. The first pattern runs over pixels 1 to 6
/// of lines 0 and 2 and 1 to 3 of line 1; line 1 is the gate line and has the
/// second pattern from pixel 4 on; the freeze holds pixel 2 up to pixel 5, on
/// line 1 past the second's start. VSG1 is low at pixels 2 to 4 of line 1,
/// SUBCK high from pixel 3 of line 2, MSHUT from line 0 pixel 6 to line 1
/// pixel 1. V2 has one used toggle: its second run, which a freeze hides up to
/// pixel 5, is low by version 1 and high by version 2.
#[test]
fn all_rules_on_three_lines() {
    let p = with(&Profile::empty(), |p| {
        set_pattern(p, 0, 0b10, 3, &[[1, 2, 4095], [0, 4095, 4095]], [2, 6, 0, 0]);
        set_pattern(p, 1, 0b01, 4, &[[1, 4095, 4095], [0, 4095, 4095]], NO_PAIRS);
        p.sequences[0] = sequence(0, 8, 1, 2, 1, 1);
        p.field = field(3, 6, 1, 1, &[region(0, 0, Mode::Plain)]);
        p.gates[0] = gate(1, 1, 2, 5);
        p.subck = subck(0, 3, 9, 1, 1);
        p.shutters[0] = shutter(1, (0, 6), (1, 2));
    });
    for version in VERSIONS {
        assert_eq!(output_by(version, &p, 0, 0, 8), "00111100");
        assert_eq!(output_by(version, &p, 1, 1, 8), "10000011");
    }
    let before = [(1, 0x07C2), (1, 0x07C0), (4, 0x07C1)];
    let after = [(1, 0x17C0), (3, 0x0781), (1, 0x07C1), (3, 0x07C2), (1, 0x07C0), (1, 0x07C1), (3, 0x0FC1)];
    let from_pixel_6 = [vec![(1, 0x17C0), (2, 0x17C2)], vec![(3, 0x17C2)]];
    for (version, steps) in VERSIONS.into_iter().zip(from_pixel_6) {
        let all = [&before[..], &steps, &after].concat();
        assert_eq!(steps_by(version, &p, all.len()), all);
    }
}

/// On each output, with a higher one out of order too; the second pattern breaks
/// 14 and names none.
#[test]
fn rule_10_names_the_lowest_output_and_its_first_toggle() {
    let named = |mode: Mode, output: usize, three: [u16; 3]| {
        check(&with(&profile_seven(mode), |p| {
            set_toggles(p, 3, 5, [3, 2, 4095]);
            set_toggles(p, 3, output, three);
        }))
    };
    let second = |output: usize, three: [u16; 3]| check(&with(&profile_rich(), |p| set_toggles(p, 7, output, three)));
    for output in 0..OUTPUTS {
        for (toggle, threes) in [(2, &BREAKS_AT_2[..]), (3, &BREAKS_AT_3[..])] {
            for three in threes {
                for mode in [Mode::Plain, Mode::Sweep, Mode::Multiplier] {
                    assert_eq!(named(mode, output, *three), out_of_order(3, output + 1, toggle));
                }
                assert_eq!(second(output, *three), refused(14, 0));
            }
        }
        // A length of 4: 4 and above are used in multiplier alone.
        for (three, toggle) in [([4, 4, 3], 2), ([9, 5, 2], 2), ([1, 9, 5], 3)] {
            assert_eq!(named(Mode::Multiplier, output, three), out_of_order(3, output + 1, toggle));
        }
        for three in [[4, 4, 3], [9, 5, 2], [4, 9, 0]] {
            assert_eq!(named(Mode::Plain, output, three), out_of_order(3, output + 1, 3));
        }
    }
}

#[test]
fn playing_takes_counts_off_the_position() {
    let (counts, words) = ([2, 0, u32::MAX, 1], [7, 8, 9, 10]);
    assert_eq!(play(&counts, &words, 4, 1), Ok(7));
    assert_eq!(play(&counts, &words, 4, 2), Ok(9));
    assert_eq!(play(&counts, &words, 4, 2 + u32::MAX as u64), Ok(10));
    assert_eq!(play(&counts, &words, 4, 3 + u32::MAX as u64), refused(19, 0));
    assert_eq!(play(&counts, &words[..3], 4, 1), refused(20, 0));
    assert_eq!(play(&counts, &words, u64::MAX, u64::MAX), refused(20, 0));
}

#[test]
fn written_scripts_are_998_to_1314_bytes_and_read_back() {
    let a_two = with(&profile_a(), |p| p.field.gate2 = 1);
    let most = [profile_rich(), profile_two()].map(|p| with_all_sequences(&p));
    for (p, length) in [(profile_a(), 998), (a_two, 1000), (most[0], 1312), (most[1], 1314)] {
        let mut slice = lent_slice(length);
        assert_eq!(write(&p, &mut slice[..length - 1]), refused(18, length));
        assert_eq!(slice, lent_slice(length));
        assert_eq!(write(&p, &mut slice), Ok(length));
        assert_eq!(read(&slice), Ok(p));
    }
}

// ---------------------------------------------------------------------------
// The batches

#[test]
fn a_batch_reads_back() {
    for cases in [stored::cases(), random::cases(7, 300)] {
        let batch: Vec<u8> = cases.iter().flat_map(Case::encode).collect();
        assert_eq!(decode_batch(&batch), Some(cases));
    }
}

/// A batch of one case, whose payload is some bytes.
fn batch_of(kind: u8, payload: &[u8]) -> Vec<u8> {
    [&[kind], &(payload.len() as u32).to_le_bytes()[..], payload].concat()
}

/// A text has a whole version, and a script of 0 to 40,000 bytes.
#[test]
fn a_text_at_fault() {
    for (length, right) in [(0, false), (1, false), (2, true), (40_002, true), (40_003, false)] {
        assert_eq!(decode_batch(&batch_of(b'T', &vec![0; length])).is_some(), right, "{length} bytes");
    }
    let payload = [&[3, 1][..], &script_a()].concat();
    assert_eq!(decode_batch(&batch_of(b'T', &payload)), Some(vec![Case::Text { version: 0x103, script: script_a() }]));
}

/// A place has a whole line and a whole pixel, and nothing after them.
#[test]
fn a_place_at_fault() {
    for kind in [b'L', b'E'] {
        for (length, right) in [(0, false), (762, false), (779, false), (780, true), (781, false)] {
            assert_eq!(decode_batch(&batch_of(kind, &vec![0; length])).is_some(), right, "{length} bytes");
        }
    }
    let case = Case::NextEdge { profile: profile_two(), version: 0x103, line: 1 << 40, pixel: u64::MAX };
    assert_eq!(case.encode()[..5], [b'E', 0x0C, 3, 0, 0]);
    assert_eq!(case.encode()[767..], [3, 1, 0, 0, 0, 0, 0, 1, 0, 0, 255, 255, 255, 255, 255, 255, 255, 255]);
    assert_eq!(decode_batch(&case.encode()), Some(vec![case]));
}

/// Both engines are asked alike, and have as many entries as are said.
#[test]
fn a_compile_at_fault() {
    let lists = [&[1, 0, 0, 0, 2, 0, 0, 0][..], &[9; 8]].concat();
    let payload = [&[0; 764][..], &lists].concat();
    for (kind, engine) in [(b'K', Engine::Plain), (b'J', Engine::Jumping)] {
        let (counts, words) = (vec![0x09090909], vec![0x0909; 2]);
        let case = Case::Compile { engine, profile: Profile::empty(), version: 0, counts, words };
        assert_eq!(decode_batch(&batch_of(kind, &payload)), Some(vec![case]));
        assert_eq!(decode_batch(&batch_of(kind, &payload[..payload.len() - 1])), None);
        assert_eq!(decode_batch(&batch_of(kind, &[&payload[..], &[9]].concat())), None);
    }
}

/// What the first line of an answer says.
#[derive(PartialEq, Eq, PartialOrd, Ord)]
struct Head {
    kind: char,
    number: u64,
    /// 0 where it is an offset or a need
    place: u64,
    output: u64,
    toggle: u64,
}

/// The heads of all answers. 10 names an output and a toggle; nothing else does.
fn heads_of(cases: &[Case]) -> BTreeSet<Head> {
    let mut seen = BTreeSet::new();
    for (k, case) in cases.iter().enumerate() {
        let text = answer(k, case);
        let head = first_numbers(text.lines().nth(1).unwrap());
        let (number, output, toggle) = (head[0], head[2], head[3]);
        let place = if matches!(number, 2..=5 | 18) { 0 } else { head[1] };
        if number == 10 {
            assert!((1..=6).contains(&output) && (2..=3).contains(&toggle), "{text}");
        } else {
            assert_eq!((output, toggle), (0, 0), "{text}");
        }
        seen.insert(Head { kind: case.kind(), number, place, output, toggle });
    }
    seen
}

/// The numbers of an answer's first line; of a program's text as the others say
/// them: number, place, output and toggle.
fn first_numbers(line: &str) -> Vec<u64> {
    let mut parts: Vec<&str> = line.split(' ').collect();
    match parts[0] {
        "steps" => return vec![0; 4],
        "refused" => parts.remove(0),
        _ => "",
    };
    let mut numbers: Vec<u64> = parts.into_iter().map(|n| n.parse().unwrap()).collect();
    numbers.resize(numbers.len().max(4), 0);
    numbers
}

/// Whether 10 names toggles 2 and 3 of each output.
fn all_named<'a>(heads: impl Iterator<Item = &'a Head>) -> bool {
    let named: BTreeSet<(u64, u64)> = heads.filter(|h| h.number == 10).map(|h| (h.output, h.toggle)).collect();
    named.len() == 2 * OUTPUTS
}

/// Every number of refusal that an entry point can answer, at each region, gate
/// and shutter; at 10 each output and toggle.
#[test]
fn the_stored_batch_covers_every_refusal() {
    let seen = heads_of(&stored::cases());
    let of_rules = [0, 5, 6, 7, 8, 9, 10, 11, 12, 13, 14, 15, 16, 17];
    let has = |kind, number| seen.iter().any(|h| (h.kind, h.number) == (kind, number));
    let of_kinds = [
        ('R', vec![1, 2, 3, 4]),
        ('U', vec![1, 2, 3, 4]),
        ('V', vec![1, 2, 3, 4]),
        ('C', vec![]),
        ('W', vec![18]),
        ('L', vec![19]),
        ('E', vec![19]),
        ('N', vec![19]),
        ('K', vec![18]),
        ('J', vec![18]),
        ('T', vec![1, 2, 3, 4, 18]),
    ];
    for (kind, more) in of_kinds {
        for number in of_rules.into_iter().chain(more) {
            assert!(has(kind, number), "{kind} never answers {number}");
        }
        // Chunks are asked of few profiles: what is read is judged as `R` is.
        let named = matches!(kind, 'U' | 'V') || all_named(seen.iter().filter(|h| h.kind == kind));
        assert!(named, "{kind} never names some output or toggle");
    }
    for number in [0, 19, 20] {
        assert!(has('P', number), "P never answers {number}");
    }
    let has_at = |kind, number, place| seen.iter().any(|h| (h.kind, h.number, h.place) == (kind, number, place));
    for kind in ['R', 'C'] {
        let places = (7..=13).flat_map(|n| (0..7).map(move |place| (n, place)));
        let others = (0..5).map(|gate| (15, gate)).chain((0..2).map(|which| (17, which)));
        for (number, place) in places.chain(others) {
            assert!(has_at(kind, number, place), "{kind} never answers {number} at {place}");
        }
    }
}

/// As many cases as are compared; those that compile take long and are left out.
#[test]
fn a_random_batch_names_every_output_and_toggle() {
    for seed in 1..=3 {
        let mut cases = random::cases(seed, 6000);
        cases.retain(|case| !matches!(case, Case::Compile { .. }));
        assert!(all_named(heads_of(&cases).iter()));
    }
}

/// The bases of the stored batch are accepted: what is built on them breaks
/// what it means to break.
#[test]
fn the_bases_are_accepted() {
    for p in [profile_a(), profile_rich(), profile_two(), with_all_sequences(&profile_two())] {
        assert_eq!(check(&p), Ok(()));
    }
    for mode in [Mode::Plain, Mode::Sweep, Mode::Multiplier] {
        assert_eq!(check(&profile_seven(mode)), Ok(()));
    }
}

/// Nothing panics or wraps, accepted profiles survive writing and reading, and
/// compiled lists play what the words say.
#[test]
fn random_cases_agree_with_themselves() {
    for seed in 0..20 {
        for (k, case) in random::cases(seed, 400).iter().enumerate() {
            answer(k, case);
            match case {
                Case::Check { profile } if check(profile).is_ok() => {
                    assert_eq!(read(&records(profile).concat()), Ok(*profile));
                    assert_eq!(read(&short_script(profile)), Ok(*profile));
                }
                Case::Compile { engine: _, profile, version, counts, words } => {
                    plays_its_field(*version, profile, counts.clone(), words.clone());
                }
                _ => {}
            }
        }
    }
}

fn plays_its_field(version: u16, profile: &Profile, mut counts: Vec<u32>, mut words: Vec<u16>) {
    let Ok(Compiled { steps, pixels }) = compile_by(version, profile, &mut counts, &mut words) else { return };
    let every = (pixels / 50).max(1);
    for n in (0..pixels).step_by(every as usize).chain([pixels - 1]) {
        let (line, pixel) = locate(profile, n).unwrap();
        assert_eq!(play(&counts, &words, steps, n), level_by(version, profile, line, pixel));
    }
    assert_eq!(play(&counts, &words, steps, pixels), refused(19, 0));
}
