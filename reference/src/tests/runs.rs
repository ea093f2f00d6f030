//! "Runs flip, they do not start over": cases computed by hand in both rule
//! versions, and what the batches have of them.

use super::*;
use crate::list::pixels;
use crate::rules::{gate_lines, is_used, line_length, region_of_line, repetitions, second_pattern, use_in_mode};
use crate::text::{text, text_by};
use crate::word::Line;
use std::collections::BTreeMap;

// ---------------------------------------------------------------------------
// By hand

/// One region over pattern 0 of length 4, V1 with the toggle at 2 from level 0;
/// lines of so many pixels, runs from pixel 1 on.
fn one_toggle(mode: Mode, lines: u16, length: u16, repetitions: u16) -> Profile {
    with(&Profile::empty(), |p| {
        set_pattern(p, 0, 0, 4, &[[2, 4095, 4095]], NO_PAIRS);
        p.sequences[0] = sequence(0, length, 1, repetitions, repetitions, 0);
        p.field = field(lines, length, 0, NO_SECOND, &[region(0, 0, mode)]);
    })
}

/// V1 of a line by version 1 and by version 2.
fn both(p: &Profile, line: u64) -> [String; 2] {
    output_of_both(p, 0, line)
}

fn output_of_both(p: &Profile, bit: u16, line: u64) -> [String; 2] {
    VERSIONS.map(|version| output_by(version, p, bit, line, line_length(p, line)))
}

/// "start level 1, length 4, one used toggle at 2, start 0, two runs on a line
/// of 8: 01 gives 11001100, the camera gives 11000011."
#[test]
fn the_example() {
    let p = with(&one_toggle(Mode::Plain, 1, 8, 2), |p| {
        set_levels(p, 0, 1);
        p.sequences[0].start = 0;
    });
    assert_eq!(both(&p, 0), ["11001100", "11000011"]);
    assert_eq!(output(&p, 0, 0, 8), "11000011");
    assert_eq!(steps_by(1, &p, 4), [(2, 0x0FC1), (2, 0x0FC0), (2, 0x0FC1), (2, 0x0FC0)]);
    assert_eq!(steps(&p, 3), [(2, 0x0FC1), (4, 0x0FC0), (2, 0x0FC1)]);
    let script = short_script(&p);
    assert_eq!(text_by(1, &script), "steps 4 pixels 8\n2 0FC1\n2 0FC0\n2 0FC1\n2 0FC0\n");
    assert_eq!(text(&script), "steps 3 pixels 8\n2 0FC1\n4 0FC0\n2 0FC1\n");
    for (version, acts_as) in [(0, 1), (3, 2), (65_535, 2)] {
        assert_eq!(output_by(version, &p, 0, 0, 8), output_by(acts_as, &p, 0, 0, 8));
        assert_eq!(steps_by(version, &p, 4), steps_by(acts_as, &p, 4));
        assert_eq!(text_by(version, &script), text_by(acts_as, &script));
    }
}

/// Lines of 14 pixels, runs from pixel 1 on: none, one, two and three.
#[test]
fn one_two_and_three_used_toggles() {
    let on_both_lines = |three: [u16; 3], level: u16, odd: u16, even: u16| {
        let p = with(&one_toggle(Mode::Plain, 2, 14, 0), |p| {
            set_pattern(p, 0, level, 4, &[three], NO_PAIRS);
            p.sequences[0] = sequence(0, 14, 1, odd, even, 0);
        });
        [both(&p, 0), both(&p, 1)]
    };
    let one = [["00011001100000", "00011110000000"], ["00011001100110", "00011110000111"]];
    assert_eq!(on_both_lines([2, 4095, 4095], 0, 2, 3), one);
    let at_0 = [["10000000011111", "10000111111111"], ["10000000000001", "10000111100000"]];
    assert_eq!(on_both_lines([0, 4, 9], 1, 2, 3), at_0);
    let two = [["11001100111111", "11001100111111"], ["11001100110011", "11001100110011"]];
    assert_eq!(on_both_lines([1, 3, 4], 1, 2, 3), two);
    let three = [["01001100100000", "01001011000000"], ["01001100110010", "01001011010011"]];
    assert_eq!(on_both_lines([0, 1, 3], 0, 2, 3), three);
    let none_and_one = [["00000000000000", "00000000000000"], ["00011000000000", "00011111111111"]];
    assert_eq!(on_both_lines([2, 4095, 4095], 0, 0, 1), none_and_one);
    assert_eq!(on_both_lines([4, 4095, 4095], 1, 3, 3), [["11111111111111"; 2]; 2]);
}

/// "The line's end cuts the run", and "the start of a line" sets the start level.
#[test]
fn a_cut_run_carries_nothing_to_the_next_line() {
    let p = with(&one_toggle(Mode::Plain, 4, 7, 3), |p| p.field.last = 4);
    for line in 0..3 {
        assert_eq!(both(&p, line), ["0001100", "0001111"]);
    }
    assert_eq!(both(&p, 3), ["0001", "0001"]);
    // Also where a line ends with the run itself, at the other level.
    let p = one_toggle(Mode::Plain, 2, 5, 1);
    assert_eq!([both(&p, 0), both(&p, 1)], [["00011"; 2]; 2]);
    // A start past the line: no run at all.
    let p = with(&one_toggle(Mode::Plain, 2, 5, 1), |p| p.sequences[0].start = 5);
    assert_eq!([both(&p, 0), both(&p, 1)], [["00000"; 2]; 2]);
}

/// "the level that the unmasked rules give at pixel freeze"; a freeze changes no
/// later level.
#[test]
fn masks_hold_the_unmasked_level() {
    let masked = |length: u16, repetitions: u16, mask: u16, pairs: [u16; 4]| {
        let p = with(&one_toggle(Mode::Plain, 1, length, repetitions), |p| {
            p.sequences[0].mask = mask;
            set_pairs(p, 0, pairs);
        });
        both(&p, 0)
    };
    assert_eq!(masked(10, 1, 0, NO_PAIRS), ["0001100000", "0001111111"]);
    // Freeze in the run, before its toggle and after it; resume after the run.
    assert_eq!(masked(10, 1, 1, [2, 7, 0, 0]), ["0000000000", "0000000111"]);
    assert_eq!(masked(10, 1, 2, [0, 0, 4, 8]), ["0001111100", "0001111111"]);
    // Freeze after the run.
    assert_eq!(masked(10, 1, 1, [6, 8, 0, 0]), ["0001100000", "0001111111"]);
    assert_eq!(masked(10, 1, 1, [0, 9, 0, 0]), ["0000000000", "0000000001"]);
    // Both pairs over two runs, 000110011000 and 000111100000.
    assert_eq!(masked(12, 2, 3, [2, 5, 6, 10]), ["000000000000", "000001111100"]);
}

/// "A second pattern still begins at its own start level."
#[test]
fn a_second_pattern_takes_over_nothing() {
    let second = |length: u16, repetitions: u16| {
        let p = with(&one_toggle(Mode::Plain, 3, 10, repetitions), |p| {
            set_pattern(p, 1, 0, length, &[[1, 4095, 4095]], NO_PAIRS);
            p.field.gate = 1;
            p.field.second = 1;
        });
        [both(&p, 1), both(&p, 2)]
    };
    let next = ["0001100000", "0001111111"];
    assert_eq!(second(5, 1), [["0001101111", "0001101111"], next]);
    // After a gap in which the first one's level stays.
    assert_eq!(second(7, 1), [["0001100011", "0001111011"], next]);
    assert_eq!(second(9, 2), [["0001100110", "0001111000"], ["0001100110", "0001111000"]]);
    // A freeze holds the gap's level past the second's start.
    let p = with(&one_toggle(Mode::Plain, 1, 10, 1), |p| {
        set_pattern(p, 1, 0, 7, &[[1, 4095, 4095]], NO_PAIRS);
        set_pairs(p, 0, [6, 8, 0, 0]);
        p.sequences[0].mask = 1;
        p.field.second = 1;
    });
    assert_eq!(both(&p, 0), ["0001100011", "0001111111"]);
}

/// "Only the start ... of the region (sweep) sets the start level again": three
/// runs over pixels 1 to 12 of lines of 6.
#[test]
fn a_sweep_flips_through_line_ends() {
    let p = one_toggle(Mode::Sweep, 3, 6, 3);
    assert_eq!(both(&p, 0), ["000110", "000111"]);
    assert_eq!(both(&p, 1), ["011001", "100001"]);
    assert_eq!(both(&p, 2), ["100000", "111111"]);
    // Regions after it, a plain one and a sweep, begin at the start level.
    let p = with(&one_toggle(Mode::Plain, 8, 6, 1), |p| {
        p.sequences[1] = sequence(0, 6, 1, 3, 3, 0);
        let regions = [
            region(0, 0, Mode::Plain),
            region(1, 1, Mode::Sweep),
            region(4, 0, Mode::Plain),
            region(5, 1, Mode::Sweep),
        ];
        p.field = field(8, 6, 0, NO_SECOND, &regions);
    });
    for (line, levels) in [(0, "000111"), (1, "000111"), (3, "111111"), (4, "000111"), (5, "000111"), (6, "100001")] {
        assert_eq!(output(&p, 0, line, 6), levels, "line {line}");
    }
    // As many runs as may be, and far into the field: 4095 flips.
    let p = with(&one_toggle(Mode::Sweep, 4095, 4095, 4095), |p| {
        set_pattern(p, 0, 0, 4095, &[[4094, 4095, 4095]], NO_PAIRS);
        p.sequences[0].start = 0;
    });
    assert_eq!(check(&p), Ok(()));
    for (line, by_1, by_2) in [(0, [0, 1], [0, 1]), (1, [0, 1], [1, 0]), (4093, [0, 1], [1, 0]), (4094, [0, 1], [0, 1])]
    {
        for (version, levels) in [(1, by_1), (2, by_2)] {
            let at = |pixel: u64| level_by(version, &p, line, pixel).unwrap() & 1;
            assert_eq!([at(4093), at(4094)], levels, "line {line} by {version}");
        }
    }
}

/// "rules 7 to 17 and the multiplier stay."
#[test]
fn what_stays() {
    for three in [[5, 4095, 4095], [2, 5, 4095], [0, 2, 5]] {
        let p = with(&one_toggle(Mode::Multiplier, 3, 10, 5), |p| set_pattern(p, 0, 0, 4, &[three], NO_PAIRS));
        assert_eq!(check(&p), Ok(()));
        for line in 0..3 {
            assert_eq!(output_by(1, &p, 0, line, 10), output_by(2, &p, 0, line, 10));
        }
    }
    for case in stored::cases() {
        let Case::Compile { profile, counts, words, .. } = case else { continue };
        if let Err(refusal) = check(&profile) {
            let by = |version: u16| compile_by(version, &profile, &mut counts.clone(), &mut words.clone());
            assert_eq!((by(1), by(2)), (Err(refusal), Err(refusal)));
        }
    }
}

// ---------------------------------------------------------------------------
// Where the versions part

/// The used toggles of each output of a region's pattern.
fn used_of(p: &Profile, region: usize) -> [usize; OUTPUTS] {
    let pattern = p.pattern(p.sequence_of(region).pattern);
    let rule = use_in_mode(p.field.regions[region].mode);
    pattern.toggles.map(|three| three.into_iter().filter(|t| is_used(*t, pattern.length, rule)).count())
}

/// The outputs of a line, as bits, at which the versions may part: those with
/// one or three used toggles, in plain and sweep.
fn may_part(p: &Profile, line: u64) -> u16 {
    let region = region_of_line(p, line);
    if p.field.regions[region].mode == Mode::Multiplier {
        return 0;
    }
    let odd = used_of(p, region).into_iter().enumerate().filter(|(_, used)| used % 2 == 1);
    odd.map(|(output, _)| 1 << output).sum()
}

/// The profiles that a batch compiles, of fields that are not too large.
fn compiled(cases: &[Case]) -> BTreeMap<Vec<u16>, Profile> {
    let mut profiles = BTreeMap::new();
    for case in cases {
        if let Case::Compile { profile, .. } = case {
            if check(profile).is_ok() && pixels(profile) <= 3000 {
                profiles.insert(profile.numbers(), *profile);
            }
        }
    }
    profiles
}

/// Versions 1 and 2 differ at no other output; and they do differ, often.
#[test]
fn only_outputs_with_one_or_three_used_toggles_part() {
    for (cases, least) in [(stored::cases(), 35), (random::cases(1, 6000), 40)] {
        let profiles = compiled(&cases);
        let mut part = 0;
        for p in profiles.values() {
            let mut differs = 0;
            for line in 0..p.field.lines as u64 {
                let lines = [1, 2, 0, 65_535].map(|version| Line::new(version, p, line));
                for pixel in 0..line_length(p, line) {
                    let [one, two, zero, many] = lines.each_ref().map(|line| line.word(pixel));
                    assert_eq!((zero, many), (one, two));
                    assert_eq!((one ^ two) & !may_part(p, line), 0, "line {line} pixel {pixel}");
                    differs |= one ^ two;
                }
            }
            part += (differs != 0) as usize;
        }
        assert!(100 * part >= least * profiles.len(), "{part} of {} part", profiles.len());
    }
}

// ---------------------------------------------------------------------------
// What the batches have

/// A line's runs: their start and their end counted from where t is, and the
/// same of the line.
struct Runs {
    mode: Mode,
    start: u64,
    length: u64,
    count: u64,
    line: [u64; 2],
}

impl Runs {
    fn of(p: &Profile, line: u64) -> Runs {
        let number = region_of_line(p, line);
        let (region, s) = (&p.field.regions[number], p.sequence_of(number));
        let before = match region.mode {
            Mode::Plain => 0,
            Mode::Sweep | Mode::Multiplier => (line - region.first as u64) * s.length as u64,
        };
        Runs {
            mode: region.mode,
            start: s.start as u64,
            length: p.pattern(s.pattern).length,
            count: repetitions(s, line),
            line: [before, before + line_length(p, line)],
        }
    }

    fn end(&self) -> u64 {
        self.start + self.count * self.length
    }

    /// Whether the line has a place, and is not at its edges.
    fn inside(&self, place: u64) -> bool {
        self.line[0] < place && place < self.line[1]
    }
}

/// Numbers of runs of patterns with so many used toggles.
const RUNS_OF: [[&str; 4]; 3] = [
    ["no run of one toggle", "one run of one toggle", "even runs of one toggle", "odd runs of one toggle"],
    ["no run of two toggles", "one run of two toggles", "even runs of two toggles", "odd runs of two toggles"],
    ["no run of three toggles", "one run of three toggles", "even runs of three toggles", "odd runs of three toggles"],
];

/// What the lines and regions of an accepted profile are; each but the
/// multiplier of a pattern with one or three used toggles on some output.
fn kinds(p: &Profile) -> BTreeSet<&'static str> {
    let mut kinds = BTreeSet::new();
    for line in 0..p.field.lines as u64 {
        let region = region_of_line(p, line);
        let runs = Runs::of(p, line);
        let odd = used_of(p, region).into_iter().any(|used| used % 2 == 1);
        match runs.mode {
            Mode::Plain => kinds.extend(kinds_of_counts(p, region, &runs)),
            Mode::Sweep => {}
            Mode::Multiplier if odd => _ = kinds.insert("a multiplier"),
            Mode::Multiplier => {}
        }
        if odd && runs.mode == Mode::Plain {
            kinds.extend(kinds_of_plain(p, line, &runs));
        }
        if odd && runs.mode == Mode::Sweep && runs.count > 0 {
            kinds.extend(kinds_of_sweep(p, line, &runs));
        }
    }
    let modes: Vec<Mode> = p.regions().iter().map(|r| r.mode).collect();
    if modes.windows(3).any(|three| three == [Mode::Plain, Mode::Sweep, Mode::Plain]) {
        kinds.insert("plain after sweep after plain");
    }
    kinds
}

fn kinds_of_counts(p: &Profile, region: usize, runs: &Runs) -> Vec<&'static str> {
    let which = if runs.count < 2 { runs.count } else { 2 + runs.count % 2 };
    let used = used_of(p, region).into_iter().filter(|used| *used > 0);
    used.map(|used| RUNS_OF[used - 1][which as usize]).collect()
}

fn kinds_of_plain(p: &Profile, line: u64, runs: &Runs) -> Vec<&'static str> {
    let s = p.sequence_of(region_of_line(p, line));
    let pattern = p.pattern(s.pattern);
    let on = |pair: usize| s.mask >> pair & 1 == 1;
    let pair = |right: &dyn Fn(u64, u64) -> bool| (0..2).any(|i| on(i) && right(pattern.freeze[i], pattern.resume[i]));
    let (start, end, length) = (runs.start, runs.end(), runs.line[1]);
    let ends_here = runs.count > 0 && end < length;
    let at_gate = gate_lines(p).any(|gate_line| gate_line == line);
    let second = if at_gate { second_pattern(p).map(|second| second.length) } else { None };
    let told = [
        (runs.count > 0 && start == 0, "from the first pixel on"),
        (runs.count > 0 && 0 < start && start < length, "a start on the line"),
        (runs.count > 0 && start >= length, "a start past the line"),
        (runs.count > 1 && start + runs.length < length && length < end, "a run cut by the line's end"),
        (
            ends_here && pair(&|freeze, resume| start < freeze && freeze < end && end < resume && resume < length),
            "a mask over a run's end",
        ),
        (ends_here && pair(&|freeze, _| end <= freeze && freeze < length), "a freeze after a run"),
        (ends_here && on(0) && on(1) && pattern.freeze[1] < length, "both pairs"),
        (runs.count > 0 && second == Some(end), "a second pattern right after a run"),
        (runs.count > 0 && second.is_some_and(|from| end < from), "a second pattern after a gap"),
    ];
    told.into_iter().filter(|(right, _)| *right).map(|(_, what)| what).collect()
}

fn kinds_of_sweep(p: &Profile, line: u64, runs: &Runs) -> Vec<&'static str> {
    let crosses = (0..runs.count).any(|k| {
        let (from, to) = (runs.start + k * runs.length, runs.start + (k + 1) * runs.length);
        from < runs.line[1] && runs.line[1] < to
    });
    let region = region_of_line(p, line);
    let first = p.field.regions[region].first as u64;
    let told = [
        (crosses && runs.count > 1, "a repetition over a line's end"),
        (runs.inside(runs.end()), "a sweep that ends inside a line"),
        (runs.inside(runs.start) && line > first, "a sweep that starts on a later line"),
        (line >= first + 2, "a sweep of three lines"),
        (line == first && region > 0 && p.field.regions[region - 1].mode == Mode::Sweep, "a sweep after a sweep"),
    ];
    told.into_iter().filter(|(right, _)| *right).map(|(_, what)| what).collect()
}

/// Every kind.
fn all_kinds() -> Vec<&'static str> {
    let others = [
        "from the first pixel on",
        "a start on the line",
        "a start past the line",
        "a run cut by the line's end",
        "a mask over a run's end",
        "a freeze after a run",
        "both pairs",
        "a second pattern right after a run",
        "a second pattern after a gap",
        "a repetition over a line's end",
        "a sweep that ends inside a line",
        "a sweep that starts on a later line",
        "a sweep of three lines",
        "a sweep after a sweep",
        "plain after sweep after plain",
        "a multiplier",
    ];
    RUNS_OF.concat().into_iter().chain(others).collect()
}

/// How many lists (K and J) and texts (T) by each version have each kind.
fn counted(cases: &[Case]) -> BTreeMap<(char, u16, &'static str), usize> {
    let mut counted = BTreeMap::new();
    for case in cases {
        let (version, profile) = match case {
            Case::Compile { profile, version, .. } => (*version, *profile),
            Case::Text { version, script } => (*version, read(script).unwrap_or(Profile::empty())),
            _ => continue,
        };
        if check(&profile).is_err() {
            continue;
        }
        for kind in kinds(&profile) {
            *counted.entry((case.kind(), version, kind)).or_default() += 1;
        }
    }
    counted
}

/// Whether cases of such letters together have every kind so many times.
fn has_all(cases: &[Case], letters: &[(&str, usize)]) {
    let counted = counted(cases);
    for kind in all_kinds() {
        for version in VERSIONS {
            for (letters, least) in letters {
                let count: usize = letters.chars().filter_map(|letter| counted.get(&(letter, version, kind))).sum();
                assert!(count >= *least, "{letters} by {version} has {count} times: {kind}");
            }
        }
    }
}

/// What the pixels are at which words are asked, by each version and mode.
fn pixels_asked(cases: &[Case]) -> BTreeMap<(u16, bool, &'static str), usize> {
    let mut asked = BTreeMap::new();
    for case in cases {
        let Case::Level { profile: p, version, line, pixel } = case else { continue };
        if level_by(*version, p, *line, *pixel).is_err() || may_part(p, *line) == 0 {
            continue;
        }
        let runs = Runs::of(p, *line);
        let at = runs.line[0] + pixel;
        let in_run = at.checked_sub(runs.start).filter(|_| at < runs.end());
        let last = pixel + 1 == line_length(p, *line);
        let told = [
            (at + 1 == runs.start, "the last before the start"),
            (in_run == Some(0), "the start"),
            (in_run.is_some_and(|t| t > 0 && t % runs.length == 0), "a repetition's first"),
            (in_run.is_some_and(|t| (t + 1) % runs.length == 0), "a repetition's last"),
            (in_run.is_some() && at + 1 == runs.end(), "the run's last"),
            (runs.count > 0 && at == runs.end(), "the first after the run"),
            (last, "the line's last"),
            (*line > 0 && *pixel == 0, "a next line's first"),
        ];
        for (_, what) in told.into_iter().filter(|(right, _)| *right) {
            *asked.entry((*version, runs.mode == Mode::Sweep, what)).or_default() += 1;
        }
    }
    asked
}

fn asks_all(cases: &[Case], least: usize) {
    let asked = pixels_asked(cases);
    let what = [
        "the last before the start",
        "the start",
        "a repetition's first",
        "a repetition's last",
        "the run's last",
        "the first after the run",
        "the line's last",
        "a next line's first",
    ];
    for what in what {
        for version in VERSIONS {
            for sweep in [false, true] {
                let count = asked.get(&(version, sweep, what)).copied().unwrap_or(0);
                assert!(count >= least, "by {version}, sweep {sweep}, {count} times: {what}");
            }
        }
    }
}

/// Words, edges, lists and texts by the versions that act as another one.
fn has_other_versions(cases: &[Case]) {
    let mut seen = BTreeSet::new();
    for case in cases {
        if let Case::Level { version, .. }
        | Case::NextEdge { version, .. }
        | Case::Compile { version, .. }
        | Case::Text { version, .. } = case
        {
            seen.insert((case.kind(), *version));
        }
    }
    for kind in ['L', 'E', 'K', 'J', 'T'] {
        for version in [0, 1, 2, 3, 65_535] {
            assert!(seen.contains(&(kind, version)), "no {kind} by {version}");
        }
    }
}

#[test]
fn the_stored_batch_has_every_kind_of_run() {
    let cases = stored::cases();
    has_all(&cases, &[("K", 4), ("J", 4), ("T", 4)]);
    asks_all(&cases, 10);
    has_other_versions(&cases);
}

/// What is shown by one version is shown by the other.
#[test]
fn the_stored_batch_asks_by_both_versions() {
    let mut asked = [BTreeSet::new(), BTreeSet::new()];
    for case in stored::cases() {
        let letter = case.kind();
        let (version, question) = match case {
            Case::Level { profile, version, line, pixel } | Case::NextEdge { profile, version, line, pixel } => {
                (version, (letter, profile.numbers(), vec![], line, pixel))
            }
            Case::Text { version, script } => (version, (letter, vec![], script, 0, 0)),
            _ => continue,
        };
        if VERSIONS.contains(&version) {
            asked[version as usize - 1].insert(question);
        }
    }
    assert!(!asked[0].is_empty());
    assert_eq!(asked[0], asked[1]);
}

/// As many cases as are compared. There are fewer texts than lists: they have
/// each kind now and then, and most often some.
#[test]
fn a_random_batch_has_every_kind_of_run() {
    for seed in 1..=3 {
        let cases = random::cases(seed, 6000);
        has_all(&cases, &[("KJ", 3)]);
        asks_all(&cases, 3);
        has_other_versions(&cases);
        let counted = counted(&cases);
        for version in VERSIONS {
            for kind in [
                "odd runs of one toggle",
                "even runs of one toggle",
                "odd runs of three toggles",
                "a repetition over a line's end",
            ] {
                let texts = counted.get(&('T', version, kind)).copied().unwrap_or(0);
                assert!(texts >= 3, "T by {version} has {texts} times: {kind}");
            }
        }
    }
}
