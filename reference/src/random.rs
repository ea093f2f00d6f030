//! Random batches. Valid profiles are built so that the rules hold, then
//! sometimes one number is moved, bytes are damaged, or a script is cut. What
//! depends on the rule version names one.

use crate::case::{Case, Engine, ENTRIES_MOST, SCRIPT_MOST_IN_A_CASE};
use crate::list::steps_needed;
use crate::make::*;
use crate::profile::*;
use crate::ranges::check_ranges;
use crate::rules::{check, gate_lines, line_length, region_of_line, region_size, repetitions};
use crate::script::{records, SCRIPT_MOST};
use crate::stops::{place_before, stops, Stop};
use crate::upload::{Upload, ROOM};
use std::collections::BTreeSet;

/// A batch of `count` cases; the same seed gives the same batch.
pub fn cases(seed: u64, count: u64) -> Vec<Case> {
    let mut rng = Rng { state: seed };
    (0..count).map(|_| case(&mut rng)).collect()
}

fn case(rng: &mut Rng) -> Case {
    match rng.below(100) {
        0..=16 => read_case(rng),
        17..=26 => Case::Check { profile: any_profile(rng) },
        27..=30 => {
            let profile = any_profile(rng);
            Case::Write { profile, slice: slice(rng, &profile) }
        }
        31..=47 => level_case(rng),
        48..=57 => next_edge_case(rng),
        58..=64 => locate_case(rng),
        65..=76 => compile_case(rng, Engine::Plain),
        77..=87 => compile_case(rng, Engine::Jumping),
        88..=94 => text_case(rng),
        _ => play_case(rng),
    }
}

/// Most often one of the two rule versions; else what acts as one of them.
fn version(rng: &mut Rng) -> u16 {
    let from: &[u16] = if rng.percent(95) { &VERSIONS } else { &OTHER_VERSIONS };
    rng.pick(from)
}

// ---------------------------------------------------------------------------
// The generator: splitmix64

pub struct Rng {
    state: u64,
}

impl Rng {
    fn next(&mut self) -> u64 {
        self.state = self.state.wrapping_add(0x9E37_79B9_7F4A_7C15);
        let z = self.state;
        let z = (z ^ (z >> 30)).wrapping_mul(0xBF58_476D_1CE4_E5B9);
        let z = (z ^ (z >> 27)).wrapping_mul(0x94D0_49BB_1331_11EB);
        z ^ (z >> 31)
    }

    /// Another one, whose draws leave this one where it is.
    fn apart(&self) -> Rng {
        Rng { state: !self.state }
    }

    fn below(&mut self, n: u64) -> u64 {
        self.next() % n
    }

    /// From least to most, both included.
    fn between(&mut self, least: u64, most: u64) -> u64 {
        least + self.below(most - least + 1)
    }

    /// As `between`, but often at an edge.
    fn edgy(&mut self, least: u64, most: u64) -> u64 {
        match self.below(8) {
            0 => least,
            1 => most,
            _ => self.between(least, most),
        }
    }

    fn percent(&mut self, p: u64) -> bool {
        self.below(100) < p
    }

    /// A number of any size; or a small one with a high bit set, which narrower
    /// arithmetic would take for the small one.
    fn wide(&mut self, small: u64) -> u64 {
        if self.percent(50) {
            self.next() >> self.below(64)
        } else {
            small | 1 << self.pick(&[16, 24, 32, 48, 63])
        }
    }

    fn pick<T: Copy>(&mut self, from: &[T]) -> T {
        from[self.below(from.len() as u64) as usize]
    }

    fn shuffle<T>(&mut self, items: &mut [T]) {
        for i in (1..items.len()).rev() {
            items.swap(i, self.below(i as u64 + 1) as usize);
        }
    }
}

// ---------------------------------------------------------------------------
// Profiles

/// The most lines and the longest lines of a field.
#[derive(Clone, Copy)]
struct Size {
    lines: u64,
    length: u64,
}

const TINY: Size = Size { lines: 5, length: 9 };
const SMALL: Size = Size { lines: 12, length: 30 };
const MEDIUM: Size = Size { lines: 60, length: 200 };
const FULL: Size = Size { lines: 4095, length: 4095 };

fn size(rng: &mut Rng) -> Size {
    match rng.below(20) {
        0..=5 => TINY,
        6..=15 => SMALL,
        16..=18 => MEDIUM,
        _ => FULL,
    }
}

/// Seldom full size: compiling one of those takes long.
fn size_to_compile(rng: &mut Rng) -> Size {
    match rng.below(75) {
        0..=23 => TINY,
        24..=57 => SMALL,
        58..=73 => MEDIUM,
        _ => FULL,
    }
}

fn any_profile(rng: &mut Rng) -> Profile {
    let size = size(rng);
    profile_of(rng, size)
}

/// Half of them valid; most others have one number moved or one rule broken.
fn profile_of(rng: &mut Rng, size: Size) -> Profile {
    let mut p = valid(rng, size);
    match rng.below(50) {
        0..=24 => {}
        25..=32 => move_number(rng, &mut p, true),
        33..=40 => break_rules(rng, &mut p, 1),
        41..=44 => {
            let count = rng.between(2, 4);
            break_rules(rng, &mut p, count);
        }
        45..=47 => move_number(rng, &mut p, false),
        48 => {
            break_rules(rng, &mut p, 2);
            move_number(rng, &mut p, true);
        }
        _ => p = wild(rng, &p),
    }
    p
}

/// A profile that the check accepts.
fn valid(rng: &mut Rng, size: Size) -> Profile {
    let mut p = Profile::empty();
    unused_items(rng, &mut p);
    layout(rng, &mut p, size);
    for i in 0..p.field.count as usize {
        fill_region(rng, &mut p, i);
    }
    share(rng, &mut p);
    if rng.percent(70) {
        second_pattern(rng, &mut p);
    }
    gates(rng, &mut p);
    subck_item(rng, &mut p);
    shutter_items(rng, &mut p);
    p
}

/// Patterns and sequences with any numbers in range; those in use are set later.
fn unused_items(rng: &mut Rng, p: &mut Profile) {
    for k in 0..PATTERNS {
        if rng.percent(40) {
            continue;
        }
        for i in 0..24 {
            p.registers[24 * k + i] = if i == 0 { rng.below(64) } else { rng.below(4096) } as u16;
        }
    }
    for s in &mut p.sequences {
        if rng.percent(30) {
            *s = Sequence {
                present: true,
                pattern: rng.below(10) as u16,
                length: rng.between(1, 4095) as u16,
                start: rng.below(4096) as u16,
                odd: rng.below(4096) as u16,
                even: rng.below(4096) as u16,
                mask: rng.below(4) as u16,
            };
        }
    }
}

/// Lines, regions and their modes, line lengths; a sequence and a pattern of
/// its own for each region.
fn layout(rng: &mut Rng, p: &mut Profile, size: Size) {
    let lines = rng.edgy(1, size.lines);
    let count = rng.edgy(1, lines.min(7));
    let mut firsts = vec![0];
    while (firsts.len() as u64) < count {
        let first = rng.below(lines);
        if !firsts.contains(&first) {
            firsts.push(first);
        }
    }
    firsts.sort();
    let mut sequences: Vec<u16> = (0..10).collect();
    let mut patterns: Vec<u16> = (0..10).collect();
    rng.shuffle(&mut sequences);
    rng.shuffle(&mut patterns);
    let mut regions = Vec::new();
    for i in 0..count as usize {
        let mode = rng.pick(&[Mode::Plain, Mode::Plain, Mode::Sweep, Mode::Multiplier]);
        let length = rng.edgy(1, size.length) as u16;
        p.sequences[sequences[i] as usize] = sequence(patterns[i], length, 0, 0, 0, 0);
        regions.push(region(firsts[i] as u16, sequences[i], mode));
    }
    let last = rng.edgy(1, size.length) as u16;
    let gate_line = rng.edgy(0, lines - 1) as u16;
    p.field = field(lines as u16, last, gate_line, NO_SECOND, &regions);
    if lines > 1 && rng.percent(60) {
        p.field.gate2 = another_line(rng, lines, gate_line as u64);
    }
}

/// A line before or after the gate line: any, the one beside it, or the last.
fn another_line(rng: &mut Rng, lines: u64, gate_line: u64) -> u16 {
    let last = lines - 1;
    if gate_line != last && rng.percent(15) {
        return last as u16;
    }
    ((gate_line + rng.edgy(1, last)) % lines) as u16
}

fn fill_region(rng: &mut Rng, p: &mut Profile, i: usize) {
    let size = region_size(p, i);
    match p.field.regions[i].mode {
        Mode::Plain => fill_plain(rng, p, i),
        Mode::Sweep => fill_sweep(rng, p, i, size),
        Mode::Multiplier => fill_multiplier(rng, p, i, size),
    }
}

/// The sequence of region i, to be changed.
fn sequence_mut(p: &mut Profile, i: usize) -> &mut Sequence {
    let number = p.field.regions[i].sequence as usize;
    &mut p.sequences[number]
}

fn fill_plain(rng: &mut Rng, p: &mut Profile, i: usize) {
    let s = sequence_mut(p, i);
    let line = s.length as u64;
    let pattern = s.pattern;
    // A few runs that end on the line, or any.
    let few = rng.percent(60);
    let longest = if few { (line / rng.between(2, 8)).max(1) } else { line + 3 };
    let length = rng.edgy(1, longest.min(4095)).min(rng.edgy(1, 4095));
    s.start = match rng.below(10) {
        0 => rng.below(4096),
        1..=4 => rng.below(4),
        _ => rng.below(line.div_ceil(2) + 1),
    } as u16;
    let most = match rng.below(10) {
        0 => 4095,
        1 => 5,
        _ if few => (line / length).min(5),
        _ => line / length + 2,
    };
    s.odd = rng.edgy(0, most.min(4095)) as u16;
    s.even = rng.edgy(0, most.min(4095)) as u16;
    s.mask = rng.pick(&[0, 0, 1, 2, 3]);
    let mask = s.mask;
    let toggles = toggles_below(rng, length);
    let pairs = pairs(rng, mask, line);
    let levels = rng.below(64) as u16;
    set_pattern(p, pattern as usize, levels, length as u16, &toggles, pairs);
}

fn fill_sweep(rng: &mut Rng, p: &mut Profile, i: usize, size: u64) {
    let s = sequence_mut(p, i);
    let (start, length) = start_and_length(rng, size);
    let most = ((size - start) / length).min(4095);
    let count = match rng.below(10) {
        0..=2 => most,
        3..=6 => rng.edgy(0, most.min(5)),
        _ => rng.edgy(0, most),
    };
    *s = Sequence { start: start as u16, odd: count as u16, even: count as u16, ..*s };
    let pattern = s.pattern as usize;
    let toggles = toggles_below(rng, length);
    let (levels, pairs) = (rng.below(64) as u16, pairs(rng, 0, size));
    set_pattern(p, pattern, levels, length as u16, &toggles, pairs);
}

fn fill_multiplier(rng: &mut Rng, p: &mut Profile, i: usize, size: u64) {
    let s = sequence_mut(p, i);
    let (start, length) = start_and_length(rng, size);
    let highest = ((size - start) / length).min(4094);
    let toggles = toggles_to(rng, highest);
    let used = toggles.iter().flatten().copied().filter(|t| *t != 4095);
    let count = used.max().unwrap_or(0);
    *s = Sequence { start: start as u16, odd: count, even: count, ..*s };
    let pattern = s.pattern as usize;
    let (levels, pairs) = (rng.below(64) as u16, pairs(rng, 0, size));
    set_pattern(p, pattern, levels, length as u16, &toggles, pairs);
}

/// A start in the region, and a pattern length that leaves room for a few runs.
fn start_and_length(rng: &mut Rng, size: u64) -> (u64, u64) {
    let start = if rng.percent(10) { rng.edgy(0, size.min(4095)) } else { rng.edgy(0, (size / 4).min(4095)) };
    let longest = (size / rng.between(1, 9)).clamp(1, 4095);
    (start, rng.edgy(1, longest))
}

/// Used toggles below the length first and rising, then any at or above it.
fn toggles_below(rng: &mut Rng, length: u64) -> [[u16; 3]; 6] {
    let mut toggles = [UNUSED; 6];
    for three in &mut toggles {
        let used = rising(rng, length);
        for i in used.len()..3 {
            three[i] = if rng.percent(50) { 4095 } else { rng.between(length, 4095) as u16 };
        }
        three[..used.len()].copy_from_slice(&used);
    }
    toggles
}

/// Used toggles up to the highest first and rising, then 4095.
fn toggles_to(rng: &mut Rng, highest: u64) -> [[u16; 3]; 6] {
    let mut toggles = [UNUSED; 6];
    for three in &mut toggles {
        let used = rising(rng, highest + 1);
        three[..used.len()].copy_from_slice(&used);
    }
    toggles
}

/// At most three numbers below a limit, rising strictly. One and three are most
/// frequent: with them a run ends at another level than it began with.
fn rising(rng: &mut Rng, limit: u64) -> Vec<u16> {
    let count = rng.pick(&[0, 1, 1, 1, 2, 3, 3, 3]).min(limit) as usize;
    let mut used = Vec::new();
    while used.len() < count {
        let toggle = rng.edgy(0, limit - 1) as u16;
        if !used.contains(&toggle) {
            used.push(toggle);
        }
    }
    used.sort();
    used
}

/// Freeze and resume pairs that the mask's rule allows near a line's pixels;
/// those not turned on are any.
fn pairs(rng: &mut Rng, mask: u16, line: u64) -> [u16; 4] {
    let most = (line + 2).min(4092);
    let mut inside: Vec<u16> = (0..4).map(|_| rng.below(most) as u16).collect();
    inside.sort();
    // Two numbers may be equal only between the pairs.
    let mut pairs = [inside[0], inside[1] + 1, inside[2] + 1, inside[3] + 2];
    for pair in 0..2 {
        if mask >> pair & 1 == 0 {
            pairs[2 * pair] = rng.below(4096) as u16;
            pairs[2 * pair + 1] = rng.below(4096) as u16;
        }
    }
    pairs
}

/// Lets two regions share a sequence or a pattern where the rules still hold.
fn share(rng: &mut Rng, p: &mut Profile) {
    for _ in 0..2 {
        let i = rng.below(p.field.count as u64) as usize;
        let j = rng.below(p.field.count as u64) as usize;
        let shared = with(p, |p| {
            if rng.percent(50) {
                p.field.regions[i].sequence = p.field.regions[j].sequence;
            } else {
                let pattern = p.sequence_of(j).pattern;
                sequence_mut(p, i).pattern = pattern;
            }
        });
        if check(&shared).is_ok() {
            *p = shared;
        }
    }
}

/// A second pattern, where all gate lines lie in plain regions; the lines'
/// counts are lowered to end before it.
fn second_pattern(rng: &mut Rng, p: &mut Profile) {
    let length = shortest_gate_line(p);
    let plain = gate_lines(p).all(|line| p.field.regions[region_of_line(p, line)].mode == Mode::Plain);
    if !plain || length < 2 {
        return;
    }
    let used: Vec<u16> = (0..p.field.count as usize).map(|i| p.sequence_of(i).pattern).collect();
    let free: Vec<u16> = (0..10).filter(|k| !used.contains(k)).collect();
    let second = rng.pick(&free);
    let second_length = rng.edgy(1, length - 1);
    let toggles = toggles_to(rng, (length - second_length + 2).min(4094));
    let levels = rng.below(64) as u16;
    let tried = with(p, |p| {
        let any_pairs = pairs(rng, 0, 1);
        set_pattern(p, second as usize, levels, second_length as u16, &toggles, any_pairs);
        p.field.second = second;
        for line in gate_lines(p) {
            let most = most_before(p, line, second_length);
            let count = count_mut(p, line);
            *count = (*count).min(most);
        }
    });
    // A shared sequence may no longer suit its other region.
    if check(&tried).is_ok() {
        *p = tried;
    }
}

fn shortest_gate_line(p: &Profile) -> u64 {
    gate_lines(p).map(|line| line_length(p, line)).min().expect("at least one gate line")
}

/// The most repetitions on a line that end at or before a pixel.
fn most_before(p: &Profile, line: u64, pixel: u64) -> u16 {
    let s = p.sequence_of(region_of_line(p, line));
    // A broken rule may have left the pattern without length.
    let length = p.pattern(s.pattern).length.max(1);
    (pixel.saturating_sub(s.start as u64) / length) as u16
}

/// A line's repetitions, to be changed.
fn count_mut(p: &mut Profile, line: u64) -> &mut u16 {
    let s = sequence_mut(p, region_of_line(p, line));
    if line % 2 == 0 {
        &mut s.odd
    } else {
        &mut s.even
    }
}

fn gates(rng: &mut Rng, p: &mut Profile) {
    let length = shortest_gate_line(p);
    for g in &mut p.gates {
        if rng.percent(40) {
            continue;
        }
        let level = rng.below(2) as u16;
        *g = if length >= 2 && rng.percent(70) {
            let toggle2 = rng.edgy(1, length - 1);
            gate(1, level, rng.edgy(0, toggle2 - 1) as u16, toggle2 as u16)
        } else {
            gate(0, level, rng.below(4096) as u16, rng.below(4096) as u16)
        };
    }
}

fn subck_item(rng: &mut Rng, p: &mut Profile) {
    if rng.percent(40) {
        return;
    }
    let most = if rng.percent(80) { 40 } else { 4095 };
    let toggle2 = rng.edgy(1, most);
    let toggle1 = rng.edgy(0, toggle2 - 1);
    let lines = if rng.percent(85) { (p.field.lines as u64).div_ceil(2) } else { 4095 };
    let (suppressed, count) = (rng.edgy(1, lines), rng.edgy(0, lines));
    p.subck = subck(rng.below(2) as u16, toggle1 as u16, toggle2 as u16, suppressed as u16, count as u16);
}

fn shutter_items(rng: &mut Rng, p: &mut Profile) {
    for which in 0..SHUTTERS {
        let (one, other) = (place(rng, p), place(rng, p));
        if one != other && rng.percent(60) {
            p.shutters[which] = shutter(rng.below(2) as u16, one.min(other), one.max(other));
        }
    }
}

/// A line and pixel of the field.
fn place(rng: &mut Rng, p: &Profile) -> (u16, u16) {
    let line = rng.edgy(0, p.field.lines as u64 - 1);
    let pixel = rng.edgy(0, line_length(p, line) - 1);
    (line as u16, pixel as u16)
}

// ---------------------------------------------------------------------------
// Moving numbers

/// Moves one number of the profile a little, to an edge of its range, to
/// another number of the profile, or past its range.
fn move_number(rng: &mut Rng, p: &mut Profile, in_range: bool) {
    let i = number_to_move(rng, p);
    let numbers = p.numbers();
    let old = numbers[i];
    let value = match limits(i) {
        Limits::Flag => 1 - old,
        Limits::Mode => (old + rng.between(1, 2) as u16) % 3,
        Limits::Between(least, most) if in_range => {
            let other = numbers[rng.between(240, NUMBERS as u64 - 1) as usize];
            let near = [old.wrapping_add(1), old.saturating_sub(1)];
            rng.pick(&[near[0], near[1], near[0], near[1], least, most, other]).clamp(least, most)
        }
        Limits::Between(least, most) => rng.pick(&[most + 1, most + 1, least.wrapping_sub(1), 65_534, 65_535]),
    };
    *p = with_number(p, i, value);
}

/// A number in the raw order, most often one that a rule looks at.
fn number_to_move(rng: &mut Rng, p: &Profile) -> usize {
    let region = rng.below(p.field.count.clamp(1, 7) as u64) as usize;
    let sequence = (p.field.regions[region].sequence as usize).min(9);
    let pattern = (p.sequences[sequence].pattern as usize).min(9);
    let second = (p.field.second as usize).min(9);
    match rng.below(20) {
        0..=3 => 353 + rng.below(7) as usize,
        4..=6 => 360 + 3 * region + rng.below(3) as usize,
        7..=9 => 240 + 7 * sequence + rng.below(7) as usize,
        10..=13 => 24 * pattern + rng.below(24) as usize,
        14 => 24 * second + rng.below(24) as usize,
        15 => 310 + rng.below(25) as usize,
        16 => 335 + rng.below(6) as usize,
        17 | 18 => 341 + rng.below(12) as usize,
        _ => rng.below(NUMBERS as u64) as usize,
    }
}

/// Breaks a few rules of a profile that is accepted. The last goes first: each
/// edit needs that the rules before its own still hold. 10 is broken most often:
/// it has an answer for each output and toggle; then 14, which has most clauses,
/// and 15: both can be broken on each gate line.
fn break_rules(rng: &mut Rng, p: &mut Profile, count: u64) {
    let rule = |rng: &mut Rng| match rng.below(10) {
        0 | 1 => 10,
        2 | 3 => 14,
        4 => 15,
        _ => rng.between(6, 17),
    };
    let mut rules: Vec<u64> = (0..count).map(|_| rule(rng)).collect();
    rules.sort();
    for rule in rules.into_iter().rev() {
        break_rule(rng, p, rule);
    }
}

/// Breaks a rule, or brings it to its edge, at any region, gate or shutter.
fn break_rule(rng: &mut Rng, p: &mut Profile, rule: u64) {
    if rule == 6 {
        p.field = Field::default();
        return;
    }
    let i = rng.below(p.field.count as u64) as usize;
    let pattern = p.sequence_of(i).pattern as usize;
    match rule {
        7 => break_order(rng, p, i),
        8 => *sequence_mut(p, i) = Sequence::default(),
        9 => set_length(p, pattern, 0),
        10 => break_toggles(rng, p, pattern),
        11 => break_mask(rng, p, i),
        12 => break_counts(rng, p, i),
        13 => break_run(rng, p, i),
        14 => break_gate_line(rng, p),
        15 => break_gate(rng, p),
        16 => break_subck(rng, p),
        _ => break_shutter(rng, p),
    }
}

fn break_order(rng: &mut Rng, p: &mut Profile, i: usize) {
    let before = if i == 0 { 1 } else { p.field.regions[i - 1].first };
    p.field.regions[i].first = rng.pick(&[before, before.saturating_sub(1), p.field.lines.min(4094), 4094]);
}

/// Numbers around the edges of use, in whatever order, on one output or two.
fn break_toggles(rng: &mut Rng, p: &mut Profile, pattern: usize) {
    let length = p.pattern(pattern as u16).length;
    let near = [0, 1, length.saturating_sub(1), length, length + 1, 4094, 4095].map(|t| t.min(4095) as u16);
    for _ in 0..rng.between(1, 2) {
        let three = [0; 3].map(|_| rng.pick(&near));
        let output = rng.below(6) as usize;
        set_toggles(p, pattern, output, three);
    }
}

fn break_mask(rng: &mut Rng, p: &mut Profile, i: usize) {
    let s = sequence_mut(p, i);
    s.mask = rng.between(1, 3) as u16;
    let pattern = s.pattern as usize;
    let from = rng.below(30);
    let pairs = [0; 4].map(|_| rng.between(from, from + 2) as u16);
    set_pairs(p, pattern, pairs);
}

fn break_counts(rng: &mut Rng, p: &mut Profile, i: usize) {
    let s = sequence_mut(p, i);
    let by = rng.between(1, 2) as u16;
    let count = if rng.percent(50) { &mut s.odd } else { &mut s.even };
    *count = if rng.percent(50) { (*count + by).min(4095) } else { count.saturating_sub(by) };
}

/// A start with which the run ends exactly at the region's end, or past it.
fn break_run(rng: &mut Rng, p: &mut Profile, i: usize) {
    let size = region_size(p, i);
    let s = *p.sequence_of(i);
    let run = s.odd as u64 * p.pattern(s.pattern).length;
    let start = size.saturating_sub(run) + rng.below(3);
    sequence_mut(p, i).start = start.min(4095) as u16;
}

/// The gate lines moved; or the second pattern wrong on them, often on one alone.
fn break_gate_line(rng: &mut Rng, p: &mut Profile) {
    if p.field.second == NO_SECOND || rng.percent(30) {
        move_gate_line(rng, p);
    } else {
        break_second(rng, p);
    }
}

/// A gate line outside, on the last line, equal to the other or anywhere; or
/// another second pattern.
fn move_gate_line(rng: &mut Rng, p: &mut Profile) {
    let outside = p.field.lines.min(4094);
    let last = p.field.lines - 1;
    let any = rng.below(p.field.lines as u64) as u16;
    match rng.below(9) {
        0 => p.field.gate = outside,
        1 => p.field.gate2 = outside,
        2 => p.field.gate2 = p.field.gate,
        3 => p.field.gate = any,
        4 => p.field.gate2 = any,
        5 => p.field.gate = last,
        6 => p.field.gate2 = last,
        7 if p.field.gate2 != NO_GATE2 => set_gate_lines(p, p.field.gate2, p.field.gate),
        _ => p.field.second = rng.below(10) as u16,
    }
}

/// One clause of 14 about the second pattern broken, or brought to its edge: its
/// length and toggles; the run before it and the mode on one of the gate lines;
/// or one of them moved to where the pattern may not suit.
fn break_second(rng: &mut Rng, p: &mut Profile) {
    let second = p.field.second;
    let line = a_gate_line(rng, p);
    let region = region_of_line(p, line);
    match rng.below(14) {
        0..=4 => {
            let (most, shortest) = (line_length(p, line), shortest_gate_line(p));
            let shorter = p.pattern(second).length.saturating_sub(1);
            let length = rng.pick(&[0, 1, most - 1, most - 1, most, shortest, shortest, shortest, shorter]);
            set_length(p, second as usize, length as u16);
        }
        5 => break_toggles(rng, p, second as usize),
        6 | 7 => {
            let most = most_before(p, line, p.pattern(second).length);
            *count_mut(p, line) = (most + rng.below(2) as u16).min(4095);
        }
        8 | 9 => p.field.gate = another_line(rng, p.field.lines.max(2) as u64, p.field.gate as u64),
        10 => p.field.gate2 = another_line(rng, p.field.lines.max(2) as u64, p.field.gate as u64),
        // Only the mode of the region is wrong for a second pattern.
        _ => {
            let count = repetitions(p.sequence_of(region), line) as u16;
            p.field.regions[region].mode = Mode::Sweep;
            let s = sequence_mut(p, region);
            *s = Sequence { odd: count, even: count, mask: 0, ..*s };
        }
    }
}

fn a_gate_line(rng: &mut Rng, p: &Profile) -> u64 {
    let lines: Vec<u64> = gate_lines(p).collect();
    rng.pick(&lines)
}

/// A pulse at the edge of what one of the gate lines has room for, often the
/// longer one.
fn break_gate(rng: &mut Rng, p: &mut Profile) {
    let line = a_gate_line(rng, p);
    let length = line_length(p, line) as u16;
    let longest = gate_lines(p).map(|line| line_length(p, line) as u16).max().unwrap_or(length);
    let (toggle1, toggle2) = (rng.below(length as u64) as u16, rng.below(length as u64) as u16);
    let which = rng.below(5) as usize;
    p.gates[which] = rng.pick(&[
        gate(1, 0, toggle1, length),
        gate(1, 1, toggle1, length - 1),
        gate(1, 0, 0, longest - 1),
        gate(1, 1, toggle1.min(longest / 2), longest - 1),
        gate(1, 1, toggle1, toggle1),
        gate(1, 0, toggle1, toggle2),
        gate(0, 1, toggle1, toggle1),
    ]);
}

fn break_subck(rng: &mut Rng, p: &mut Profile) {
    let toggle = rng.below(4095) as u16;
    p.subck = rng.pick(&[
        subck(0, toggle, toggle, 1, 2),
        subck(1, toggle + 1, toggle, 1, 2),
        subck(1, toggle, toggle + 1, 0, 2),
        subck(1, toggle, toggle + 1, 1, 2),
    ]);
}

/// Places one past a line's end, past the field, or in the wrong order.
fn break_shutter(rng: &mut Rng, p: &mut Profile) {
    let which = rng.below(2) as usize;
    let (one, other) = (place(rng, p), place(rng, p));
    let past_line = (one.0, line_length(p, one.0 as u64) as u16);
    let past_field = (p.field.lines, 0);
    let last = (p.field.lines - 1, p.field.last - 1);
    let (on, off) = rng.pick(&[
        (one, past_line),
        (past_line, last),
        (one, past_field),
        (one, one),
        (one.max(other), one.min(other)),
        (one, last),
        ((0, 0), one),
    ]);
    p.shutters[which] = shutter(rng.below(2) as u16, on, off);
}

/// Several numbers of any size, absent items with numbers, or all at random.
fn wild(rng: &mut Rng, p: &Profile) -> Profile {
    let all = rng.percent(20);
    let mut numbers = p.numbers();
    for i in 0..NUMBERS {
        if all || rng.below(150) == 0 {
            numbers[i] = match limits(i) {
                Limits::Flag => rng.below(2) as u16,
                Limits::Mode => rng.below(3) as u16,
                Limits::Between(..) => (rng.next() >> rng.below(64)) as u16,
            };
        }
    }
    Profile::from_numbers(&numbers).expect("flags and modes in range")
}

// ---------------------------------------------------------------------------
// Scripts

fn script(rng: &mut Rng, size: Size) -> Vec<u8> {
    let mut records = script_records(rng, size);
    match rng.below(40) {
        0..=21 => records.concat(),
        22..=26 => cut(rng, records.concat()),
        27..=29 => damaged(rng, records.concat()),
        30..=34 => {
            move_in_record(rng, &mut records);
            records.concat()
        }
        35..=37 => {
            damage_header(rng, &mut records);
            records.concat()
        }
        38 => (0..rng.below(60)).map(|_| rng.below(8) as u8).collect(),
        _ => padded(rng, records.concat()),
    }
}

/// The records of a profile in any order, some of them said before otherwise.
fn script_records(rng: &mut Rng, size: Size) -> Vec<Vec<u8>> {
    let mut p = profile_of(rng, size);
    while check_ranges(&p).is_err() {
        p = profile_of(rng, size);
    }
    let mut list = if rng.percent(20) { records(&p) } else { short_records(&p) };
    if rng.percent(40) {
        for record in &mut list {
            *record = in_new_form(record);
        }
    }
    if rng.percent(60) {
        rng.shuffle(&mut list);
    }
    if rng.percent(40) {
        let mut earlier = short_records(&valid(rng, TINY));
        rng.shuffle(&mut earlier);
        earlier.truncate(rng.between(1, 12) as usize);
        // Only what the profile says again is certain to be replaced.
        if rng.percent(70) {
            earlier.retain(|e| list.iter().any(|l| same_item(e, l)));
        }
        list = [earlier, list].concat();
    }
    list
}

/// Whether two records are for the same item: kind, and number where there is
/// one (kinds 3 and 5 have one item each).
fn same_item(one: &[u8], other: &[u8]) -> bool {
    let single = one[2] == 3 || one[2] == 5;
    one[2] == other[2] && (single || one[4] == other[4])
}

fn cut(rng: &mut Rng, mut script: Vec<u8>) -> Vec<u8> {
    let length = if rng.percent(50) {
        script.len().saturating_sub(rng.between(1, 20) as usize)
    } else {
        rng.below(script.len() as u64 + 1) as usize
    };
    script.truncate(length);
    script
}

fn damaged(rng: &mut Rng, mut script: Vec<u8>) -> Vec<u8> {
    for _ in 0..rng.between(1, 3) {
        if !script.is_empty() {
            let i = rng.below(script.len() as u64) as usize;
            script[i] = if rng.percent(50) { script[i] ^ 1 << rng.below(8) } else { rng.next() as u8 };
        }
    }
    script
}

/// Moves one 2-byte number in a record's body.
fn move_in_record(rng: &mut Rng, records: &mut [Vec<u8>]) {
    // Not a register, where there is another record.
    let others: Vec<usize> = (0..records.len()).filter(|i| records[*i][2] != 1).collect();
    let which = if others.is_empty() || rng.percent(20) { rng.below(records.len().max(1) as u64) as usize } else { rng.pick(&others) };
    let Some(record) = records.get_mut(which) else { return };
    let at = 4 + 2 * rng.below((record.len() as u64 - 4) / 2) as usize;
    let old = u16::from_le_bytes([record[at], record[at + 1]]);
    let value = rng.pick(&[old.wrapping_add(1), old.wrapping_sub(1), 0, 1, 3, 4, 9, 10, 4094, 4095, 4096, 65_534, 65_535, old ^ 0x100]);
    record[at..at + 2].copy_from_slice(&value.to_le_bytes());
}

fn damage_header(rng: &mut Rng, records: &mut [Vec<u8>]) {
    if records.is_empty() {
        return;
    }
    let which = rng.below(records.len() as u64) as usize;
    let at = rng.pick(&[0, 0, 1, 2, 2, 2, 3]);
    records[which][at] = rng.pick(&[0, 1, 2, 3, 4, 5, 6, 7, 10, 12, 14, 16, 18, 22, 24, 28, 52, 54, 58, 60, 255]);
}

/// Registers before the script, up to about the most a script may have.
fn padded(rng: &mut Rng, script: Vec<u8>) -> Vec<u8> {
    let most = if rng.percent(80) { SCRIPT_MOST as u64 + 12 } else { SCRIPT_MOST_IN_A_CASE as u64 - 8 };
    let length = rng.edgy(most - 24, most) as usize;
    let mut out = Vec::new();
    while out.len() + 8 + script.len() <= length {
        let address = rng.pick(&[13, 50, 119]);
        out.extend(register(address, rng.below(1 << 24) as u32));
    }
    out.extend(script);
    out
}

// ---------------------------------------------------------------------------
// Chunks

fn chunks_case(rng: &mut Rng, script: Vec<u8>) -> Case {
    let cuts = cuts(rng, &script);
    Case::ReadChunks { version: version(rng), lengths: lengths(rng, &cuts, 0), script }
}

/// What the front of a script leaves, with the rest behind it; half of them
/// spoilt, as no upload would be.
fn read_on_case(rng: &mut Rng, script: Vec<u8>) -> Case {
    let cuts = cuts(rng, &script);
    let at = match rng.below(10) {
        0 => 0,
        1..=5 if !cuts.is_empty() => rng.pick(&cuts),
        _ => rng.between(0, script.len() as u64) as usize,
    };
    let mut upload = upload_after(&script[..at]);
    let mut bytes = script[at..].to_vec();
    if rng.percent(50) {
        spoil(rng, &mut upload, bytes.len() as u64);
        if rng.percent(20) {
            bytes.clear();
        }
    }
    Case::ReadOn { upload, version: version(rng), lengths: lengths(rng, &cuts, at), bytes }
}

/// More cuts would not go into a payload with the longest script.
const CUTS_MOST: usize = 12_000;

/// Where a script is cut, by rising offsets: nowhere, into chunks of one length,
/// often of one byte, into small chunks, many of them empty, or at a few places.
fn cuts(rng: &mut Rng, script: &[u8]) -> Vec<usize> {
    let every = |length: usize| (length..=script.len()).step_by(length).take(CUTS_MOST).collect();
    match rng.below(10) {
        0 => vec![],
        1 => every(1),
        2 => every(rng.between(2, 60) as usize),
        3..=5 => {
            let mut cuts = vec![0];
            while cuts[cuts.len() - 1] < script.len() && cuts.len() < CUTS_MOST {
                let any = rng.below(61) as usize;
                let length = rng.pick(&[0, 0, 0, 1, 1, 1, 2, 3, 4, 5, 8, 14, any]);
                cuts.push((cuts[cuts.len() - 1] + length).min(script.len()));
            }
            cuts
        }
        _ => {
            let count = rng.between(1, 6);
            let mut cuts: Vec<usize> = (0..count).map(|_| a_cut(rng, script)).collect();
            cuts.sort();
            cuts
        }
    }
}

/// Around the most that a script may have, where it is so long; in the header of
/// a record, around its end, or anywhere in it.
fn a_cut(rng: &mut Rng, script: &[u8]) -> usize {
    if script.len() + 2 >= SCRIPT_MOST && rng.percent(50) {
        return (SCRIPT_MOST + 2 - rng.below(5) as usize).min(script.len());
    }
    let starts = record_starts(script);
    let which = rng.below(starts.len() as u64) as usize;
    let start = starts[which];
    let end = starts.get(which + 1).copied().unwrap_or(script.len());
    let any = rng.between(start as u64, end as u64) as usize;
    let into = rng.below(6) as usize;
    rng.pick(&[start + into, start + into, end.saturating_sub(1), any]).min(script.len())
}

/// Where records begin, by the lengths that they say; the first always at 0.
fn record_starts(script: &[u8]) -> Vec<usize> {
    let mut starts = vec![0];
    let mut at = 0;
    while at + 4 <= script.len() {
        at += 4 + u16::from_le_bytes([script[at], script[at + 1]]) as usize;
        if at < script.len() {
            starts.push(at);
        }
    }
    starts
}

/// The lengths of the chunks between cuts, those at or after an offset; sometimes
/// more lengths than there are bytes for.
fn lengths(rng: &mut Rng, cuts: &[usize], from: usize) -> Vec<u16> {
    let mut lengths = Vec::new();
    let mut before = from;
    for cut in cuts.iter().filter(|cut| **cut >= from) {
        lengths.push((cut - before) as u16);
        before = *cut;
    }
    if rng.percent(20) {
        lengths.extend([rng.pick(&[0, 1, 100, 65_535]), rng.pick(&[0, 65_535])]);
    }
    lengths
}

/// Puts numbers into an upload that need not belong together; so many bytes
/// follow it.
fn spoil(rng: &mut Rng, upload: &mut Upload, following: u64) {
    for _ in 0..rng.between(1, 4) {
        match rng.below(10) {
            0..=2 => upload.length = any_length(rng, upload.length, following),
            3 | 4 => {
                upload.number = rng.pick(&[0, 1, 2, 3, 3, 4, 4, 5, 5, 6, 17, 255, 259, 260, 65_535]);
                upload.place = if rng.percent(50) { rng.below(SCRIPT_MOST as u64) } else { rng.wide(3) };
            }
            5 | 6 => upload.held = any_held(rng),
            7 | 8 => put_in_room(rng, upload),
            _ => upload.profile = any_profile(rng),
        }
    }
}

/// A few bytes, about as many as with the following make the most, or any.
fn any_length(rng: &mut Rng, length: u64, following: u64) -> u64 {
    match rng.below(8) {
        0 | 1 => rng.below(60),
        2 => length + rng.below(30),
        3..=5 => (SCRIPT_MOST as u64 + 2).saturating_sub(following + rng.below(5)),
        6 => rng.pick(&[16_384, 16_385, u64::MAX - 57, u64::MAX]),
        _ => rng.wide(100),
    }
}

fn any_held(rng: &mut Rng) -> u64 {
    match rng.below(8) {
        0..=4 => rng.edgy(0, ROOM as u64 + 1),
        5 => rng.pick(&[8, 18, 58]),
        6 => u64::MAX,
        _ => rng.wide(8),
    }
}

/// A record or two in the room, right or not, behind them what was there, or
/// small numbers; and most often as many bytes held, or more.
fn put_in_room(rng: &mut Rng, upload: &mut Upload) {
    if rng.percent(40) {
        upload.room = [0; ROOM].map(|_| rng.below(60) as u8);
    }
    let mut records = short_records(&valid(rng, TINY));
    rng.shuffle(&mut records);
    records.truncate(rng.between(1, 2) as usize);
    match rng.below(4) {
        0 => damage_header(rng, &mut records),
        1 => move_in_record(rng, &mut records),
        _ => {}
    }
    let mut bytes = records.concat();
    bytes.truncate(ROOM);
    let first = records[0].len() as u64;
    hold(upload, &bytes);
    upload.held = match rng.below(6) {
        0 | 1 => first,
        2 => first.saturating_sub(rng.between(1, 4)),
        3 => upload.held,
        _ => any_held(rng),
    };
}

// ---------------------------------------------------------------------------
// Rooms, places, lists

/// A slice around the bytes needed.
fn slice(rng: &mut Rng, p: &Profile) -> Vec<u8> {
    let needed = records(p).concat().len() as u64;
    let length = match rng.below(5) {
        0 => rng.below(needed),
        1 => needed - 1,
        2 => needed,
        _ => needed + rng.below(30),
    };
    (0..length).map(|_| rng.next() as u8).collect()
}

fn level_case(rng: &mut Rng) -> Case {
    let profile = any_profile(rng);
    let (line, pixel) = if check(&profile).is_ok() && rng.percent(60) {
        place_at_a_run(rng, &profile)
    } else {
        any_place(rng, &profile)
    };
    Case::Level { profile, version: version(rng), line, pixel }
}

fn any_place(rng: &mut Rng, p: &Profile) -> (u64, u64) {
    let line = match rng.below(12) {
        0 => rng.wide(1),
        1 => p.field.lines as u64,
        2..=4 => a_gate_line(rng, p),
        5 => p.field.lines.saturating_sub(1) as u64,
        _ => rng.edgy(0, p.field.lines.saturating_sub(1) as u64),
    };
    let length = length_or_9(p, line);
    let pixel = match rng.below(12) {
        0 => rng.wide(0),
        1 => length,
        _ => rng.edgy(0, length - 1),
    };
    (line, pixel)
}

/// Where a repetition of a region's pattern begins or the run has ended, and the
/// pixel before; else the last one of the line or region that it is cut by.
fn place_at_a_run(rng: &mut Rng, p: &Profile) -> (u64, u64) {
    // Sweeps are fewer than plain regions, and asked more often.
    let times = |i: usize| if p.field.regions[i].mode == Mode::Sweep { 3 } else { 1 };
    let regions: Vec<usize> = (0..p.field.count as usize).flat_map(|i| vec![i; times(i)]).collect();
    let i = rng.pick(&regions);
    let (first, s) = (p.field.regions[i].first as u64, p.sequence_of(i));
    let last = if i + 1 < p.field.count as usize { p.field.regions[i + 1].first } else { p.field.lines } as u64 - 1;
    let line = rng.between(first, last);
    let count = repetitions(s, line);
    let before = if rng.percent(40) { count } else { rng.edgy(0, count) };
    let edge = s.start as u64 + before * p.pattern(s.pattern).length;
    let from = edge.saturating_sub(rng.below(2));
    match p.field.regions[i].mode {
        Mode::Plain => (line, from.min(line_length(p, line) - 1)),
        Mode::Sweep | Mode::Multiplier => {
            let from = from.min(region_size(p, i) - 1);
            let line = (first + from / s.length as u64).min(last);
            (line, from - (line - first) * s.length as u64)
        }
    }
}

/// Most often of an accepted profile, around a place where an output can change;
/// now and then far from one, but not in a field of full size.
fn next_edge_case(rng: &mut Rng) -> Case {
    let size = size_to_compile(rng);
    let profile = match rng.below(10) {
        0 | 1 if size.lines < FULL.lines => silenced(&valid(rng, size)),
        0..=6 => valid(rng, size),
        _ => profile_of(rng, size),
    };
    let (line, pixel) = if check(&profile).is_ok() && rng.percent(75) {
        place_at_a_stop(rng, &profile)
    } else {
        any_place(rng, &profile)
    };
    Case::NextEdge { profile, version: version(rng), line, pixel }
}

/// An accepted profile with no toggle in any pattern and one start level for all.
fn silenced(profile: &Profile) -> Profile {
    with(profile, |p| {
        for k in 0..PATTERNS {
            set_levels(p, k, 0b001011);
            (0..OUTPUTS).for_each(|output| set_toggles(p, k, output, UNUSED));
        }
        for i in 0..p.regions().len() {
            // "the highest used toggle of all six outputs, 0 if none"
            if p.field.regions[i].mode == Mode::Multiplier {
                let s = sequence_mut(p, i);
                *s = Sequence { odd: 0, even: 0, ..*s };
            }
        }
    })
}

/// A place where an output can change, or the one before; every kind of such
/// places that the line has is as frequent.
fn place_at_a_stop(rng: &mut Rng, p: &Profile) -> (u64, u64) {
    let line = line_with_stops(rng, p).min(p.field.lines as u64 - 1);
    let stops = stops(p, line);
    let kinds: BTreeSet<Stop> = stops.iter().map(|(kind, _)| *kind).collect();
    let kind = rng.pick(&kinds.into_iter().collect::<Vec<_>>());
    let pixels: Vec<u64> = stops.iter().filter(|stop| stop.0 == kind).map(|stop| stop.1).collect();
    let at = (line, rng.pick(&pixels));
    let before = place_before(p, at).filter(|_| rng.percent(60));
    before.unwrap_or(at)
}

/// A line of gates, SUBCK or a shutter, or any.
fn line_with_stops(rng: &mut Rng, p: &Profile) -> u64 {
    let shutter = rng.pick(&p.shutters);
    match rng.below(12) {
        0 | 1 => a_gate_line(rng, p),
        2 | 3 => p.field.gate as u64 + p.subck.suppressed as u64 + rng.below(p.subck.count.max(1) as u64),
        4 => shutter.on_line as u64,
        5 => shutter.off_line as u64,
        _ => rng.edgy(0, p.field.lines as u64 - 1),
    }
}

/// A line's length, where the profile and the line have one.
fn length_or_9(p: &Profile, line: u64) -> u64 {
    if check(p).is_ok() && line < p.field.lines as u64 {
        line_length(p, line)
    } else {
        9
    }
}

/// A script, read whole or in chunks; for chunks now and then one of about the
/// most bytes. How it is read is drawn apart: the other cases go by it not at all.
fn read_case(rng: &mut Rng) -> Case {
    let size = size(rng);
    let script = script(rng, size);
    let rng = &mut rng.apart();
    let in_chunks = rng.percent(50);
    let script = if in_chunks && rng.percent(8) { padded(rng, script) } else { script };
    match (in_chunks, rng.percent(50)) {
        (false, _) => Case::Read { script },
        (true, true) => chunks_case(rng, script),
        (true, false) => read_on_case(rng, script),
    }
}

fn text_case(rng: &mut Rng) -> Case {
    let size = size_to_compile(rng);
    Case::Text { version: version(rng), script: script(rng, size) }
}

fn locate_case(rng: &mut Rng) -> Case {
    let profile = any_profile(rng);
    let pixels = if check(&profile).is_ok() { crate::list::pixels(&profile) } else { 20 };
    let n = match rng.below(12) {
        0 => rng.wide(3),
        1 => pixels,
        2 => pixels - 1,
        3..=5 => pixels_before(&profile, a_region_start(rng, &profile)).saturating_sub(rng.below(2)),
        6 => pixels_before(&profile, profile.field.lines.saturating_sub(1)) + rng.below(3),
        7 => pixels_before(&profile, rng.below(profile.field.lines.max(1) as u64) as u16),
        _ => rng.edgy(0, pixels - 1),
    };
    Case::Locate { profile, n }
}

/// A line at which a region starts.
fn a_region_start(rng: &mut Rng, p: &Profile) -> u16 {
    let given = (p.field.count as usize).clamp(1, REGIONS);
    rng.pick(&p.field.regions[..given]).first
}

/// The pixels of an accepted profile's lines before a line.
fn pixels_before(p: &Profile, line: u16) -> u64 {
    if check(p).is_err() {
        return 9;
    }
    (0..line as u64).map(|line| line_length(p, line)).sum()
}

fn compile_case(rng: &mut Rng, engine: Engine) -> Case {
    let size = size_to_compile(rng);
    let (profile, version) = (profile_of(rng, size), version(rng));
    let accepted = check(&profile).is_ok();
    let needed = match (accepted, size.lines == FULL.lines) {
        (true, false) => steps_needed(version, &profile).min(ENTRIES_MOST - 30) as u64,
        (true, true) => ENTRIES_MOST as u64 - 30,
        (false, _) => 5,
    };
    let room = |rng: &mut Rng| match rng.below(12) {
        0 => rng.below(needed) as usize,
        1 => needed as usize - 1,
        2..=4 => needed as usize,
        _ => (needed + rng.below(30)) as usize,
    };
    let counts = room(rng);
    let words = if rng.percent(40) { counts } else { room(rng) };
    let (counts, words) = (random_counts(rng, counts), random_words(rng, words));
    Case::Compile { engine, profile, version, counts, words }
}

fn random_counts(rng: &mut Rng, length: usize) -> Vec<u32> {
    (0..length).map(|_| rng.next() as u32).collect()
}

fn random_words(rng: &mut Rng, length: usize) -> Vec<u16> {
    (0..length).map(|_| rng.next() as u16).collect()
}

fn play_case(rng: &mut Rng) -> Case {
    let length = rng.edgy(0, 20) as usize;
    let other = (length as u64 + rng.below(4)).saturating_sub(rng.below(3)) as usize;
    let counts: Vec<u32> = (0..length).map(|_| play_count(rng)).collect();
    let words = if rng.percent(50) { length } else { other };
    let words = random_words(rng, words);
    let used = match rng.below(10) {
        0 => rng.wide(1),
        1 => counts.len().max(words.len()) as u64,
        2 => rng.edgy(0, counts.len() as u64 + 1),
        _ => rng.edgy(0, counts.len().min(words.len()) as u64),
    };
    let position = play_position(rng, &counts);
    Case::Play { counts, words, used, position }
}

fn play_count(rng: &mut Rng) -> u32 {
    match rng.below(8) {
        0 | 1 => 0,
        2 => u32::MAX,
        3 => rng.next() as u32,
        _ => rng.below(9) as u32,
    }
}

/// A position at, before or after a running sum.
fn play_position(rng: &mut Rng, counts: &[u32]) -> u64 {
    if rng.percent(10) {
        return rng.wide(2);
    }
    let steps = rng.edgy(0, counts.len() as u64) as usize;
    let sum: u64 = counts[..steps].iter().map(|c| *c as u64).sum();
    rng.pick(&[sum, sum.wrapping_sub(1), sum + 1, sum.saturating_sub(2)])
}

#[cfg(test)]
mod tests {
    use super::*;

    #[test]
    fn valid_profiles_are_accepted() {
        let mut rng = Rng { state: 3 };
        for size in [TINY, SMALL, MEDIUM, FULL] {
            for _ in 0..2000 {
                let p = valid(&mut rng, size);
                assert_eq!((check(&p), check(&silenced(&p))), (Ok(()), Ok(())));
            }
        }
    }
}
