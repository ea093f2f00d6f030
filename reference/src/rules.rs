//! Refusals 6 to 17: 01's "Rules over a profile", in 01's order: "then 6; then
//! 7 for all regions; then, region by region, 8 to 13; then 14; 15 by gate; 16;
//! 17 (MSHUT first)".

use crate::profile::*;
use crate::ranges::check_ranges;
use crate::refusal::*;

/// A multiplier's and a second pattern's toggle: "4095 is unused, and nothing
/// else".
const UNUSED: u64 = 4095;

/// The check of a profile handed in: the ranges first, then the rules.
pub fn check(profile: &Profile) -> Result<(), Refusal> {
    check_ranges(profile)?;
    check_rules(profile)
}

/// Refusals 6 to 17. A profile that was read is in range; one that an upload's
/// state brings along may have any numbers, and is judged by them as they are.
pub fn check_rules(profile: &Profile) -> Result<(), Refusal> {
    demand(profile.field.present, NO_FIELD, 0)?;
    for region in 0..profile.regions().len() {
        check_order(profile, region)?;
    }
    for region in 0..profile.regions().len() {
        check_region(profile, region)?;
    }
    check_gate_lines(profile)?;
    for gate in 0..GATES {
        check_gate(profile, gate)?;
    }
    check_subck(profile)?;
    for which in 0..SHUTTERS {
        check_shutter(profile, which)?;
    }
    Ok(())
}

/// 7: "the first region starts at line 0, starts rise strictly, each is below
/// the line count."
fn check_order(profile: &Profile, region: usize) -> Result<(), Refusal> {
    let regions = profile.regions();
    let first = regions[region].first;
    let in_order = if region == 0 { first == 0 } else { regions[region - 1].first < first };
    demand(in_order && first < profile.field.lines, REGION_ORDER, region)
}

/// 8 to 13 of one region.
fn check_region(profile: &Profile, region: usize) -> Result<(), Refusal> {
    let mode = profile.field.regions[region].mode;
    let sequence = profile.sequence_of(region);
    demand(sequence.present, SEQUENCE_NOT_GIVEN, region)?;
    let pattern = profile.pattern(sequence.pattern);
    demand(pattern.length != 0, PATTERN_LENGTH_ZERO, region)?;
    check_toggles(&pattern, use_in_mode(mode), region)?;
    demand(mask_allowed(mode, sequence, &pattern), MASK, region)?;
    demand(counts_allowed(mode, sequence, &pattern), REPETITION_COUNTS, region)?;
    demand(run_fits(mode, sequence, &pattern, region_size(profile, region)), RUN_PASSES_REGION, region)
}

/// Which toggles of a pattern are used.
#[derive(Clone, Copy, PartialEq, Eq)]
pub enum Use {
    /// "a toggle at or above the pattern length is unused"
    BelowLength,
    /// "4095 is unused, and nothing else"
    Not4095,
}

/// "plain and sweep: ... Multiplier and second pattern: ..."
pub fn use_in_mode(mode: Mode) -> Use {
    match mode {
        Mode::Plain | Mode::Sweep => Use::BelowLength,
        Mode::Multiplier => Use::Not4095,
    }
}

pub fn is_used(toggle: u64, length: u64, rule: Use) -> bool {
    match rule {
        Use::BelowLength => toggle < length,
        Use::Not4095 => toggle != UNUSED,
    }
}

/// 10, with the output and the toggle that break it.
fn check_toggles(pattern: &Pattern, rule: Use, region: usize) -> Result<(), Refusal> {
    match out_of_order(pattern, rule) {
        None => Ok(()),
        Some((output, toggle)) => Err(Refusal { output, toggle, ..refusal(TOGGLE_ORDER, region) }),
    }
}

/// The lowest output of a pattern that has a used toggle out of order, and its
/// lowest such toggle.
fn out_of_order(pattern: &Pattern, rule: Use) -> Option<(usize, usize)> {
    (1..=OUTPUTS).find_map(|output| {
        let toggle = toggle_out_of_order(pattern.toggles[output - 1], pattern.length, rule)?;
        Some((output, toggle))
    })
}

/// 10: "For each output, used toggles come first and rise strictly." The first
/// used toggle of one output, 2 or 3, that comes after an unused one or is not
/// above the one before.
fn toggle_out_of_order(toggles: [u64; 3], length: u64, rule: Use) -> Option<usize> {
    let used = |toggle: u64| is_used(toggle, length, rule);
    let follows = |before: u64, toggle: u64| !used(toggle) || (used(before) && before < toggle);
    (2..=3).find(|j| !follows(toggles[j - 2], toggles[j - 1]))
}

/// 11: "Each pair turned on has freeze below resume; with both, resume 1 is at
/// most freeze 2. A mask is 0 in sweep and multiplier."
fn mask_allowed(mode: Mode, sequence: &Sequence, pattern: &Pattern) -> bool {
    match mode {
        Mode::Plain => {
            let right = |pair: usize| !pair_on(sequence, pair) || pattern.freeze[pair] < pattern.resume[pair];
            let both = pair_on(sequence, 0) && pair_on(sequence, 1);
            right(0) && right(1) && (!both || pattern.resume[0] <= pattern.freeze[1])
        }
        Mode::Sweep | Mode::Multiplier => sequence.mask == 0,
    }
}

/// "a mask bit turns on its pair (bit 0 pair 1, bit 1 pair 2)"; pairs are
/// counted from 0 here.
pub fn pair_on(sequence: &Sequence, pair: usize) -> bool {
    sequence.mask >> pair & 1 == 1
}

/// 12: "sweep: both counts are equal. Multiplier: both equal the highest used
/// toggle of all six outputs, 0 if none".
fn counts_allowed(mode: Mode, sequence: &Sequence, pattern: &Pattern) -> bool {
    match mode {
        Mode::Plain => true,
        Mode::Sweep => sequence.odd == sequence.even,
        Mode::Multiplier => {
            let highest = highest_used(pattern);
            sequence.odd as u64 == highest && sequence.even as u64 == highest
        }
    }
}

fn highest_used(pattern: &Pattern) -> u64 {
    let all = pattern.toggles.iter().flatten().copied();
    all.filter(|t| is_used(*t, pattern.length, Use::Not4095)).max().unwrap_or(0)
}

/// 13: "sweep and multiplier: start + repetitions × length is at most the
/// region's size." After 12 both counts are equal.
fn run_fits(mode: Mode, sequence: &Sequence, pattern: &Pattern, size: u64) -> bool {
    match mode {
        Mode::Plain => true,
        Mode::Sweep | Mode::Multiplier => sequence.start as u64 + sequence.odd as u64 * pattern.length <= size,
    }
}

/// "A region's size is the sum of its line lengths."
pub fn region_size(profile: &Profile, region: usize) -> u64 {
    let field = &profile.field;
    let first = field.regions[region].first as u64;
    let length = profile.sequence_of(region).length as u64;
    if region + 1 < profile.regions().len() {
        let next = field.regions[region + 1].first as u64;
        (next - first) * length
    } else {
        (field.lines as u64 - 1 - first) * length + field.last as u64
    }
}

/// The region a line of the field lies in: the last that starts at or before it.
pub fn region_of_line(profile: &Profile, line: u64) -> usize {
    let begun = profile.regions().iter().filter(|r| r.first as u64 <= line).count();
    begun.saturating_sub(1)
}

/// "A line has its region's sequence length; the field's last line has the
/// last-line length instead."
pub fn line_length(profile: &Profile, line: u64) -> u64 {
    if line + 1 == profile.field.lines as u64 {
        profile.field.last as u64
    } else {
        profile.sequence_of(region_of_line(profile, line)).length as u64
    }
}

/// "Lines are numbered in the field: lines 0, 2, 4 and so on take the odd count
/// (line 0 is the first), lines 1, 3, 5 the even one".
pub fn repetitions(sequence: &Sequence, line: u64) -> u64 {
    if line % 2 == 0 {
        sequence.odd as u64
    } else {
        sequence.even as u64
    }
}

/// The second pattern, where the field names one.
pub fn second_pattern(profile: &Profile) -> Option<Pattern> {
    if profile.field.second == NO_SECOND {
        None
    } else {
        Some(profile.pattern(profile.field.second))
    }
}

/// The gate lines: the one named first, then the second where there is one.
pub fn gate_lines(profile: &Profile) -> impl Iterator<Item = u64> {
    let Field { gate, gate2, .. } = profile.field;
    let second = if gate2 == NO_GATE2 { None } else { Some(gate2 as u64) };
    [gate as u64].into_iter().chain(second)
}

/// 14: "the gate line is below the line count. With a second pattern: ..." Of
/// two gate lines: "The lines must differ and lie in the field (14), gates and
/// the second pattern act on both, and rules 14 and 15 hold for both."
fn check_gate_lines(profile: &Profile) -> Result<(), Refusal> {
    let inside = gate_lines(profile).all(|line| line < profile.field.lines as u64);
    // Without a second one they differ too: no gate line inside is 65,535.
    let differ = profile.field.gate != profile.field.gate2;
    demand(inside && differ, GATE_LINE_OR_SECOND, 0)?;
    match second_pattern(profile) {
        None => Ok(()),
        Some(second) => {
            let allowed = gate_lines(profile).all(|line| second_allowed(profile, &second, line));
            demand(allowed, GATE_LINE_OR_SECOND, 0)
        }
    }
}

/// Of one gate line: "its line lies in a plain region, its length is not 0, its
/// toggles obey 10, its length is below the gate line's length, and if that
/// line's repetitions r are not 0, start + r × first length is at most the
/// second's length."
fn second_allowed(profile: &Profile, second: &Pattern, line: u64) -> bool {
    let region = region_of_line(profile, line);
    let sequence = profile.sequence_of(region);
    let first = profile.pattern(sequence.pattern);
    let r = repetitions(sequence, line);
    profile.field.regions[region].mode == Mode::Plain
        && second.length != 0
        && out_of_order(second, Use::Not4095).is_none()
        && second.length < line_length(profile, line)
        && (r == 0 || sequence.start as u64 + r * first.length <= second.length)
}

/// 15: "a gate that is on has toggle 1 below toggle 2 below the gate line's
/// length", of each gate line.
fn check_gate(profile: &Profile, number: usize) -> Result<(), Refusal> {
    let gate = &profile.gates[number];
    let off = !gate.present || gate.on != 1;
    let fits = gate_lines(profile).all(|line| (gate.toggle2 as u64) < line_length(profile, line));
    demand(off || (gate.toggle1 < gate.toggle2 && fits), GATE_PULSE, number)
}

/// 16: "toggle 1 below toggle 2, suppressed lines at least 1."
fn check_subck(profile: &Profile) -> Result<(), Refusal> {
    let subck = &profile.subck;
    let right = subck.toggle1 < subck.toggle2 && subck.suppressed >= 1;
    demand(!subck.present || right, SUBCK, 0)
}

/// 17: "both places exist in the field, and on comes before off (line, then
/// pixel)."
fn check_shutter(profile: &Profile, which: usize) -> Result<(), Refusal> {
    let s = &profile.shutters[which];
    let on = (s.on_line as u64, s.on_pixel as u64);
    let off = (s.off_line as u64, s.off_pixel as u64);
    let right = || place_exists(profile, on) && place_exists(profile, off) && on < off;
    demand(!s.present || right(), SHUTTER, which)
}

/// A line of the field, and a pixel of that line.
pub fn place_exists(profile: &Profile, (line, pixel): (u64, u64)) -> bool {
    line < profile.field.lines as u64 && pixel < line_length(profile, line)
}
