//! "The word at a line and pixel", and the line and pixel of a field pixel.

use crate::profile::*;
use crate::refusal::*;
use crate::rules::*;
use crate::version::{runs_flip, NEWEST};

/// The word at a line and pixel by the newest rules.
pub fn level(profile: &Profile, line: u64, pixel: u64) -> Result<u16, Refusal> {
    level_by(NEWEST, profile, line, pixel)
}

/// The word at a line and pixel by a rule version; 19 where there is no such
/// line or pixel.
pub fn level_by(version: u16, profile: &Profile, line: u64, pixel: u64) -> Result<u16, Refusal> {
    check(profile)?;
    demand(place_exists(profile, (line, pixel)), NO_SUCH_PLACE, 0)?;
    Ok(Line::new(version, profile, line).word(pixel))
}

/// "Pixels run line by line; a field pixel, counted from 0, can be asked for
/// its line and pixel"; 19 past the end.
pub fn locate(profile: &Profile, n: u64) -> Result<(u64, u64), Refusal> {
    check(profile)?;
    let mut pixel = n;
    for line in 0..profile.field.lines as u64 {
        let length = line_length(profile, line);
        if pixel < length {
            return Ok((line, pixel));
        }
        pixel -= length;
    }
    Err(refusal(NO_SUCH_PLACE, 0))
}

/// One line of an accepted profile's field, with what its words depend on.
pub struct Line<'a> {
    version: u16,
    profile: &'a Profile,
    line: u64,
    length: u64,
    mode: Mode,
    sequence: &'a Sequence,
    pattern: Pattern,
    /// pixels of the region before this line
    before: u64,
    on_gate_line: bool,
    /// the second pattern, on a gate line
    second: Option<Pattern>,
}

impl<'a> Line<'a> {
    pub fn new(version: u16, profile: &'a Profile, line: u64) -> Line<'a> {
        let number = region_of_line(profile, line);
        let region = &profile.field.regions[number];
        let sequence = profile.sequence_of(number);
        // "gates and the second pattern act on both"
        let on_gate_line = gate_lines(profile).any(|gate_line| line == gate_line);
        Line {
            version,
            profile,
            line,
            length: line_length(profile, line),
            mode: region.mode,
            sequence,
            pattern: profile.pattern(sequence.pattern),
            // Only the field's last line has another length, and no line of its
            // region follows it.
            before: (line - region.first as u64) * sequence.length as u64,
            on_gate_line,
            second: if on_gate_line { second_pattern(profile) } else { None },
        }
    }

    pub fn length(&self) -> u64 {
        self.length
    }

    /// "Bits 0..5 V1..V6, 6..10 VSG1..VSG5, 11 SUBCK, 12 MSHUT, 13 STROBE, 14
    /// and 15 zero."
    pub fn word(&self, pixel: u64) -> u16 {
        let mut word = self.v_outputs(pixel);
        for (i, gate) in self.profile.gates.iter().enumerate() {
            word |= self.gate(gate, pixel) << (6 + i);
        }
        word |= self.subck(pixel) << 11;
        for (i, shutter) in self.profile.shutters.iter().enumerate() {
            word |= self.shutter(shutter, pixel) << (12 + i);
        }
        word
    }

    /// "Mask, last: in freeze ≤ pixel < resume, the level that the unmasked
    /// rules give at pixel freeze." A mask is 0 except in plain.
    fn v_outputs(&self, pixel: u64) -> u16 {
        for pair in 0..2 {
            let (freeze, resume) = (self.pattern.freeze[pair], self.pattern.resume[pair]);
            if pair_on(self.sequence, pair) && freeze <= pixel && pixel < resume {
                return self.v_unmasked(freeze);
            }
        }
        self.v_unmasked(pixel)
    }

    /// "Second pattern: on the gate line, from the pixel equal to its length,
    /// its start level flipped for each used toggle at or below pixel −
    /// length." Before that, the region's own pattern. On both gate lines alike.
    fn v_unmasked(&self, pixel: u64) -> u16 {
        match &self.second {
            Some(second) if pixel >= second.length => {
                let t = pixel - second.length;
                flipped(second, Use::Not4095, |toggle| toggle <= t)
            }
            _ => self.v_first(pixel),
        }
    }

    /// The region's own pattern by its mode. "Sweep: the same with t counted
    /// from the region's first pixel, through line ends."
    fn v_first(&self, pixel: u64) -> u16 {
        match self.mode {
            Mode::Plain => self.v_repeated(pixel),
            Mode::Sweep => self.v_repeated(self.before + pixel),
            Mode::Multiplier => self.v_multiplied(self.before + pixel),
        }
    }

    /// "Before start the level is the start level", in every rule version.
    fn v_repeated(&self, from: u64) -> u16 {
        let start = self.sequence.start as u64;
        if from < start {
            self.pattern.levels
        } else if runs_flip(self.version) {
            self.v_flipping(from - start)
        } else {
            self.v_afresh(from - start)
        }
    }

    /// The first rules: "While t < r × length, the level is the start level
    /// flipped once for each used toggle at or below t mod length: each
    /// repetition starts afresh. After that it is the start level."
    fn v_afresh(&self, t: u64) -> u16 {
        let pattern = &self.pattern;
        let r = repetitions(self.sequence, self.line);
        if t >= r * pattern.length {
            return pattern.levels;
        }
        let in_repetition = t % pattern.length;
        flipped(pattern, Use::BelowLength, |toggle| toggle <= in_repetition)
    }

    /// From version 2: "A new repetition takes over the level the last one ended
    /// with, and after the last run the level stays. Only the start of a line
    /// (plain) or of the region (sweep) sets the start level again." Every
    /// repetition that has ended flipped an output by all its used toggles.
    fn v_flipping(&self, t: u64) -> u16 {
        let length = self.pattern.length;
        let r = repetitions(self.sequence, self.line);
        let running = t < r * length;
        let ended = if running { t / length } else { r };
        let mut levels = self.pattern.levels;
        for (output, toggles) in self.pattern.toggles.iter().enumerate() {
            let used = toggles.iter().filter(|toggle| is_used(**toggle, length, Use::BelowLength));
            let reached = used.clone().filter(|toggle| running && **toggle <= t % length);
            let flips = ended * used.count() as u64 + reached.count() as u64;
            levels ^= ((flips % 2) as u16) << output;
        }
        levels
    }

    /// "Multiplier: t likewise; one flip for each used toggle with toggle ×
    /// length at or below t, and no return afterwards."
    fn v_multiplied(&self, from: u64) -> u16 {
        let pattern = &self.pattern;
        let start = self.sequence.start as u64;
        if from < start {
            return pattern.levels;
        }
        let t = from - start;
        flipped(pattern, Use::Not4095, |toggle| toggle * pattern.length <= t)
    }

    /// "VSG: on the gate line, if on, the start level flipped for each toggle
    /// at or below the pixel; else the start level. Absent: 1." On both gate
    /// lines alike.
    fn gate(&self, gate: &Gate, pixel: u64) -> u16 {
        if !gate.present {
            return 1;
        }
        let pulses = self.on_gate_line && gate.on == 1;
        pulse(gate.level, pulses, gate.toggle1, gate.toggle2, pixel)
    }

    /// "SUBCK: with suppression s and count c, flips the same way on lines from
    /// gate line + s to below gate line + s + c, inside the field; else its
    /// start level. Absent: 1." "SUBCK still counts from the one named first",
    /// also where it is the later line.
    fn subck(&self, pixel: u64) -> u16 {
        let subck = &self.profile.subck;
        if !subck.present {
            return 1;
        }
        let from = self.profile.field.gate as u64 + subck.suppressed as u64;
        let below = from + subck.count as u64;
        let pulses = from <= self.line && self.line < below;
        pulse(subck.level, pulses, subck.toggle1, subck.toggle2, pixel)
    }

    /// "Shutters: active from on, up to but not including off; else the
    /// opposite. Absent: 0."
    fn shutter(&self, s: &Shutter, pixel: u64) -> u16 {
        if !s.present {
            return 0;
        }
        let here = (self.line, pixel);
        let on = (s.on_line as u64, s.on_pixel as u64);
        let off = (s.off_line as u64, s.off_pixel as u64);
        if on <= here && here < off {
            s.active
        } else {
            1 - s.active
        }
    }
}

/// The six start levels, each flipped once for each used toggle of its output
/// that has been reached.
fn flipped(pattern: &Pattern, rule: Use, reached: impl Fn(u64) -> bool) -> u16 {
    let mut levels = pattern.levels;
    for (output, toggles) in pattern.toggles.iter().enumerate() {
        for &toggle in toggles {
            if is_used(toggle, pattern.length, rule) && reached(toggle) {
                levels ^= 1 << output;
            }
        }
    }
    levels
}

/// A start level flipped for each toggle at or below the pixel, where it pulses.
fn pulse(level: u16, pulses: bool, toggle1: u16, toggle2: u16, pixel: u64) -> u16 {
    let flips = [toggle1, toggle2].iter().filter(|t| pulses && **t as u64 <= pixel).count();
    level ^ (flips % 2) as u16
}
