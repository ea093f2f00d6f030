//! The profile: what a script is read into.

pub const HALVES: usize = 240;
pub const HALVES_OF_A_PATTERN: usize = 24;
pub const PATTERNS: usize = 10;
pub const SEQUENCES: usize = 10;
pub const REGIONS: usize = 7;
pub const GATES: usize = 5;
pub const SHUTTERS: usize = 2;
pub const OUTPUTS: usize = 6;

/// "second pattern 0..9 or 65,535 for none"
pub const NO_SECOND: u16 = 65_535;

/// A second gate line: "0..4094, or 65,535 for none"
pub const NO_GATE2: u16 = 65_535;

/// Numbers of a profile in its raw order.
pub const NUMBERS: usize = 381;

/// "mode 0 plain, 1 sweep, 2 multiplier"
#[derive(Clone, Copy, PartialEq, Eq, PartialOrd, Ord, Debug, Default)]
pub enum Mode {
    #[default]
    Plain,
    Sweep,
    Multiplier,
}

impl Mode {
    pub fn from_number(number: u16) -> Option<Mode> {
        match number {
            0 => Some(Mode::Plain),
            1 => Some(Mode::Sweep),
            2 => Some(Mode::Multiplier),
            _ => None,
        }
    }

    pub fn number(self) -> u16 {
        match self {
            Mode::Plain => 0,
            Mode::Sweep => 1,
            Mode::Multiplier => 2,
        }
    }
}

#[derive(Clone, Copy, PartialEq, Eq, Debug, Default)]
pub struct Sequence {
    pub present: bool,
    pub pattern: u16,
    /// line length
    pub length: u16,
    pub start: u16,
    /// odd repetitions: lines 0, 2, 4
    pub odd: u16,
    /// even repetitions: lines 1, 3, 5
    pub even: u16,
    pub mask: u16,
}

#[derive(Clone, Copy, PartialEq, Eq, Debug, Default)]
pub struct Gate {
    pub present: bool,
    pub on: u16,
    /// start level
    pub level: u16,
    pub toggle1: u16,
    pub toggle2: u16,
}

#[derive(Clone, Copy, PartialEq, Eq, Debug, Default)]
pub struct Subck {
    pub present: bool,
    /// start level
    pub level: u16,
    pub toggle1: u16,
    pub toggle2: u16,
    /// suppressed lines
    pub suppressed: u16,
    pub count: u16,
}

#[derive(Clone, Copy, PartialEq, Eq, Debug, Default)]
pub struct Shutter {
    pub present: bool,
    /// active level
    pub active: u16,
    pub on_line: u16,
    pub on_pixel: u16,
    pub off_line: u16,
    pub off_pixel: u16,
}

#[derive(Clone, Copy, PartialEq, Eq, Debug, Default)]
pub struct Region {
    /// first line
    pub first: u16,
    pub sequence: u16,
    pub mode: Mode,
}

#[derive(Clone, Copy, PartialEq, Eq, Debug, Default)]
pub struct Field {
    pub present: bool,
    pub lines: u16,
    /// last-line length
    pub last: u16,
    /// gate line, the one named first
    pub gate: u16,
    /// second gate line, or `NO_GATE2`
    pub gate2: u16,
    /// second pattern, or `NO_SECOND`
    pub second: u16,
    /// number of regions, 01's n
    pub count: u16,
    pub regions: [Region; REGIONS],
}

#[derive(Clone, Copy, PartialEq, Eq, Debug)]
pub struct Profile {
    /// 120 registers of 24 bits as halves of 12 bits, low half first:
    /// register a has its bits 0..11 at 2a and its bits 12..23 at 2a + 1.
    pub registers: [u16; HALVES],
    pub sequences: [Sequence; SEQUENCES],
    pub gates: [Gate; GATES],
    pub subck: Subck,
    /// 0 MSHUT, 1 STROBE
    pub shutters: [Shutter; SHUTTERS],
    pub field: Field,
}

/// A pattern as its registers give it.
#[derive(Clone, Copy, PartialEq, Eq, Debug)]
pub struct Pattern {
    /// start levels, bit 0 V1 to bit 5 V6
    pub levels: u16,
    pub length: u64,
    pub toggles: [[u64; 3]; OUTPUTS],
    pub freeze: [u64; 2],
    pub resume: [u64; 2],
}

impl Profile {
    /// "the empty profile (nothing present, all zeros)"
    pub fn empty() -> Profile {
        Profile {
            registers: [0; HALVES],
            sequences: [Sequence::default(); SEQUENCES],
            gates: [Gate::default(); GATES],
            subck: Subck::default(),
            shutters: [Shutter::default(); SHUTTERS],
            field: Field::default(),
        }
    }

    /// "Pattern k has 12 registers from address 12k." Word 0: start levels and
    /// length. Words 1..9: the 18 toggles V1 first to V6 third, low half then
    /// high half. Words 10, 11: freeze 1, resume 1, freeze 2, resume 2. A number
    /// past the last pattern is one of zeros.
    pub fn pattern(&self, k: u16) -> Pattern {
        let from = HALVES_OF_A_PATTERN * k as usize;
        let half = |i: usize| self.registers.get(from + i).copied().unwrap_or(0) as u64;
        let mut toggles = [[0; 3]; OUTPUTS];
        for output in 0..OUTPUTS {
            for i in 0..3 {
                toggles[output][i] = half(2 + 3 * output + i);
            }
        }
        Pattern {
            levels: half(0) as u16,
            length: half(1),
            toggles,
            freeze: [half(20), half(22)],
            resume: [half(21), half(23)],
        }
    }

    /// The sequence of a region; an absent one where it names none of the ten.
    pub fn sequence_of(&self, region: usize) -> &Sequence {
        const ABSENT: Sequence = Sequence { present: false, pattern: 0, length: 0, start: 0, odd: 0, even: 0, mask: 0 };
        self.sequences.get(self.field.regions[region].sequence as usize).unwrap_or(&ABSENT)
    }

    /// The regions in use, 0 to n - 1; there are never more than seven.
    pub fn regions(&self) -> &[Region] {
        &self.field.regions[..(self.field.count as usize).min(REGIONS)]
    }
}

// ---------------------------------------------------------------------------
// The raw order: registers, sequences, gates, SUBCK, shutters, field.

impl Profile {
    /// The profile as its 381 numbers in the raw order.
    pub fn numbers(&self) -> Vec<u16> {
        let mut out = self.registers.to_vec();
        for s in &self.sequences {
            out.extend([s.present as u16, s.pattern, s.length, s.start, s.odd, s.even, s.mask]);
        }
        for g in &self.gates {
            out.extend([g.present as u16, g.on, g.level, g.toggle1, g.toggle2]);
        }
        let b = &self.subck;
        out.extend([b.present as u16, b.level, b.toggle1, b.toggle2, b.suppressed, b.count]);
        for s in &self.shutters {
            out.extend([s.present as u16, s.active, s.on_line, s.on_pixel, s.off_line, s.off_pixel]);
        }
        let f = &self.field;
        out.extend([f.present as u16, f.lines, f.last, f.gate, f.gate2, f.second, f.count]);
        for r in &f.regions {
            out.extend([r.first, r.sequence, r.mode.number()]);
        }
        out
    }

    /// The profile of 381 numbers in the raw order; nothing where there are not
    /// 381, a present flag is neither 0 nor 1, or a mode is none of 0, 1, 2.
    pub fn from_numbers(numbers: &[u16]) -> Option<Profile> {
        if numbers.len() != NUMBERS {
            return None;
        }
        let mut rest = Numbers { left: numbers };
        let mut profile = Profile::empty();
        for half in &mut profile.registers {
            *half = rest.number();
        }
        for s in &mut profile.sequences {
            *s = Sequence {
                present: rest.flag()?,
                pattern: rest.number(),
                length: rest.number(),
                start: rest.number(),
                odd: rest.number(),
                even: rest.number(),
                mask: rest.number(),
            };
        }
        for g in &mut profile.gates {
            *g = Gate {
                present: rest.flag()?,
                on: rest.number(),
                level: rest.number(),
                toggle1: rest.number(),
                toggle2: rest.number(),
            };
        }
        profile.subck = Subck {
            present: rest.flag()?,
            level: rest.number(),
            toggle1: rest.number(),
            toggle2: rest.number(),
            suppressed: rest.number(),
            count: rest.number(),
        };
        for s in &mut profile.shutters {
            *s = Shutter {
                present: rest.flag()?,
                active: rest.number(),
                on_line: rest.number(),
                on_pixel: rest.number(),
                off_line: rest.number(),
                off_pixel: rest.number(),
            };
        }
        let f = &mut profile.field;
        f.present = rest.flag()?;
        f.lines = rest.number();
        f.last = rest.number();
        f.gate = rest.number();
        f.gate2 = rest.number();
        f.second = rest.number();
        f.count = rest.number();
        for r in &mut f.regions {
            *r = Region {
                first: rest.number(),
                sequence: rest.number(),
                mode: Mode::from_number(rest.number())?,
            };
        }
        Some(profile)
    }
}

/// Takes numbers from the front of a slice.
struct Numbers<'a> {
    left: &'a [u16],
}

impl Numbers<'_> {
    fn number(&mut self) -> u16 {
        let first = self.left[0];
        self.left = &self.left[1..];
        first
    }

    fn flag(&mut self) -> Option<bool> {
        match self.number() {
            0 => Some(false),
            1 => Some(true),
            _ => None,
        }
    }
}
