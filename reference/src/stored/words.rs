//! The word at a line and pixel: every mode, mask, second pattern, gate, SUBCK
//! and shutter, shown whole by compiling.

use super::Batch;
use crate::make::*;
use crate::profile::*;

pub fn add(batch: &mut Batch) {
    slips(batch);
    plain(batch);
    odd_and_even(batch);
    sweep(batch);
    multiplier(batch);
    last_line(batch);
    masks(batch);
    second_pattern(batch);
    gates(batch);
    subcks(batch);
    shutters(batch);
    seams(batch);
    places(batch);
}

/// All six outputs with 0, 1, 2 and 3 used toggles.
const SIX: [[u16; 3]; 6] = [[0, 1, 2], [1, 3, 4095], [4095; 3], [0, 4095, 4095], [2, 3, 5], [3, 4095, 4095]];

/// One region of 5 lines of 12 pixels over `SIX`, length 4.
fn six(mode: Mode) -> Profile {
    let mut p = Profile::empty();
    set_pattern(&mut p, 0, 0b010010, 4, &SIX, NO_PAIRS);
    p.sequences[0] = sequence(0, 12, 3, 5, 5, 0);
    p.field = field(5, 12, 2, NO_SECOND, &[region(0, 0, mode)]);
    if mode == Mode::Plain {
        p.sequences[0].odd = 1;
        p.sequences[0].even = 2;
    }
    p
}

/// "Slips we have seen", one by one.
fn slips(batch: &mut Batch) {
    // Taking toggle 0 as unused.
    for mode in [Mode::Plain, Mode::Sweep, Mode::Multiplier] {
        batch.show(&with(&six(mode), |p| {
            set_pattern(p, 0, 0, 4, &[[0, 5, 4095]], NO_PAIRS);
        }));
        batch.show(&with(&six(mode), |p| {
            set_pattern(p, 0, 0, 4, &[[0, 4095, 4095]], NO_PAIRS);
            p.sequences[0].odd = 0;
            p.sequences[0].even = 0;
        }));
    }
    // Testing a sweep against one line instead of the region.
    batch.show(&with(&six(Mode::Sweep), |p| {
        p.sequences[0].odd = 14;
        p.sequences[0].even = 14;
    }));
    // Cutting a multiplier pulse at a line end.
    batch.show(&with(&six(Mode::Multiplier), |p| {
        set_pattern(p, 0, 0, 5, &[[1, 9, 4095]], NO_PAIRS);
        p.sequences[0].odd = 9;
        p.sequences[0].even = 9;
    }));
    // Letting a frozen output follow the pixel before freeze.
    for freeze in 0..12 {
        batch.show(&with(&six(Mode::Plain), |p| {
            p.sequences[0].mask = 1;
            set_pairs(p, 0, [freeze, freeze + 3, 0, 0]);
        }));
    }
    // Using the sequence's length on the last line.
    for last in [1, 5, 11, 12, 13, 30] {
        batch.show(&with(&six(Mode::Plain), |p| p.field.last = last));
    }
    // Starting a new step at each line though the word stays.
    batch.show(&with(&six(Mode::Plain), |p| p.sequences[0].start = 12));
    batch.show(&with(&six(Mode::Plain), |p| {
        p.sequences[0].odd = 0;
        p.sequences[0].even = 0;
    }));
}

/// Start, length and repetitions at the edges of a line.
fn plain(batch: &mut Batch) {
    let base = six(Mode::Plain);
    for start in [0, 1, 7, 8, 9, 11, 12, 13, 4095] {
        for (odd, even) in [(0, 1), (1, 0), (2, 3), (4095, 4095)] {
            batch.show(&with(&base, |p| p.sequences[0] = sequence(0, 12, start, odd, even, 0)));
        }
    }
    for length in [1, 2, 3, 4, 5, 6, 11, 12, 13, 4095] {
        batch.show(&with(&base, |p| set_length(p, 0, length)));
    }
    for length in [1, 2, 3, 4, 7] {
        batch.show(&with(&base, |p| p.sequences[0].length = length));
    }
    for levels in [0, 1, 2, 4, 8, 16, 32, 63] {
        batch.show(&with(&base, |p| set_levels(p, 0, levels)));
    }
    for output in 0..6 {
        batch.show(&with(&base, |p| set_pattern(p, 0, 0, 4, &[], NO_PAIRS)));
        batch.show(&with(&base, |p| {
            set_pattern(p, 0, 0, 4, &[], NO_PAIRS);
            set_toggles(p, 0, output, [1, 2, 3]);
        }));
    }
    // One line, one pixel.
    batch.show(&with(&base, |p| p.field = field(1, 1, 0, NO_SECOND, &[region(0, 0, Mode::Plain)])));
    batch.show(&with(&base, |p| p.field = field(1, 20, 0, NO_SECOND, &[region(0, 0, Mode::Plain)])));
}

/// "Lines are numbered in the field": a region may begin on an odd line.
fn odd_and_even(batch: &mut Batch) {
    for first in 1..5 {
        batch.show(&with(&six(Mode::Plain), |p| {
            p.sequences[1] = sequence(0, 11, 1, 2, 0, 0);
            p.field = field(7, 9, 0, NO_SECOND, &[region(0, 0, Mode::Plain), region(first, 1, Mode::Plain)]);
        }));
    }
}

/// Runs through line ends, to the region's end, and no further.
fn sweep(batch: &mut Batch) {
    let base = six(Mode::Sweep);
    for start in [0, 1, 11, 12, 13, 24, 39, 40] {
        for count in [0, 1, 2, 5] {
            batch.show(&with(&base, |p| p.sequences[0] = sequence(0, 12, start, count, count, 0)));
        }
    }
    for length in [1, 3, 5, 6, 7, 11] {
        batch.show(&with(&base, |p| set_length(p, 0, length)));
    }
    for (first, last) in [(1, 12), (2, 12), (1, 3), (2, 40)] {
        batch.show(&with(&base, |p| {
            p.sequences[1] = sequence(0, 7, 2, 4, 4, 0);
            p.field = field(6, last, 0, NO_SECOND, &[region(0, 1, Mode::Plain), region(first, 1, Mode::Sweep)]);
        }));
    }
    // The run ends with the region and the next region begins its own.
    batch.show(&with(&base, |p| {
        p.sequences[0] = sequence(0, 12, 4, 5, 5, 0);
        p.sequences[1] = sequence(0, 10, 0, 4, 4, 0);
        p.field = field(4, 6, 3, NO_SECOND, &[region(0, 0, Mode::Sweep), region(2, 1, Mode::Sweep)]);
    }));
}

/// Pulses through line ends, toggles above the length, and no return.
fn multiplier(batch: &mut Batch) {
    let base = six(Mode::Multiplier);
    for start in [0, 1, 11, 12, 13, 39, 40, 41] {
        batch.show(&with(&base, |p| p.sequences[0].start = start));
    }
    for length in [1, 2, 3, 5, 11] {
        batch.show(&with(&base, |p| set_length(p, 0, length)));
    }
    for (three, count) in [([0, 1, 2], 2), ([10, 11, 13], 13), ([0, 4095, 4095], 0), (UNUSED, 0), ([14, 4095, 4095], 14)] {
        for levels in [0, 1] {
            batch.show(&with(&base, |p| {
                set_pattern(p, 0, levels, 4, &[three], NO_PAIRS);
                p.sequences[0].odd = count;
                p.sequences[0].even = count;
            }));
        }
    }
    // The level it ends with does not pass into the next region.
    for first in [2, 3] {
        batch.show(&with(&base, |p| {
            p.sequences[1] = sequence(0, 9, 1, 5, 5, 0);
            let regions = [region(0, 0, Mode::Multiplier), region(first, 1, Mode::Multiplier)];
            p.field = field(7, 3, 0, NO_SECOND, &regions);
        }));
    }
}

/// The last line shorter and longer than its region's sequence, in every mode.
fn last_line(batch: &mut Batch) {
    for mode in [Mode::Plain, Mode::Sweep, Mode::Multiplier] {
        for last in [1, 2, 11, 12, 13, 25] {
            batch.show(&with(&six(mode), |p| p.field.last = last));
            // Alone in its region.
            batch.show(&with(&six(mode), |p| {
                set_pattern(p, 1, 0b001000, 2, &[[0, 1, 4095], [1, 4095, 4095]], NO_PAIRS);
                p.sequences[0] = sequence(1, 12, 0, 1, 1, 0);
                p.sequences[1] = sequence(0, 9, 2, 1, 1, 0);
                p.field = field(3, last, 2, NO_SECOND, &[region(0, 1, Mode::Plain), region(2, 0, mode)]);
            }));
        }
    }
}

/// "Mask, last": each pair, both, and pairs at every edge of line and run.
fn masks(batch: &mut Batch) {
    let base = with(&six(Mode::Plain), |p| {
        p.sequences[0] = sequence(0, 12, 2, 2, 1, 0);
        p.field.last = 9;
    });
    for mask in 0..4 {
        for pairs in [[0, 1, 1, 12], [0, 12, 12, 13], [3, 4, 4, 5], [2, 5, 7, 9], [5, 8, 8, 4095], [1, 3, 10, 11], [8, 9, 11, 12]] {
            batch.show(&with(&base, |p| {
                p.sequences[0].mask = mask;
                set_pairs(p, 0, pairs);
            }));
        }
    }
    // The pairs are those of the region's pattern, the mask its sequence's.
    batch.show(&with(&base, |p| {
        set_pattern(p, 1, 0b110000, 3, &[[0, 1, 2], [1, 2, 3]], [4, 7, 8, 10]);
        set_pairs(p, 0, [2, 6, 7, 9]);
        p.sequences[0].mask = 2;
        p.sequences[1] = sequence(1, 11, 1, 3, 3, 1);
        p.field = field(5, 8, 0, NO_SECOND, &[region(0, 0, Mode::Plain), region(2, 1, Mode::Plain)]);
    }));
}

/// "Second pattern: on the gate line, from the pixel equal to its length", with
/// masks over it.
fn second_pattern(batch: &mut Batch) {
    let base = with(&six(Mode::Plain), |p| {
        set_pattern(p, 9, 0b100101, 6, &[[0, 2, 4], [1, 4095, 4095], [5, 6, 7], UNUSED, [0, 4095, 4095]], [1, 9, 1, 9]);
        p.sequences[0] = sequence(0, 14, 2, 1, 1, 0);
        p.field = field(5, 10, 2, 9, &[region(0, 0, Mode::Plain)]);
    });
    for gate_line in 0..5 {
        batch.show(&with(&base, |p| p.field.gate = gate_line));
    }
    for length in [6, 7, 12, 13] {
        batch.show(&with(&base, |p| set_length(p, 9, length)));
    }
    for toggles in [[7, 8, 4095], [6, 7, 8], [0, 1, 2], [7, 4094, 4095], [200, 300, 400]] {
        batch.show(&with(&base, |p| set_toggles(p, 9, 0, toggles)));
    }
    // "a freeze can hold the first pattern past the second's start"
    for mask in 1..4 {
        for pairs in [[3, 9, 10, 12], [5, 6, 6, 7], [6, 8, 8, 20], [0, 6, 7, 11], [4, 14, 14, 15]] {
            batch.show(&with(&base, |p| {
                p.sequences[0].mask = mask;
                set_pairs(p, 0, pairs);
            }));
        }
    }
    // No repetitions on the gate line: the start may lie past everything.
    batch.show(&with(&base, |p| p.sequences[0] = sequence(0, 14, 4095, 0, 3, 0)));
    batch.show(&with(&base, |p| p.sequences[0] = sequence(0, 14, 7, 0, 3, 0)));
}

/// "VSG: on the gate line, if on ... else the start level. Absent: 1."
fn gates(batch: &mut Batch) {
    let base = with(&six(Mode::Plain), |p| set_pattern(p, 0, 0, 4, &[], NO_PAIRS));
    for i in 0..5 {
        for (on, level) in [(0, 0), (0, 1), (1, 0), (1, 1)] {
            for (toggle1, toggle2) in [(0, 1), (0, 11), (4, 7), (10, 11)] {
                batch.show(&with(&base, |p| p.gates[i] = gate(on, level, toggle1, toggle2)));
            }
        }
    }
    for gate_line in 0..5 {
        batch.show(&with(&base, |p| {
            p.field.gate = gate_line;
            p.field.last = 9;
            p.gates = [gate(1, 1, 0, 4), gate(1, 0, 1, 5), gate(0, 0, 2, 6), gate(1, 1, 3, 8), gate(0, 1, 0, 4)];
        }));
    }
    // A gate that is off may have toggles in any order.
    batch.show(&with(&base, |p| p.gates[2] = gate(0, 0, 4095, 0)));
}

/// "SUBCK: ... on lines from gate line + s to below gate line + s + c, inside
/// the field".
fn subcks(batch: &mut Batch) {
    let base = with(&six(Mode::Plain), |p| {
        set_pattern(p, 0, 0, 4, &[], NO_PAIRS);
        p.field.lines = 8;
        p.field.last = 7;
    });
    for gate_line in [0, 2, 7] {
        for (suppressed, count) in [(1, 0), (1, 1), (1, 3), (2, 2), (5, 1), (5, 2), (6, 1), (7, 1), (8, 1), (1, 4095), (4095, 4095)] {
            for level in 0..2 {
                batch.show(&with(&base, |p| {
                    p.field.gate = gate_line;
                    p.subck = subck(level, 3, 8, suppressed, count);
                }));
            }
        }
    }
    for (toggle1, toggle2) in [(0, 1), (0, 11), (11, 12), (12, 13), (0, 4095), (4094, 4095), (6, 7)] {
        batch.show(&with(&base, |p| p.subck = subck(0, toggle1, toggle2, 1, 9)));
    }
}

/// "Shutters: active from on, up to but not including off; else the opposite.
/// Absent: 0."
fn shutters(batch: &mut Batch) {
    let base = with(&six(Mode::Plain), |p| {
        set_pattern(p, 0, 0, 4, &[], NO_PAIRS);
        p.field.last = 7;
    });
    let spans = [
        ((0, 0), (0, 1)),
        ((0, 0), (4, 6)),
        ((0, 11), (1, 0)),
        ((1, 4), (1, 9)),
        ((1, 9), (2, 4)),
        ((1, 4), (3, 9)),
        ((1, 9), (4, 0)),
        ((4, 5), (4, 6)),
        ((3, 11), (4, 6)),
    ];
    for (on, off) in spans {
        for active in 0..2 {
            for which in 0..2 {
                batch.show(&with(&base, |p| p.shutters[which] = shutter(active, on, off)));
            }
        }
    }
    batch.show(&with(&base, |p| p.shutters = [shutter(1, (0, 3), (3, 3)), shutter(0, (2, 0), (4, 6))]));
}

/// "equal words at a seam share one step": line ends and region seams with the
/// word kept and changed, in every pair of modes.
fn seams(batch: &mut Batch) {
    let modes = [Mode::Plain, Mode::Sweep, Mode::Multiplier];
    for one in modes {
        for other in modes {
            for levels in [0, 1] {
                for start in [0, 3] {
                    let mut p = Profile::empty();
                    set_pattern(&mut p, 0, 0, 3, &[[1, 2, 4095]], NO_PAIRS);
                    set_pattern(&mut p, 1, levels, 2, &[[1, 4095, 4095]], NO_PAIRS);
                    let count = |mode: Mode, highest: u16| if mode == Mode::Multiplier { highest } else { 2 };
                    p.sequences[0] = sequence(0, 6, start, count(one, 2), count(one, 2), 0);
                    p.sequences[1] = sequence(1, 5, start, count(other, 1), count(other, 1), 0);
                    p.field = field(5, 5, 0, NO_SECOND, &[region(0, 0, one), region(2, 1, other)]);
                    batch.show(&p);
                }
            }
        }
    }
    batch.show(&profile_rich());
}

/// Lines, pixels and field pixels at every edge, also past 16 and 32 bits.
fn places(batch: &mut Batch) {
    let rich = profile_rich();
    let lengths = [17, 17, 13, 13, 13, 11, 11, 11, 15, 15, 6, 9, 9, 8, 8, 14];
    let mut before = 0;
    for (line, length) in lengths.into_iter().enumerate() {
        for pixel in [0, length - 1, length, length + 1] {
            batch.level(&rich, line as u64, pixel);
        }
        for n in [before, before + length - 1] {
            batch.locate(&rich, n);
        }
        before += length;
    }
    let past = [before, before + 1, 1 << 16, 1 << 24, 1 << 32, (1 << 32) + 5, 1 << 63, u64::MAX - 1, u64::MAX];
    for n in past {
        batch.locate(&rich, n);
    }
    for line in [15, 16, 17, 4095, (1 << 16) + 3, (1 << 32) + 3, 1 << 63, u64::MAX] {
        for pixel in [0, (1 << 16) + 3, (1 << 32) + 3, u64::MAX] {
            batch.level(&rich, line, pixel);
        }
    }
    for pixel in [7, (1 << 16) + 7, (1 << 32) + 7, u64::MAX] {
        batch.level(&rich, 3, pixel);
    }
    for n in 0..20 {
        batch.locate(&with(&profile_a(), |p| p.field.last = 9), n);
    }
    every_pixel(batch);
}

/// Where each pixel of a field lies, and two past its end. The field's last line
/// is shorter than the others of its region, as long, longer, and longer than
/// several of them; it has a region of its own, or not.
fn every_pixel(batch: &mut Batch) {
    let firsts: [&[u16]; 5] = [&[0], &[0, 1], &[0, 4], &[0, 2, 3], &[0, 1, 2, 3, 4]];
    for last in [1, 3, 4, 7, 13] {
        for first in firsts {
            let p = with(&profile_a(), |p| {
                let lengths = [3, 1, 4, 6, 2];
                let regions: Vec<Region> = (0..first.len()).map(|i| region(first[i], i as u16, Mode::Plain)).collect();
                for (i, length) in lengths.into_iter().enumerate() {
                    p.sequences[i] = sequence(0, length, 0, 0, 0, 0);
                }
                p.field = field(5, last, 0, NO_SECOND, &regions);
            });
            for n in 0..crate::list::pixels(&p) + 2 {
                batch.locate(&p, n);
            }
        }
    }
}
