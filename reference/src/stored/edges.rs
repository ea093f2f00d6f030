//! The next edge, asked at every pixel of small fields that have edges of every
//! kind, stops at which nothing changes, and lines without an edge; then far
//! from an edge and outside the field. Every field is compiled too, and busy
//! ones into lists of every room.

use super::Batch;
use crate::list::steps_needed;
use crate::make::*;
use crate::profile::*;
use crate::rules::{check, line_length};

pub fn add(batch: &mut Batch) {
    by_hand(batch);
    runs(batch);
    cut_runs(batch);
    together(batch);
    masks(batch);
    second_patterns(batch);
    second_patterns_masked(batch);
    gates(batch);
    subcks(batch);
    shutters(batch);
    pulses(batch);
    sweeps(batch);
    multipliers(batch);
    regions(batch);
    last_lines(batch);
    still(batch);
    one_pixel(batch);
    everything(batch);
    outside(batch);
    other_versions(batch);
    busy_lists(batch);
    full_size(batch);
}

/// Asked at every pixel, and compiled.
fn every_pixel(batch: &mut Batch, profile: &Profile) {
    assert_eq!(check(profile), Ok(()));
    for line in 0..profile.field.lines as u64 {
        for pixel in 0..line_length(profile, line) {
            batch.next_edge(profile, line, pixel);
        }
    }
    for version in VERSIONS {
        batch.compile_whole(version, profile);
    }
}

/// One region of so many lines over pattern 0; its sequence is still to be given.
fn one_region(mode: Mode, lines: u16, last: u16, levels: u16, length: u16, toggles: &[[u16; 3]]) -> Profile {
    with(&Profile::empty(), |p| {
        set_pattern(p, 0, levels, length, toggles, NO_PAIRS);
        p.field = field(lines, last, 0, NO_SECOND, &[region(0, 0, mode)]);
    })
}

/// A line of 11 pixels with two runs of 4 from pixel 1 on, and one of 8 pixels
/// with one run.
fn two_lines(levels: u16, toggles: &[[u16; 3]]) -> Profile {
    let p = one_region(Mode::Plain, 2, 8, levels, 4, toggles);
    with(&p, |p| p.sequences[0] = sequence(0, 11, 1, 2, 1, 0))
}

/// Lines without an edge: so many of a length, and a last one.
fn quiet(lines: u16, length: u16, last: u16) -> Profile {
    let p = one_region(Mode::Plain, lines, last, 0b101, 4, &[]);
    with(&p, |p| p.sequences[0] = sequence(0, length, 1, 2, 1, 0))
}

/// Base profile A, and the example of runs that flip on one line and on two.
fn by_hand(batch: &mut Batch) {
    every_pixel(batch, &profile_a());
    for lines in [1, 2] {
        let p = one_region(Mode::Plain, lines, 8, 1, 4, &[[2, 4095, 4095]]);
        every_pixel(batch, &with(&p, |p| p.sequences[0] = sequence(0, 8, 0, 2, 2, 0)));
    }
}

/// Start, toggles, ends of repetitions and of the run, with none, one, two and
/// three used toggles: at 0, at the last pixel of a repetition, between.
fn runs(batch: &mut Batch) {
    let threes =
        [[0, 4095, 4095], [2, 4095, 4095], [3, 4, 9], [0, 2, 4095], [1, 3, 4095], [0, 1, 2], [1, 2, 3], [4, 4095, 9]];
    for (i, three) in threes.into_iter().enumerate() {
        every_pixel(batch, &two_lines(i as u16 % 2, &[three]));
    }
    let two = two_lines(0b01, &[[0, 4095, 4095], [1, 3, 4095]]);
    for start in [0, 5, 7, 9, 10, 11, 4095] {
        every_pixel(batch, &with(&two, |p| p.sequences[0].start = start));
    }
    for (odd, even) in [(0, 1), (1, 0), (3, 2), (4095, 4095)] {
        every_pixel(batch, &with(&two, |p| p.sequences[0] = sequence(0, 11, 1, odd, even, 0)));
    }
    for length in [1, 2, 3, 5, 10, 11, 4095] {
        every_pixel(batch, &with(&two, |p| set_length(p, 0, length)));
    }
}

/// "The line's end cuts the run": before and at each toggle and end. The next
/// line has the start level at its first pixel, which may be an edge or not.
fn cut_runs(batch: &mut Batch) {
    for length in 1..=9 {
        let p = two_lines(0b10, &[[2, 4095, 4095], [0, 1, 3]]);
        every_pixel(
            batch,
            &with(&p, |p| {
                p.sequences[0] = sequence(0, length, 1, 3, 2, 0);
                p.field.lines = 3;
                p.field.last = 6;
            }),
        );
    }
}

/// Several outputs at one pixel: the same way, or the other, so that two swap;
/// flips at neighbouring pixels; words that return.
fn together(batch: &mut Batch) {
    let pulse = [1, 3, 4095];
    let fields: [(u16, &[[u16; 3]]); 10] = [
        (0b00, &[pulse, pulse]),
        (0b10, &[pulse, pulse]),
        (0b010110, &[pulse; 6]),
        (0b01, &[[0, 1, 4095]]),
        (0b00, &[[1, 2, 4095]]),
        (0b01, &[[2, 3, 4095]]),
        (0b00, &[[3, 4095, 4095], [3, 4095, 4095]]),
        (0b01, &[[0, 1, 4095], [1, 2, 4095], [2, 3, 4095], [3, 4095, 4095]]),
        (0b01, &[[0, 1, 2], [1, 2, 3]]),
        (0b10, &[[0, 3, 4095], [0, 3, 4095]]),
    ];
    for (levels, toggles) in fields {
        every_pixel(batch, &two_lines(levels, toggles));
    }
    // V, gates, SUBCK and shutters at one pixel, and one after another.
    let all = with(&two_lines(0b01, &[pulse]), |p| {
        p.gates[0] = gate(1, 1, 2, 4);
        p.gates[4] = gate(1, 0, 4, 5);
        p.subck = subck(0, 2, 4, 1, 1);
        p.shutters = [shutter(1, (0, 2), (1, 2)), shutter(1, (1, 2), (1, 4))];
    });
    every_pixel(batch, &all);
    every_pixel(
        batch,
        &with(&all, |p| {
            p.gates = [gate(1, 1, 3, 5), gate(1, 0, 5, 6), gate(1, 1, 6, 7), gate(1, 0, 7, 8), gate(1, 1, 8, 9)];
            p.subck = subck(1, 3, 5, 1, 1);
            p.shutters = [shutter(0, (0, 1), (1, 0)), shutter(1, (0, 9), (1, 6))];
        }),
    );
}

/// Toggles and ends while frozen change nothing; a resume does, or does not; a
/// freeze holds what its own pixel has. Pairs that meet, and past the line.
fn masks(batch: &mut Batch) {
    let frozen = |base: &Profile, mask: u16, pairs: [u16; 4]| {
        with(base, |p| {
            p.sequences[0].mask = mask;
            set_pairs(p, 0, pairs);
        })
    };
    // One pulse at pixels 2 and 3, 6 and 7: the level is the same at resume.
    let one = two_lines(0, &[[1, 3, 4095]]);
    for (freeze, resume) in [(1, 5), (1, 9), (2, 6), (2, 4), (2, 5), (3, 7), (0, 2), (0, 3), (4, 8), (5, 4095)] {
        every_pixel(batch, &frozen(&one, 1, [freeze, resume, 0, 0]));
    }
    let two = two_lines(0b10, &[[1, 3, 4095], [0, 4095, 4095]]);
    let first = [[0, 1], [0, 11], [1, 5], [3, 9], [4, 5], [6, 10], [9, 10], [10, 11], [8, 4095], [11, 20], [7, 8]];
    for [freeze, resume] in first {
        every_pixel(batch, &frozen(&two, 1, [freeze, resume, 0, 0]));
    }
    for [freeze, resume] in [[1, 2], [2, 6], [5, 8], [9, 4095]] {
        every_pixel(batch, &frozen(&two, 2, [0, 0, freeze, resume]));
    }
    let both = [
        [2, 5, 5, 9],
        [0, 5, 5, 11],
        [3, 4, 4, 5],
        [1, 3, 6, 8],
        [8, 9, 10, 4095],
        [4, 9, 12, 13],
        [2, 6, 6, 4095],
        [0, 1, 2, 3],
    ];
    for pairs in both {
        every_pixel(batch, &frozen(&two, 3, pairs));
    }
}

/// A gate line of 12 pixels with one run of a first pattern over pixels 1 to 4,
/// and with a second pattern from pixel 6 on; then a line of 9.
fn with_second(first: [u16; 3], levels: u16, toggles: &[[u16; 3]]) -> Profile {
    with(&two_lines(0b01, &[first]), |p| {
        set_pattern(p, 5, levels, 6, toggles, NO_PAIRS);
        p.sequences[0] = sequence(0, 12, 1, 1, 1, 0);
        p.field = field(2, 9, 0, 5, &[region(0, 0, Mode::Plain)]);
    })
}

/// A second pattern whose start changes the word, or does not: its own level is
/// the one before, or a toggle at 0 makes it so. Toggles up to the line's last
/// pixel and past it; the next line returns.
fn second_patterns(batch: &mut Batch) {
    let (even, odd) = ([1, 3, 4095], [2, 4095, 4095]);
    let seconds: [(u16, &[[u16; 3]]); 10] = [
        (0b01, &[]),
        (0b00, &[]),
        (0b10, &[]),
        (0b01, &[[0, 4095, 4095]]),
        (0b00, &[[0, 4095, 4095]]),
        (0b00, &[[1, 3, 4095]]),
        (0b01, &[[0, 1, 2], [2, 4095, 4095]]),
        (0b01, &[[4, 5, 6]]),
        (0b11, &[[5, 4095, 4095], [6, 7, 4094]]),
        (0b00, &[[6, 4094, 4095]]),
    ];
    for (levels, toggles) in seconds {
        every_pixel(batch, &with_second(even, levels, toggles));
    }
    let base = with_second(odd, 0b01, &[[1, 2, 4095]]);
    for length in [5, 6, 7, 10, 11] {
        every_pixel(batch, &with(&base, |p| set_length(p, 5, length)));
    }
    // On the last line, there at its last pixel too; and on both.
    for length in [6, 8] {
        for (gate_line, gate2) in [(1, NO_GATE2), (1, 0)] {
            every_pixel(
                batch,
                &with(&base, |p| {
                    set_length(p, 5, length);
                    set_gate_lines(p, gate_line, gate2);
                }),
            );
        }
    }
}

/// A freeze over the second pattern's start, at it, and up to it; its toggles
/// while frozen.
fn second_patterns_masked(batch: &mut Batch) {
    let base = with_second([2, 4095, 4095], 0b10, &[[1, 4095, 4095], [0, 2, 3]]);
    let masked = [
        (1, [4, 8, 0, 0]),
        (1, [6, 8, 0, 0]),
        (1, [3, 6, 0, 0]),
        (1, [5, 12, 0, 0]),
        (1, [7, 9, 0, 0]),
        (1, [2, 4095, 0, 0]),
        (2, [0, 0, 5, 7]),
        (3, [2, 5, 6, 7]),
        (3, [4, 6, 6, 10]),
        (3, [4, 8, 8, 4095]),
    ];
    for (mask, pairs) in masked {
        every_pixel(
            batch,
            &with(&base, |p| {
                p.sequences[0].mask = mask;
                set_pairs(p, 0, pairs);
            }),
        );
    }
}

/// Each gate with toggles at the line's first pixel, at its last, beside each
/// other and apart; on the last line; all of them on both lines; off.
fn gates(batch: &mut Batch) {
    let base = quiet(2, 7, 6);
    for i in 0..GATES {
        for (toggle1, toggle2) in [(0, 1), (0, 6), (2, 4), (3, 6), (5, 6)] {
            let level = (i as u16 + toggle1) % 2;
            every_pixel(batch, &with(&base, |p| p.gates[i] = gate(1, level, toggle1, toggle2)));
        }
        every_pixel(
            batch,
            &with(&base, |p| {
                p.field.gate = 1;
                p.gates[i] = gate(1, 1, i as u16, 5);
            }),
        );
    }
    let all = with(&base, |p| {
        set_gate_lines(p, 1, 0);
        p.gates = [gate(1, 1, 0, 4), gate(1, 0, 1, 5), gate(0, 0, 2, 6), gate(1, 1, 3, 4), gate(0, 1, 4095, 0)];
    });
    every_pixel(batch, &all);
    every_pixel(batch, &with(&all, |p| p.field.gate2 = NO_GATE2));
    // The next gate line begins as this one ends.
    every_pixel(
        batch,
        &with(&base, |p| {
            set_gate_lines(p, 0, 1);
            p.gates[1] = gate(1, 1, 0, 5);
        }),
    );
}

/// SUBCK on some of four lines: toggles at the first pixel, the last, past the
/// line's end; one on the line and one past it, so that the line's end returns
/// the level, or the next line's first toggle keeps it.
fn subcks(batch: &mut Batch) {
    let base = quiet(4, 6, 4);
    let toggles = [(0, 1), (0, 5), (2, 4), (5, 6), (6, 7), (3, 9), (0, 9), (3, 4), (4, 4095), (0, 4), (4094, 4095)];
    for (i, (toggle1, toggle2)) in toggles.into_iter().enumerate() {
        every_pixel(batch, &with(&base, |p| p.subck = subck(i as u16 % 2, toggle1, toggle2, 1, 4095)));
    }
    for (suppressed, count) in [(1, 0), (1, 1), (1, 2), (2, 1), (3, 1), (4, 1), (4095, 4095)] {
        every_pixel(batch, &with(&base, |p| p.subck = subck(1, 2, 5, suppressed, count)));
        every_pixel(batch, &with(&base, |p| p.subck = subck(0, 0, 6, suppressed, count)));
    }
}

/// Shutters on and off at the first and last pixels of lines and of the field,
/// over several lines; two of them, one off where the other is on.
fn shutters(batch: &mut Batch) {
    let base = quiet(3, 4, 3);
    let spans = [
        ((0, 0), (2, 2)),
        ((0, 0), (1, 0)),
        ((0, 1), (0, 3)),
        ((0, 2), (1, 2)),
        ((0, 3), (2, 0)),
        ((1, 0), (1, 3)),
        ((1, 3), (2, 2)),
        ((2, 0), (2, 2)),
    ];
    for (i, (on, off)) in spans.into_iter().enumerate() {
        for which in 0..2 {
            every_pixel(batch, &with(&base, |p| p.shutters[which] = shutter((i % 2) as u16, on, off)));
        }
    }
    let swaps = [
        [shutter(1, (0, 1), (1, 2)), shutter(1, (1, 2), (2, 1))],
        [shutter(0, (0, 3), (1, 0)), shutter(0, (1, 0), (2, 0))],
        [shutter(1, (0, 2), (1, 1)), shutter(0, (0, 2), (1, 1))],
        [shutter(1, (1, 1), (2, 2)), shutter(1, (0, 1), (1, 1))],
        [shutter(1, (0, 0), (0, 1)), shutter(0, (0, 1), (0, 2))],
    ];
    for both in swaps {
        every_pixel(batch, &with(&base, |p| p.shutters = both));
    }
}

/// A pulse of one pixel at every place of a field but its last.
fn pulses(batch: &mut Batch) {
    let lines = [(0, 4), (1, 4), (2, 3)];
    let places: Vec<(u16, u16)> =
        lines.into_iter().flat_map(|(line, n)| (0..n).map(move |pixel| (line, pixel))).collect();
    for (i, two) in places.windows(2).enumerate() {
        let p = with(&quiet(3, 4, 3), |p| p.shutters[i % 2] = shutter(1, two[0], two[1]));
        every_pixel(batch, &p);
    }
}

/// Runs through line ends: edges on either side of a line's end and at it,
/// repetitions longer than a line, starts on a later line, up to the region's
/// last pixel.
fn sweeps(batch: &mut Batch) {
    let of = |levels: u16, length: u16, toggles: &[[u16; 3]], start: u16, repetitions: u16| {
        let p = one_region(Mode::Sweep, 4, 7, levels, length, toggles);
        with(&p, |p| p.sequences[0] = sequence(0, 5, start, repetitions, repetitions, 0))
    };
    let one = [2, 4095, 4095];
    for (start, repetitions) in [(0, 5), (1, 5), (2, 5), (3, 3), (6, 4), (10, 3), (21, 0), (22, 0)] {
        every_pixel(batch, &of(0, 4, &[one], start, repetitions));
    }
    for toggles in [&[[0, 4095, 4095]][..], &[[3, 4, 4095]], &[[0, 3, 4095]], &[[0, 1, 3], [1, 3, 4095]], &[]] {
        every_pixel(batch, &of(1, 4, toggles, 1, 4));
    }
    for (start, repetitions) in [(0, 2), (0, 1), (7, 1), (11, 1)] {
        every_pixel(batch, &of(0b10, 11, &[[5, 4095, 4095], [0, 4, 10]], start, repetitions));
    }
    // A shutter on where a repetition ends, and off where the run does.
    every_pixel(batch, &with(&of(0, 4, &[one], 1, 5), |p| p.shutters[0] = shutter(1, (1, 0), (3, 6))));
    // As many runs as there are lines, each as long as one.
    every_pixel(batch, &of(0, 5, &[[0, 4095, 4095]], 0, 4));
    every_pixel(batch, &of(0, 5, &[[4, 4095, 4095]], 0, 4));
    every_pixel(batch, &of(0, 1, &[[0, 4095, 4095]], 2, 15));
}

/// Pulses through line ends, up to the region's last pixel and just past it.
fn multipliers(batch: &mut Batch) {
    let of = |levels: u16, toggles: &[[u16; 3]], start: u16, count: u16| {
        let p = one_region(Mode::Multiplier, 4, 7, levels, 4, toggles);
        with(&p, |p| p.sequences[0] = sequence(0, 5, start, count, count, 0))
    };
    for start in [0, 1, 2] {
        every_pixel(batch, &of(0, &[[2, 5, 4095], [0, 4095, 4095]], start, 5));
    }
    every_pixel(batch, &of(1, &[[0, 3, 4095]], 9, 3));
    every_pixel(batch, &of(1, &[[1, 2, 3], [2, 4095, 4095]], 4, 3));
    every_pixel(batch, &of(0, &[[0, 4095, 4095]], 21, 0));
    every_pixel(batch, &of(0, &[[0, 4095, 4095]], 22, 0));
    every_pixel(batch, &of(1, &[], 3, 0));
    // Toggles far above the length.
    every_pixel(batch, &with(&of(0, &[[3, 11, 20]], 2, 20), |p| set_length(p, 0, 1)));
}

/// Two regions in every pair of modes: the word changes at the seam, or stays;
/// a toggle there makes it change, or stay.
fn regions(batch: &mut Batch) {
    let modes = [Mode::Plain, Mode::Sweep, Mode::Multiplier];
    let count = |mode: Mode, highest: u16| if mode == Mode::Multiplier { highest } else { 1 };
    for one in modes {
        for other in modes {
            for (levels, start) in [(0, 1), (1, 1), (0, 0), (1, 0)] {
                let p = with(&Profile::empty(), |p| {
                    set_pattern(p, 0, 0, 3, &[[1, 2, 4095]], NO_PAIRS);
                    set_pattern(p, 1, levels, 2, &[[0, 4095, 4095], [1, 4095, 4095]], NO_PAIRS);
                    p.sequences[0] = sequence(0, 5, 1, count(one, 2), count(one, 2), 0);
                    p.sequences[1] = sequence(1, 4, start, count(other, 1), count(other, 1), 0);
                    p.field = field(4, 3, 0, NO_SECOND, &[region(0, 0, one), region(2, 1, other)]);
                });
                every_pixel(batch, &p);
            }
        }
    }
}

/// A last line shorter and longer than the others of its region, and one that
/// is a region, in every mode.
fn last_lines(batch: &mut Batch) {
    for mode in [Mode::Plain, Mode::Sweep, Mode::Multiplier] {
        for last in [1, 3, 9] {
            let count = if mode == Mode::Multiplier { 2 } else { 1 };
            let p = with(&one_region(mode, 2, last, 0, 3, &[[1, 2, 4095], [2, 4095, 4095]]), |p| {
                p.sequences[0] = sequence(0, 6, 1, count, count, 0);
                p.shutters[1] = shutter(1, (0, 3), (1, last - 1));
            });
            every_pixel(batch, &p);
            every_pixel(
                batch,
                &with(&p, |p| {
                    p.sequences[1] = sequence(0, 4, 2, 0, 0, 0);
                    p.sequences[0] = Sequence { start: 0, odd: 0, even: 0, ..p.sequences[0] };
                    if mode == Mode::Multiplier {
                        set_pattern(p, 0, 1, 3, &[[0, 4095, 4095]], NO_PAIRS);
                    }
                    p.field = field(2, last, 0, NO_SECOND, &[region(0, 1, Mode::Plain), region(1, 0, mode)]);
                }),
            );
        }
    }
}

/// The word stays over several lines: to the field's end, or to an edge on a
/// later line; in seven regions too.
fn still(batch: &mut Batch) {
    let base = quiet(5, 3, 4);
    every_pixel(batch, &base);
    every_pixel(batch, &with(&base, |p| p.shutters[0] = shutter(1, (0, 0), (4, 3))));
    every_pixel(batch, &with(&base, |p| p.shutters[1] = shutter(0, (3, 1), (4, 0))));
    every_pixel(
        batch,
        &with(&base, |p| {
            p.field.gate = 4;
            p.gates[2] = gate(1, 0, 2, 3);
        }),
    );
    let seven = with(&profile_seven(Mode::Plain), |p| {
        for i in 0..REGIONS {
            set_pattern(p, i, 0b11, 4, &[], NO_PAIRS);
            p.sequences[i].length = 1 + i as u16 % 3;
            p.field.regions[i].first = i as u16;
        }
        p.field.lines = 7;
        p.field.last = 2;
    });
    every_pixel(batch, &seven);
    every_pixel(batch, &with(&seven, |p| set_levels(p, 5, 0b01)));
    every_pixel(batch, &with(&seven, |p| p.shutters[0] = shutter(0, (1, 1), (6, 1))));
}

/// Fields of one pixel, lines of one pixel, and fields of one line.
fn one_pixel(batch: &mut Batch) {
    for mode in [Mode::Plain, Mode::Sweep, Mode::Multiplier] {
        let count = if mode == Mode::Multiplier { 0 } else { 1 };
        let p = one_region(mode, 1, 1, 0b10, 1, &[[0, 4095, 4095]]);
        let p = with(&p, |p| p.sequences[0] = sequence(0, 1, 0, count, count, 0));
        every_pixel(batch, &p);
        for lines in [2, 5] {
            every_pixel(batch, &with(&p, |p| p.field.lines = lines));
        }
        every_pixel(batch, &with(&p, |p| p.field.last = 5));
        every_pixel(
            batch,
            &with(&p, |p| {
                p.field.lines = 4;
                p.field.last = 3;
                p.sequences[0].length = 2;
            }),
        );
    }
    every_pixel(batch, &quiet(1, 1, 1));
    every_pixel(batch, &quiet(1, 7, 1));
    // Every line begins at another level than the one before, or only some.
    let lines = quiet(6, 1, 1);
    every_pixel(batch, &lines);
    every_pixel(
        batch,
        &with(&lines, |p| {
            set_pattern(p, 0, 0, 1, &[[0, 4095, 4095]], NO_PAIRS);
            p.sequences[0] = sequence(0, 1, 0, 1, 0, 0);
        }),
    );
    every_pixel(batch, &with(&lines, |p| p.subck = subck(0, 0, 1, 1, 3)));
    every_pixel(batch, &with(&lines, |p| p.subck = subck(0, 1, 2, 1, 3)));
    every_pixel(batch, &with(&lines, |p| p.shutters[0] = shutter(1, (1, 0), (2, 0))));
    every_pixel(batch, &with(&lines, |p| p.shutters[1] = shutter(0, (2, 0), (5, 0))));
    let runs = one_region(Mode::Sweep, 8, 1, 0, 3, &[[1, 4095, 4095], [0, 2, 4095]]);
    every_pixel(batch, &with(&runs, |p| p.sequences[0] = sequence(0, 1, 1, 2, 2, 0)));
    let runs = one_region(Mode::Multiplier, 8, 1, 0, 2, &[[1, 3, 4095]]);
    every_pixel(batch, &with(&runs, |p| p.sequences[0] = sequence(0, 1, 1, 3, 3, 0)));
}

/// Every item, every mode, seven regions; one and two gate lines.
fn everything(batch: &mut Batch) {
    every_pixel(batch, &profile_rich());
    every_pixel(batch, &profile_two());
}

/// "refusals as for a level": 19 at pixels past a line's end and lines past the
/// field's, also past 16 and 32 bits; a refused profile is refused first.
fn outside(batch: &mut Batch) {
    for (line, pixel) in [(0, 10), (0, 11), (1, 10), (1, 4095), (2, 0), (2, 10), (3, 3), (4095, 0)] {
        batch.next_edge(&profile_a(), line, pixel);
    }
    let rich = profile_rich();
    for line in 0..16 {
        for past in 0..2 {
            batch.next_edge(&rich, line, line_length(&rich, line) + past);
        }
    }
    let high = [1 << 16, 1 << 24, 1 << 32, 1 << 48, 1 << 63];
    for wide in high {
        for (line, pixel) in [(wide + 3, 2), (3, wide + 2), (wide, wide), (wide + 15, wide + 13)] {
            batch.next_edge(&rich, line, pixel);
        }
    }
    let most = u64::MAX;
    for (line, pixel) in [(most, 0), (0, most), (15, most), (most, most), (most - 1, 1), (1, most - 1), (16, most)] {
        batch.next_edge(&rich, line, pixel);
        batch.next_edge(&profile_a(), line, pixel);
    }
    let refused: [fn(&mut Profile); 9] = [
        |p| p.registers[239] = 4096,
        |p| p.field = Field::default(),
        |p| p.field.regions[6].first = 16,
        |p| p.sequences[3] = Sequence::default(),
        |p| set_toggles(p, 1, 2, [2, 1, 4095]),
        |p| p.sequences[5].start = 100,
        |p| p.field.gate = 16,
        |p| p.gates[4] = gate(1, 0, 3, 3),
        |p| p.shutters[1].off_pixel = 14,
    ];
    for edit in refused {
        let p = with(&rich, edit);
        for (line, pixel) in [(0, 0), (7, 3), (15, 13), (15, 14), (16, 0), (most, most)] {
            batch.next_edge(&p, line, pixel);
        }
    }
}

/// "0 acts as 1, 3 and more act as 2."
fn other_versions(batch: &mut Batch) {
    let p = two_lines(0, &[[2, 4095, 4095], [0, 1, 3]]);
    for version in OTHER_VERSIONS {
        for pixel in 0..11 {
            batch.next_edge_by(version, &p, 0, pixel);
        }
        for (line, pixel) in [(1, 4), (1, 7), (1, 8), (2, 0)] {
            batch.next_edge_by(version, &p, line, pixel);
        }
        batch.next_edge_by(version, &Profile::empty(), 0, 0);
        batch.next_edge_by(version, &profile_rich(), 3, 12);
    }
}

/// Lines of 14 pixels and a last one of 9, with an edge in every pixel, in every
/// second, and where runs, masks, second patterns and SUBCK end past each other.
fn busy() -> Vec<Profile> {
    let of = |levels: u16, length: u16, toggles: &[[u16; 3]], odd: u16, even: u16| {
        let p = one_region(Mode::Plain, 3, 9, levels, length, toggles);
        with(&p, |p| p.sequences[0] = sequence(0, 14, 0, odd, even, 0))
    };
    let every = of(0b01, 2, &[[0, 1, 4095], [1, 4095, 4095]], 7, 7);
    let second = of(0b10, 4, &[[0, 2, 4095], [2, 4095, 4095]], 4095, 3);
    let ones = of(0, 1, &[[0, 4095, 4095]], 14, 4095);
    let cut = of(0b0110, 5, &[[0, 2, 4], [1, 4095, 4095], [3, 4, 4095], [4, 5, 6]], 3, 4);
    let masked = |p: &Profile, pairs: [u16; 4]| {
        with(p, |p| {
            p.sequences[0] = sequence(0, 14, 1, 2, 1, 3);
            set_pairs(p, 0, pairs);
        })
    };
    let with_second = |p: &Profile, length: u16| {
        with(p, |p| {
            set_pattern(p, 9, 0b101, length, &[[0, 1, 2], [1, 3, 4095], [0, 4, 9]], NO_PAIRS);
            p.field.second = 9;
            p.field.gate = 1;
        })
    };
    let sub = |p: &Profile, toggle1: u16, toggle2: u16| with(p, |p| p.subck = subck(1, toggle1, toggle2, 1, 4095));
    vec![
        every,
        second,
        ones,
        cut,
        // Masks over the ends of runs, that meet, and past the line's end.
        masked(&cut, [4, 7, 9, 12]),
        masked(&cut, [3, 6, 6, 11]),
        masked(&ones, [1, 2, 2, 3]),
        masked(&every, [2, 5, 8, 20]),
        masked(&every, [0, 14, 14, 4095]),
        // A second pattern that starts inside a mask, and right after one.
        with_second(&masked(&cut, [4, 9, 10, 12]), 7),
        with_second(&masked(&cut, [3, 6, 6, 7]), 6),
        with_second(&masked(&cut, [5, 7, 7, 4095]), 8),
        // SUBCK toggles past the line's end: one of them, both, on the last.
        sub(&every, 3, 14),
        sub(&cut, 0, 20),
        sub(&second, 14, 15),
        sub(&ones, 8, 9),
        with(&every, |p| {
            p.gates = [gate(1, 1, 0, 13), gate(1, 0, 1, 2), gate(1, 1, 2, 3), gate(1, 0, 6, 9), gate(1, 1, 12, 13)];
            p.subck = subck(0, 5, 6, 1, 2);
            p.shutters = [shutter(1, (0, 1), (2, 7)), shutter(0, (0, 13), (2, 8))];
        }),
        // The same through line ends.
        with(&every, |p| {
            p.field.regions[0].mode = Mode::Sweep;
            p.sequences[0] = sequence(0, 14, 1, 18, 18, 0);
        }),
        with(&cut, |p| {
            p.field.regions[0].mode = Mode::Sweep;
            p.sequences[0] = sequence(0, 14, 2, 7, 7, 0);
        }),
        with(&every, |p| {
            p.field.regions[0].mode = Mode::Multiplier;
            set_pattern(p, 0, 0, 1, &[[0, 14, 28], [13, 15, 36], [1, 2, 3]], NO_PAIRS);
            p.sequences[0] = sequence(0, 14, 0, 36, 36, 0);
        }),
    ]
}

/// Busy fields asked at every pixel, and compiled with exactly enough room, one
/// entry fewer, none, and unequal lists.
fn busy_lists(batch: &mut Batch) {
    for p in busy() {
        every_pixel(batch, &p);
        for version in VERSIONS {
            let n = steps_needed(version, &p);
            let equal = [(n, n), (n - 1, n - 1), (0, 0)];
            let unequal = [(n, n - 1), (n - 1, n), (n + 3, n), (n, n + 3), (0, n), (n, 0)];
            for (counts, words) in equal.into_iter().chain(unequal) {
                batch.compile_by(version, &p, counts, words);
            }
        }
    }
}

/// 4095 lines of 4095 pixels: near an edge; the edge is the field's last pixel,
/// asked at its first; there is none for a thousand lines.
fn full_size(batch: &mut Batch) {
    let still = quiet(4095, 4095, 4095);
    let held = with(&still, |p| p.shutters[0] = shutter(1, (0, 0), (4094, 4094)));
    batch.next_edge(&held, 0, 0);
    batch.next_edge(&still, 3094, 4094);
    for (line, pixel) in [(4093, 4094), (4094, 0), (4094, 4093), (4094, 4094), (4094, 4095), (4095, 0)] {
        batch.next_edge(&still, line, pixel);
        batch.next_edge(&held, line, pixel);
    }
    // 4095 runs that flip once each.
    let flips = one_region(Mode::Sweep, 4095, 4095, 0, 4095, &[[4094, 4095, 4095]]);
    let flips = with(&flips, |p| p.sequences[0] = sequence(0, 4095, 0, 4095, 4095, 0));
    // Toggles at 4095, 2000 × 4095 and 4094 × 4095 from the region's pixel 4094.
    let multiplied = one_region(Mode::Multiplier, 4095, 4095, 0, 4095, &[[1, 2000, 4094], [0, 3000, 4095]]);
    let multiplied = with(&multiplied, |p| p.sequences[0] = sequence(0, 4095, 4094, 4094, 4094, 0));
    for p in [flips, multiplied] {
        assert_eq!(check(&p), Ok(()));
        for (line, pixel) in [
            (0, 4093),
            (0, 4094),
            (1, 4093),
            (1, 4094),
            (1999, 4090),
            (2000, 4093),
            (3000, 4000),
            (4092, 4094),
            (4094, 4092),
            (4094, 4093),
            (4094, 4094),
        ] {
            batch.next_edge(&p, line, pixel);
        }
    }
    // As many lines as there are, of one pixel, and one line of as many pixels.
    let lines = quiet(4095, 1, 2);
    let line = quiet(1, 1, 4095);
    for p in [lines, with(&lines, |p| p.shutters[1] = shutter(1, (0, 0), (4094, 1)))] {
        for at in [0, 1, 2047, 4093, 4094] {
            batch.next_edge(&p, at, 0);
        }
    }
    for p in [line, with(&line, |p| p.shutters[1] = shutter(1, (0, 0), (0, 4094)))] {
        for at in [0, 1, 2047, 4093, 4094] {
            batch.next_edge(&p, 0, at);
        }
    }
}
