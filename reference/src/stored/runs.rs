//! "Runs flip, they do not start over": runs of one, two and three used toggles
//! in every place where the two rule versions part, and where they do not. Each
//! profile is shown and printed by both, and asked at the pixels that tell.

use super::Batch;
use crate::make::*;
use crate::profile::*;
use crate::rules::{check, gate_lines, line_length, region_of_line, repetitions, second_pattern};
use std::collections::BTreeSet;

pub fn add(batch: &mut Batch) {
    example(batch);
    every_repetition(batch);
    every_output(batch);
    used_by_the_length(batch);
    starts(batch);
    cut_by_the_line(batch);
    masks(batch);
    masks_over_a_cut(batch);
    second_after_a_run(batch);
    second_masked(batch);
    sweeps(batch);
    sweeps_over_lines(batch);
    several_regions(batch);
    multipliers(batch);
    other_versions(batch);
}

/// One, two, three, none, one and three used toggles of a pattern of length 4.
const USED: [[u16; 3]; 6] = [[2, 4095, 4095], [1, 3, 4095], [0, 1, 3], [4, 4095, 9], [0, 5, 4], [1, 2, 3]];

/// One region of 3 lines of 14 pixels over `USED`, the last of 11: runs of 4
/// from pixel 1 on, two on lines 0 and 2 and three on line 1; in sweep and
/// multiplier both counts are 3.
fn runs(mode: Mode) -> Profile {
    with(&Profile::empty(), |p| {
        set_pattern(p, 0, 0b011001, 4, &USED, NO_PAIRS);
        p.sequences[0] = sequence(0, 14, 1, 2, 3, 0);
        p.field = field(3, 11, 1, NO_SECOND, &[region(0, 0, mode)]);
        if mode != Mode::Plain {
            p.sequences[0].odd = 3;
        }
    })
}

/// Shown and printed by both versions; all are accepted.
fn show(batch: &mut Batch, profile: &Profile) {
    assert_eq!(check(profile), Ok(()));
    batch.show(profile);
    batch.text(short_script(profile));
}

/// The same, and asked at the pixels that tell where that is wanted.
fn tell_if(batch: &mut Batch, wanted: bool, profile: &Profile) {
    if wanted {
        tell(batch, profile);
    } else {
        show(batch, profile);
    }
}

fn tell(batch: &mut Batch, profile: &Profile) {
    show(batch, profile);
    for line in 0..profile.field.lines as u64 {
        for pixel in telling(profile, line) {
            batch.level(profile, line, pixel);
        }
    }
}

/// The pixels of a line at which the versions are told apart: its first and its
/// last; the one before the start; the first and the last of each repetition,
/// which has the last of the run; the first after it; those of masks and of a
/// second pattern.
fn telling(p: &Profile, line: u64) -> BTreeSet<u64> {
    let number = region_of_line(p, line);
    let (region, s) = (&p.field.regions[number], p.sequence_of(number));
    let pattern = p.pattern(s.pattern);
    let before = match region.mode {
        Mode::Plain => 0,
        Mode::Sweep | Mode::Multiplier => (line - region.first as u64) * s.length as u64,
    };
    let start = s.start as u64;
    let mut edges: Vec<u64> = (0..=repetitions(s, line)).map(|k| start + k * pattern.length).collect();
    if s.mask != 0 {
        edges.extend([pattern.freeze, pattern.resume].concat());
    }
    if gate_lines(p).any(|gate_line| gate_line == line) {
        edges.extend(second_pattern(p).map(|second| second.length));
    }
    let length = line_length(p, line);
    let around = edges.into_iter().flat_map(|edge| [edge, edge.wrapping_sub(1)]);
    let here = around.map(|from| from.wrapping_sub(before)).filter(|pixel| *pixel < length);
    here.chain([0, length - 1]).collect()
}

/// "start level 1, length 4, one used toggle at 2, start 0, two runs on a line
/// of 8: 01 gives 11001100, the camera gives 11000011."
fn example(batch: &mut Batch) {
    for lines in [1, 2] {
        let p = with(&Profile::empty(), |p| {
            set_pattern(p, 0, 1, 4, &[[2, 4095, 4095]], NO_PAIRS);
            p.sequences[0] = sequence(0, 8, 0, 2, 2, 0);
            p.field = field(lines, 8, 0, NO_SECOND, &[region(0, 0, Mode::Plain)]);
        });
        show(batch, &p);
        for line in 0..lines as u64 {
            for pixel in 0..8 {
                batch.level(&p, line, pixel);
            }
        }
        show(batch, &with(&p, |p| set_levels(p, 0, 0)));
    }
}

/// None, one, odd and even numbers of runs; the line's number tells which.
fn every_repetition(batch: &mut Batch) {
    for odd in 0..6 {
        for even in 0..6 {
            let p = with(&runs(Mode::Plain), |p| p.sequences[0] = sequence(0, 14, 1, odd, even, 0));
            tell_if(batch, odd == even + 1, &p);
        }
    }
}

/// Each output by itself, from both levels, with one, two and three used toggles
/// at the edges of the run.
fn every_output(batch: &mut Batch) {
    let threes = [[0, 4095, 4095], [3, 4, 4095], [0, 3, 4], [0, 1, 2], [1, 2, 3]];
    for output in 0..OUTPUTS {
        for three in threes {
            for levels in [0, 63] {
                show(
                    batch,
                    &with(&runs(Mode::Plain), |p| {
                        set_pattern(p, 0, levels, 4, &[], NO_PAIRS);
                        set_toggles(p, 0, output, three);
                    }),
                );
            }
        }
    }
}

/// "a toggle at or above the pattern length is unused": the same toggles are
/// one, two and three used ones by the length.
fn used_by_the_length(batch: &mut Batch) {
    for mode in [Mode::Plain, Mode::Sweep] {
        for length in 1..=6 {
            for three in [[0, 1, 2], [0, 2, 5], [1, 2, 4], [3, 4, 5]] {
                show(batch, &with(&runs(mode), |p| set_pattern(p, 0, 0b01, length, &[three, three], NO_PAIRS)));
            }
        }
    }
}

/// Runs from pixel 0 on, later, at the line's last pixel, and past its end.
fn starts(batch: &mut Batch) {
    for start in [0, 1, 2, 5, 6, 9, 10, 11, 13, 14, 15, 4095] {
        for (odd, even) in [(1, 2), (3, 1)] {
            let p = with(&runs(Mode::Plain), |p| p.sequences[0] = sequence(0, 14, start, odd, even, 0));
            tell_if(batch, odd == 1, &p);
        }
    }
}

/// "The line's end cuts the run": in each pixel of a repetition and at its end.
/// The next line has the start level at its first pixel again.
fn cut_by_the_line(batch: &mut Batch) {
    for length in 1..=14 {
        for repetitions in [3, 4095] {
            let p = with(&runs(Mode::Plain), |p| p.sequences[0] = sequence(0, length, 1, repetitions, repetitions, 0));
            tell_if(batch, repetitions == 3, &p);
            // From pixel 0 on, and the last line shorter or longer.
            show(
                batch,
                &with(&p, |p| {
                    p.sequences[0].start = 0;
                    p.field.last = 15 - length;
                }),
            );
        }
    }
}

/// "the level that the unmasked rules give at pixel freeze": each freeze and
/// resume before the run, in each of its repetitions and after it; a freeze
/// changes no later level.
fn masks(batch: &mut Batch) {
    let base = with(&runs(Mode::Plain), |p| p.sequences[0] = sequence(0, 14, 1, 2, 1, 0));
    for freeze in [0, 1, 2, 4, 5, 6, 8, 9, 10, 13] {
        for resume in [1, 3, 5, 7, 9, 10, 12, 14, 4095] {
            if freeze < resume {
                show(
                    batch,
                    &with(&base, |p| {
                        p.sequences[0].mask = 1;
                        set_pairs(p, 0, [freeze, resume, 0, 0]);
                    }),
                );
            }
        }
    }
    let both =
        [[2, 4, 6, 8], [3, 6, 6, 10], [3, 7, 8, 11], [0, 9, 9, 14], [4, 5, 9, 12], [9, 10, 11, 13], [6, 12, 13, 14]];
    for pairs in both {
        for mask in 1..4 {
            let p = with(&base, |p| {
                p.sequences[0].mask = mask;
                set_pairs(p, 0, pairs);
            });
            tell_if(batch, mask == 3, &p);
        }
    }
}

/// Masks over the end of a line that cuts the run.
fn masks_over_a_cut(batch: &mut Batch) {
    for pairs in [[2, 7, 7, 9], [5, 6, 8, 20], [9, 4095, 0, 0]] {
        tell(
            batch,
            &with(&runs(Mode::Plain), |p| {
                p.sequences[0] = sequence(0, 10, 1, 3, 4, if pairs[3] == 0 { 1 } else { 3 });
                p.field.last = 8;
                set_pairs(p, 0, pairs);
            }),
        );
    }
}

/// The first pattern `USED` from pixel 1 on, and a second one with one, two and
/// three used toggles; gate lines 1 and 2.
fn with_second(length: u16, odd: u16, even: u16) -> Profile {
    with(&runs(Mode::Plain), |p| {
        set_pattern(p, 5, 0b001101, length, &[[0, 4095, 4095], [1, 2, 4095], [0, 2, 3], [1, 4095, 4095]], NO_PAIRS);
        p.sequences[0] = sequence(0, 16, 1, odd, even, 0);
        p.field = field(4, 15, 1, 5, &[region(0, 0, Mode::Plain)]);
        p.field.gate2 = 2;
    })
}

/// "A second pattern still begins at its own start level": right after the run,
/// and after a gap in which the first one's level stays. The next line has the
/// first one's start level again.
fn second_after_a_run(batch: &mut Batch) {
    for repetitions in 0..=3 {
        let end = 1 + 4 * repetitions;
        for gap in 0..=2 {
            tell_if(batch, gap != 1, &with_second(end + gap, repetitions, repetitions));
        }
    }
    // One gate line with a gap, the other without; and lines of no runs.
    for (odd, even) in [(1, 2), (2, 1), (0, 2), (1, 0)] {
        tell(batch, &with_second(9, odd, even));
        show(batch, &with(&with_second(9, odd, even), |p| set_gate_lines(p, 2, NO_GATE2)));
        show(batch, &with(&with_second(9, odd, even), |p| set_gate_lines(p, 3, 0)));
    }
    // As many runs as one likes on the other lines.
    show(batch, &with(&with_second(9, 3, 2), |p| set_gate_lines(p, 3, 1)));
}

/// Masks over the second pattern's start, its gap, and the run before it.
fn second_masked(batch: &mut Batch) {
    for mask in 1..4 {
        for pairs in [[4, 8, 8, 13], [6, 10, 11, 14], [9, 11, 11, 12], [0, 12, 13, 15], [10, 11, 12, 4095]] {
            for repetitions in [1, 2] {
                let p = with(&with_second(11, repetitions, repetitions), |p| {
                    p.sequences[0].mask = mask;
                    set_pairs(p, 0, pairs);
                });
                tell_if(batch, mask == 3 && repetitions == 1, &p);
            }
        }
    }
}

/// A sweep of 39 pixels: every number of runs that fits, from pixel 1 on and
/// from where only they fit.
fn sweeps(batch: &mut Batch) {
    for repetitions in 0..=9 {
        let at = |start: u16| {
            with(&runs(Mode::Sweep), |p| p.sequences[0] = sequence(0, 14, start, repetitions, repetitions, 0))
        };
        tell_if(batch, repetitions % 4 > 1, &at(1));
        show(batch, &at(0));
        show(batch, &at(39 - 4 * repetitions));
    }
}

/// Repetitions that cross a line's end, that end at it, that are longer than a
/// line; runs that begin on a later line and end in the middle of one.
fn sweeps_over_lines(batch: &mut Batch) {
    for line in [1, 2, 3, 4, 5, 7, 8] {
        for start in [0, 1, 4, 9] {
            let p = with(&runs(Mode::Sweep), |p| {
                p.sequences[0] = sequence(0, line, start, 0, 0, 0);
                p.field = field(6, 5, 0, NO_SECOND, &[region(0, 0, Mode::Sweep)]);
            });
            let most = (5 * line + 5).saturating_sub(start) / 4;
            for repetitions in [1, 2, 3, 4].into_iter().filter(|r| *r <= most) {
                let p = with(&p, |p| {
                    p.sequences[0].odd = repetitions;
                    p.sequences[0].even = repetitions;
                });
                tell_if(batch, start == 1 && repetitions > 1, &p);
            }
        }
    }
    // Runs of 11 pixels over lines of 4.
    for repetitions in 0..=2 {
        tell(
            batch,
            &with(&runs(Mode::Sweep), |p| {
                set_pattern(p, 0, 0b0100, 11, &[[5, 11, 4095], [0, 4, 10], [3, 8, 4095], [10, 4095, 4095]], NO_PAIRS);
                p.sequences[0] = sequence(0, 4, 2, repetitions, repetitions, 0);
                p.field = field(8, 3, 0, NO_SECOND, &[region(0, 0, Mode::Sweep)]);
            }),
        );
    }
}

/// A region's start sets the start level again, whatever the one before ended
/// with: every two modes, and plain after sweep after plain.
fn several_regions(batch: &mut Batch) {
    let modes = [Mode::Plain, Mode::Sweep, Mode::Multiplier];
    let count = |mode: Mode, count: u16| if mode == Mode::Multiplier { 3 } else { count };
    for one in modes {
        for other in modes {
            for (first, second) in [(1, 1), (1, 3), (2, 1), (3, 2)] {
                let p = with(&runs(Mode::Plain), |p| {
                    set_pattern(
                        p,
                        0,
                        0b0101,
                        3,
                        &[[1, 4095, 4095], [0, 1, 2], [2, 4095, 4095], [0, 2, 4095]],
                        NO_PAIRS,
                    );
                    if [one, other].contains(&Mode::Multiplier) {
                        set_toggles(p, 0, 3, [0, 3, 4095]);
                    }
                    p.sequences[0] = sequence(0, 9, 0, count(one, first), count(one, first), 0);
                    p.sequences[1] = sequence(0, 7, 1, count(other, second), count(other, second), 0);
                    p.field = field(5, 6, 0, NO_SECOND, &[region(0, 0, one), region(2, 1, other)]);
                });
                tell_if(batch, first == 1 && second == 3, &p);
            }
        }
    }
    for repetitions in 0..=3 {
        tell(
            batch,
            &with(&runs(Mode::Plain), |p| {
                set_pattern(p, 1, 0b100110, 3, &[[0, 4095, 4095], [0, 1, 2], [2, 3, 4095]], NO_PAIRS);
                p.sequences[0] = sequence(0, 9, 1, repetitions, 1, 0);
                p.sequences[1] = sequence(1, 8, 2, repetitions, repetitions, 0);
                let regions = [
                    region(0, 0, Mode::Plain),
                    region(2, 1, Mode::Sweep),
                    region(4, 0, Mode::Plain),
                    region(5, 1, Mode::Sweep),
                    region(7, 1, Mode::Sweep),
                    region(9, 0, Mode::Plain),
                ];
                p.field = field(10, 7, 0, NO_SECOND, &regions);
            }),
        );
    }
}

/// "rules 7 to 17 and the multiplier stay": one, two and three used toggles.
fn multipliers(batch: &mut Batch) {
    for three in [[3, 4095, 4095], [0, 3, 4095], [1, 2, 3], [0, 1, 3]] {
        for start in [0, 1, 13] {
            let p = with(&runs(Mode::Multiplier), |p| {
                set_pattern(p, 0, 0b01, 4, &[three, three, [0, 4095, 4095]], NO_PAIRS);
                p.sequences[0].start = start;
            });
            tell_if(batch, start == 1, &p);
        }
    }
}

/// "0 acts as 1, 3 and more act as 2": levels, lists and texts.
fn other_versions(batch: &mut Batch) {
    for p in
        [runs(Mode::Plain), runs(Mode::Sweep), with_second(11, 1, 2), profile_a(), profile_rich(), Profile::empty()]
    {
        for version in OTHER_VERSIONS {
            batch.compile_whole(version, &p);
            batch.compile_by(version, &p, 1, 2);
            batch.text_by(version, short_script(&p));
            for (line, pixel) in [(0, 0), (0, 4), (0, 6), (1, 8), (2, 10), (2, 4095)] {
                batch.level_by(version, &p, line, pixel);
            }
        }
    }
}
