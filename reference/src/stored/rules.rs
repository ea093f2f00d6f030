//! Refusals 6 to 17: each rule at its edges and at several places, and the
//! order where several are broken at once.

use super::Batch;
use crate::make::*;
use crate::profile::*;

const MODES: [Mode; 3] = [Mode::Plain, Mode::Sweep, Mode::Multiplier];

pub fn add(batch: &mut Batch) {
    rule_7(batch);
    for mode in MODES {
        region_rules(batch, mode);
        region_pairs(batch, mode);
    }
    rule_9(batch);
    rule_10(batch);
    rule_10_one_output(batch);
    rule_10_two_outputs(batch);
    rule_10_by_mode(batch);
    rule_11(batch);
    rule_12(batch);
    rule_13(batch);
    rule_14(batch);
    rule_14_second(batch);
    rule_15(batch);
    rule_16(batch);
    rule_17(batch);
    unused_items(batch);
    order(batch, &profile_rich(), &breakers());
    order(batch, &profile_two(), &two_breakers());
    refusals_before_18_and_19(batch);
}

/// 7: "the first region starts at line 0, starts rise strictly, each is below
/// the line count."
fn rule_7(batch: &mut Batch) {
    for mode in MODES {
        let seven = profile_seven(mode);
        for i in 0..7 {
            for first in [0, 2 * i as u16 + 1, (2 * i as u16).saturating_sub(2), 13, 14, 4094] {
                batch.judge(&with(&seven, |p| p.field.regions[i].first = first));
            }
            // Two regions at fault: the lowest is named, by whichever part.
            batch.judge(&with(&seven, |p| {
                p.field.regions[i].first = 4094;
                p.field.regions[6 - i].first = 0;
            }));
        }
        for lines in [1, 2, 3, 6, 7, 12, 13] {
            batch.judge(&with(&seven, |p| p.field.lines = lines));
        }
    }
    // All of 7 before any of 8 to 13.
    batch.judge(&with(&profile_seven(Mode::Sweep), |p| {
        p.sequences[0] = Sequence::default();
        p.field.regions[6].first = 12 - 2;
    }));
    // One region; the last line alone in its region.
    batch.judge(&with(&profile_a(), |p| p.field.regions[0].first = 1));
    batch.show(&with(&profile_seven(Mode::Plain), |p| p.field.regions[6].first = 13));
}

/// A way to break one of 8 to 13 in region i of `profile_seven`.
fn break_region(p: &mut Profile, rule: u8, i: usize) {
    let plain = p.field.regions[i].mode == Mode::Plain;
    match rule {
        8 => p.sequences[i] = Sequence::default(),
        9 => set_length(p, i, 0),
        10 => set_toggles(p, i, i % 6, [3, 2, 4095]),
        11 => {
            p.sequences[i].mask = 2 - i as u16 % 2;
            set_pairs(p, i, if plain { [5, 5, 7, 7] } else { [2, 5, 5, 9] });
        }
        12 => p.sequences[i].even += 1,
        _ => p.sequences[i].start = 4095,
    }
}

/// Each of 8 to 13 in each region. In plain 12 and 13 break nothing.
fn region_rules(batch: &mut Batch, mode: Mode) {
    let seven = profile_seven(mode);
    batch.show(&seven);
    for rule in 8..=13 {
        for i in 0..7 {
            batch.judge(&with(&seven, |p| break_region(p, rule, i)));
        }
    }
}

/// Two of 8 to 13 at once, in one region and in neighbours: "then, region by
/// region, 8 to 13".
fn region_pairs(batch: &mut Batch, mode: Mode) {
    let seven = profile_seven(mode);
    for one in 8..=13 {
        for other in 8..=13 {
            // The later rule first, so that 8 takes the sequence away last.
            if one < other {
                batch.judge(&with(&seven, |p| {
                    break_region(p, other, 2);
                    break_region(p, one, 2);
                }));
            }
            batch.judge(&with(&seven, |p| {
                break_region(p, one, 3);
                break_region(p, other, 4);
            }));
        }
    }
}

/// 9: "used pattern has length 0", also where both counts are 0.
fn rule_9(batch: &mut Batch) {
    for mode in MODES {
        batch.judge(&with(&profile_seven(mode), |p| {
            set_pattern(p, 4, 0, 0, &[], NO_PAIRS);
            p.sequences[4].odd = 0;
            p.sequences[4].even = 0;
        }));
    }
    // Length 1 is enough.
    batch.show(&with(&profile_a(), |p| set_length(p, 0, 1)));
    batch.show(&with(&profile_a(), |p| set_length(p, 0, 4095)));
}

/// 10: "used toggles come first and rise strictly."
fn rule_10(batch: &mut Batch) {
    let threes = [
        [0, 0, 0],
        [0, 1, 2],
        [0, 1, 1],
        [0, 0, 1],
        [1, 0, 4095],
        [2, 3, 1],
        [1, 2, 4],
        [1, 4, 2],
        [4, 1, 2],
        [4, 5, 3],
        [5, 4, 4],
        [4, 4, 4],
        [3, 4, 4],
        [3, 3, 4],
        [4095, 0, 1],
        [4095, 4095, 0],
        [0, 4095, 1],
        [4095, 4094, 4095],
        [4094, 4095, 4095],
        [4093, 4094, 4095],
        [4094, 4094, 4095],
        [3, 4094, 4],
        [0, 4095, 4095],
        [4095, 4095, 4095],
    ];
    for three in threes {
        for output in [0, 5] {
            batch.judge(&with(&profile_a(), |p| set_toggles(p, 0, output, three)));
            batch.judge(&with(&one_region(Mode::Sweep), |p| set_toggles(p, 0, output, three)));
            // The counts follow the highest toggle, so that 12 is kept.
            batch.judge(&with(&one_region(Mode::Multiplier), |p| {
                set_toggles(p, 0, output, three);
                let highest = three.into_iter().chain([3]).filter(|t| *t != 4095).max().unwrap();
                p.sequences[0].odd = highest;
                p.sequences[0].even = highest;
            }));
        }
    }
    // At the length: used below it, unused at it.
    for length in [1, 2, 3, 4, 4094, 4095] {
        for three in [[1, 2, 3], [3, 2, 1], [4094, 1, 2], [1, 4094, 4095]] {
            batch.judge(&with(&profile_a(), |p| {
                set_length(p, 0, length);
                set_toggles(p, 0, 3, three);
            }));
        }
    }
}

/// 10 names the output and its first toggle out of order: each output alone, in
/// the first region and in a later one.
fn rule_10_one_output(batch: &mut Batch) {
    for mode in MODES {
        let seven = profile_seven(mode);
        for output in 0..OUTPUTS {
            for three in BREAKS_AT_2.into_iter().chain(BREAKS_AT_3) {
                for i in [0, 4] {
                    batch.judge(&with(&seven, |p| set_toggles(p, i, output, three)));
                }
            }
        }
    }
    // Every entry point names them.
    for output in 0..OUTPUTS {
        for three in [BREAKS_AT_2[output], BREAKS_AT_3[output]] {
            batch.ask_all(&with(&profile_seven(MODES[output % 3]), |p| set_toggles(p, output, output, three)));
        }
    }
}

/// Of two outputs the lower is named, whichever the toggles; of two regions the
/// first, whichever the outputs.
fn rule_10_two_outputs(batch: &mut Batch) {
    for mode in MODES {
        let seven = profile_seven(mode);
        for high in 0..OUTPUTS {
            for low in 0..high {
                for at_low in [BREAKS_AT_2[high], BREAKS_AT_3[high]] {
                    for at_high in [BREAKS_AT_2[low], BREAKS_AT_3[low]] {
                        batch.judge(&with(&seven, |p| {
                            set_toggles(p, 0, low, at_low);
                            set_toggles(p, 0, high, at_high);
                        }));
                    }
                }
                batch.judge(&with(&seven, |p| {
                    set_toggles(p, 2, high, BREAKS_AT_3[low]);
                    set_toggles(p, 3, low, BREAKS_AT_2[low]);
                }));
            }
        }
    }
}

/// Two regions share a pattern whose toggles break 10 in one mode alone, or at
/// another toggle than in the other mode.
fn rule_10_by_mode(batch: &mut Batch) {
    for three in [[1, 9, 5], [9, 5, 4095], [4, 4, 4], [4, 4, 3], [9, 5, 2]] {
        for output in [0, 5] {
            for (one, other) in [(0, 2), (1, 2), (2, 0), (2, 1)] {
                batch.judge(&with(&one_region(MODES[one]), |p| {
                    set_toggles(p, 0, output, three);
                    p.field = field(4, 10, 0, NO_SECOND, &[region(0, 0, MODES[one]), region(2, 0, MODES[other])]);
                }));
            }
        }
    }
}

/// One region of three lines of ten pixels over pattern 0 of length 4.
fn one_region(mode: Mode) -> Profile {
    let count = if mode == Mode::Multiplier { 3 } else { 2 };
    with(&profile_a(), |p| {
        p.sequences[0] = sequence(0, 10, 2, count, count, 0);
        p.field = field(3, 10, 0, NO_SECOND, &[region(0, 0, mode)]);
    })
}

/// 11: the pairs at their edges, under every mask.
fn rule_11(batch: &mut Batch) {
    let pairs = [
        [3, 6, 6, 9],
        [3, 6, 5, 9],
        [3, 7, 6, 9],
        [3, 3, 6, 9],
        [4, 3, 6, 9],
        [3, 6, 9, 9],
        [3, 6, 9, 8],
        [6, 9, 3, 6],
        [0, 1, 1, 2],
        [0, 0, 0, 0],
        [0, 4095, 4095, 4095],
        [0, 4094, 4094, 4095],
        [4094, 4095, 0, 1],
        [4095, 4095, 3, 6],
        [3, 6, 4094, 4095],
        [10, 11, 11, 12],
    ];
    for pairs in pairs {
        for mask in 0..4 {
            batch.show(&with(&profile_a(), |p| {
                p.sequences[0].mask = mask;
                set_pairs(p, 0, pairs);
            }));
        }
    }
    // "A mask is 0 in sweep and multiplier", whatever the pairs.
    for mode in [Mode::Sweep, Mode::Multiplier] {
        for mask in 0..4 {
            batch.judge(&with(&one_region(mode), |p| {
                p.sequences[0].mask = mask;
                set_pairs(p, 0, [3, 6, 6, 9]);
            }));
        }
        batch.show(&with(&one_region(mode), |p| set_pairs(p, 0, [6, 3, 3, 3])));
    }
}

/// 12: the counts one off, and the highest used toggle on each output.
fn rule_12(batch: &mut Batch) {
    for mode in MODES {
        for (odd, even) in [(0, 0), (0, 1), (1, 0), (2, 2), (2, 3), (3, 2), (3, 3), (4, 4), (3, 4), (4, 3)] {
            batch.judge(&with(&one_region(mode), |p| {
                p.sequences[0].odd = odd;
                p.sequences[0].even = even;
            }));
        }
    }
    let multiplier = one_region(Mode::Multiplier);
    for output in 0..6 {
        for count in [3, 5, 6] {
            batch.judge(&with(&multiplier, |p| {
                set_toggles(p, 0, output, [1, 5, 4095]);
                p.sequences[0].odd = count;
                p.sequences[0].even = count;
            }));
        }
    }
    // "0 if none"; a toggle at or above the length is used here.
    for (three, count) in [(UNUSED, 0), (UNUSED, 1), (UNUSED, 4095), ([0, 4095, 4095], 0), ([0, 4095, 4095], 1)] {
        batch.judge(&with(&multiplier, |p| {
            set_toggles(p, 0, 0, three);
            p.sequences[0].odd = count;
            p.sequences[0].even = count;
        }));
    }
    batch.judge(&with(&multiplier, |p| set_length(p, 0, 2)));
}

/// 13: "start + repetitions × length is at most the region's size", the size
/// with a shorter and a longer last line, and in a region that is not the last.
fn rule_13(batch: &mut Batch) {
    for mode in [Mode::Sweep, Mode::Multiplier] {
        for last in [1, 9, 10, 11, 4095] {
            for start in [0, 1, 8, 9, 10, 17, 18, 19, 20, 21, 22, 4095] {
                batch.check(&with(&one_region(mode), |p| {
                    p.sequences[0].start = start;
                    p.field.last = last;
                }));
            }
        }
        // The run against one line, against the region, against the field.
        let two = with(&one_region(mode), |p| {
            p.sequences[1] = p.sequences[0];
            p.field = field(5, 3, 0, NO_SECOND, &[region(0, 0, mode), region(2, 1, mode)]);
        });
        for start in 0..=16 {
            batch.check(&with(&two, |p| p.sequences[0].start = start));
            batch.check(&with(&two, |p| p.sequences[1].start = start));
        }
    }
    // 0 repetitions: the start alone must fit.
    for start in [29, 30, 31, 4095] {
        batch.show(&with(&one_region(Mode::Sweep), |p| p.sequences[0] = sequence(0, 10, start, 0, 0, 0)));
        batch.show(&with(&one_region(Mode::Multiplier), |p| {
            set_toggles(p, 0, 0, UNUSED);
            p.sequences[0] = sequence(0, 10, start, 0, 0, 0);
        }));
        // Plain has no such rule.
        batch.show(&with(&profile_a(), |p| p.sequences[0].start = start));
    }
    // Products past 16 bits.
    for (length, count) in [(4095, 16), (4095, 17), (4095, 4095), (256, 256), (2, 4095), (1, 4095)] {
        batch.check(&with(&one_region(Mode::Sweep), |p| {
            set_pattern(p, 0, 0, length, &[], NO_PAIRS);
            p.sequences[0].odd = count;
            p.sequences[0].even = count;
        }));
    }
}

/// 14: "the gate line is below the line count", with a second pattern or not.
fn rule_14(batch: &mut Batch) {
    for lines in [1, 2, 4095] {
        for gate in [0, 1, 2, 4093, 4094] {
            batch.judge(&with(&profile_a(), |p| {
                p.field.lines = lines;
                p.field.gate = gate;
            }));
        }
    }
    // The gate line is asked for first: its region's rules are not reached.
    batch.judge(&with(&second_profile(), |p| p.field.gate = 6));
    batch.judge(&with(&second_profile(), |p| p.gates[0] = gate(1, 0, 3, 2)));
}

/// Six lines: plain 0 to 2, sweep 3, plain 4 and 5; second pattern 5 of length
/// 7 on gate line 1. On line 1 the first pattern ends at 2 + 1 × 4 = 6.
fn second_profile() -> Profile {
    with(&profile_a(), |p| {
        set_pattern(p, 5, 0b000010, 7, &[[0, 2, 4095], [1, 4095, 4095]], NO_PAIRS);
        p.sequences[0] = sequence(0, 12, 2, 2, 1, 0);
        p.sequences[1] = sequence(0, 10, 0, 2, 2, 0);
        let regions = [region(0, 0, Mode::Plain), region(3, 1, Mode::Sweep), region(4, 0, Mode::Plain)];
        p.field = field(6, 9, 1, 5, &regions);
    })
}

/// 14 with a second pattern, each part at its edge.
fn rule_14_second(batch: &mut Batch) {
    let base = second_profile();
    batch.show(&base);
    // "its line lies in a plain region"; the line's own count is r.
    for gate in 0..6 {
        for mode in [Mode::Sweep, Mode::Multiplier] {
            batch.show(&with(&base, |p| {
                p.field.gate = gate;
                p.field.regions[1].mode = mode;
                if mode == Mode::Multiplier {
                    p.sequences[1] = sequence(0, 13, 0, 3, 3, 0);
                }
            }));
        }
    }
    // In sweep and multiplier, though everything else of 14 holds.
    for mode in MODES {
        batch.show(&with(&base, |p| {
            set_pattern(p, 0, 1, 4, &[[0, 1, 4095]], NO_PAIRS);
            p.sequences[1] = sequence(0, 10, 2, 1, 1, 0);
            p.field.regions[1].mode = mode;
            p.field.gate = 3;
        }));
    }
    // Lines are numbered in the field, also in a region from an odd line on.
    for gate in 1..5 {
        for (odd, even) in [(1, 2), (2, 1), (0, 2), (2, 0)] {
            batch.show(&with(&base, |p| {
                p.sequences[0] = sequence(0, 12, 2, odd, even, 0);
                p.field = field(6, 9, gate, 5, &[region(0, 1, Mode::Plain), region(1, 0, Mode::Plain)]);
            }));
        }
    }
    // "its length is not 0", "below the gate line's length", and the first
    // pattern's end at most it.
    for length in [0, 1, 5, 6, 7, 11, 12, 13, 4095] {
        batch.show(&with(&base, |p| set_length(p, 5, length)));
        batch.show(&with(&base, |p| {
            set_length(p, 5, length);
            p.sequences[0].even = 0;
        }));
    }
    // The gate line is the last line: shorter, longer, and one pixel.
    for last in [1, 2, 7, 8, 9, 20] {
        batch.show(&with(&base, |p| {
            p.field.gate = 5;
            p.field.last = last;
        }));
    }
    // "if that line's repetitions r are not 0"
    for (start, odd, even) in [(3, 0, 1), (4, 0, 1), (2, 9, 1), (4095, 9, 0), (7, 1, 0), (0, 0, 2), (0, 0, 4095)] {
        for gate in [0, 1] {
            batch.show(&with(&base, |p| {
                p.sequences[0] = sequence(0, 12, start, odd, even, 0);
                p.field.gate = gate;
            }));
        }
    }
    // "its toggles obey 10": 4095 is unused and nothing else.
    for three in [[0, 0, 4095], [5, 3, 4095], [9, 8, 4095], [8, 9, 4094], [4095, 1, 4095], [3, 4095, 9], [4094, 4095, 4095]]
    {
        for output in [0, 5] {
            batch.show(&with(&base, |p| set_toggles(p, 5, output, three)));
        }
    }
    // No output and no toggle of it is named; those of a region's pattern are.
    for three in BREAKS_AT_2.into_iter().chain(BREAKS_AT_3) {
        for output in 0..OUTPUTS {
            batch.judge(&with(&base, |p| set_toggles(p, 5, output, three)));
        }
        batch.judge(&with(&base, |p| {
            set_toggles(p, 5, 1, three);
            set_toggles(p, 0, 3, three);
        }));
    }
    // Its pairs and 9 to 13 do not apply to it.
    batch.show(&with(&base, |p| set_pairs(p, 5, [9, 3, 2, 2])));
    // The region's own pattern as second pattern, by both rules.
    batch.show(&with(&base, |p| {
        p.field.second = 0;
        p.sequences[0].even = 0;
    }));
    batch.show(&with(&base, |p| {
        p.field.second = 0;
        p.sequences[0].even = 0;
        set_toggles(p, 0, 0, [1, 3, 2000]);
        set_toggles(p, 0, 1, [1, 9, 5]);
    }));
    // Every pattern, most of them unwritten.
    for second in 0..10 {
        batch.judge(&with(&base, |p| p.field.second = second));
    }
}

/// 15: "a gate that is on has toggle 1 below toggle 2 below the gate line's
/// length." The gate line: one of a region, then the last one.
fn rule_15(batch: &mut Batch) {
    let toggles = [(0, 1), (3, 3), (4, 3), (0, 9), (8, 9), (8, 10), (9, 10), (6, 7), (6, 8), (0, 4095), (4095, 4095), (12, 13)];
    for (gate_line, last) in [(0, 10), (1, 10), (1, 8), (1, 14), (0, 8)] {
        for (i, (toggle1, toggle2)) in toggles.into_iter().enumerate() {
            for on in 0..2 {
                batch.show(&with(&profile_a(), |p| {
                    p.field.gate = gate_line;
                    p.field.last = last;
                    p.gates[i % 5] = gate(on, 1, toggle1, toggle2);
                }));
            }
        }
    }
    for i in 0..5 {
        for j in 0..5 {
            batch.judge(&with(&profile_rich(), |p| {
                p.gates[i] = gate(1, 0, 5, 5);
                p.gates[j] = gate(1, 0, 2, 15);
            }));
        }
    }
    // A gate line of one pixel has no room for a pulse.
    batch.judge(&with(&profile_a(), |p| {
        p.field.gate = 1;
        p.field.last = 1;
        p.gates[4] = gate(1, 0, 0, 1);
    }));
}

/// 16: "toggle 1 below toggle 2, suppressed lines at least 1."
fn rule_16(batch: &mut Batch) {
    for (toggle1, toggle2) in [(0, 0), (0, 1), (1, 0), (3, 5), (5, 5), (4094, 4095), (4095, 4095), (4095, 0)] {
        for suppressed in [0, 1, 4095] {
            for count in [0, 1] {
                batch.show(&with(&profile_a(), |p| p.subck = subck(0, toggle1, toggle2, suppressed, count)));
            }
        }
    }
}

/// 17: "both places exist in the field, and on comes before off".
fn rule_17(batch: &mut Batch) {
    let places = [(0, 0), (0, 9), (0, 10), (1, 0), (1, 6), (1, 7), (1, 9), (1, 10), (1, 12), (1, 13), (2, 0), (4095, 0)];
    for last in [7, 10, 13] {
        for on in places {
            for off in places {
                batch.check(&with(&profile_a(), |p| {
                    p.field.last = last;
                    p.shutters[0] = shutter(1, on, off);
                }));
            }
        }
    }
    // MSHUT whole before STROBE; every region's own line length.
    let rich = profile_rich();
    let wrong = [shutter(0, (9, 1), (9, 1)), shutter(1, (16, 0), (16, 1)), shutter(1, (3, 3), (15, 14)), shutter(0, (0, 0), (10, 6))];
    for one in wrong {
        batch.judge(&with(&rich, |p| p.shutters[0] = one));
        batch.judge(&with(&rich, |p| p.shutters[1] = one));
        batch.judge(&with(&rich, |p| p.shutters[0] = Shutter::default()));
        for other in wrong {
            batch.judge(&with(&rich, |p| p.shutters = [one, other]));
        }
        batch.judge(&with(&rich, |p| p.shutters = [Shutter::default(), one]));
    }
    for (line, length) in [(1, 17), (2, 13), (7, 11), (9, 15), (10, 6), (12, 9), (14, 8), (15, 14)] {
        batch.check(&with(&rich, |p| p.shutters[1] = shutter(1, (0, 0), (line, length - 1))));
        batch.check(&with(&rich, |p| p.shutters[1] = shutter(1, (0, 0), (line, length))));
        batch.check(&with(&rich, |p| p.shutters[0] = shutter(1, (line, length), (15, 13))));
    }
}

/// "Sequences and patterns that no region and no second pattern uses are
/// checked for range only."
fn unused_items(batch: &mut Batch) {
    let bad_pattern = |p: &mut Profile, k| set_pattern(p, k, 5, 4, &[[3, 2, 1], [0, 0, 0]], [9, 3, 2, 2]);
    batch.show(&with(&profile_a(), |p| bad_pattern(p, 3)));
    batch.show(&with(&profile_a(), |p| {
        bad_pattern(p, 3);
        p.sequences[4] = sequence(3, 1, 4095, 4095, 1, 3);
    }));
    batch.show(&with(&profile_a(), |p| p.sequences[4] = sequence(9, 4095, 0, 0, 1, 3)));
    // Used once a region names it.
    batch.judge(&with(&profile_a(), |p| {
        p.sequences[4] = sequence(9, 4095, 0, 0, 1, 3);
        p.field.regions[0].sequence = 4;
    }));
    // Two regions share a sequence, two sequences a pattern, in several modes.
    for (one, other) in [(0, 1), (0, 2), (1, 2), (2, 1), (1, 1), (2, 2)] {
        batch.show(&with(&profile_a(), |p| {
            p.sequences[0] = sequence(0, 10, 1, 3, 3, 0);
            let regions = [region(0, 0, MODES[one]), region(2, 0, MODES[other]), region(4, 0, Mode::Plain)];
            p.field = field(6, 10, 0, NO_SECOND, &regions);
        }));
    }
}

/// A way to break each rule of `profile_rich`, in 01's order.
fn breakers() -> Vec<fn(&mut Profile)> {
    vec![
        |p| p.registers[219] = 4096,
        |p| p.field = Field::default(),
        |p| p.field.regions[6].first = 16,
        |p| p.sequences[0] = Sequence::default(),
        |p| set_length(p, 0, 0),
        |p| set_toggles(p, 0, 4, [2, 1, 4095]),
        |p| set_pairs(p, 0, [2, 7, 6, 30]),
        |p| p.sequences[1].odd += 1,
        |p| p.sequences[1].start = 12,
        |p| set_length(p, 6, 0),
        |p| p.sequences[6].start = 25,
        |p| p.field.gate = 16,
        |p| set_length(p, 7, 15),
        |p| p.gates[0].toggle1 = 14,
        |p| p.gates[3].toggle2 = 15,
        |p| p.subck.suppressed = 0,
        |p| p.shutters[0].on_pixel = 17,
        |p| p.shutters[1].off_line = 7,
    ]
}

/// The same of `profile_two`, where 14 and 15 are broken on one of the gate
/// lines alone, or by both together.
fn two_breakers() -> Vec<fn(&mut Profile)> {
    vec![
        |p| p.field.gate2 = 4095,
        |p| p.field = Field::default(),
        |p| p.field.regions[6].first = 16,
        |p| p.sequences[1].start = 12,
        |p| p.sequences[6].start = 25,
        |p| p.field.gate = 16,
        |p| p.field.gate2 = 16,
        |p| p.field.gate2 = 8,
        |p| p.sequences[3].start = 3,
        |p| p.sequences[0].odd = 2,
        |p| p.field.gate2 = 4,
        |p| p.gates[1].toggle2 = 15,
        |p| p.gates[3].toggle1 = 9,
        |p| p.subck.suppressed = 0,
        |p| p.shutters[0].on_pixel = 17,
    ]
}

/// Several rules broken at once: every pair, and all of them mended one by one.
fn order(batch: &mut Batch, base: &Profile, all: &[fn(&mut Profile)]) {
    for one in 0..all.len() {
        batch.judge(&with(base, all[one]));
        for other in 0..one {
            batch.judge(&with(base, |p| {
                all[one](p);
                all[other](p);
            }));
        }
        // Everything from this rule on is broken.
        batch.judge(&with(base, |p| all[one..].iter().rev().for_each(|edit| edit(p))));
    }
}

/// "18 or 19 last": every entry point, every refusal.
fn refusals_before_18_and_19(batch: &mut Batch) {
    for edit in breakers() {
        let p = with(&profile_rich(), edit);
        batch.ask_all(&p);
        batch.ask_all_too_much(&p);
    }
    for edit in two_breakers() {
        let p = with(&profile_two(), edit);
        batch.ask_all(&p);
        batch.ask_all_too_much(&p);
    }
    batch.ask_all_too_much(&profile_rich());
    batch.ask_all_too_much(&profile_two());
    for i in [1, 6] {
        for rule in 8..=13 {
            batch.ask_all_too_much(&with(&profile_seven(Mode::Sweep), |p| break_region(p, rule, i)));
        }
    }
}
