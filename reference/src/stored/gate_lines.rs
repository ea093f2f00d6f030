//! Two gate lines: the two forms of the field record, 14 and 15 on each line,
//! what acts on both lines, and SUBCK, which counts from the one named first.

use super::Batch;
use crate::make::*;
use crate::profile::*;
use crate::script::record;

pub fn add(batch: &mut Batch) {
    forms(batch);
    values_read(batch);
    values_handed_in(batch);
    outside(batch);
    equal(batch);
    second_in_plain(batch);
    second_shorter(batch);
    second_after_run(batch);
    second_by_itself(batch);
    gates_fit(batch);
    every_pair(batch);
    subck_from_the_first(batch);
    last_line(batch);
    most_lines(batch);
}

/// Ten lines: plain 0 to 3 of 12 pixels, 4 and 5 in a mode, plain 6 to 9 of 10
/// pixels, the last one of 9. Second pattern 5 of length 7 on gate lines 1 and
/// 6; the first pattern ends on every line at 6 or, from line 6 on, at 7. Every
/// gate is on and ends at 8 at the latest.
fn ten(mode: Mode) -> Profile {
    with(&Profile::empty(), |p| {
        set_pattern(p, 0, 0b000001, 4, &[[0, 1, 4095]], NO_PAIRS);
        set_pattern(p, 5, 0b000110, 7, &[[0, 2, 4095], [1, 4095, 4095]], NO_PAIRS);
        p.sequences[0] = sequence(0, 12, 2, 1, 1, 0);
        p.sequences[1] = sequence(0, 12, 2, 1, 1, 0);
        p.sequences[2] = sequence(0, 10, 3, 1, 1, 0);
        p.field = field(10, 9, 1, 5, &[region(0, 0, Mode::Plain), region(4, 1, mode), region(6, 2, Mode::Plain)]);
        p.field.gate2 = 6;
        p.gates = [gate(1, 1, 0, 8), gate(1, 0, 3, 4), gate(1, 0, 0, 7), gate(1, 1, 6, 8), gate(1, 1, 2, 5)];
        p.subck = subck(1, 2, 7, 1, 2);
    })
}

/// Both orders of two gate lines, all shown.
fn show_both_orders(batch: &mut Batch, profile: &Profile, one: u16, other: u16) {
    batch.show(&with(profile, |p| set_gate_lines(p, one, other)));
    batch.show(&with(profile, |p| set_gate_lines(p, other, one)));
}

/// Both forms of the same profile; the new one with 65,535 is as the old one.
fn forms(batch: &mut Batch) {
    for mode in [Mode::Plain, Mode::Sweep, Mode::Multiplier] {
        for count in 1..=7 {
            let one = with(&profile_seven(mode), |p| {
                p.field.count = count;
                p.field.lines = 2 * count;
                p.field.regions[count as usize..].fill(Region::default());
            });
            batch.judge(&one);
            batch.read(in_new_forms(&one));
            batch.judge(&with(&one, |p| p.field.gate2 = 2 * count - 1));
        }
    }
    for p in [profile_a(), profile_rich(), ten(Mode::Sweep)] {
        batch.read(in_new_forms(&with(&p, |p| p.field.gate2 = NO_GATE2)));
    }
    batch.ask_all(&profile_two());
    batch.ask_all(&ten(Mode::Multiplier));
    // The later record replaces the earlier, whichever their forms.
    let a = short_script(&profile_a());
    let two = with(&profile_a(), |p| p.field.gate2 = 1);
    for later in [FIELD_A.to_vec(), in_new_form(&FIELD_A), FIELD_A_TWO.to_vec()] {
        batch.read([a.clone(), later.clone()].concat());
        batch.read([short_script(&two), later.clone()].concat());
        batch.read([in_new_forms(&profile_a()), later].concat());
    }
}

/// A short script with the field in the new form.
fn in_new_forms(profile: &Profile) -> Vec<u8> {
    short_records(profile).iter().map(|r| in_new_form(r)).collect::<Vec<_>>().concat()
}

/// Values around what a second gate line may be.
const VALUES: [u16; 16] = [0, 1, 2, 3, 255, 256, 4093, 4094, 4095, 4096, 8191, 32_767, 32_768, 61_439, 65_534, 65_535];

/// "0..4094, or 65,535 for none", of a record; the field has 2 and 4095 lines.
fn values_read(batch: &mut Batch) {
    for value in VALUES {
        for lines in [2, 4095] {
            let fields = [
                record(3, &[lines, 10, 0, value, NO_SECOND, 1, 0, 0, 0]),
                record(3, &[lines, 10, 1, value, NO_SECOND, 2, 0, 0, 0, 1, 0, 0]),
            ];
            for field in fields {
                batch.read([script_a(), field.clone()].concat());
                batch.read(field);
            }
        }
    }
    // n and the length of the other form.
    for n in 1..=7 {
        let regions: Vec<u16> = (0..n).flat_map(|i| [i, 0, 0]).collect();
        for said in [n - 1, n + 1] {
            batch.read([script_a(), record(3, &[&[9, 10, 0, NO_SECOND, said], &regions[..]].concat())].concat());
            batch.read([script_a(), record(3, &[&[9, 10, 0, 8, NO_SECOND, said], &regions[..]].concat())].concat());
        }
        // The old form with a number more, the new form with one fewer.
        batch.read([script_a(), record(3, &[&[9, 10, 0, NO_SECOND, n], &regions[..], &[0]].concat())].concat());
        batch.read([script_a(), record(3, &[&[9, 10, 0, 8, NO_SECOND, n], &regions[1..]].concat())].concat());
        // The new form cut, and cut to the old form's length.
        let new = record(3, &[&[9, 10, 0, 8, NO_SECOND, n], &regions[..]].concat());
        for less in 1..=8 {
            batch.read([script_a(), new[..new.len() - less].to_vec()].concat());
        }
    }
}

/// The same of a profile handed in: 5 place 0; an absent field has 0.
fn values_handed_in(batch: &mut Batch) {
    for value in VALUES {
        for p in [profile_a(), profile_two(), ten(Mode::Sweep)] {
            batch.check(&with(&p, |p| p.field.gate2 = value));
            batch.check(&with(&p, |p| {
                p.field.gate2 = value;
                p.field.lines = 4095;
            }));
        }
        for p in [Profile::empty(), profile_two()] {
            batch.check(&with(&p, |p| p.field = Field { gate2: value, ..Field::default() }));
        }
    }
    for value in [4095, 65_534] {
        let p = with(&profile_two(), |p| p.field.gate2 = value);
        batch.ask_all(&p);
        batch.ask_all_too_much(&p);
    }
    for value in [1, 65_535] {
        let p = with(&profile_two(), |p| p.field = Field { gate2: value, ..Field::default() });
        batch.ask_all(&p);
        batch.ask_all_too_much(&p);
    }
}

/// "The lines must differ and lie in the field (14)": the first outside, the
/// second outside, both; with a second pattern and without.
fn outside(batch: &mut Batch) {
    for second in [NO_SECOND, 5] {
        for gate in [0, 1, 6, 9, 10, 11, 4094] {
            for gate2 in [0, 1, 6, 9, 10, 11, 4094, NO_GATE2] {
                batch.judge(&with(&ten(Mode::Plain), |p| {
                    p.field.second = second;
                    set_gate_lines(p, gate, gate2);
                }));
            }
        }
    }
    // A field of one line has no second one.
    for gate2 in [0, 1, 4094, NO_GATE2] {
        batch.show(&with(&profile_a(), |p| {
            p.field.lines = 1;
            p.field.gate2 = gate2;
        }));
    }
    // 14 before 15, and before what the lines' lengths would say.
    for (gate_line, gate2) in [(10, 1), (1, 10), (1, 1), (10, 10)] {
        batch.judge(&with(&ten(Mode::Plain), |p| {
            set_gate_lines(p, gate_line, gate2);
            p.gates[0] = gate(1, 1, 9, 4095);
        }));
    }
}

/// Equal lines, anywhere, with every item and with none.
fn equal(batch: &mut Batch) {
    for line in 0..10 {
        for second in [NO_SECOND, 5] {
            batch.judge(&with(&ten(Mode::Plain), |p| {
                p.field.second = second;
                set_gate_lines(p, line, line);
            }));
        }
    }
    for line in [0, 1] {
        let p = with(&profile_a(), |p| set_gate_lines(p, line, line));
        batch.ask_all(&p);
        batch.ask_all_too_much(&p);
    }
}

/// "its line lies in a plain region": one line does, the other does not.
fn second_in_plain(batch: &mut Batch) {
    for mode in [Mode::Plain, Mode::Sweep, Mode::Multiplier] {
        for other in [4, 5] {
            for plain in [0, 3, 6, 9] {
                show_both_orders(batch, &ten(mode), plain, other);
            }
        }
        show_both_orders(batch, &ten(mode), 4, 5);
        // Without a second pattern the mode does not count.
        show_both_orders(batch, &with(&ten(mode), |p| p.field.second = NO_SECOND), 1, 4);
    }
}

/// "its length is below the gate line's length": lines of 12, 10 and 9 pixels.
fn second_shorter(batch: &mut Batch) {
    let short_gates = with(&ten(Mode::Sweep), |p| p.gates = [Gate::default(); GATES]);
    for length in 7..=13 {
        for (one, other) in [(1, 6), (1, 9), (6, 9), (2, 3), (7, 8)] {
            show_both_orders(batch, &with(&short_gates, |p| set_length(p, 5, length)), one, other);
        }
    }
    // The last line by itself: shorter or longer than the other.
    for last in [1, 7, 8, 11, 12, 13] {
        show_both_orders(batch, &with(&short_gates, |p| p.field.last = last), 1, 9);
    }
}

/// "if that line's repetitions r are not 0, start + r × first length is at most
/// the second's length": each line has its own r, start and first pattern.
fn second_after_run(batch: &mut Batch) {
    let base = ten(Mode::Sweep);
    // By the line's number: neighbours of one region.
    for (odd, even) in [(1, 1), (1, 2), (2, 1), (2, 2), (0, 2), (2, 0), (0, 1), (0, 0)] {
        for (one, other) in [(0, 1), (1, 2), (0, 2), (1, 3)] {
            show_both_orders(batch, &with(&base, |p| p.sequences[0] = sequence(0, 12, 2, odd, even, 0)), one, other);
        }
    }
    // By the start: the run of one line ends at 7, that of the other at 8.
    for start in [3, 4] {
        show_both_orders(batch, &with(&base, |p| p.sequences[0].start = start), 1, 6);
        show_both_orders(batch, &with(&base, |p| p.sequences[2].start = start), 1, 6);
        // No repetitions on that line: its start does not count.
        show_both_orders(batch, &with(&base, |p| p.sequences[2] = sequence(0, 10, start + 4, 0, 1, 0)), 1, 6);
    }
    // By the first pattern of one line alone.
    for length in [4, 5] {
        for i in [0, 2] {
            let p = with(&base, |p| {
                set_pattern(p, 1, 0, length, &[[2, 3, 4095]], NO_PAIRS);
                p.sequences[i] = sequence(1, 12, 3, 1, 1, 0);
            });
            show_both_orders(batch, &p, 1, 6);
        }
    }
}

/// "its length is not 0, its toggles obey 10": wrong on both lines alike.
fn second_by_itself(batch: &mut Batch) {
    batch.judge(&with(&ten(Mode::Sweep), |p| set_length(p, 5, 0)));
    for three in BREAKS_AT_2.into_iter().chain(BREAKS_AT_3) {
        batch.judge(&with(&ten(Mode::Sweep), |p| set_toggles(p, 5, 2, three)));
    }
    // No repetitions anywhere: a length of 0 is wrong by itself.
    batch.judge(&with(&ten(Mode::Plain), |p| {
        set_length(p, 5, 0);
        for s in &mut p.sequences[..3] {
            s.odd = 0;
            s.even = 0;
        }
    }));
}

/// 15 on lines of 12 and 10 pixels, and on the last one, of 9, 8 or 14: a pulse
/// fits both, one of them, or none.
fn gates_fit(batch: &mut Batch) {
    let base = with(&ten(Mode::Sweep), |p| p.field.second = NO_SECOND);
    for i in 0..GATES {
        for toggle2 in 9..=12 {
            for on in 0..2 {
                show_both_orders(batch, &with(&base, |p| p.gates[i] = gate(on, 1, 3, toggle2)), 1, 6);
            }
        }
    }
    for (last, toggle2) in [(9, 8), (9, 9), (8, 7), (8, 8), (14, 11), (14, 12), (14, 13), (14, 14), (1, 1), (1, 0)] {
        let p = with(&base, |p| {
            p.field.last = last;
            p.gates = [Gate::default(); GATES];
            p.gates[2] = gate(1, 0, 0, toggle2);
        });
        show_both_orders(batch, &p, 0, 9);
    }
    // "15 by gate": the first that fits no line, one line, the other.
    for (one, other) in [(0, 1), (3, 2), (4, 0)] {
        batch.judge(&with(&base, |p| {
            p.gates[one] = gate(1, 0, 2, 11);
            p.gates[other] = gate(1, 0, 2, 12);
        }));
        batch.judge(&with(&base, |p| {
            p.gates[one] = gate(1, 0, 5, 5);
            p.gates[other] = gate(1, 0, 2, 10);
        }));
    }
}

/// "gates and the second pattern act on both": every two lines, in both orders.
fn every_pair(batch: &mut Batch) {
    for mode in [Mode::Plain, Mode::Sweep] {
        for one in 0..10 {
            for other in (0..10).filter(|other| *other != one) {
                batch.show(&with(&ten(mode), |p| {
                    set_gate_lines(p, one, other);
                    if mode == Mode::Sweep {
                        p.field.second = NO_SECOND;
                    }
                }));
            }
        }
    }
    // Masks over the second pattern's start, on both lines.
    for mask in 0..4 {
        for pairs in [[3, 9, 10, 12], [0, 7, 7, 8], [6, 8, 9, 4095]] {
            batch.show(&with(&ten(Mode::Multiplier), |p| {
                set_pairs(p, 0, pairs);
                p.sequences[0].mask = mask;
                p.sequences[2].mask = 3 - mask;
            }));
        }
    }
    for line in 0..10 {
        for pixel in [0, 2, 6, 7, 8] {
            batch.level(&ten(Mode::Sweep), line, pixel);
        }
    }
    batch.show(&profile_two());
}

/// "SUBCK still counts from the one named first": before and after the second.
fn subck_from_the_first(batch: &mut Batch) {
    let base = with(&ten(Mode::Plain), |p| {
        p.field.second = NO_SECOND;
        p.gates = [Gate::default(); GATES];
    });
    for (one, other) in [(1, 6), (0, 9), (4, 5), (2, 8)] {
        for (suppressed, count) in [(1, 1), (1, 3), (2, 2), (4, 4095), (5, 1), (4095, 4095)] {
            for level in 0..2 {
                show_both_orders(batch, &with(&base, |p| p.subck = subck(level, 2, 6, suppressed, count)), one, other);
            }
        }
    }
}

/// The last line as the first gate line and as the second, with its own length.
fn last_line(batch: &mut Batch) {
    for last in [9, 10, 20] {
        for other in [0, 5, 8] {
            show_both_orders(batch, &with(&ten(Mode::Plain), |p| p.field.last = last), other, 9);
        }
    }
}

/// 4095 lines of a few pixels: lines 4093 and 4094 are in the field.
fn most_lines(batch: &mut Batch) {
    let base = with(&profile_a(), |p| {
        set_pattern(p, 0, 1, 4, &[], NO_PAIRS);
        p.sequences[0] = sequence(0, 3, 0, 0, 0, 0);
        p.field.lines = 4095;
        p.field.last = 4;
        p.gates[3] = gate(1, 1, 1, 2);
        p.subck = subck(0, 1, 2, 1, 1);
    });
    for (one, other) in [(4093, 4094), (0, 4094), (2047, 2048)] {
        show_both_orders(batch, &base, one, other);
    }
    for line in [0, 1, 4092, 4093, 4094] {
        batch.level(&with(&base, |p| set_gate_lines(p, 4094, 0)), line, 1);
    }
}
