//! Rooms of compiling and writing, and playing.

use super::Batch;
use crate::list::{compile, steps_needed};
use crate::make::*;
use crate::profile::*;
use crate::script::records;
use crate::version::NEWEST;

pub fn add(batch: &mut Batch) {
    compile_rooms(batch);
    write_rooms(batch);
    play_compiled(batch);
    play_used(batch);
    play_zero_counts(batch);
    play_sums(batch);
}

/// "room is the shorter length": equal and unequal, exactly enough, one fewer, 0.
fn compile_rooms(batch: &mut Batch) {
    let still = with(&profile_a(), |p| set_toggles(p, 0, 0, UNUSED));
    for p in [profile_a(), profile_rich(), profile_two(), still] {
        let needed = steps_needed(NEWEST, &p);
        let rooms = [0, 1, needed.saturating_sub(1), needed, needed + 1, needed + 20];
        for counts in rooms {
            for words in rooms {
                batch.compile(&p, counts, words);
            }
        }
    }
    // The longest lists, and a need around them: 4094 steps on line 0, and one
    // for each pixel of line 1.
    for last in 1..=3 {
        let p = with(&profile_a(), |p| {
            set_pattern(p, 0, 0, 2, &[[0, 1, 4095]], NO_PAIRS);
            p.sequences[0] = sequence(0, 4095, 0, 2047, 2047, 0);
            p.field.last = last;
        });
        for room in [4095, 4096] {
            batch.compile(&p, room, room);
        }
        batch.compile(&p, 4096, 4095);
        batch.compile(&p, 4095, 4096);
        batch.text(short_script(&p));
    }
}

/// Writing: at least 998 bytes, and "its longest script becomes 1,314 bytes";
/// both forms of the field, exactly enough, one fewer, one more, 0.
fn write_rooms(batch: &mut Batch) {
    let a_two = with(&profile_a(), |p| p.field.gate2 = 1);
    let most = [profile_rich(), profile_two()].map(|p| with_all_sequences(&p));
    for p in [profile_a(), a_two, profile_rich(), profile_two()].into_iter().chain(most) {
        let needed = records(&p).concat().len();
        for room in [0, 1, 3, needed - 1, needed, needed + 1, needed + 700] {
            batch.write(&p, room);
        }
    }
    // Each item by itself.
    let edits: [fn(&mut Profile); 6] = [
        |p| p.gates[3] = gate(0, 1, 4095, 17),
        |p| p.subck = subck(1, 0x123, 0x456, 0x789, 0xABC),
        |p| p.shutters[0] = shutter(1, (0, 1), (1, 9)),
        |p| p.shutters[1] = shutter(0, (0, 1), (1, 9)),
        |p| p.sequences[9] = sequence(9, 0x123, 0x456, 0x789, 0xABC, 3),
        |p| set_gate_lines(p, 1, 0),
    ];
    for edit in edits {
        batch.write(&with(&profile_a(), edit), 1100);
    }
    for mode in [Mode::Plain, Mode::Sweep, Mode::Multiplier] {
        batch.write(&profile_seven(mode), 1312);
        batch.write(&with(&profile_seven(mode), |p| p.field.gate2 = 0x0D), 1314);
    }
    // The largest slice a payload can carry.
    batch.write(&profile_a(), 65_536 - 2 * NUMBERS);
}

/// A compiled list played at every pixel and past its end.
fn play_compiled(batch: &mut Batch) {
    let p = profile_a();
    let (mut counts, mut words) = (lent_counts(9), lent_words(8));
    let compiled = compile(&p, &mut counts, &mut words).expect("A compiles into eight steps");
    for position in 0..=compiled.pixels + 1 {
        batch.play(&counts, &words, compiled.steps, position);
    }
    // One step more or fewer than the compile used.
    for used in [compiled.steps - 1, compiled.steps + 1] {
        for position in [18, 19, 20, 21] {
            batch.play(&counts, &words, used, position);
        }
    }
}

/// "play count exceeds a lent list", either of them: 20 before 19.
fn play_used(batch: &mut Batch) {
    for counts in 0..5 {
        for words in 0..5 {
            for used in 0..6 {
                for position in [0, 7, 100] {
                    batch.play(&[5, 3, 0, 9][..counts], &[1, 2, 3, 0xFFFF][..words], used, position);
                }
            }
            for used in [1 << 16, 1 << 32, (1 << 32) + 1, u64::MAX] {
                batch.play(&[5, 3, 0, 9][..counts], &[1, 2, 3, 0xFFFF][..words], used, u64::MAX);
                batch.play(&[5, 3, 0, 9][..counts], &[1, 2, 3, 0xFFFF][..words], used, 0);
            }
        }
    }
}

/// "It may be of any length and have counts of 0."
fn play_zero_counts(batch: &mut Batch) {
    for counts in [[0, 0, 0, 0], [0, 2, 0, 1], [2, 0, 0, 1], [0, 0, 0, 3], [1, 1, 1, 0]] {
        for used in 0..=4 {
            for position in 0..5 {
                batch.play(&counts, &[0x10, 0x20, 0x30, 0x40], used, position);
            }
        }
    }
}

/// Running sums past 32 bits, and positions at their edges.
fn play_sums(batch: &mut Batch) {
    let most = u32::MAX as u64;
    let counts = [u32::MAX, u32::MAX, 1, 0, u32::MAX, 2];
    let words = [11, 22, 33, 44, 55, 66];
    for sum in [0, 1, most, 2 * most, 2 * most + 1, 3 * most + 1, 3 * most + 3] {
        for position in [sum.saturating_sub(1), sum, sum + 1] {
            batch.play(&counts, &words, 6, position);
        }
    }
    for position in [1 << 31, 1 << 32, (1 << 32) + 1, 1 << 33, 1 << 62, 1 << 63, u64::MAX - 1, u64::MAX] {
        batch.play(&counts, &words, 6, position);
        batch.play(&[3, 4], &[7, 8], 2, position);
    }
    // The longest lists.
    let (counts, words) = (vec![u32::MAX; 4096], lent_words(4096));
    for position in [0, 4095 * most, 4096 * most - 1, 4096 * most, u64::MAX] {
        batch.play(&counts, &words, 4096, position);
        batch.play(&counts, &words, 4095, position);
    }
    batch.play(&counts, &words[..4095], 4096, 0);
    batch.play(&counts[..4095], &words, 4096, 0);
    batch.play(&counts, &words, 4097, 0);
}
