//! Cases W1 to W12.

use super::Batch;
use crate::make::*;
use crate::profile::*;

pub fn add(batch: &mut Batch) {
    let a = profile_a();
    w1(batch, &a);
    batch.show(&w2());
    for script in [w3(), w4()] {
        batch.read(script.clone());
        batch.text(script);
    }
    w5_w6(batch);
    w7_w8(batch);
    w9_w10(batch);
    // W11: A, list room 6.
    for (counts, words) in [(6, 6), (6, 7), (7, 6), (7, 7)] {
        batch.compile(&a, counts, words);
    }
    // W12: A, line 1 pixel 10.
    for (line, pixel) in [(1, 10), (0, 10), (2, 0), (1, 9)] {
        batch.level(&a, line, pixel);
    }
}

fn w1(batch: &mut Batch, a: &Profile) {
    batch.read(script_a());
    batch.text(script_a());
    batch.show(a);
    for line in 0..2 {
        for pixel in 0..10 {
            batch.level(a, line, pixel);
        }
    }
}

/// The scripts of W1 to W10, those that are refused too.
pub fn scripts() -> Vec<Vec<u8>> {
    let profiles = [w2(), frozen(3, 6), frozen(3, 3), sweep(7), sweep(8), multiplier(5, 5), multiplier(4, 4)];
    let others = profiles.iter().map(short_script);
    [script_a(), w3(), w4()].into_iter().chain(others).collect()
}

/// A without words 2..9: zero is a used toggle.
pub fn w2() -> Profile {
    with(&profile_a(), |p| p.registers[4..20].fill(0))
}

/// "empty script"
fn w3() -> Vec<u8> {
    vec![]
}

fn w4() -> Vec<u8> {
    vec![4, 0, 1]
}

fn w5_w6(batch: &mut Batch) {
    for (freeze, resume) in [(3, 6), (3, 3), (3, 4), (0, 3), (2, 4095)] {
        let p = frozen(freeze, resume);
        batch.show(&p);
        for pixel in 0..10 {
            batch.level(&p, 0, pixel);
        }
    }
}

/// "A, mask 1, freeze 3, resume 6"
pub fn frozen(freeze: u16, resume: u16) -> Profile {
    with(&profile_a(), |p| {
        p.sequences[0].mask = 1;
        set_pairs(p, 0, [freeze, resume, 0, 0]);
    })
}

fn w7_w8(batch: &mut Batch) {
    for repetitions in [7, 8] {
        batch.show(&sweep(repetitions));
    }
}

/// "sweep, 3 lines of 10, start 2, length 4, 7 repetitions each"
pub fn sweep(repetitions: u16) -> Profile {
    with(&profile_a(), |p| {
        p.sequences[0].odd = repetitions;
        p.sequences[0].even = repetitions;
        p.field.lines = 3;
        p.field.regions[0].mode = Mode::Sweep;
    })
}

fn w9_w10(batch: &mut Batch) {
    for (odd, even) in [(5, 5), (4, 4), (5, 4), (4, 5), (6, 6)] {
        batch.show(&multiplier(odd, even));
    }
}

/// "multiplier, 3 lines of 10, start 1, length 4, toggles 2 and 5, counts 5,
/// start level 0"
pub fn multiplier(odd: u16, even: u16) -> Profile {
    with(&profile_a(), |p| {
        set_pattern(p, 0, 0, 4, &[[2, 5, 4095]], NO_PAIRS);
        p.sequences[0] = sequence(0, 10, 1, odd, even, 0);
        p.field.lines = 3;
        p.field.regions[0].mode = Mode::Multiplier;
    })
}
