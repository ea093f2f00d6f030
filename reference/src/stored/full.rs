//! Full-size fields: 4095 lines of 4095 pixels, 16,769,025 in all. Compiling one
//! takes long: each is asked by one rule version, where the other adds nothing.

use super::Batch;
use crate::make::*;
use crate::profile::*;

const PIXELS: u64 = 4095 * 4095;

pub fn add(batch: &mut Batch) {
    still(batch);
    most_steps(batch);
    sweep(batch);
    flips(batch);
    multiplier(batch);
    everything(batch);
    places(batch);
}

/// One region of all lines over pattern 0.
fn full(mode: Mode, length: u16, toggles: &[[u16; 3]], sequence: Sequence) -> Profile {
    let mut p = Profile::empty();
    set_pattern(&mut p, 0, 0, length, toggles, NO_PAIRS);
    p.sequences[0] = sequence;
    p.field = field(4095, 4095, 4094, NO_SECOND, &[region(0, 0, mode)]);
    p
}

fn still(batch: &mut Batch) {
    let p = full(Mode::Plain, 4095, &[[4094, 4095, 4095]], sequence(0, 4095, 1, 4095, 4095, 0));
    batch.compile_by(2, &p, 1, 1);
    batch.compile_by(1, &p, 0, 1);
}

/// Every pixel has another word than the one before it: 16,769,025 steps.
fn most_steps(batch: &mut Batch) {
    let p = full(Mode::Plain, 3, &[[1, 2, 4095], [0, 2, 4095]], sequence(0, 4095, 0, 1365, 1365, 0));
    let p = with(&p, |p| set_levels(p, 0, 0b10));
    batch.judge(&p);
    batch.compile_by(2, &p, 4096, 4096);
}

/// 0 + 4095 × 4095 is exactly the region's size; a start of 1 is too many.
fn sweep(batch: &mut Batch) {
    let p = full(Mode::Sweep, 4095, &[[0, 4094, 4095]], sequence(0, 4095, 0, 4095, 4095, 0));
    batch.compile_by(2, &p, 4096, 4096);
    batch.judge(&with(&p, |p| p.sequences[0].start = 1));
    let few = with(&p, |p| p.sequences[0] = sequence(0, 4095, 4095, 1000, 1000, 0));
    batch.compile_by(1, &few, 2002, 2002);
}

/// 4095 runs that flip once each: 4096 steps, all that a list has room for. One
/// used toggle, three and two; the first rules return each time.
fn flips(batch: &mut Batch) {
    let toggles = [[4094, 4095, 4095], [4092, 4093, 4094], [4093, 4094, 4095]];
    let p = full(Mode::Sweep, 4095, &toggles[..1], sequence(0, 4095, 0, 4095, 4095, 0));
    batch.judge(&p);
    batch.compile_by(2, &p, 4096, 4096);
    batch.compile_by(1, &p, 4096, 4096);
    let three = with(&p, |p| set_pattern(p, 0, 0b010, 4095, &toggles, NO_PAIRS));
    for n in [4093, 4094, 4095, 2 * 4095 - 1, 2 * 4095, PIXELS - 4096, PIXELS - 4095, PIXELS - 2, PIXELS - 1] {
        batch.level(&three, n / 4095, n % 4095);
    }
    // Short runs, as many as there are: 4095 of one pixel, and after them.
    let short = with(&three, |p| set_pattern(p, 0, 0b1010, 1, &[[0, 4095, 4095], [0, 1, 2]], NO_PAIRS));
    for n in [0, 1, 2, 4093, 4094, 4095, 4096, PIXELS - 1] {
        batch.level(&short, n / 4095, n % 4095);
    }
}

/// 4095 + 4094 × 4095 is exactly the region's size; one less shows the last
/// toggle in the last pixel.
fn multiplier(batch: &mut Batch) {
    let p = full(Mode::Multiplier, 4095, &[[1, 2000, 4094], [0, 3000, 4095]], sequence(0, 4095, 4095, 4094, 4094, 0));
    batch.compile_by(2, &p, 9, 9);
    let one_less = with(&p, |p| p.sequences[0].start = 4094);
    batch.compile_by(1, &one_less, 9, 9);
    for n in [4094, 4095, PIXELS - 2, PIXELS - 1] {
        batch.level(&one_less, n / 4095, n % 4095);
        batch.level(&p, n / 4095, n % 4095);
    }
    batch.judge(&with(&p, |p| p.field.last = 4094));
}

/// Seven regions with every item.
fn everything(batch: &mut Batch) {
    let p = with(&profile_rich(), |p| {
        for s in &mut p.sequences[..7] {
            s.length = 4095;
        }
        for (i, r) in p.field.regions.iter_mut().enumerate() {
            r.first = 600 * i as u16;
        }
        p.field.lines = 4095;
        p.field.last = 4094;
        p.field.gate = 2399;
        p.sequences[3].odd = 0;
        p.sequences[3].even = 0;
        p.sequences[0].odd = 0;
        p.sequences[4].odd = 0;
        p.sequences[4].even = 0;
        p.sequences[0].mask = 0;
        p.sequences[0].even = 1;
        p.subck = subck(0, 4000, 4095, 600, 1000);
        p.shutters = [shutter(1, (5, 4000), (4094, 4093)), shutter(0, (2399, 1), (2400, 4094))];
    });
    batch.judge(&p);
    batch.compile_by(2, &p, 4096, 4096);
    let fewer = with(&p, |p| {
        p.sequences[0].even = 0;
        p.subck.count = 100;
    });
    batch.compile_by(2, &fewer, 4000, 4001);
    batch.compile_by(1, &fewer, 4000, 4001);
}

fn places(batch: &mut Batch) {
    let p = full(Mode::Plain, 4095, &[[0, 4094, 4095]], sequence(0, 4095, 0, 1, 0, 0));
    for n in [0, 4094, 4095, PIXELS / 2, PIXELS - 1, PIXELS, PIXELS + 1, 1 << 24, (1 << 32) + 1, u64::MAX] {
        batch.locate(&p, n);
    }
    for (line, pixel) in [(0, 4094), (0, 4095), (4094, 0), (4094, 4094), (4094, 4095), (4095, 0), (4093, 4094)] {
        batch.level(&p, line, pixel);
    }
}
