//! Refusal 5 of a profile handed in: each of its 381 numbers at its edges, and
//! absent items that are not all zeros.

use super::Batch;
use crate::make::*;
use crate::profile::*;

pub fn add(batch: &mut Batch) {
    let rich = profile_rich();
    for i in 0..NUMBERS {
        number(batch, &rich, i);
    }
    for i in 0..NUMBERS {
        absent(batch, &profile_a(), i);
        absent(batch, &Profile::empty(), i);
    }
    present_alone(batch, &rich);
    second(batch, &rich);
    counts(batch);
    every_entry_point(batch);
}

/// One number of a profile with everything present.
fn number(batch: &mut Batch, profile: &Profile, i: usize) {
    match limits(i) {
        Limits::Flag | Limits::Mode => {
            let most = if matches!(limits(i), Limits::Flag) { 1 } else { 2 };
            for value in 0..=most {
                batch.check(&with_number(profile, i, value));
            }
        }
        Limits::Between(least, most) => {
            batch.check(&with_number(profile, i, most + 1));
            // The registers of one pattern stand for the others.
            if (24..216).contains(&i) {
                return;
            }
            batch.check(&with_number(profile, i, least));
            batch.check(&with_number(profile, i, most));
            batch.check(&with_number(profile, i, 65_535));
            if least > 0 {
                batch.check(&with_number(profile, i, least - 1));
            }
        }
    }
}

/// "an absent item (a region past n too) that is not all zeros"
fn absent(batch: &mut Batch, profile: &Profile, i: usize) {
    let before = profile.numbers();
    if i < 240 || before[i] != 0 {
        return;
    }
    batch.check(&with_number(profile, i, 1));
    if matches!(limits(i), Limits::Between(..)) && i >= 335 {
        batch.check(&with_number(profile, i, 65_535));
    }
}

/// One item absent, but with the numbers it had, or with none.
fn present_alone(batch: &mut Batch, rich: &Profile) {
    for i in 0..10 {
        batch.check(&with(rich, |p| p.sequences[i] = Sequence::default()));
        batch.check(&with(rich, |p| p.sequences[i] = Sequence { present: true, ..Sequence::default() }));
    }
    for i in 0..5 {
        batch.check(&with(rich, |p| p.gates[i] = Gate::default()));
        batch.check(&with(rich, |p| p.gates[i] = Gate { present: true, ..Gate::default() }));
    }
    batch.check(&with(rich, |p| p.subck = Subck::default()));
    batch.check(&with(rich, |p| p.subck = Subck { present: true, ..Subck::default() }));
    for i in 0..2 {
        batch.check(&with(rich, |p| p.shutters[i] = Shutter::default()));
        batch.check(&with(rich, |p| p.shutters[i] = Shutter { present: true, ..Shutter::default() }));
    }
    batch.check(&with(rich, |p| p.field = Field::default()));
    batch.check(&with(rich, |p| p.field = Field { present: true, ..Field::default() }));
    // An absent field has second pattern 0 and second gate line 0, not 65,535.
    batch.check(&with(rich, |p| p.field = Field { second: NO_SECOND, ..Field::default() }));
    batch.check(&with(rich, |p| p.field = Field { gate2: NO_GATE2, ..Field::default() }));
}

fn second(batch: &mut Batch, rich: &Profile) {
    for value in [0, 7, 9, 10, 255, 256, 4095, 65_534, 65_535] {
        batch.check(&with(rich, |p| p.field.second = value));
        batch.check(&with(&profile_a(), |p| p.field.second = value));
    }
}

/// The region count against the regions that are there.
fn counts(batch: &mut Batch) {
    for mode in [Mode::Plain, Mode::Sweep, Mode::Multiplier] {
        for count in [0, 1, 2, 6, 7, 8, 255, 256, 4096, 65_535] {
            batch.check(&with(&profile_seven(mode), |p| p.field.count = count));
            batch.check(&with(&profile_a(), |p| p.field.count = count));
        }
    }
    for count in 1..=7 {
        let cut = with(&profile_seven(Mode::Plain), |p| {
            p.field.count = count;
            p.field.regions[count as usize..].fill(Region::default());
        });
        batch.show(&cut);
        // A region past n, one number of it not 0.
        if count < 7 {
            batch.check(&with(&cut, |p| p.field.regions[6].first = 13));
            batch.check(&with(&cut, |p| p.field.regions[count as usize].sequence = 1));
            batch.check(&with(&cut, |p| p.field.regions[6].mode = Mode::Multiplier));
            batch.check(&with(&cut, |p| p.field.regions[count as usize].mode = Mode::Sweep));
        }
    }
}

/// Every entry point refuses by 5, also where later rules are broken too.
fn every_entry_point(batch: &mut Batch) {
    let out_of_range: [fn(&mut Profile); 8] = [
        |p| p.registers[239] = 4096,
        |p| p.registers[216] = 64,
        |p| p.sequences[9].mask = 4,
        |p| p.gates[4].level = 2,
        |p| p.subck.count = 65_535,
        |p| p.shutters[1].active = 2,
        |p| p.field.count = 65_535,
        |p| p.field.regions[6].sequence = 65_535,
    ];
    for edit in out_of_range {
        let p = with(&profile_rich(), edit);
        batch.ask_all(&p);
        batch.ask_all_too_much(&p);
        // 5 before 6: out of range and no field.
        batch.check(&with(&p, |p| p.field = Field::default()));
    }
    let wild = Profile::from_numbers(&wild_numbers()).expect("flags and modes in range");
    batch.ask_all(&wild);
    batch.ask_all_too_much(&wild);
}

/// 65,535 wherever a number may be anything.
fn wild_numbers() -> Vec<u16> {
    (0..NUMBERS)
        .map(|i| match limits(i) {
            Limits::Flag => 1,
            Limits::Mode => 2,
            Limits::Between(..) => 65_535,
        })
        .collect()
}
