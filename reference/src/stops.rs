//! Where an output can change: "a line's first pixel, or where the rules put a
//! start, toggle, run end, freeze, resume, on or off". Batches ask around these
//! places, and the tests tell by them what is asked; no answer goes by them.

use crate::profile::*;
use crate::rules::*;

/// What the rules put at a pixel. Pairs, gates and shutters are counted from 0,
/// the toggles of gates and SUBCK from 1.
#[derive(Clone, Copy, PartialEq, Eq, PartialOrd, Ord, Debug)]
pub enum Stop {
    LineStart,
    Start(Mode),
    Toggle(Mode),
    /// of any repetition but the last
    RepetitionEnd(Mode),
    RunEnd(Mode),
    Freeze(usize),
    Resume(usize),
    SecondStart,
    SecondToggle,
    Gate(usize, usize),
    Subck(usize),
    On(usize),
    Off(usize),
}

/// The stops on a line of an accepted profile, with their pixels.
pub fn stops(p: &Profile, line: u64) -> Vec<(Stop, u64)> {
    let mut stops = vec![(Stop::LineStart, 0)];
    stops.extend(of_the_pattern(p, line));
    stops.extend(of_the_mask(p, line));
    if gate_lines(p).any(|gate_line| gate_line == line) {
        stops.extend(of_the_second(p));
        stops.extend(of_the_gates(p));
    }
    stops.extend(of_subck(p, line));
    stops.extend(of_the_shutters(p, line));
    let length = line_length(p, line);
    stops.retain(|(_, pixel)| *pixel < length);
    stops
}

/// The region's own pattern: in sweep and multiplier counted through line ends.
fn of_the_pattern(p: &Profile, line: u64) -> Vec<(Stop, u64)> {
    let number = region_of_line(p, line);
    let (region, s) = (&p.field.regions[number], p.sequence_of(number));
    let pattern = p.pattern(s.pattern);
    let (mode, start, length) = (region.mode, s.start as u64, pattern.length);
    let toggles = || pattern.toggles.into_iter().flatten().filter(|t| is_used(*t, length, use_in_mode(mode)));
    let mut stops = vec![(Stop::Start(mode), start)];
    if mode == Mode::Multiplier {
        stops.extend(toggles().map(|toggle| (Stop::Toggle(mode), start + toggle * length)));
    } else {
        let r = repetitions(s, line);
        for from in (0..r).map(|k| start + k * length) {
            stops.extend(toggles().map(|toggle| (Stop::Toggle(mode), from + toggle)));
        }
        stops.extend((1..r).map(|k| (Stop::RepetitionEnd(mode), start + k * length)));
        if r > 0 {
            stops.push((Stop::RunEnd(mode), start + r * length));
        }
    }
    let before = match mode {
        Mode::Plain => 0,
        Mode::Sweep | Mode::Multiplier => (line - region.first as u64) * s.length as u64,
    };
    stops.into_iter().filter_map(|(stop, from)| Some((stop, from.checked_sub(before)?))).collect()
}

fn of_the_mask(p: &Profile, line: u64) -> Vec<(Stop, u64)> {
    let s = p.sequence_of(region_of_line(p, line));
    let pattern = p.pattern(s.pattern);
    let pair = |i: usize| [(Stop::Freeze(i), pattern.freeze[i]), (Stop::Resume(i), pattern.resume[i])];
    (0..2).filter(|i| pair_on(s, *i)).flat_map(pair).collect()
}

fn of_the_second(p: &Profile) -> Vec<(Stop, u64)> {
    let Some(second) = second_pattern(p) else { return vec![] };
    let toggles = second.toggles.into_iter().flatten().filter(|t| is_used(*t, second.length, Use::Not4095));
    let toggles = toggles.map(|toggle| (Stop::SecondToggle, second.length + toggle));
    [(Stop::SecondStart, second.length)].into_iter().chain(toggles).collect()
}

fn of_the_gates(p: &Profile) -> Vec<(Stop, u64)> {
    let on = p.gates.iter().enumerate().filter(|(_, gate)| gate.on == 1);
    on.flat_map(|(i, g)| [(Stop::Gate(i, 1), g.toggle1 as u64), (Stop::Gate(i, 2), g.toggle2 as u64)]).collect()
}

fn of_subck(p: &Profile, line: u64) -> Vec<(Stop, u64)> {
    let b = &p.subck;
    let from = p.field.gate as u64 + b.suppressed as u64;
    if b.present && (from..from + b.count as u64).contains(&line) {
        vec![(Stop::Subck(1), b.toggle1 as u64), (Stop::Subck(2), b.toggle2 as u64)]
    } else {
        vec![]
    }
}

fn of_the_shutters(p: &Profile, line: u64) -> Vec<(Stop, u64)> {
    let mut stops = Vec::new();
    for (which, s) in p.shutters.iter().enumerate().filter(|(_, s)| s.present) {
        let places = [(Stop::On(which), s.on_line, s.on_pixel), (Stop::Off(which), s.off_line, s.off_pixel)];
        stops.extend(places.into_iter().filter(|at| at.1 as u64 == line).map(|at| (at.0, at.2 as u64)));
    }
    stops
}

/// The place before a place of the field, where there is one.
pub fn place_before(p: &Profile, (line, pixel): (u64, u64)) -> Option<(u64, u64)> {
    match (line, pixel) {
        (0, 0) => None,
        (_, 0) => Some((line - 1, line_length(p, line - 1) - 1)),
        _ => Some((line, pixel - 1)),
    }
}
