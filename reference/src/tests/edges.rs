//! The next edge: cases computed by hand, and what the batches have of it.

use super::*;
use crate::list::pixels;
use crate::rules::{line_length, region_of_line};
use crate::stops::{place_before, stops, Stop};
use crate::word::Line;
use std::collections::BTreeMap;

// ---------------------------------------------------------------------------
// By hand

/// Field pixels of the edges, from the first pixel on, each asked at the one
/// before; then there is none.
fn edges_by(version: u16, p: &Profile) -> Vec<u64> {
    let mut at = (0, 0);
    let mut edges = Vec::new();
    while let Some(edge) = next_edge_by(version, p, at.0, at.1).unwrap() {
        edges.push((0..edge.0).map(|line| line_length(p, line)).sum::<u64>() + edge.1);
        at = edge;
    }
    edges
}

/// W1's steps are 3, 2, 8, 2, 2, 2, 1 over two lines of 10.
#[test]
fn base_profile() {
    let a = profile_a();
    for version in [0, 1, 2, 3, 65_535] {
        assert_eq!(edges_by(version, &a), [3, 5, 13, 15, 17, 19]);
    }
    let at = [
        ((0, 0), Some((0, 3))),
        ((0, 1), Some((0, 3))),
        ((0, 2), Some((0, 3))),
        ((0, 3), Some((0, 5))),
        ((0, 4), Some((0, 5))),
        ((0, 5), Some((1, 3))),
        ((0, 9), Some((1, 3))),
        ((1, 0), Some((1, 3))),
        ((1, 3), Some((1, 5))),
        ((1, 6), Some((1, 7))),
        ((1, 7), Some((1, 9))),
        ((1, 8), Some((1, 9))),
        ((1, 9), None),
    ];
    for ((line, pixel), edge) in at {
        assert_eq!(next_edge(&a, line, pixel), Ok(edge), "line {line} pixel {pixel}");
    }
}

/// "refusals as for a level"
#[test]
fn refusals() {
    let most = u64::MAX;
    for (line, pixel) in [(1, 10), (0, 10), (2, 0), (0, most), (most, 0), (most, most), (1 << 32, 0), (0, 1 << 32)] {
        assert_eq!(next_edge(&profile_a(), line, pixel), refused(19, 0));
    }
    let w2 = with(&profile_a(), |p| p.registers[4..20].fill(0));
    assert_eq!(next_edge(&w2, 0, 0), out_of_order(0, 1, 3));
    assert_eq!(next_edge(&w2, most, most), out_of_order(0, 1, 3));
    assert_eq!(next_edge(&Profile::empty(), 0, 0), refused(6, 0));
    let case = |profile, line, pixel| Case::NextEdge { profile, version: 2, line, pixel };
    assert_eq!(answer(7, &case(profile_a(), 0, 5)), "CASE 7 E\n0 0 0 0 1 1 3\n");
    assert_eq!(answer(8, &case(profile_a(), 1, 9)), "CASE 8 E\n0 0 0 0 0 0 0\n");
    assert_eq!(answer(9, &case(profile_a(), 1, 10)), "CASE 9 E\n19 0 0 0 0 0 0\n");
    assert_eq!(answer(0, &case(w2, 0, 5)), "CASE 0 E\n10 0 1 3 0 0 0\n");
}

/// 11001100 by version 1, 11000011 by version 2; two such lines.
#[test]
fn runs_that_flip() {
    let p = with(&Profile::empty(), |p| {
        set_pattern(p, 0, 1, 4, &[[2, 4095, 4095]], NO_PAIRS);
        p.sequences[0] = sequence(0, 8, 0, 2, 2, 0);
        p.field = field(2, 8, 0, NO_SECOND, &[region(0, 0, Mode::Plain)]);
    });
    assert_eq!(edges_by(1, &p), [2, 4, 6, 8, 10, 12, 14]);
    assert_eq!(edges_by(2, &p), [2, 6, 10, 14]);
    assert_eq!((next_edge_by(1, &p, 0, 7), next_edge_by(2, &p, 0, 7)), (Ok(Some((1, 0))), Ok(Some((1, 2)))));
}

/// W5: V1 is 1110001111 on line 0, and on line 1, with two runs, 1110001001.
#[test]
fn a_toggle_while_frozen_is_no_edge() {
    let p = with(&profile_a(), |p| {
        p.sequences[0].mask = 1;
        set_pairs(p, 0, [3, 6, 0, 0]);
    });
    assert_eq!(edges_by(2, &p), [3, 6, 13, 16, 17, 19]);
    assert_eq!(next_edge(&p, 0, 4), Ok(Some((0, 6))));
    // From 5 to 6 both hold what was there: no edge at freeze, none at resume.
    let p = with(&p, |p| set_pairs(p, 0, [5, 7, 0, 0]));
    assert_eq!(edges_by(2, &p), [3, 5, 13, 15, 17, 19]);
    // Frozen at the level before the pulse of line 0, up to after it.
    let p = with(&p, |p| set_pairs(p, 0, [2, 5, 0, 0]));
    assert_eq!(edges_by(2, &p), [17, 19]);
    assert_eq!(next_edge(&p, 0, 0), Ok(Some((1, 7))));
}

/// W7: V1 is low at pixels 3 and 4 of the region, 7 and 8, .., 27 and 28.
#[test]
fn a_sweep_over_line_ends() {
    let p = with(&profile_a(), |p| {
        p.sequences[0] = sequence(0, 10, 2, 7, 7, 0);
        p.field = field(3, 10, 0, NO_SECOND, &[region(0, 0, Mode::Sweep)]);
    });
    assert_eq!(edges_by(2, &p), (3..30).step_by(2).collect::<Vec<u64>>());
    assert_eq!(next_edge(&p, 0, 9), Ok(Some((1, 1))));
    assert_eq!(next_edge(&p, 2, 8), Ok(Some((2, 9))));
    assert_eq!(next_edge(&p, 2, 9), Ok(None));
}

/// W9: V1 is high at field pixels 9 to 20, over the whole of line 1.
#[test]
fn a_multiplier_pulse_over_a_line() {
    let p = with(&profile_a(), |p| {
        set_pattern(p, 0, 0, 4, &[[2, 5, 4095]], NO_PAIRS);
        p.sequences[0] = sequence(0, 10, 1, 5, 5, 0);
        p.field = field(3, 10, 0, NO_SECOND, &[region(0, 0, Mode::Multiplier)]);
    });
    for (line, pixel, edge) in [(0, 0, Some((0, 9))), (0, 9, Some((2, 1))), (1, 5, Some((2, 1))), (2, 1, None)] {
        assert_eq!(next_edge(&p, line, pixel), Ok(edge));
    }
}

/// V1 falls and V2 rises at pixel 2; both return at pixel 3, where V3, which was
/// high, falls for one pixel. The second line is another region, of one pixel
/// and the same levels; the third is its last, of three, where MSHUT is off
/// again in the last pixel.
#[test]
fn swaps_seams_and_one_pixel() {
    let p = with(&Profile::empty(), |p| {
        set_pattern(p, 0, 0b101, 5, &[[1, 2, 4095], [1, 2, 4095], [2, 3, 4095]], NO_PAIRS);
        set_pattern(p, 1, 0b101, 1, &[], NO_PAIRS);
        p.sequences[0] = sequence(0, 6, 1, 1, 1, 0);
        p.sequences[1] = sequence(1, 1, 0, 1, 1, 0);
        p.field = field(3, 3, 0, NO_SECOND, &[region(0, 0, Mode::Plain), region(1, 1, Mode::Sweep)]);
        p.shutters[0] = shutter(1, (0, 5), (2, 2));
    });
    assert_eq!(steps(&p, 6), [(2, 0x0FC5), (1, 0x0FC6), (1, 0x0FC1), (1, 0x0FC5), (4, 0x1FC5), (1, 0x0FC5)]);
    let edges = [(0, 2), (0, 2), (0, 3), (0, 4), (0, 5), (2, 2)];
    for (pixel, edge) in edges.into_iter().enumerate() {
        assert_eq!(next_edge(&p, 0, pixel as u64), Ok(Some(edge)));
    }
    assert_eq!((next_edge(&p, 1, 0), next_edge(&p, 2, 0)), (Ok(Some((2, 2))), Ok(Some((2, 2)))));
    assert_eq!((next_edge(&p, 2, 1), next_edge(&p, 2, 2)), (Ok(Some((2, 2))), Ok(None)));
}

/// No wrap to the field's start, where the word is another.
#[test]
fn none_at_the_end() {
    for p in [profile_a(), profile_rich(), profile_two()] {
        let (line, pixel) = (p.field.lines as u64 - 1, p.field.last as u64 - 1);
        assert_eq!(next_edge(&p, line, pixel), Ok(None));
    }
    assert_ne!(level(&profile_rich(), 0, 0), level(&profile_rich(), 15, 13));
}

// ---------------------------------------------------------------------------
// What the batches have

/// Every kind of stop.
fn all_stops() -> Vec<Stop> {
    use Stop::*;
    let mut all = vec![LineStart, SecondStart, SecondToggle, Subck(1), Subck(2)];
    for mode in [Mode::Plain, Mode::Sweep] {
        all.extend([RepetitionEnd(mode), RunEnd(mode)]);
    }
    for mode in [Mode::Plain, Mode::Sweep, Mode::Multiplier] {
        all.extend([Start(mode), Toggle(mode)]);
    }
    all.extend((0..2).flat_map(|i| [Freeze(i), Resume(i), On(i), Off(i)]));
    all.extend((0..GATES).flat_map(|i| [Gate(i, 1), Gate(i, 2)]));
    all
}

/// Where no output changes unless something else is there too: a start, without
/// a toggle at 0; a freeze; by version 2 the end of a repetition and of the run.
fn changes_nothing(version: u16, stop: Stop) -> bool {
    match stop {
        Stop::Start(_) | Stop::Freeze(_) => true,
        Stop::RepetitionEnd(_) | Stop::RunEnd(_) => version == 2,
        _ => false,
    }
}

/// Where the word may stay as it was: also at a line's first pixel, at toggles
/// while frozen, at a resume, at a second pattern's start, and at SUBCK's toggle
/// at 0 after a line that it ended flipped.
fn may_be_passed(version: u16, stop: Stop) -> bool {
    use Stop::*;
    changes_nothing(version, stop)
        || matches!(stop, LineStart | Toggle(_) | RepetitionEnd(_) | RunEnd(_) | Resume(_))
        || matches!(stop, SecondStart | SecondToggle | Subck(1))
}

/// The kinds of stops at a place.
fn stops_at(p: &Profile, (line, pixel): (u64, u64)) -> BTreeSet<Stop> {
    stops(p, line).into_iter().filter(|stop| stop.1 == pixel).map(|stop| stop.0).collect()
}

/// The kinds of stops after a place and before another, of a small field.
fn stops_between(p: &Profile, from: (u64, u64), to: (u64, u64)) -> BTreeSet<Stop> {
    let mut between = BTreeSet::new();
    for line in from.0..=to.0 {
        let places = stops(p, line).into_iter().map(|(stop, pixel)| (stop, (line, pixel)));
        between.extend(places.filter(|(_, place)| from < *place && *place < to).map(|(stop, _)| stop));
    }
    between
}

/// A place of the field that follows another.
fn place_after(p: &Profile, (line, pixel): (u64, u64)) -> (u64, u64) {
    if pixel + 1 < line_length(p, line) {
        (line, pixel + 1)
    } else {
        (line + 1, 0)
    }
}

/// How a next edge lies to stops of each kind.
#[derive(Clone, Copy, PartialEq, Eq, PartialOrd, Ord, Debug)]
enum Lies {
    /// asked there, and at the pixel before
    At,
    Before,
    /// answered there, and where it is no other stop
    Found,
    FoundAlone,
    /// between the two
    Passed,
}

type Asked = BTreeMap<(u16, Stop, Lies), usize>;

/// All next edges of accepted profiles that are found or none, by the two
/// versions; and that no answer lies where there is no stop.
fn asked_at_stops(cases: &[Case]) -> Asked {
    let mut asked = Asked::new();
    for case in cases {
        let Case::NextEdge { profile: p, version, line, pixel } = case else { continue };
        let (Ok(edge), true) = (next_edge_by(*version, p, *line, *pixel), VERSIONS.contains(version)) else { continue };
        let mut count = |stops: BTreeSet<Stop>, lies: Lies| {
            stops.into_iter().for_each(|stop| *asked.entry((*version, stop, lies)).or_default() += 1);
        };
        let here = (*line, *pixel);
        count(stops_at(p, here), Lies::At);
        let after = place_after(p, here);
        if after.0 < p.field.lines as u64 {
            count(stops_at(p, after), Lies::Before);
        }
        if let Some(edge) = edge {
            let found = stops_at(p, edge);
            assert!(!found.is_empty(), "an edge where there is no stop: line {} pixel {}", edge.0, edge.1);
            if found.len() == 1 {
                count(found.clone(), Lies::FoundAlone);
            }
            count(found, Lies::Found);
        }
        if pixels(p) <= 3000 {
            count(stops_between(p, here, edge.unwrap_or((p.field.lines as u64, 0))), Lies::Passed);
        }
    }
    asked
}

/// What a next edge is, besides: where it is asked, how far the answer is, and
/// how the words differ.
fn kinds(p: &Profile, version: u16, here: (u64, u64), edge: Option<(u64, u64)>) -> Vec<&'static str> {
    let (line, pixel) = here;
    let word = |(line, pixel): (u64, u64)| Line::new(version, p, line).word(pixel);
    let lines = p.field.lines as u64;
    let region = region_of_line(p, line);
    let sequence = p.sequence_of(region).length as u64;
    let last_line = line + 1 == lines;
    let ends = pixel + 1 == line_length(p, line);
    let asked = word(here);
    let differs = edge.map_or(0, |edge| word(edge) ^ asked);
    let rises = differs & !asked;
    let returns = edge.map(|edge| place_after(p, edge)).filter(|after| after.0 < lines && word(*after) == asked);
    let lines_on = edge.map(|edge| edge.0 - line);
    let alone = place_before(p, here).is_some_and(|before| word(before) != asked) && edge == Some(place_after(p, here));
    let told = [
        (here == (0, 0), "at the field's first pixel"),
        (last_line && ends, "at the field's last pixel"),
        (!last_line && ends, "at a line's last pixel"),
        (edge.is_some_and(|edge| edge.1 == 0), "found at a line's first pixel"),
        (lines_on == Some(0), "found on the line"),
        (lines_on == Some(1), "found on the next line"),
        (lines_on >= Some(2), "found lines later"),
        (edge.is_some_and(|edge| region_of_line(p, edge.0) != region), "found in another region"),
        (edge.is_some_and(|edge| region_of_line(p, edge.0) > region + 1), "found regions later"),
        (edge.is_none() && line + 1 < lines, "none, and lines follow"),
        (edge.is_none() && last_line && !ends, "none on the line, the last"),
        (line_length(p, line) == 1 && lines > 1, "a line of one pixel"),
        (pixels(p) == 1, "a field of one pixel"),
        (edge.is_some_and(|edge| edge.0 + 1 == lines && edge.1 >= sequence), "found past the sequence's length"),
        (last_line && p.field.last as u64 + 1 < sequence, "a last line that is shorter"),
        (differs.count_ones() == 1, "one output flips"),
        (differs.count_ones() >= 2, "several outputs flip"),
        (differs.count_ones() == 2 && rises.count_ones() == 1, "two outputs swap"),
        (returns.is_some(), "the word returns at once"),
        (alone, "a pulse of one pixel"),
    ];
    told.into_iter().filter(|(right, _)| *right).map(|(_, what)| what).collect()
}

const ALL_KINDS: [&str; 20] = [
    "at the field's first pixel",
    "at the field's last pixel",
    "at a line's last pixel",
    "found at a line's first pixel",
    "found on the line",
    "found on the next line",
    "found lines later",
    "found in another region",
    "found regions later",
    "none, and lines follow",
    "none on the line, the last",
    "a line of one pixel",
    "a field of one pixel",
    "found past the sequence's length",
    "a last line that is shorter",
    "one output flips",
    "several outputs flip",
    "two outputs swap",
    "the word returns at once",
    "a pulse of one pixel",
];

/// How many next edges are of each kind, by each version.
fn kinds_asked(cases: &[Case]) -> BTreeMap<(u16, &'static str), usize> {
    let mut asked = BTreeMap::new();
    for case in cases {
        let Case::NextEdge { profile: p, version, line, pixel } = case else { continue };
        let Ok(edge) = next_edge_by(*version, p, *line, *pixel) else { continue };
        for kind in kinds(p, *version, (*line, *pixel), edge) {
            *asked.entry((*version, kind)).or_default() += 1;
        }
    }
    asked
}

fn has_kinds(cases: &[Case], least: usize) {
    let asked = kinds_asked(cases);
    for kind in ALL_KINDS {
        for version in VERSIONS {
            let count = asked.get(&(version, kind)).copied().unwrap_or(0);
            assert!(count >= least, "by {version}, {count} times: {kind}");
        }
    }
}

#[test]
fn the_stored_batch_asks_around_every_stop() {
    let cases = stored::cases();
    let asked = asked_at_stops(&cases);
    for version in VERSIONS {
        for stop in all_stops() {
            let count = |lies: Lies| asked.get(&(version, stop, lies)).copied().unwrap_or(0);
            for lies in [Lies::At, Lies::Before, Lies::Found] {
                assert!(count(lies) >= 2, "by {version}, {} times {lies:?}: {stop:?}", count(lies));
            }
            if changes_nothing(version, stop) {
                assert_eq!(count(Lies::FoundAlone), 0, "by {version}: {stop:?}");
            } else {
                assert!(count(Lies::FoundAlone) >= 2, "by {version}, {} times: {stop:?}", count(Lies::FoundAlone));
            }
            if may_be_passed(version, stop) {
                assert!(count(Lies::Passed) >= 1, "by {version}, never passed: {stop:?}");
            } else {
                assert_eq!(count(Lies::Passed), 0, "by {version}: {stop:?}");
            }
        }
    }
    has_kinds(&cases, 4);
}

/// Places past a line's end and past the field's, past 16 and 32 bits, and the
/// last numbers there are; of accepted profiles and of refused ones.
#[test]
fn the_stored_batch_asks_outside_the_field() {
    let mut asked = BTreeSet::new();
    for case in stored::cases() {
        let Case::NextEdge { profile, version, line, pixel } = case else { continue };
        let accepted = check(&profile).is_ok();
        if accepted && next_edge_by(version, &profile, line, pixel).is_ok() {
            continue;
        }
        let on_a_line = accepted && line < profile.field.lines as u64;
        let told = [
            (on_a_line && pixel == line_length(&profile, line), "the first past a line"),
            (on_a_line && pixel > 65_535, "a pixel past 16 bits"),
            (on_a_line && pixel > u32::MAX as u64, "a pixel past 32 bits"),
            (on_a_line && pixel == u64::MAX, "the last pixel number"),
            (accepted && (line, pixel) == (profile.field.lines as u64, 0), "the first past the field"),
            (accepted && line > 65_535 && pixel < 9, "a line past 16 bits"),
            (accepted && line > u32::MAX as u64 && pixel < 9, "a line past 32 bits"),
            (accepted && line == u64::MAX, "the last line number"),
            (accepted && (line, pixel) == (u64::MAX, u64::MAX), "both the last"),
            (!accepted && (line, pixel) == (0, 0), "refused, at the first pixel"),
            (!accepted && (line, pixel) == (u64::MAX, u64::MAX), "refused, both the last"),
        ];
        asked.extend(told.into_iter().filter(|(right, _)| *right).map(|(_, what)| (version, what)));
    }
    assert_eq!(asked.iter().filter(|(version, _)| *version == 1).count(), 11);
    assert_eq!(asked.iter().filter(|(version, _)| *version == 2).count(), 11);
}

/// Every compile is asked of both engines, with the same lists.
#[test]
fn the_stored_batch_asks_both_engines() {
    let cases = stored::cases();
    let of = |asked: Engine| {
        let mut payloads = Vec::new();
        for case in &cases {
            match case {
                Case::Compile { engine, .. } if *engine == asked => payloads.push(case.encode().split_off(1)),
                _ => {}
            }
        }
        payloads
    };
    assert!(!of(Engine::Plain).is_empty());
    assert_eq!(of(Engine::Plain), of(Engine::Jumping));
}

/// Small fields of which every pixel is asked: many, and many that have other
/// edges by each version.
#[test]
fn the_stored_batch_asks_at_every_pixel() {
    let mut asked: BTreeMap<Vec<u16>, BTreeSet<(u64, u64)>> = BTreeMap::new();
    for case in stored::cases() {
        let Case::NextEdge { profile, version: 2, line, pixel } = case else { continue };
        if next_edge(&profile, line, pixel).is_ok() {
            asked.entry(profile.numbers()).or_default().insert((line, pixel));
        }
    }
    asked.retain(|numbers, places| pixels(&Profile::from_numbers(numbers).unwrap()) == places.len() as u64);
    let differ = asked.keys().map(|numbers| Profile::from_numbers(numbers).unwrap());
    let differ = differ.filter(|p| edges_by(1, p) != edges_by(2, p)).count();
    assert!(asked.len() >= 300 && differ >= 100, "{} fields, {differ} differ", asked.len());
}

/// As many cases as are compared, by any version: every kind of stop, of any
/// gate, is asked at or before, and answered.
#[test]
fn a_random_batch_asks_around_every_stop() {
    let any_gate = |stop: Stop| match stop {
        Stop::Gate(_, toggle) => Stop::Gate(0, toggle),
        _ => stop,
    };
    for seed in 1..=3 {
        let cases = random::cases(seed, 6000);
        let asked: BTreeSet<(Stop, Lies)> =
            asked_at_stops(&cases).into_keys().map(|(_, stop, lies)| (any_gate(stop), lies)).collect();
        for stop in all_stops().into_iter().map(any_gate) {
            let around = asked.contains(&(stop, Lies::At)) || asked.contains(&(stop, Lies::Before));
            assert!(around && asked.contains(&(stop, Lies::Found)), "seed {seed}: {stop:?}");
        }
        let kinds: BTreeSet<&str> = kinds_asked(&cases).into_keys().map(|(_, kind)| kind).collect();
        assert_eq!(kinds, BTreeSet::from(ALL_KINDS), "seed {seed}");
    }
}

/// The list says where the edges are: the next one is where the step ends in
/// which the asked pixel is, if another follows.
#[test]
fn next_edges_are_where_steps_end() {
    let random = (0..10).flat_map(|seed| random::cases(seed, 600));
    for case in stored::cases().into_iter().chain(random) {
        let Case::NextEdge { profile: p, version, line, pixel } = case else { continue };
        if level(&p, line, pixel).is_err() || pixels(&p) > 20_000 {
            continue;
        }
        let (mut counts, mut words) = (vec![0; 20_000], vec![0; 20_000]);
        let steps = compile_by(version, &p, &mut counts, &mut words).unwrap().steps as usize;
        let at = (0..line).map(|line| line_length(&p, line)).sum::<u64>() + pixel;
        let ends = counts[..steps].iter().scan(0, |sum, count| {
            *sum += *count as u64;
            Some(*sum)
        });
        let end = ends.into_iter().find(|end| *end > at).unwrap();
        assert_eq!(next_edge_by(version, &p, line, pixel), Ok(locate(&p, end).ok()));
    }
}
