//! Field pixels: where the batches ask for their line and pixel.

use super::*;
use crate::list::pixels;
use crate::rules::{line_length, region_of_line};

/// What a field pixel of an accepted profile is, each of which a wrong division
/// or a wrong seam would put elsewhere.
fn kinds(p: &Profile, n: u64) -> Vec<&'static str> {
    if n >= pixels(p) {
        return if n == pixels(p) { vec!["the first past the end"] } else { vec!["past the end"] };
    }
    let (line, pixel) = locate(p, n).unwrap();
    let region = region_of_line(p, line);
    let (first, length) = (p.field.regions[region].first as u64, p.sequence_of(region).length as u64);
    let last_line = line + 1 == p.field.lines as u64;
    let ends = pixel + 1 == line_length(p, line);
    let seam = ends && !last_line && region_of_line(p, line + 1) != region;
    let told = [
        (region > 0 && line == first && pixel == 0, "a region's first"),
        (seam, "a region's last"),
        (seam && line == first, "the last of a region of one line"),
        (last_line && pixel >= length, "of the last line, past its sequence's length"),
        (last_line && pixel >= 2 * length, "of the last line, past that twice"),
        (last_line && ends && pixel + 1 < length, "the end of a last line that is shorter"),
        (last_line && line == first && region > 0, "of a last line that is a region"),
        (!last_line && line > first && pixel == 0, "the first of a line inside a region"),
        (!last_line && line > first && ends, "the last of a line inside a region"),
    ];
    told.into_iter().filter(|(right, _)| *right).map(|(_, what)| what).collect()
}

fn kinds_asked(cases: &[Case]) -> BTreeSet<&'static str> {
    let mut asked = BTreeSet::new();
    for case in cases {
        if let Case::Locate { profile, n } = case {
            if check(profile).is_ok() {
                asked.extend(kinds(profile, *n));
            }
        }
    }
    asked
}

#[test]
fn the_batches_ask_at_seams_and_on_the_last_line() {
    let all = BTreeSet::from([
        "the first past the end",
        "past the end",
        "a region's first",
        "a region's last",
        "the last of a region of one line",
        "of the last line, past its sequence's length",
        "of the last line, past that twice",
        "the end of a last line that is shorter",
        "of a last line that is a region",
        "the first of a line inside a region",
        "the last of a line inside a region",
    ]);
    assert_eq!(kinds_asked(&stored::cases()), all);
    for seed in 1..=3 {
        assert_eq!(kinds_asked(&random::cases(seed, 6000)), all, "seed {seed}");
    }
}
