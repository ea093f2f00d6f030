//! Two gate lines: cases computed by hand, and what the batches have of them.

use super::*;
use crate::ranges::check_ranges;
use crate::rules::{line_length, region_of_line, repetitions};

// ---------------------------------------------------------------------------
// By hand

/// Five lines of 8, 8, 8, 8 and 6 pixels, gate lines 3 and 1. The first pattern
/// runs over pixels 1 to 6 of lines 0, 2 and 4 and 1 to 3 of lines 1 and 3;
/// those two have the second pattern from pixel 4 on, and VSG1 low at pixels 2
/// to 4. SUBCK counts from line 3, the one named first: it is high from pixel 3
/// of line 4. V2 has one used toggle: its second run ends high by version 2.
fn five_lines() -> Profile {
    with(&Profile::empty(), |p| {
        set_pattern(p, 0, 0b10, 3, &[[1, 2, 4095], [0, 4095, 4095]], NO_PAIRS);
        set_pattern(p, 1, 0b01, 4, &[[1, 4095, 4095], [0, 4095, 4095]], NO_PAIRS);
        p.sequences[0] = sequence(0, 8, 1, 2, 1, 0);
        p.field = field(5, 6, 3, 1, &[region(0, 0, Mode::Plain)]);
        p.field.gate2 = 1;
        p.gates[0] = gate(1, 1, 2, 5);
        p.subck = subck(0, 3, 9, 1, 1);
    })
}

#[test]
fn all_that_acts_on_both_lines() {
    let p = five_lines();
    for line in [0, 2] {
        assert_eq!(output(&p, 0, line, 8), "00100100");
        assert_eq!(output(&p, 1, line, 8), "10001111");
        assert_eq!(output_by(1, &p, 1, line, 8), "10000001");
        assert_eq!(output(&p, 6, line, 8), "11111111");
    }
    for line in [1, 3] {
        assert_eq!(output(&p, 0, line, 8), "00101000");
        assert_eq!(output(&p, 1, line, 8), "10001111");
        assert_eq!(output(&p, 6, line, 8), "11000111");
        assert_eq!(output(&p, 11, line, 8), "00000000");
    }
    assert_eq!(output(&p, 11, 4, 6), "000111");
    let at_gate = [(1, 0x07C0), (1, 0x0781), (1, 0x0780), (1, 0x0783), (4, 0x07C2)];
    let first = [(1, 0x07C2)];
    let whole = |no_gate: &[(u32, u16)], last: &[(u32, u16)]| [&first, no_gate, &at_gate, no_gate, &at_gate, last].concat();
    let by_1 = whole(
        &[(1, 0x07C0), (1, 0x07C1), (2, 0x07C0), (1, 0x07C1), (1, 0x07C0), (2, 0x07C2)],
        &[(1, 0x07C0), (1, 0x07C1), (2, 0x0FC0), (1, 0x0FC1)],
    );
    let by_2 = whole(
        &[(1, 0x07C0), (1, 0x07C1), (1, 0x07C0), (1, 0x07C2), (1, 0x07C3), (3, 0x07C2)],
        &[(1, 0x07C0), (1, 0x07C1), (1, 0x0FC0), (1, 0x0FC2), (1, 0x0FC3)],
    );
    assert_eq!(steps_by(1, &p, by_1.len()), by_1);
    assert_eq!(steps(&p, by_2.len()), by_2);
}

/// The same two lines named the other way round: only SUBCK moves, to line 2.
#[test]
fn subck_counts_from_the_line_named_first() {
    let p = five_lines();
    let turned = with(&p, |p| set_gate_lines(p, 1, 3));
    assert_eq!(output(&turned, 11, 2, 8), "00011111");
    assert_eq!(output(&turned, 11, 4, 6), "000000");
    for line in 0..5 {
        for pixel in 0..line_length(&p, line) {
            let difference = level(&p, line, pixel).unwrap() ^ level(&turned, line, pixel).unwrap();
            assert_eq!(difference & !0x0800, 0);
        }
    }
}

/// The lines differ and lie in the field; the last one does.
#[test]
fn rule_14_of_the_lines() {
    let at = |gate, gate2| {
        check(&with(&five_lines(), |p| {
            set_gate_lines(p, gate, gate2);
            p.field.second = NO_SECOND;
        }))
    };
    for (gate, gate2) in [(3, 3), (0, 0), (5, 1), (1, 5), (5, 5), (4094, 1), (1, 4094)] {
        assert_eq!(at(gate, gate2), refused(14, 0));
    }
    for (gate, gate2) in [(0, 1), (1, 0), (4, 0), (0, 4), (4, NO_GATE2)] {
        assert_eq!(at(gate, gate2), Ok(()));
    }
    for (gate, gate2) in [(1, 4095), (1, 65_534), (4095, 1), (65_535, 1)] {
        assert_eq!(at(gate, gate2), refused(5, 0));
    }
}

/// The first pattern ends at 7 on lines 0, 2 and 4 and at 4 on lines 1 and 3: a
/// second pattern of length 4 or 6 is allowed on lines 1 and 3 alone, one of
/// length 7 on all but line 4, which has 6 pixels.
#[test]
fn rule_14_of_the_second_pattern_on_each_line() {
    let at = |gate, gate2, length| {
        check(&with(&five_lines(), |p| {
            set_gate_lines(p, gate, gate2);
            set_length(p, 1, length);
        }))
    };
    for (one, other) in [(0, 1), (1, 2), (3, 0), (3, 4), (0, 2)] {
        for length in [4, 6] {
            assert_eq!(at(one, other, length), refused(14, 0));
            assert_eq!(at(other, one, length), refused(14, 0));
        }
    }
    assert_eq!((at(1, 3, 6), at(3, 1, 7)), (Ok(()), Ok(())));
    for (one, other) in [(0, 1), (2, 3), (0, 2)] {
        assert_eq!((at(one, other, 7), at(other, one, 7)), (Ok(()), Ok(())));
    }
    for line in 0..4 {
        assert_eq!((at(line, 4, 7), at(4, line, 7)), (refused(14, 0), refused(14, 0)));
    }
    assert_eq!((at(1, 3, 8), at(1, 3, 3)), (refused(14, 0), refused(14, 0)));
    // One of the lines in a sweep region.
    let sweep = |gate, gate2| {
        check(&with(&five_lines(), |p| {
            p.sequences[1] = sequence(0, 8, 1, 1, 1, 0);
            p.field = field(5, 6, gate, 1, &[region(0, 0, Mode::Plain), region(2, 1, Mode::Sweep)]);
            p.field.gate2 = gate2;
        }))
    };
    assert_eq!(sweep(1, NO_GATE2), Ok(()));
    assert_eq!((sweep(1, 3), sweep(3, 1)), (refused(14, 0), refused(14, 0)));
}

/// A pulse must fit the line of 6 pixels and the one of 8.
#[test]
fn rule_15_on_each_line() {
    let at = |gate_line, gate2, on, toggle2| {
        check(&with(&five_lines(), |p| {
            p.field.second = NO_SECOND;
            set_gate_lines(p, gate_line, gate2);
            p.gates[3] = gate(on, 0, 4, toggle2);
        }))
    };
    assert_eq!((at(1, 4, 1, 5), at(4, 1, 1, 5)), (Ok(()), Ok(())));
    assert_eq!((at(1, 4, 1, 6), at(4, 1, 1, 6)), (refused(15, 3), refused(15, 3)));
    assert_eq!((at(1, 4, 0, 6), at(4, 1, 0, 4095)), (Ok(()), Ok(())));
    assert_eq!((at(1, 3, 1, 7), at(1, 3, 1, 8)), (Ok(()), refused(15, 3)));
    assert_eq!(at(1, 3, 1, 4), refused(15, 3));
}

#[test]
fn both_forms_are_read() {
    let before = &script_a()[..98];
    let read_with = |field: &[u8]| read(&[before, field].concat());
    let two = with(&profile_a(), |p| p.field.gate2 = 1);
    assert_eq!(read_with(&FIELD_A), Ok(profile_a()));
    assert_eq!(read_with(&FIELD_A_TWO), Ok(two));
    // The new form with 65,535 is the same profile as the old form.
    let mut none = FIELD_A_TWO;
    none[10..12].fill(0xFF);
    assert_eq!(in_new_form(&FIELD_A), none);
    assert_eq!(read_with(&none), Ok(profile_a()));
    // The later record replaces the earlier, whichever their forms.
    assert_eq!(read_with(&[&FIELD_A_TWO[..], &FIELD_A].concat()), Ok(profile_a()));
    assert_eq!(read_with(&[&FIELD_A[..], &FIELD_A_TWO].concat()), Ok(two));
    // 0, the first line too; 2, outside; 4095 and 65,534, out of range.
    for (value, answer) in [(0, refused(14, 0)), (2, refused(14, 0)), (4094, refused(14, 0)), (4095, refused(5, 98)), (65_534, refused(5, 98))] {
        let mut field = FIELD_A_TWO;
        field[10..12].copy_from_slice(&u16::to_le_bytes(value));
        assert_eq!(read_with(&field), answer);
    }
    // An n that disagrees with its form: 5. A length of neither form: 4.
    for (field, at) in [(&FIELD_A[..], 12), (&FIELD_A_TWO[..], 14)] {
        for n in [0, 2] {
            let mut field = field.to_vec();
            field[at] = n;
            assert_eq!(read_with(&field), refused(5, 98));
        }
    }
    for length in (0..=70).filter(|l| ![16, 22, 28, 34, 40, 46, 52, 18, 24, 30, 36, 42, 48, 54].contains(l)) {
        assert_eq!(read_with(&raw_record(length, 3, &[0; 70])), refused(4, 98));
    }
}

/// "The writer uses the old form when there is no second gate line".
#[test]
fn both_forms_are_written() {
    let field_at = 960 + 18;
    let written = |p: &Profile| records(p).concat()[field_at..].to_vec();
    assert_eq!(written(&profile_a()), FIELD_A);
    assert_eq!(written(&with(&profile_a(), |p| p.field.gate2 = 1)), FIELD_A_TWO);
}

/// "nothing present, all zeros": an absent field has second gate line 0.
#[test]
fn an_absent_field_has_no_numbers() {
    assert_eq!(Profile::empty().field.gate2, 0);
    for gate2 in [1, 4094, 65_535] {
        assert_eq!(check(&with(&Profile::empty(), |p| p.field.gate2 = gate2)), refused(5, 0));
    }
    assert_eq!(check(&Profile::empty()), refused(6, 0));
}

// ---------------------------------------------------------------------------
// What the batches have

/// Every profile that is handed in, with the check's answer; every script that
/// is read, and the field records among them, with the reader's number.
struct Asked {
    profiles: Vec<(Profile, Result<(), Refusal>)>,
    scripts: BTreeSet<Vec<u8>>,
    fields: Vec<(u8, Vec<u16>)>,
}

fn asked(cases: &[Case]) -> Asked {
    let mut asked = Asked { profiles: Vec::new(), scripts: BTreeSet::new(), fields: Vec::new() };
    for case in cases {
        match case {
            Case::Read { script } => {
                asked.fields.extend(field_of(script));
                asked.scripts.insert(script.clone());
            }
            Case::Check { profile }
            | Case::Write { profile, .. }
            | Case::Level { profile, .. }
            | Case::NextEdge { profile, .. }
            | Case::Locate { profile, .. }
            | Case::Compile { profile, .. } => asked.profiles.push((*profile, check(profile))),
            Case::Play { .. } | Case::Text { .. } | Case::ReadChunks { .. } | Case::ReadOn { .. } => {}
        }
    }
    asked
}

impl Asked {
    fn has(&self, what: &str, answer: Result<(), Refusal>, right: impl Fn(&Profile) -> bool) {
        let found = self.profiles.iter().any(|(p, answered)| *answered == answer && right(p));
        assert!(found, "no profile handed in: {what}");
    }

    /// The same of a profile whose script is read too.
    fn has_read(&self, what: &str, answer: Result<(), Refusal>, right: impl Fn(&Profile) -> bool) {
        let of_a_script = |p: &Profile| check_ranges(p).is_ok() && right(p) && self.scripts.contains(&short_script(p));
        let found = self.profiles.iter().any(|(p, answered)| *answered == answer && of_a_script(p));
        assert!(found, "no script: {what}");
    }

    fn has_both(&self, what: &str, answer: Result<(), Refusal>, right: impl Fn(&Profile) -> bool) {
        self.has(what, answer, &right);
        self.has_read(what, answer, &right);
    }

    /// A script with such a number of refusal, and such a field record: the one
    /// that is refused by 5, else the last.
    fn has_field(&self, what: &str, number: u8, right: impl Fn(&[u16]) -> bool) {
        let found = self.fields.iter().any(|(answered, body)| *answered == number && right(body));
        assert!(found, "no field record: {what}");
    }
}

/// What reading a script answers, and the numbers of its field record that is
/// refused by 5, else of the last one; nothing where there is none.
fn field_of(script: &[u8]) -> Option<(u8, Vec<u16>)> {
    let (number, place) = read(script).err().map_or((0, 0), |r| (r.number, r.place as usize));
    let mut last = None;
    let mut at = 0;
    while let Some(header) = script.get(at..at + 4) {
        let end = at + 4 + u16::from_le_bytes([header[0], header[1]]) as usize;
        let body = script.get(at + 4..end)?;
        let is_field = header[2..] == [3, 0];
        if is_field {
            last = Some(body);
        }
        if number == 5 && at == place {
            last = is_field.then_some(body);
            break;
        }
        at = end;
    }
    let numbers = last?.chunks_exact(2).map(|b| u16::from_le_bytes([b[0], b[1]]));
    Some((number, numbers.collect()))
}

fn two_lines(p: &Profile) -> bool {
    p.field.present && p.field.gate2 != NO_GATE2
}

fn inside(p: &Profile, line: u16) -> bool {
    line < p.field.lines
}

/// The clauses of 14 for a second pattern that speak of a line: plain region,
/// shorter than the line, after the line's run.
fn clauses(p: &Profile, line: u16) -> [bool; 3] {
    let line = line as u64;
    let region = region_of_line(p, line);
    let s = p.sequence_of(region);
    let (length, r) = (p.pattern(p.field.second).length, repetitions(s, line));
    let run = s.start as u64 + r * p.pattern(s.pattern).length;
    [p.field.regions[region].mode == Mode::Plain, length < line_length(p, line), r == 0 || run <= length]
}

/// The gate lines in both orders.
fn orders(p: &Profile) -> impl Iterator<Item = (u16, u16)> {
    let Field { gate, gate2, .. } = p.field;
    [(gate, gate2), (gate2, gate)].into_iter()
}

/// Whether a second pattern holds on one gate line and breaks a clause on the
/// other.
fn differs_on_one(p: &Profile, holds: u16, breaks: u16, clause: usize) -> bool {
    let lines_right = two_lines(p) && inside(p, holds) && inside(p, breaks) && holds != breaks;
    lines_right && p.field.second <= 9 && clauses(p, holds) == [true; 3] && !clauses(p, breaks)[clause]
}

/// The same, and it breaks no other clause there.
fn holds_on_one(p: &Profile, holds: u16, breaks: u16, clause: usize) -> bool {
    let broken = |p: &Profile| clauses(p, breaks).into_iter().filter(|holds| !holds).count();
    differs_on_one(p, holds, breaks, clause) && broken(p) == 1
}

/// Whether a gate fits one gate line and not the other.
fn fits_one(p: &Profile, number: usize, fits: u16, passes: u16) -> bool {
    let g = p.gates[number];
    let below = |line: u16| (g.toggle2 as u64) < line_length(p, line as u64);
    two_lines(p) && g.on == 1 && g.toggle1 < g.toggle2 && below(fits) && !below(passes)
}

fn has_lines(asked: &Asked) {
    asked.has_both("equal lines", refused(14, 0), |p| two_lines(p) && p.field.gate == p.field.gate2);
    let outside = |p: &Profile| two_lines(p).then_some((inside(p, p.field.gate), inside(p, p.field.gate2)));
    asked.has_both("the first outside", refused(14, 0), |p| outside(p) == Some((false, true)));
    asked.has_both("the second outside", refused(14, 0), |p| outside(p) == Some((true, false)));
    for second in [true, false] {
        let right = |p: &Profile| two_lines(p) && (p.field.second != NO_SECOND) == second;
        asked.has_both("the second before the first", Ok(()), |p| right(p) && p.field.gate2 < p.field.gate);
        asked.has_both("the second after the first", Ok(()), |p| right(p) && p.field.gate < p.field.gate2);
        asked.has_both("the first is the last line", Ok(()), |p| right(p) && p.field.gate + 1 == p.field.lines);
        asked.has_both("the second is the last line", Ok(()), |p| right(p) && p.field.gate2 + 1 == p.field.lines);
    }
}

fn has_one_line_only(asked: &Asked) {
    for (clause, name) in ["plain region", "shorter than the line", "after the run"].into_iter().enumerate() {
        let holds_first = |p: &Profile| holds_on_one(p, p.field.gate, p.field.gate2, clause);
        let holds_second = |p: &Profile| holds_on_one(p, p.field.gate2, p.field.gate, clause);
        asked.has_both(&format!("{name}: on the first alone"), refused(14, 0), holds_first);
        asked.has_both(&format!("{name}: on the second alone"), refused(14, 0), holds_second);
    }
}

fn has_gates(asked: &Asked, gates: usize) {
    for number in 0..gates {
        let fits_first = |p: &Profile| fits_one(p, number, p.field.gate, p.field.gate2);
        let fits_second = |p: &Profile| fits_one(p, number, p.field.gate2, p.field.gate);
        asked.has_both(&format!("gate {number} fits the first alone"), refused(15, number), fits_first);
        asked.has_both(&format!("gate {number} fits the second alone"), refused(15, number), fits_second);
    }
}

/// Both forms, at each n where told; 65,535 in the new form; the edges of 5.
fn has_forms(asked: &Asked, regions: usize) {
    for n in 1..=regions {
        let has = |body: &[u16], head: usize| body.len() == head + 3 * n && body[head - 1] as usize == n;
        asked.has_field(&format!("the old form of {n}"), 0, |b| has(b, 5));
        asked.has_field(&format!("the new form of {n}"), 0, |b| has(b, 6) && b[3] != NO_GATE2);
        asked.has_field(&format!("the new form of {n} with 65,535"), 0, |b| has(b, 6) && b[3] == NO_GATE2);
        let less = |body: &[u16], head: usize| body.len() == head + 3 * n && (body[head - 1] as usize) < n;
        let more = |body: &[u16], head: usize| body.len() == head + 3 * n && body[head - 1] as usize > n;
        for (form, head) in [("old", 5), ("new", 6)] {
            asked.has_field(&format!("an n below {n} in the {form} form"), 5, |b| less(b, head));
            asked.has_field(&format!("an n above {n} in the {form} form"), 5, |b| more(b, head));
        }
    }
}

/// SUBCK pulses on a line of the field, counted from the first gate line, and
/// the second comes before it.
fn subck_after_the_second(p: &Profile) -> bool {
    let from = p.field.gate as u64 + p.subck.suppressed as u64;
    let from_second = p.field.gate2 as u64 + p.subck.suppressed as u64;
    two_lines(p) && p.subck.present && p.subck.count > 0 && from < p.field.lines as u64 && from_second < from
}

#[test]
fn the_stored_batch_has_two_gate_lines() {
    let cases = stored::cases();
    let asked = asked(&cases);
    has_lines(&asked);
    has_one_line_only(&asked);
    has_gates(&asked, GATES);
    has_forms(&asked, REGIONS);
    for (value, number) in [(4094, 0), (4094, 14), (4095, 5), (65_534, 5), (65_535, 0)] {
        asked.has_field(&format!("second gate line {value}"), number, |b| b.len() % 3 == 0 && b[3] == value);
        let answer = if number == 0 { Ok(()) } else { refused(number, 0) };
        asked.has(&format!("second gate line {value}"), answer, |p| p.field.present && p.field.gate2 == value);
    }
    for value in [1, 65_535] {
        let absent = Field { gate2: value, ..Field::default() };
        asked.has(&format!("an absent field with {value}"), refused(5, 0), |p| p.field == absent);
    }
    let compiled = |p: &Profile| cases.iter().any(|c| matches!(c, Case::Compile { profile, .. } if profile == p));
    asked.has_both("SUBCK after the second line", Ok(()), |p| subck_after_the_second(p) && compiled(p));
}

/// Exactly enough room, one byte fewer and one more, of both forms; the longest
/// scripts of both.
#[test]
fn the_stored_batch_writes_both_forms() {
    let cases = stored::cases();
    for (two, longest) in [(false, 1312), (true, 1314)] {
        let mut seen = BTreeSet::new();
        for case in &cases {
            let Case::Write { profile, slice } = case else { continue };
            if check(profile).is_ok() && two_lines(profile) == two {
                let needed = records(profile).concat().len();
                seen.insert((needed, slice.len() as i64 - needed as i64));
            }
        }
        for room in [-1, 0, 1] {
            assert!(seen.contains(&(longest, room)), "no room of {room} more than {longest}");
        }
        assert_eq!(seen.last().unwrap().0, longest);
    }
}

/// As many cases as are compared.
#[test]
fn a_random_batch_has_two_gate_lines() {
    for seed in 1..=3 {
        let asked = asked(&random::cases(seed, 6000));
        let has = |what: &str, answer, right: &dyn Fn(&Profile) -> bool| asked.has(what, answer, right);
        has("the second before the first", Ok(()), &|p| two_lines(p) && p.field.gate2 < p.field.gate);
        has("the second is the last line", Ok(()), &|p| two_lines(p) && p.field.gate2 + 1 == p.field.lines);
        has("a second pattern on both", Ok(()), &|p| two_lines(p) && p.field.second != NO_SECOND);
        has("SUBCK after the second line", Ok(()), &subck_after_the_second);
        has("equal lines", refused(14, 0), &|p| two_lines(p) && p.field.gate == p.field.gate2);
        has("the second outside", refused(14, 0), &|p| two_lines(p) && inside(p, p.field.gate) && !inside(p, p.field.gate2));
        has("out of range", refused(5, 0), &|p| p.field.present && (4095..65_535).contains(&p.field.gate2));
        let fits = |p: &Profile, number: usize| orders(p).any(|(one, other)| fits_one(p, number, one, other));
        let fits_one_line = |(p, answered): &(Profile, _)| (0..GATES).any(|i| *answered == refused(15, i) && fits(p, i));
        assert!(asked.profiles.iter().any(fits_one_line), "no gate that fits one line");
        for clause in 0..3 {
            let one_line = |p: &Profile| orders(p).any(|(one, other)| differs_on_one(p, one, other, clause));
            has(&format!("clause {clause} on one line"), refused(14, 0), &one_line);
        }
        asked.has_field("the old form", 0, |b| b.len() % 3 == 2);
        asked.has_field("the new form", 0, |b| b.len() % 3 == 0 && b[3] != NO_GATE2);
        asked.has_field("the new form with 65,535", 0, |b| b.len() % 3 == 0 && b[3] == NO_GATE2);
    }
}
