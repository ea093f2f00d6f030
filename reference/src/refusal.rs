//! Numbers of refusal. 0 (accepted) is `Ok`; everything else is a `Refusal`.

/// A number of 01's table "Numbers of refusal" and the place returned with it.
/// At 10 also the lowest output, 1 to 6, that has a used toggle out of order,
/// and its lowest such toggle, 2 or 3; else both are 0.
#[derive(Clone, Copy, PartialEq, Eq, Debug)]
pub struct Refusal {
    pub number: u8,
    pub place: u64,
    pub output: usize,
    pub toggle: usize,
}

pub const SCRIPT_TOO_LONG: u8 = 1;
pub const CUT_SHORT: u8 = 2;
pub const UNKNOWN_KIND: u8 = 3;
pub const LENGTH_NOT_ALLOWED: u8 = 4;
pub const OUT_OF_RANGE: u8 = 5;
pub const NO_FIELD: u8 = 6;
pub const REGION_ORDER: u8 = 7;
pub const SEQUENCE_NOT_GIVEN: u8 = 8;
pub const PATTERN_LENGTH_ZERO: u8 = 9;
pub const TOGGLE_ORDER: u8 = 10;
pub const MASK: u8 = 11;
pub const REPETITION_COUNTS: u8 = 12;
pub const RUN_PASSES_REGION: u8 = 13;
pub const GATE_LINE_OR_SECOND: u8 = 14;
pub const GATE_PULSE: u8 = 15;
pub const SUBCK: u8 = 16;
pub const SHUTTER: u8 = 17;
pub const NO_ROOM: u8 = 18;
pub const NO_SUCH_PLACE: u8 = 19;
pub const PLAY_COUNT: u8 = 20;

/// `Err(number at place)` unless the rule holds.
pub fn demand(holds: bool, number: u8, place: usize) -> Result<(), Refusal> {
    if holds {
        Ok(())
    } else {
        Err(refusal(number, place))
    }
}

/// A refusal that names no output and no toggle.
pub fn refusal(number: u8, place: usize) -> Refusal {
    Refusal { number, place: place as u64, output: 0, toggle: 0 }
}
