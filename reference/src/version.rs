//! Rule versions: 1 is the first rules, 2 has runs that flip. Both stay. They are
//! apart only in how the runs of a pattern follow each other: refusals, scripts
//! and pixel counts are the same in both.

/// What a call that names no version goes by.
pub const NEWEST: u16 = 2;

/// "Runs flip, they do not start over", from version 2 on. A version is any
/// number: 0 acts as 1, 3 and more act as 2.
pub fn runs_flip(version: u16) -> bool {
    version >= 2
}
