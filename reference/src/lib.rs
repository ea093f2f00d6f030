//! A second implementation of document 01 ("What will be built, and the
//! rules", the output and toggle that refusal 10 names, a second gate line of
//! the field, runs that flip, the next edge, and scripts that arrive in chunks),
//! written from the papers alone.
//! It is there to be compared with: clear before fast, and total: every entry
//! point has an answer for any bytes, any numbers in a profile or an upload
//! handed in, any line, pixel, position and rule version.
//!
//! - `profile`: the profile and its parts, and their raw order
//! - `refusal`: the numbers of refusal
//! - `ranges`:  refusal 5 for items of a profile
//! - `rules`:   refusals 6 to 17, and the check
//! - `script`:  reading and writing
//! - `upload`:  reading in chunks
//! - `version`: the rule versions
//! - `word`:    the word at a line and pixel, and the place of a field pixel
//! - `edge`:    the next edge
//! - `list`:    compiling and playing a hold list
//! - `text`:    what the program prints
//! - `case`:    the batch format and the printed answers
//! - `make`, `stops`, `stored`, `random`: the batches

pub mod case;
pub mod edge;
pub mod list;
pub mod make;
pub mod profile;
pub mod random;
pub mod ranges;
pub mod refusal;
pub mod rules;
pub mod script;
pub mod stops;
pub mod stored;
pub mod text;
pub mod upload;
pub mod version;
pub mod word;

#[cfg(test)]
mod tests;
