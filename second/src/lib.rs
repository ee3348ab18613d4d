//! A register core for an eight-lane paged optical module, and the replay of
//! its night files: the independent second program.
//!
//! From the ground up, each using only what stands before it:
//!
//! * `registers`: addresses and codes, and the two staged sets.
//! * `lanes`: the lane records with what is on, the low-power line, and sets of
//!   lanes.
//! * `applications`: the list of descriptors.
//! * `commands`: command messages on page 9Fh.
//! * `soundness`: the six conditions (a) to (f) as a test.
//! * `module`: `start` and the nine events, one by one (`desk`) or as a list
//!   (`desk_list`); `Module::step` is the same without the question of
//!   soundness.
//! * `night`: the check of a night file and the replay, from the file's
//!   bytes to the printed bytes (`replay`).
//! * `stream`: the same for a file that comes in pieces (`Stream`).

#![forbid(unsafe_code)]

pub mod applications;
pub mod commands;
pub mod lanes;
pub mod module;
pub mod night;
pub mod registers;
pub mod soundness;
pub mod stream;

#[cfg(test)]
mod cases;
