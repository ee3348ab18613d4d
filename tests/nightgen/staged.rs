//! Where the two staged sets lie on page 10h.

use second::lanes::Trigger;
use second::registers::{StagedSet, P10};

/// Where a set has its settings.
pub struct Places {
    pub dp_config: usize,
    pub adaptive_eq: usize,
    pub input_eq: usize,
    pub cdr_tx: usize,
    pub cdr_rx: usize,
    pub pre_cursor: usize,
    pub post_cursor: usize,
    pub amplitude: usize,
}

/// Both sets as 002 prints them, each register at its own address.
pub const fn places(set: StagedSet) -> Places {
    match set {
        StagedSet::Zero => Places {
            dp_config: P10 + 145,
            adaptive_eq: P10 + 153,
            input_eq: P10 + 156,
            cdr_tx: P10 + 160,
            cdr_rx: P10 + 161,
            pre_cursor: P10 + 162,
            post_cursor: P10 + 166,
            amplitude: P10 + 170,
        },
        StagedSet::One => Places {
            dp_config: P10 + 180,
            adaptive_eq: P10 + 188,
            input_eq: P10 + 191,
            cdr_tx: P10 + 195,
            cdr_rx: P10 + 196,
            pre_cursor: P10 + 197,
            post_cursor: P10 + 201,
            amplitude: P10 + 205,
        },
    }
}

/// The trigger at an address of page 10h, with the set that it applies.
pub fn trigger_at(address: u8) -> Option<(StagedSet, Trigger)> {
    match address {
        143 => Some((StagedSet::Zero, Trigger::ApplyDPInit)),
        144 => Some((StagedSet::Zero, Trigger::ApplyImmediate)),
        178 => Some((StagedSet::One, Trigger::ApplyDPInit)),
        179 => Some((StagedSet::One, Trigger::ApplyImmediate)),
        _ => None,
    }
}

/// Whether an address of page 10h keeps what is written to it.
pub fn keeps(address: u8) -> bool {
    match address {
        128..=132 | 137..=139 | 213..=232 => true,
        145..=153 | 156..=173 => true,
        180..=188 | 191..=208 => true,
        _ => false,
    }
}

/// The address that a set has for one of set 0.
pub fn address(set: StagedSet, in_set_0: u8) -> u8 {
    match set {
        StagedSet::Zero => in_set_0,
        StagedSet::One => in_set_0 + 35,
    }
}

pub fn other(set: StagedSet) -> StagedSet {
    match set {
        StagedSet::Zero => StagedSet::One,
        StagedSet::One => StagedSet::Zero,
    }
}

/// Of two things, the one for a set.
pub fn of_set<T: Copy>(set: StagedSet, things: [T; 2]) -> T {
    things[set as usize]
}
