//! The module's states, said plainly: when low power is asked for, what the
//! module event and the line do, what holds every path down, and what a reset
//! leaves. Held against the core after every event.

use crate::state::State;
use second::lanes::Working;
use second::module::Event;
use second::registers::*;

/// The two ways in which low power is asked for: bit 4 of lower 26, and the
/// line where bit 6 lets it.
pub fn requests(state: &State) -> [bool; 2] {
    let controls = state.image[26];
    [controls & 0x10 != 0, controls & 0x40 != 0 && state.working.line]
}

pub fn low_power(state: &State) -> bool {
    requests(state) != [false; 2]
}

/// Whether the module, or low power, holds every path down.
pub fn holds_down(state: &State) -> bool {
    state.module_state() != 3 || low_power(state)
}

pub fn all_deactivated(state: &State) -> bool {
    (0..8).all(|lane| state.dp_state(lane) == 1)
}

/// The state that a module event leads to, and whether it raises 8.0.
fn moved(state: &State) -> (u8, bool) {
    match (state.module_state(), low_power(state)) {
        (1, true) => (1, false),
        (1, false) => (2, false),
        (2, true) => (4, false),
        (2, false) => (3, true),
        (3, true) if all_deactivated(state) => (4, false),
        (3, _) => (3, false),
        (4, asked_for) => (1, asked_for),
        (none_of_these, _) => (none_of_these, false),
    }
}

/// The byte that a write puts into lower 26.
pub fn controls_written(address: u8, data: &[u8]) -> Option<u8> {
    (address as usize..).zip(data).find(|&(place, _)| place == 26).map(|(_, &byte)| byte)
}

/// Whether a write, if it is done, resets the module.
pub fn resets(address: u8, data: &[u8]) -> bool {
    controls_written(address, data).map_or(false, |byte| byte & 0x08 != 0)
}

/// The bytes of a write, if the event is one.
fn written(event: &Event) -> (u8, &[u8]) {
    match event {
        Event::Write { address, count, data } => (*address, &data[..(*count as usize).min(8)]),
        _ => (0, &[]),
    }
}

/// Whether an event that is done resets the module.
pub fn is_reset(event: &Event) -> bool {
    let (address, data) = written(event);
    resets(address, data)
}

/// What a reset leaves: what start keeps, the few values that it sets, and the
/// line.
fn left_by_reset(before: &State) -> State {
    let mut image = [0; IMAGE_LEN];
    let pages_00h_to_02h = 128..512;
    for kept in [0..3, 39..41, 85..118, pages_00h_to_02h] {
        image[kept.clone()].copy_from_slice(&before.image[kept]);
    }
    image[3] = 0x03;
    image[26] = 0x40;
    image[P11 + 128..P11 + 132].fill(0x11);
    State { image, working: Working { line: before.working.line, ..Working::AT_START } }
}

/// The state that a path comes to by a hardware event while it is held down.
fn wound_down(dp_state: u8) -> u8 {
    match dp_state {
        2 | 7 => 3,
        4 | 5 => 6,
        6 => 7,
        _ => 1,
    }
}

/// Holds an event that is done against the rules above.
pub fn powers_plainly(before: &State, event: &Event, after: &State) -> Result<(), String> {
    let right = if is_reset(event) {
        *after == left_by_reset(before)
    } else {
        registers_fit(before, event, after)
            && after.working.line == line_after(before, event)
            && match *event {
                Event::Module | Event::Line { .. } => rest_stays(before, after),
                Event::Hardware { lane } if holds_down(before) => {
                    after.dp_state(lane) == wound_down(before.dp_state(lane))
                }
                _ => true,
            }
    };
    if right {
        Ok(())
    } else {
        Err(format!("{:?} leaves the module otherwise than the plain rules of its states", event))
    }
}

/// Lower 3 but for the interrupt, 8.0 and lower 26 after an event that resets
/// nothing.
fn registers_fit(before: &State, event: &Event, after: &State) -> bool {
    let (moves_to, raises) = match event {
        Event::Module => moved(before),
        _ => (before.module_state(), false),
    };
    let reads_8 = matches!(*event, Event::Read { address, count }
        if address <= 8 && address as usize + count as usize > 8);
    let changed = if reads_8 { 0 } else { before.image[8] & 0x01 | raises as u8 };
    let (address, data) = written(event);
    let controls = controls_written(address, data).unwrap_or(before.image[26]);
    after.image[3] & 0xFE == before.image[3] & 0xF0 | moves_to << 1
        && after.image[8] & 0x01 == changed
        && after.image[26] == controls
}

fn line_after(before: &State, event: &Event) -> bool {
    match event {
        Event::Line { on } => *on,
        _ => before.working.line,
    }
}

/// Whether nothing has changed but lower 3, 8.0 and the line.
fn rest_stays(before: &State, after: &State) -> bool {
    let mut rest = after.clone();
    rest.image[3] = before.image[3];
    rest.image[8] = after.image[8] & 0xFE | before.image[8] & 0x01;
    rest.working.line = before.working.line;
    rest == *before
}
