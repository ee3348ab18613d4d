//! Grouping, verdicts, triggers and the interrupt, said plainly: held against the
//! core on every write on page 10h, and after every event.

use crate::staged::{keeps, places, trigger_at};
use crate::state::State;
use second::lanes::*;
use second::registers::*;
use std::collections::BTreeMap;

/// Where the descriptors 1 to 15 begin, as 002 prints it.
pub const DESCRIPTOR_PLACES: [usize; 15] = [
    86, 90, 94, 98, 102, 106, 110, 114,
    P01 + 223, P01 + 227, P01 + 231, P01 + 235, P01 + 239, P01 + 243, P01 + 247,
];

/// Where the descriptor of an AppSel begins.
pub fn descriptor_at(app_sel: u8) -> usize {
    DESCRIPTOR_PLACES[app_sel as usize - 1]
}

/// Whether something is up that its mask lets through.
pub fn interrupts(image: &[u8; IMAGE_LEN]) -> bool {
    let of_a_lane = (0..20).any(|k| image[P11 + 134 + k] & !image[P10 + 213 + k] != 0);
    let of_a_command = image[8] & 0x40 != 0 && image[31] & 0x40 == 0;
    let of_the_module = image[8] & 0x01 != 0 && image[31] & 0x01 == 0;
    of_a_lane || of_a_command || of_the_module
}

/// The groups that the selected lanes of a set's trigger fall into.
pub fn groups(state: &State, set: StagedSet, selected: u8) -> Vec<u8> {
    let mut groups: BTreeMap<(u8, u8), u8> = BTreeMap::new();
    for lane in LaneSet(selected) {
        let staged = state.staged(set, lane);
        let key = if staged >> 4 != 0 {
            (0, staged >> 1 & 7)
        } else if state.active(lane) >> 4 != 0 {
            (1, state.active(lane) >> 1 & 7)
        } else {
            (2, lane)
        };
        *groups.entry(key).or_insert(0) |= 1 << lane;
    }
    groups.values().copied().collect()
}

/// Status code a group of a set will be closed with, and why.
pub fn judge(state: &State, set: StagedSet, trigger: Trigger, group: u8) -> (u8, &'static str) {
    let lanes: Vec<u8> = LaneSet(group).collect();
    let own = state.staged(set, lanes[0]);
    if own >> 4 == 0 {
        if state.active(lanes[0]) >> 4 == 0 {
            return (1, "1 release: lane on no path");
        }
        let path = state.path(lanes[0]);
        if path != group {
            return (7, "7 release: lane of the path missing");
        }
        if lanes.iter().any(|&lane| state.dp_state(lane) != 1) {
            return (6, "6 release: not DPDeactivated");
        }
        return (1, "1 release: whole path");
    }
    let app_sel = own >> 4;
    if lanes.iter().any(|&lane| state.staged(set, lane) >> 4 != app_sel) {
        return (4, "4 AppSels differ");
    }
    let at = descriptor_at(app_sel);
    if state.image[at] == 0xFF {
        return (3, "3 descriptor begins with FFh");
    }
    if (1..app_sel).any(|a| state.image[descriptor_at(a)] == 0xFF) {
        return (3, "3 earlier descriptor begins with FFh");
    }
    let count = state.image[at + 2] >> 4;
    if count == 0 || count > 8 {
        return (3, "3 host lane count not 1 to 8");
    }
    let first = own >> 1 & 7;
    if state.image[at + 3] >> first & 1 == 0 {
        return (4, "4 first lane not allowed");
    }
    if first + count > 8 {
        return (4, "4 path runs past lane 7");
    }
    if lanes.iter().any(|&lane| lane < first || lane >= first + count) {
        return (4, "4 lane outside the path");
    }
    if (first..first + count).any(|lane| !lanes.contains(&lane)) {
        return (7, "7 lane of the path not in the group");
    }
    if lanes.iter().any(|&lane| state.active(lane) >> 4 != 0 && state.path(lane) != group) {
        return (6, "6 lane on another active path");
    }
    for &lane in lanes.iter().filter(|&&lane| state.staged(set, lane) & 1 != 0) {
        if let Some(reason) = above_limits(state, &settings(state, set, lane)) {
            return (5, reason);
        }
    }
    let dp_state = state.dp_state(lanes[0]);
    let changes = lanes.iter().any(|&lane| state.active(lane) >> 4 != app_sel);
    match (dp_state, trigger) {
        (1, Trigger::ApplyDPInit) => (1, "1 ApplyDPInit in DPDeactivated"),
        (1, Trigger::ApplyImmediate) => (1, "1 ApplyImmediate in DPDeactivated"),
        (4, Trigger::ApplyImmediate) | (7, Trigger::ApplyImmediate) if changes => {
            (2, "2 ApplyImmediate changes AppSel")
        }
        (4, Trigger::ApplyImmediate) => (1, "1 ApplyImmediate in DPActivated"),
        (7, Trigger::ApplyImmediate) => (1, "1 ApplyImmediate in DPInitialized"),
        (4, _) | (7, _) if changes => (1, "1 ApplyDPInit changes AppSel outside DPDeactivated"),
        (4, Trigger::ApplyDPInit) => (1, "1 ApplyDPInit in DPActivated"),
        (7, Trigger::ApplyDPInit) => (1, "1 ApplyDPInit in DPInitialized"),
        _ => (2, "2 state is transient"),
    }
}

/// What is wrong with the settings of a lane with ExplicitControl, if something is.
fn above_limits(state: &State, settings: &Settings) -> Option<&'static str> {
    let (limits, cursors) = (state.image[P01 + 153], state.image[P01 + 154]);
    if settings.input_eq > limits & 15 {
        Some("5 input EQ above its limit")
    } else if settings.pre_cursor > cursors & 15 {
        Some("5 pre-cursor above its limit")
    } else if settings.post_cursor > cursors >> 4 {
        Some("5 post-cursor above its limit")
    } else if settings.amplitude > 3 {
        Some("5 amplitude code above 3")
    } else if limits & 16 << settings.amplitude == 0 {
        Some("5 amplitude code not supported")
    } else {
        None
    }
}

/// The settings that a set has staged for a lane.
pub fn settings(state: &State, set: StagedSet, lane: u8) -> Settings {
    let places = places(set);
    let dp_config = state.staged(set, lane);
    let bit = |place: usize| state.image[place] >> lane & 1 != 0;
    Settings {
        app_sel: dp_config >> 4,
        data_path_id: dp_config >> 1 & 7,
        explicit_control: dp_config & 1 != 0,
        adaptive_eq: bit(places.adaptive_eq),
        cdr_tx: bit(places.cdr_tx),
        cdr_rx: bit(places.cdr_rx),
        input_eq: state.nibble(places.input_eq, lane),
        pre_cursor: state.nibble(places.pre_cursor, lane),
        post_cursor: state.nibble(places.post_cursor, lane),
        amplitude: state.nibble(places.amplitude, lane),
    }
}

/// The state that a trigger leaves.
pub fn triggered(before: &State, set: StagedSet, trigger: Trigger, selected: u8) -> State {
    let mut after = before.clone();
    if trigger == Trigger::ApplyImmediate && before.image[2] & 0x40 != 0 {
        return after;
    }
    for group in groups(before, set, selected) {
        if group & before.in_progress() != 0 {
            continue;
        }
        let verdict = match judge(before, set, trigger, group).0 {
            1 => Verdict::Pass { next: group.trailing_zeros() as u8 },
            code => Verdict::Reject { code },
        };
        for lane in LaneSet(group) {
            let held = settings(before, set, lane);
            after.working.lanes[lane as usize] =
                Stage::InProgress(Apply { group, trigger, set, held, verdict });
            let status = &mut after.image[P11 + 202 + lane as usize / 2];
            *status = if lane % 2 == 0 { *status & 0xF0 | 0x0C } else { *status & 0x0F | 0xC0 };
        }
    }
    after
}

/// The state that a write on page 10h leaves: byte by byte, a trigger acts at its
/// own byte, and the interrupt is settled at the end.
pub fn left_by_write_on_10h(before: &State, address: u8, data: &[u8]) -> State {
    let mut state = before.clone();
    for (at, &byte) in (address..=255).zip(data) {
        match trigger_at(at) {
            Some((set, trigger)) => state = triggered(&state, set, trigger, byte),
            None if keeps(at) => state.image[P10 + at as usize] = byte,
            None => {}
        }
    }
    state.image[3] = state.image[3] & 0xFE | !interrupts(&state.image) as u8;
    state
}
