//! Sound states that no start need lead to, and what becomes of one where its
//! records name another staged set.

use crate::image::{limits, make_image, put_limits, turned_round};
use crate::lasting::{index, OF_CONDITIONS, OF_RECEIVED_POWER};
use crate::rng::Rng;
use crate::staged::other;
use crate::state::State;
use second::applications::find_descriptor;
use second::lanes::*;
use second::module::as_copied;
use second::registers::*;

/// Builds a state meant to be sound, with the module and its paths in any state,
/// bits pending, groups of either set in progress at any point, some of the flags
/// on; the caller asks whether it is.
pub fn make_sound_state(rng: &mut Rng) -> State {
    let mut image = make_image(rng, true);
    // Bytes that no start would leave: soundness says nothing of them.
    for byte in image[P10 + 128..].iter_mut() {
        *byte = rng.byte();
    }
    for place in [8, 9, 31, 37] {
        image[place] = rng.byte();
    }
    image[MODULE_STATE] = if rng.percent(50) { rng.byte() } else { 0x07 };
    image[MODULE_CONTROLS] = if rng.percent(50) { rng.byte() } else { 0x40 };
    let line = rng.percent(30);
    // Nor does it say anything of the limits' order: only start asks.
    if rng.percent(30) {
        let rising = limits(&image);
        put_limits(&mut image, turned_round(rising, rng.below(4)));
    }
    image[BANK_SELECT] = rng.pick(&[0, 0, 0, 3]);
    image[PAGE_SELECT] = rng.pick(&[0x10, 0x11, 0x10, 0x11, 0x9F, 0x02, 0x42]);
    let mut state = State { image, working: Working { line, ..Working::AT_START } };
    let put = |image: &mut [u8; IMAGE_LEN], place: usize, lane: u8, value: u8| {
        let byte = &mut image[place + lane as usize / 2];
        let shift = 4 * (lane % 2);
        *byte = *byte & !(15 << shift) | value << shift;
    };
    for lane in 0..8u8 {
        state.image[ACTIVE_DP_CONFIG + lane as usize] = rng.byte() & 0x0F;
        put(&mut state.image, DP_STATE, lane, 1);
        put(&mut state.image, CONFIG_STATUS, lane, rng.pick(&[0, 1, 2, 7, 15]));
    }
    state.image[DP_INIT_PENDING] = 0;

    // What is on is 1 in its flag byte; not every flag that is 1 is on.
    for flag_byte in OF_CONDITIONS.into_iter().chain(OF_RECEIVED_POWER) {
        let lanes = state.image[P11 + flag_byte as usize] & rng.byte();
        state.working.on[index(flag_byte)] = lanes;
    }

    // Whole paths on lanes that are still free.
    let mut free = 0xFFu8;
    let mut paths = Vec::new();
    for _ in 0..6 {
        let app_sel = 1 + rng.byte() % 15;
        let first = rng.byte() & 7;
        let lanes = match find_descriptor(&state.image, app_sel).and_then(|d| d.lanes_from(first)) {
            Some(lanes) if lanes & !free == 0 => lanes,
            _ => continue,
        };
        free &= !lanes;
        let dp_state = rng.pick(&[1, 1, 2, 3, 4, 4, 5, 6, 7, 7]);
        let unused = dp_state == 1 && rng.percent(30);
        for lane in LaneSet(lanes) {
            if !unused {
                let control = rng.byte() & 1;
                state.image[ACTIVE_DP_CONFIG + lane as usize] = app_sel << 4 | first << 1 | control;
                put(&mut state.image, DP_STATE, lane, dp_state);
                state.image[DP_INIT_PENDING] |= (rng.byte() & 1) << lane;
            }
        }
        paths.push((lanes, app_sel, first));
    }

    // Groups in progress: passes on paths, releases, rejections of anything.
    let mut idle = 0xFFu8;
    for _ in 0..5 {
        let kind = rng.below(4);
        let (group, app_sel, id) = match kind {
            0 | 1 if !paths.is_empty() => {
                let (lanes, app_sel, id) = rng.pick(&paths);
                (lanes, app_sel, id)
            }
            2 => (rng.byte() & rng.byte(), 0, 0),
            _ => (rng.byte() & rng.byte(), rng.byte() & 15, rng.byte() & 7),
        };
        if group == 0 || group & !idle != 0 {
            continue;
        }
        idle &= !group;
        let release = kind == 1 && rng.percent(50) || kind == 2;
        let verdict = if kind == 3 || rng.percent(20) {
            Verdict::Reject { code: 2 + rng.byte() % 6 }
        } else {
            let lanes: Vec<u8> = LaneSet(group).chain(Some(8)).collect();
            Verdict::Pass { next: rng.pick(&lanes) }
        };
        let trigger = rng.pick(&[Trigger::ApplyDPInit, Trigger::ApplyImmediate]);
        let set = rng.pick(&StagedSet::BOTH);
        for lane in LaneSet(group) {
            let held = Settings {
                app_sel: if release { 0 } else { app_sel },
                data_path_id: if release { rng.byte() & 7 } else { id },
                explicit_control: rng.percent(50),
                adaptive_eq: rng.percent(50),
                cdr_tx: rng.percent(50),
                cdr_rx: rng.percent(50),
                input_eq: rng.byte() & 15,
                pre_cursor: rng.byte() & 15,
                post_cursor: rng.byte() & 15,
                amplitude: rng.byte() & 15,
            };
            state.working.lanes[lane as usize] =
                Stage::InProgress(Apply { group, trigger, set, held, verdict });
            put(&mut state.image, CONFIG_STATUS, lane, 12);
            if matches!(verdict, Verdict::Pass { next } if lane < next) {
                let new = as_copied(held);
                state.image[ACTIVE_DP_CONFIG + lane as usize] =
                    new.app_sel << 4 | new.data_path_id << 1 | new.explicit_control as u8;
                for &(place, on) in &[
                    (ACTIVE_ADAPTIVE_EQ, new.adaptive_eq),
                    (ACTIVE_CDR_TX, new.cdr_tx),
                    (ACTIVE_CDR_RX, new.cdr_rx),
                ] {
                    state.image[place] = state.image[place] & !(1 << lane) | (on as u8) << lane;
                }
                put(&mut state.image, ACTIVE_INPUT_EQ, lane, new.input_eq);
                put(&mut state.image, ACTIVE_PRE_CURSOR, lane, new.pre_cursor);
                put(&mut state.image, ACTIVE_POST_CURSOR, lane, new.post_cursor);
                put(&mut state.image, ACTIVE_AMPLITUDE, lane, new.amplitude);
            }
        }
    }
    state
}

/// The state with these lanes' records saying that they were held from the other
/// set.
fn with_set_exchanged(state: &State, lanes: u8) -> State {
    let mut exchanged = state.clone();
    for lane in LaneSet(lanes) {
        if let Stage::InProgress(apply) = &mut exchanged.working.lanes[lane as usize] {
            apply.set = other(apply.set);
        }
    }
    exchanged
}

/// The state with every group held from the other set, which is as sound.
pub fn with_sets_exchanged(state: &State) -> State {
    with_set_exchanged(state, 0xFF)
}

/// The state with a group of two sets, which is not sound, if it has a group of
/// more than one lane.
pub fn with_a_group_of_two_sets(state: &State, rng: &mut Rng) -> Option<State> {
    let in_company = state.lanes_where(|lane| match state.apply(lane) {
        Some(apply) => apply.group.count_ones() > 1,
        None => false,
    });
    if in_company == 0 {
        return None;
    }
    let group = state.apply(rng.lane_of(in_company))?.group;
    // At least one lane and not all of them.
    let lanes = group & rng.byte() & !(1 << rng.lane_of(group));
    let lanes = if lanes == 0 { 1 << rng.lane_of(group) } else { lanes };
    Some(with_set_exchanged(state, lanes))
}
