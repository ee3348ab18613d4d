//! Checks of the papers' claims: soundness, and demand 3.

use crate::aims::{Kinds, Maker};
use crate::lasting::lasts_plainly;
use crate::messages::{left_by_write, runs_command};
use crate::nights::Made;
use crate::power::{all_deactivated, is_reset, powers_plainly};
use crate::rng::Rng;
use crate::rules::{interrupts, left_by_write_on_10h};
use crate::sound_states::*;
use crate::staged::trigger_at;
use crate::state::*;
use second::lanes::*;
use second::module::*;
use second::registers::*;
use second::soundness;

#[derive(Default)]
pub struct Claims {
    pub events: u64,
    pub commands: u64,
    pub resets: u64,
    pub half_copied: u64,
    pub made_states: u64,
    pub made_events: u64,
    pub made_late_events: u64,
    pub groups_of_two_sets: u64,
}

impl Claims {
    /// Replays a night with both runs; stops at the first violation.
    pub fn night(&mut self, made: &Made) -> Result<(), String> {
        let mut now = State::start(&made.image);
        let mut late = now.clone();
        let told = |at: usize, event: &Event, what: String| {
            format!("after event {} ({:?}): {}", at, event, what)
        };
        if let Some(broken) = soundness::unsound_at(&now.image, &now.working) {
            return Err(format!("start is not sound: {:?}", broken));
        }
        for (at, event) in made.events.iter().enumerate() {
            let bits = left_out(&now);
            let from = match *event {
                Event::Read { address, .. } => now.place(address),
                _ => 0,
            };
            let before = now.clone();
            let (outcome, read) = now.step(event);
            let (late_outcome, late_read) = late.step_late(event);
            self.events += 1;
            self.commands += (outcome.answer == 0 && is_command(&before, event)) as u64;
            self.resets += (outcome.answer == 0 && is_reset(event)) as u64;
            if now.image != late.image {
                self.half_copied += 1;
            }
            if outcome != late_outcome {
                return Err(told(at, event, format!("{:?}, late {:?}", outcome, late_outcome)));
            }
            for (index, (one, other)) in read.iter().zip(&late_read).enumerate() {
                if (one ^ other) & !bits[from + index] != 0 {
                    return Err(told(at, event, "read bytes differ".to_string()));
                }
            }
            if let Some(broken) = soundness::unsound_at(&now.image, &now.working) {
                return Err(told(at, event, format!("not sound, {:?}", broken)));
            }
            if !dark_below_ready(&now) {
                return Err(told(at, event, "a path is up below ModuleReady".to_string()));
            }
            same_but_left_out(&now, &late).map_err(|what| told(at, event, what))?;
        }
        Ok(())
    }

    /// Makes a sound state that no start need lead to, and goes on from it.
    pub fn made_state(&mut self, rng: &mut Rng) -> Result<(), String> {
        let state = make_sound_state(rng);
        if !soundness::sound(&state.image, &state.working) {
            return Ok(());
        }
        self.made_states += 1;
        self.refuse_two_sets(rng, &state)?;
        let mut exchanged = with_sets_exchanged(&state);
        if !soundness::sound(&exchanged.image, &exchanged.working) {
            return Err(format!("not sound from the other set: {:?}", state.working));
        }
        // With no group half way, the late run can begin here as well.
        let fresh = (0..8).filter_map(|lane| state.apply(lane)).all(|apply| passing(&apply).is_none());
        let mut late = if fresh { Some(state.clone()) } else { None };
        let mut maker = Maker::from(Rng(rng.next()), state, true, Kinds::ALL);
        for _ in 0..if fresh { 60 } else { 12 } {
            let event = maker.next();
            let before = maker.state.clone();
            let mut buffer = [0u8; 128];
            let now = &mut maker.state;
            let outcome = desk(&mut now.image, &mut now.working, &event, &mut buffer);
            self.made_events += 1;
            let broken = soundness::unsound_at(&now.image, &now.working);
            if outcome.answer == 3 || broken.is_some() {
                return Err(format!(
                    "from a made sound state, {:?} leads to {:?}; records before {:?}; image before {:02x?}",
                    event, broken, before.working, &before.image[..]
                ));
            }
            if outcome.answer != 0 && before != maker.state {
                return Err(format!("refused {:?} changed something", event));
            }
            if outcome.answer == 0 {
                plainly(&before, &event, &maker.state)?;
                hides_what_is_never_stored(&before, &event, &buffer)?;
            }
            let gave = (outcome, buffer[..outcome.read as usize].to_vec());
            if exchanged.step(&event) != gave || !same_but_for_sets(&maker.state, &exchanged) {
                return Err(format!("{:?} goes by the set that a group was held from", event));
            }
            if let Some(late) = &mut late {
                self.made_late_events += 1;
                let (late_outcome, _) = late.step_late(&event);
                if outcome != late_outcome {
                    return Err(format!("{:?}: {:?}, late {:?}", event, outcome, late_outcome));
                }
                same_but_left_out(&maker.state, late)
                    .map_err(|what| format!("from a made sound state, {:?}: {}", event, what))?;
            }
        }
        Ok(())
    }

    /// A group whose lanes name both sets breaks (b), and a call refuses it.
    fn refuse_two_sets(&mut self, rng: &mut Rng, state: &State) -> Result<(), String> {
        let torn = match with_a_group_of_two_sets(state, rng) {
            Some(torn) => torn,
            None => return Ok(()),
        };
        self.groups_of_two_sets += 1;
        let found = soundness::unsound_at(&torn.image, &torn.working);
        let mut after = torn.clone();
        let line = Event::Line { on: true };
        let outcome = desk(&mut after.image, &mut after.working, &line, &mut []);
        if matches!(found, Some(('b', _))) && outcome.answer == 3 && after == torn {
            Ok(())
        } else {
            Err(format!("a group of two sets is taken: {:?}, {:?}", found, torn.working))
        }
    }
}

/// Whether two states are the same but for the sets that groups were held from.
fn same_but_for_sets(one: &State, other: &State) -> bool {
    let without_sets = |state: &State| {
        let lanes = state.working.lanes.map(|stage| match stage {
            Stage::InProgress(apply) => {
                Stage::InProgress(Apply { set: StagedSet::Zero, ..apply })
            }
            Stage::Idle => Stage::Idle,
        });
        Working { lanes, ..state.working }
    };
    one.image == other.image && without_sets(one) == without_sets(other)
}

/// Whether an event that is done runs a command.
fn is_command(before: &State, event: &Event) -> bool {
    match *event {
        Event::Write { address, count, .. } => runs_command(before, address, count as usize),
        _ => false,
    }
}

/// In every state reached from start the module is in one of its four states, and
/// outside ModuleReady no path is up.
fn dark_below_ready(state: &State) -> bool {
    match state.module_state() {
        3 => true,
        1 | 2 | 4 => all_deactivated(state),
        _ => false,
    }
}

/// The reset bit and the triggers are 0 in what is read, also where a lent image
/// has something else there.
fn hides_what_is_never_stored(before: &State, event: &Event, read: &[u8]) -> Result<(), String> {
    if let Event::Read { address, count } = *event {
        for (at, byte) in (address..=255).zip(&read[..count as usize]) {
            let hidden = match at {
                26 => 0x08,
                128.. if before.page() == 0x10 && trigger_at(at).is_some() => 0xFF,
                _ => 0,
            };
            if byte & hidden != 0 {
                return Err(format!("{:?} shows what is never stored", event));
            }
        }
    }
    Ok(())
}

/// Holds an event that is done against the plain rules of pages 10h and 9Fh, of the module's
/// states, of what is on and of the interrupt.
fn plainly(before: &State, event: &Event, after: &State) -> Result<(), String> {
    if let Event::Write { address: address @ 128.., count, data } = *event {
        let data = &data[..count as usize];
        let (page, right) = match before.page() {
            0x9F => ("9Fh", after.image == left_by_write(before, address, data)),
            0x10 => ("10h", *after == left_by_write_on_10h(before, address, data)),
            _ => ("", true),
        };
        if !right {
            let what = "leaves otherwise than the plain rule";
            return Err(format!("{:?} on page {} {}", event, page, what));
        }
    }
    powers_plainly(before, event, after)?;
    lasts_plainly(before, event, after)?;
    if (after.image[3] & 1 == 0) != interrupts(&after.image) {
        return Err(format!("{:?} leaves the interrupt otherwise than the plain rule", event));
    }
    Ok(())
}

/// The bits that demand 3 leaves out: active settings of lanes in progress.
fn left_out(state: &State) -> [u8; IMAGE_LEN] {
    let mut bits = [0u8; IMAGE_LEN];
    for lane in LaneSet(state.in_progress()) {
        let index = lane as usize;
        bits[ACTIVE_DP_CONFIG + index] = 0xFF;
        for place in [ACTIVE_ADAPTIVE_EQ, ACTIVE_CDR_TX, ACTIVE_CDR_RX] {
            bits[place] |= 1 << lane;
        }
        for place in [ACTIVE_INPUT_EQ, ACTIVE_PRE_CURSOR, ACTIVE_POST_CURSOR, ACTIVE_AMPLITUDE] {
            bits[place + index / 2] |= 0x0F << (4 * (lane % 2));
        }
    }
    bits
}

fn same_but_left_out(one: &State, other: &State) -> Result<(), String> {
    if one.working != other.working {
        return Err("lane records or lines differ".to_string());
    }
    let bits = left_out(one);
    for place in 0..IMAGE_LEN {
        if (one.image[place] ^ other.image[place]) & !bits[place] != 0 {
            return Err(format!(
                "image byte {} is {:02x} and {:02x} in the late run",
                place, one.image[place], other.image[place]
            ));
        }
    }
    Ok(())
}
