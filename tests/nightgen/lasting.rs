//! What is on, said plainly: the flags that an event leaves on, and the flag
//! bytes beside them. Held against the core after every event.

use crate::image::limit;
use crate::power::is_reset;
use crate::state::State;
use second::module::Event;
use second::registers::*;

/// The flag bytes that conditions raise, and those of received power.
pub const OF_CONDITIONS: [u8; 6] = [135, 136, 137, 138, 147, 148];
pub const OF_RECEIVED_POWER: [u8; 4] = [149, 150, 151, 152];

/// A set of lanes for each of the flag bytes 134 to 153.
pub type ByFlag = [u8; 20];

/// Where a flag byte stands among the twenty.
pub fn index(flag_byte: u8) -> usize {
    flag_byte as usize - 134
}

/// Of each flag byte, the lanes on which it is on.
pub fn on(state: &State) -> ByFlag {
    state.working.on
}

/// The flag bytes themselves.
pub fn flags(state: &State) -> ByFlag {
    let mut flags = [0; 20];
    flags.copy_from_slice(&state.image[LANE_FLAGS..LANE_FLAGS_END]);
    flags
}

/// The flag bytes that a read covers.
pub fn covered(before: &State, address: u8, count: u8) -> impl Iterator<Item = u8> {
    let read = address as u32..address as u32 + count as u32;
    let there = address >= 128 && before.page() == 0x11;
    (134..=153u8).filter(move |&flag_byte| there && read.contains(&(flag_byte as u32)))
}

/// The flag bytes of received power, each with whether a value calls for it.
fn compared(image: &[u8; IMAGE_LEN], value: u16) -> [(u8, bool); 4] {
    [
        (149, value > limit(image, 192)),
        (150, value < limit(image, 194)),
        (151, value > limit(image, 196)),
        (152, value < limit(image, 198)),
    ]
}

/// What an event that is done leaves on.
fn left_on(before: &State, event: &Event) -> ByFlag {
    let mut left = on(before);
    match *event {
        Event::Write { .. } if is_reset(event) => left = [0; 20],
        Event::LastingCondition { flag_byte, on, off } => {
            let lanes = &mut left[index(flag_byte)];
            *lanes = *lanes & !off | on;
        }
        Event::Sample { lane, value } => {
            for (flag_byte, holds) in compared(&before.image, value) {
                let lanes = &mut left[index(flag_byte)];
                *lanes = *lanes & !(1 << lane) | (holds as u8) << lane;
            }
        }
        _ => {}
    }
    left
}

/// The flag bytes that an event that is done leaves, but for what a path
/// raises in 134.
fn left_flags(before: &State, event: &Event) -> ByFlag {
    let mut left = flags(before);
    match *event {
        Event::Write { .. } if is_reset(event) => left = [0; 20],
        Event::Condition { flag_byte, mask } => left[index(flag_byte)] |= mask,
        Event::LastingCondition { flag_byte, on, .. } => left[index(flag_byte)] |= on,
        Event::Sample { lane, value } => {
            for (flag_byte, holds) in compared(&before.image, value) {
                left[index(flag_byte)] |= (holds as u8) << lane;
            }
        }
        Event::Read { address, count } => {
            let on = on(before);
            for flag_byte in covered(before, address, count) {
                left[index(flag_byte)] = on[index(flag_byte)];
            }
        }
        _ => {}
    }
    left
}

/// Holds an event that is done against the rules above.
pub fn lasts_plainly(before: &State, event: &Event, after: &State) -> Result<(), String> {
    if on(after) != left_on(before, event) {
        return Err(format!("{:?} leaves on otherwise than the plain rule", event));
    }
    let (mut wanted, found) = (left_flags(before, event), flags(after));
    if let Event::Hardware { .. } = event {
        wanted[index(134)] = found[index(134)];
    }
    if found != wanted {
        return Err(format!("{:?} leaves flags otherwise than the plain rule", event));
    }
    Ok(())
}
