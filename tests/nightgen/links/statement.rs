//! One link's word about another, said plainly: what two runs may be given, what
//! is supposed of them, and what is then the same in both.

use super::registers::{bits_of, Bits};
use crate::rules::groups;
use crate::staged::{keeps, trigger_at};
use crate::state::State;
use second::lanes::Trigger;
use second::module::{Event, Outcome};
use second::registers::*;

/// The two runs, as places of whatever there is for each of them.
pub const RUNS: [usize; 2] = [0, 1];

/// The lanes on which the runs may differ, and the bits that belong to them.
pub struct SetA {
    pub lanes: u8,
    pub bits: Bits,
}

impl SetA {
    pub fn of(lanes: u8) -> SetA {
        SetA { lanes, bits: bits_of(lanes) }
    }

    pub fn has(&self, lane: u8) -> bool {
        lane < 8 && self.lanes >> lane & 1 != 0
    }

    /// Whether some of these lanes are of A and others are not.
    pub fn parts(&self, lanes: u8) -> bool {
        lanes & self.lanes != 0 && lanes & !self.lanes != 0
    }
}

/// One moment of two runs laid side by side.
#[derive(Clone, Copy, Debug)]
pub enum Moment {
    /// An event of the first run and one of the second.
    Both([Event; 2]),
    /// An event of one run, of which the other knows nothing.
    One(usize, Event),
}

impl Moment {
    /// The event of each run that has one.
    pub fn events(&self) -> [Option<Event>; 2] {
        match *self {
            Moment::Both(events) => events.map(Some),
            Moment::One(of, event) => RUNS.map(|run| (run == of).then_some(event)),
        }
    }
}

// ---- what a moment may be ----

/// Whether a moment is one that two runs in these states may have.
pub fn allowed(a: &SetA, before: &[State; 2], moment: &Moment) -> bool {
    match moment {
        Moment::Both(events) => may_stand_together(a, &before[0], events),
        Moment::One(of, event) => may_stand_alone(a, &before[*of], event),
    }
}

fn may_stand_together(a: &SetA, state: &State, [one, other]: &[Event; 2]) -> bool {
    let of_a = match *one {
        Event::Work { lane } | Event::Hardware { lane } | Event::Sample { lane, .. } => a.has(lane),
        _ => false,
    };
    !of_a && said_outside(a, state, one) == said_outside(a, state, other)
}

/// What an event says of all but A: the bits of lanes of A, in masks and in bytes that
/// are written, are 0.
fn said_outside(a: &SetA, state: &State, event: &Event) -> Event {
    let outside = !a.lanes;
    match *event {
        Event::Write { address, count, mut data } if is_done(address, count) => {
            for (k, byte) in (0..count).zip(data.iter_mut()) {
                *byte &= !a.bits[state.place(address + k)];
            }
            Event::Write { address, count, data }
        }
        Event::Condition { flag_byte, mask } => {
            Event::Condition { flag_byte, mask: mask & outside }
        }
        Event::LastingCondition { flag_byte, on, off } => {
            Event::LastingCondition { flag_byte, on: on & outside, off: off & outside }
        }
        other => other,
    }
}

pub fn may_stand_alone(a: &SetA, state: &State, event: &Event) -> bool {
    match *event {
        Event::Work { lane } | Event::Hardware { lane } | Event::Sample { lane, .. } => a.has(lane),
        Event::Condition { mask, .. } => mask & !a.lanes == 0,
        Event::LastingCondition { on, off, .. } => (on | off) & !a.lanes == 0,
        Event::Write { address, count, .. } => {
            is_done(address, count)
                && bytes_in_turn(state, event).iter().all(|byte| concerns_a_alone(a, byte))
        }
        Event::Read { .. } | Event::Module | Event::Line { .. } => false,
    }
}

/// Page selections, power controls and command messages concern every lane; any
/// other byte changes, or selects, what is of A.
fn concerns_a_alone(a: &SetA, byte: &Byte) -> bool {
    if let PAGE_SELECT | MODULE_CONTROLS | COMMAND_TRIGGER = byte.place {
        return false;
    }
    if byte.trigger().is_some() {
        return byte.value & !a.lanes == 0;
    }
    let changed = byte.value ^ byte.state.image[byte.place];
    !is_writable(byte.place) || changed & !a.bits[byte.place] == 0
}

fn is_writable(place: usize) -> bool {
    match place {
        MODULE_CONTROLS | 31..=36 | BANK_SELECT | PAGE_SELECT => true,
        _ if on_page(P10, place) => keeps((place - P10) as u8),
        _ => on_page(P9F, place),
    }
}

fn on_page(page: usize, place: usize) -> bool {
    (page + 128..page + 256).contains(&place)
}

// ---- a write, byte by byte ----

/// Whether a write is done and not refused.
pub fn is_done(address: u8, count: u8) -> bool {
    (1..=8).contains(&count) && (address & 127) as u32 + count as u32 <= 128
}

/// Address, count and data of a write.
pub type Write = (u8, u8, [u8; 8]);

/// What an event writes; nothing if it is no write.
pub fn written(event: &Event) -> Write {
    match *event {
        Event::Write { address, count, data } => (address, count, data),
        _ => (0, 0, [0; 8]),
    }
}

/// A byte of a write, where it goes, and the state in which it is handled.
pub struct Byte {
    pub state: State,
    pub place: usize,
    pub value: u8,
}

impl Byte {
    /// The trigger that it is written to.
    pub fn trigger(&self) -> Option<(StagedSet, Trigger)> {
        match on_page(P10, self.place) {
            true => trigger_at((self.place - P10) as u8),
            false => None,
        }
    }

    /// The groups that it forms as a trigger, those that are ignored too.
    pub fn groups(&self) -> Vec<u8> {
        match self.trigger() {
            Some((set, _)) => groups(&self.state, set, self.value),
            None => Vec::new(),
        }
    }
}

/// The bytes of a write; none of one that is refused, and of other events.
pub fn bytes_in_turn(state: &State, event: &Event) -> Vec<Byte> {
    let (address, count, data) = written(event);
    if !is_done(address, count) {
        return Vec::new();
    }
    let mut now = state.clone();
    let mut bytes = Vec::new();
    for (k, &value) in (0..count).zip(&data) {
        let place = now.place(address + k);
        bytes.push(Byte { state: now.clone(), place, value });
        if on_page(P10, place) {
            let mut data = [0; 8];
            data[0] = value;
            now.step(&Event::Write { address: address + k, count: 1, data });
        }
    }
    bytes
}

// ---- what is supposed ----

/// What two runs do not keep to.
#[derive(Clone, Copy, PartialEq, Eq)]
pub enum Breach {
    Group,
    Path,
    ModuleState,
}

/// Two runs after a moment that keeps to what is supposed.
pub struct Laid {
    pub after: [State; 2],
    /// What each run's event gave, and the bytes read.
    pub gave: [Option<(Outcome, Vec<u8>)>; 2],
}

/// Lays a moment, unless a group that is formed, or a path that is then there, has
/// lanes of A and others, or the module's states are not the same.
pub fn lay(a: &SetA, before: &[State; 2], moment: &Moment) -> Result<Laid, Breach> {
    let mut laid = Laid { after: before.clone(), gave: [None, None] };
    for (run, event) in RUNS.into_iter().zip(moment.events()) {
        if let Some(event) = event {
            let bytes = bytes_in_turn(&before[run], &event);
            if bytes.iter().flat_map(Byte::groups).any(|group| a.parts(group)) {
                return Err(Breach::Group);
            }
            laid.gave[run] = Some(laid.after[run].step(&event));
        }
    }
    let used = |state: &State, lane: u8| state.used() >> lane & 1 != 0;
    let mixed = |state: &State| (0..8).any(|lane| used(state, lane) && a.parts(state.path(lane)));
    if laid.after.iter().any(mixed) {
        return Err(Breach::Path);
    }
    if laid.after[0].module_state() != laid.after[1].module_state() {
        return Err(Breach::ModuleState);
    }
    Ok(laid)
}

// ---- what is the same ----

/// What is not claimed of the images: bits of lanes of A, and the interrupt bit.
/// (The request claims less: of bits of no lane it says nothing.)
fn excepted(a: &SetA) -> Bits {
    let mut bits = a.bits;
    bits[MODULE_STATE] |= INTERRUPT_DEASSERTED;
    bits
}

/// The images but for what is excepted, the records of lanes outside A, the line.
pub fn same_outside(a: &SetA, states: &[State; 2]) -> Result<(), String> {
    let [one, other] = states;
    let free = excepted(a);
    for place in 0..IMAGE_LEN {
        if (one.image[place] ^ other.image[place]) & !free[place] != 0 {
            let (one, other) = (one.image[place], other.image[place]);
            return Err(format!("image byte {} is {:02x} and {:02x}", place, one, other));
        }
    }
    match (0..8).find(|&lane| !a.has(lane) && one.record(lane) != other.record(lane)) {
        Some(lane) => Err(format!("the records of lane {} differ", lane)),
        None if one.working.line != other.working.line => Err("the lines differ".to_string()),
        None => Ok(()),
    }
}

/// What an event of both runs gave: its answer, the lanes to be commissioned, and
/// the bytes read but for what is excepted.
pub fn same_word(
    a: &SetA,
    before: &[State; 2],
    moment: &Moment,
    laid: &Laid,
) -> Result<(), String> {
    let ((one, one_read), (other, other_read)) = match &laid.gave {
        [Some(one), Some(other)] => (one, other),
        _ => return Ok(()),
    };
    if one != other {
        return Err(format!("{:?} and {:?}", one, other));
    }
    if let Moment::Both([Event::Read { address, .. }, _]) = *moment {
        let free = excepted(a);
        let from = before[0].place(address);
        for (place, (one, other)) in (from..).zip(one_read.iter().zip(other_read)) {
            if (one ^ other) & !free[place] != 0 {
                let what = format!("image byte {} is read as {:02x} and {:02x}", place, one, other);
                return Err(what);
            }
        }
    }
    Ok(())
}
