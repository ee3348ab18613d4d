//! Resets: in which access they came, what they found, and what was left.

use super::lasting::any_of;
use super::Coverage;
use crate::lasting::{on, OF_CONDITIONS, OF_RECEIVED_POWER};
use crate::power::{low_power, resets};
use crate::state::{passing, State};
use second::lanes::*;
use second::module::Outcome;
use second::registers::*;

const HEADING: &str = "resets";

/// What the last reset has cut off in a night.
#[derive(Default)]
pub struct CutOff {
    /// The lanes that were in progress, and have not been marked since.
    in_progress: u8,
    /// The lanes that were used, and have not been marked since.
    used: u8,
}

impl Coverage {
    /// An access that resets the module. What it leaves is held against the
    /// plain rule elsewhere.
    pub(super) fn look_at_reset(&mut self, before: &State, address: u8, data: &[u8]) {
        const OF_EIGHT: [&str; 8] = [
            "19-26: 26 last", "20-27", "21-28", "22-29", "23-30", "24-31", "25-32",
            "26-33: 26 first",
        ];
        self.hit("accesses that reset", match (address, data.len()) {
            (26, 1) => "26 alone",
            (_, 8) => OF_EIGHT[address as usize - 19],
            _ => "of 2 to 7 bytes",
        });
        self.hit(HEADING, match before.module_state() {
            1 => "in ModuleLowPwr",
            2 => "in ModulePwrUp",
            3 => "in ModuleReady",
            _ => "in ModulePwrDn",
        });
        self.hit(HEADING, match self.watch.edition {
            1 => "in edition 1",
            2 => "in edition 2",
            3 => "in edition 3",
            _ => "in edition 4",
        });
        for lane in LaneSet(before.in_progress()) {
            if let Some(apply) = before.apply(lane) {
                // Once for each group.
                if apply.group.trailing_zeros() == lane as u32 {
                    self.look_at_cut_off(before, &apply);
                }
            }
        }
        self.look_at_what_it_finds(before);
        self.look_at_sets_cut_off(before);
        self.cut_off = CutOff { in_progress: before.in_progress(), used: before.used() };
    }

    /// The stage of a group that does not go on.
    fn look_at_cut_off(&mut self, before: &State, apply: &Apply) {
        let first = apply.group.trailing_zeros() as u8;
        let release = apply.held.app_sel == 0;
        self.hit(HEADING, match (passing(apply), release) {
            (None, _) => "of a rejection",
            (Some(NO_NEXT_LANE), false) => "of an Apply at its end",
            (Some(next), false) if next == first => "of an Apply whose first lane is next",
            (Some(_), false) => "of an Apply in the middle",
            (Some(NO_NEXT_LANE), true) => "of a release at its end",
            (Some(next), true) if next == first => "of a release whose first lane is next",
            (Some(_), true) => "of a release in the middle",
        });
        if apply.group != before.in_progress() {
            self.hit(HEADING, "of several groups");
        }
    }

    fn look_at_what_it_finds(&mut self, before: &State) {
        let image = &before.image;
        let on = on(before);
        let up = (0..8).any(|lane| before.dp_state(lane) != 1);
        let found = [
            (before.in_progress() == 0, "with no Apply under way"),
            (any_of(&OF_CONDITIONS, &on), "with a condition on"),
            (any_of(&OF_RECEIVED_POWER, &on), "with received power on"),
            (image[COMMAND_STATUS] != 0, "after a command"),
            (image[MODULE_FLAGS] & COMMAND_COMPLETE != 0, "with the flag of a command up"),
            (image[MODULE_FLAGS] & MODULE_STATE_CHANGED != 0, "with the module state flag up"),
            (before.working.line, "with the line on"),
            (!before.working.line, "with the line off"),
            (low_power(before), "with low power asked for"),
            (up, "with a path up"),
            (image[DP_INIT_PENDING] != 0, "with something pending"),
            (image[MODULE_STATE] & INTERRUPT_DEASSERTED == 0, "with an interrupt"),
            (image[MODULE_MASKS] != 0, "with masks of the module set"),
            (image[LANE_MASKS..LANE_MASKS + 20] != [0; 20], "with masks of lanes set"),
            (image[BANK_SELECT] != 0, "with a bank selected"),
            (before.page() != 0, "with a page selected"),
        ];
        for (_, name) in found.into_iter().filter(|&(holds, _)| holds) {
            self.hit(HEADING, name);
        }
    }

    /// A write of lower memory, done or not, that is no reset but close to one.
    pub(super) fn look_at_no_reset(&mut self, address: u8, count: u8, data: &[u8; 8], done: bool) {
        let written = &data[..(count as usize).min(8)];
        if !done {
            if address == 26 && (count == 0 || resets(address, written)) {
                self.hit(HEADING, "none: the access is refused");
            }
            return;
        }
        let bit_in = |place: usize| {
            let at = place.wrapping_sub(address as usize);
            written.get(at).map(|byte| byte & SOFTWARE_RESET != 0)
        };
        if bit_in(26) == Some(false) && (bit_in(25), bit_in(27)) == (Some(true), Some(true)) {
            self.hit(HEADING, "none: the bit is set in the bytes beside it alone");
        }
        if bit_in(26).is_none() && bit_in(27) == Some(true) {
            self.hit(HEADING, "none: 26 is left out");
        }
        if bit_in(128 + 26) == Some(true) {
            self.hit(HEADING, "none: 26 of the upper half");
        }
    }

    /// Work and hardware events that find nothing there any more.
    pub(super) fn look_at_cut_off_lane(&mut self, lane: u8, outcome: &Outcome, worked_on: bool) {
        let (cut_off, name) = if worked_on {
            (self.cut_off.in_progress, "work on a lane that it has cut off: 6")
        } else {
            (self.cut_off.used, "hardware on a lane that it has made unused: 6")
        };
        if outcome.answer == answer::NOTHING_THERE && cut_off >> lane & 1 != 0 {
            self.hit(HEADING, name);
        }
    }

    /// A group that has been marked.
    pub(super) fn look_at_group_behind_reset(&mut self, group: u8) {
        if self.cut_off.in_progress & group != 0 {
            self.hit(HEADING, "a lane that it has cut off is marked anew");
        }
        self.cut_off.in_progress &= !group;
        self.cut_off.used &= !group;
    }
}
