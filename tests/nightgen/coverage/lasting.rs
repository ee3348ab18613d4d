//! Flags that stay true: how conditions and samples begin and end, what reads
//! find of them, and what goes on beside them.

use super::resets::CutOff;
use super::sets::Makers;
use super::Coverage;
use crate::image::limit;
use crate::lasting::*;
use crate::power::is_reset;
use crate::state::{passing, State};
use second::module::Event;
use second::night::Edition;
use second::registers::*;

const CONDITIONS: &str = "lasting conditions";
const POWER: &str = "received power that lasts";
const READS: &str = "reads of flags that last";
const MASKS: &str = "masks of flags that last";
const APPLY: &str = "Apply on a lane with something on";

/// What has become of the flags so far in a night.
#[derive(Default)]
pub struct Watch {
    pub edition: u8,
    /// The lanes whose flag a read has shown since it came on.
    shown: ByFlag,
    /// The lanes whose flag is up since its condition or sample ended.
    ended: ByFlag,
    sampled: u8,
}

/// Whether one of these flag bytes has a lane.
pub(super) fn any_of(flag_bytes: &[u8], lanes: &ByFlag) -> bool {
    flag_bytes.iter().any(|&flag_byte| lanes[index(flag_byte)] != 0)
}

impl Coverage {
    /// A night of an edition begins.
    pub fn begin(&mut self, edition: Edition) {
        self.watch = Watch { edition: edition.number, ..Watch::default() };
        self.cut_off = CutOff::default();
        self.makers = Makers::default();
    }

    /// Looks at an event that is done with what is on in mind.
    pub(super) fn look_at_lasting(&mut self, before: &State, event: &Event, after: &State) {
        if let Err(what) = lasts_plainly(before, event, after) {
            panic!("{}", what);
        }
        if is_reset(event) {
            // All of it is over, and none of it has ended by itself.
            self.watch = Watch { edition: self.watch.edition, ..Watch::default() };
            return;
        }
        match *event {
            Event::LastingCondition { flag_byte, on, off } => {
                self.look_at_on_and_off(before, flag_byte, on, off)
            }
            Event::Sample { lane, .. } => self.look_at_lasting_sample(before, lane, after),
            Event::Read { address, count } => {
                self.look_at_flags_read(before, address, count, after)
            }
            Event::Write { .. } => self.look_at_flag_masks(before, after),
            Event::Work { lane } => self.look_at_lasting_work(before, lane),
            Event::Hardware { lane } => {
                if before.path(lane) & before.with_something_on() != 0 {
                    self.hit(APPLY, "its path moved by the hardware");
                }
            }
            Event::Condition { .. } | Event::Module | Event::Line { .. } => {}
        }
        self.watch_changes(before, event, after);
    }

    /// How the masks of a condition stand to each other and to what is on.
    fn look_at_on_and_off(&mut self, before: &State, flag_byte: u8, on_mask: u8, off: u8) {
        let was = on(before)[index(flag_byte)];
        self.hit(CONDITIONS, match (on_mask != 0, off != 0) {
            (true, false) => "on mask alone",
            (false, true) => "off mask alone",
            (false, false) => "neither mask",
            _ if on_mask & off != 0 => "both masks, with lanes in common",
            _ => "both masks, no lane in common",
        });
        let names = [
            (on_mask & !off & was, "in the on mask: goes on"),
            (off & !on_mask & !was, "in the off mask: was not on"),
            (on_mask & off & !was, "in both masks: begins"),
            (on_mask & off & was, "in both masks: goes on"),
            (!on_mask & !off & was, "in neither mask: goes on"),
        ];
        for &(_, name) in names.iter().filter(|(lanes, _)| *lanes != 0) {
            self.hit(CONDITIONS, name);
        }
        let up = before.image[P11 + flag_byte as usize];
        if on_mask & up & !was != 0 {
            self.hit(CONDITIONS, "begins on a flag that is up");
        }
        if (was & !off) | on_mask == 0xFF {
            self.hit(CONDITIONS, "on for all eight lanes");
        }
    }

    /// What a sample does to the four flags of its lane.
    fn look_at_lasting_sample(&mut self, before: &State, lane: u8, after: &State) {
        const NAMES: [[&str; 4]; 4] = [
            [
                "high alarm begins", "high alarm goes on", "high alarm changes to a low one",
                "high alarm ends",
            ],
            [
                "low alarm begins", "low alarm goes on", "low alarm changes to a high one",
                "low alarm ends",
            ],
            [
                "high warning begins", "high warning goes on", "high warning changes to a low one",
                "high warning ends",
            ],
            [
                "low warning begins", "low warning goes on", "low warning changes to a high one",
                "low warning ends",
            ],
        ];
        let of_lane = |state: &State| {
            OF_RECEIVED_POWER.map(|flag_byte| on(state)[index(flag_byte)] >> lane & 1 != 0)
        };
        let (was, is) = (of_lane(before), of_lane(after));
        let another_begins = was.iter().zip(&is).any(|(was, is)| !was && *is);
        for (names, pair) in NAMES.iter().zip(was.into_iter().zip(is)) {
            match pair {
                (false, true) => self.hit(POWER, names[0]),
                (true, true) => self.hit(POWER, names[1]),
                (true, false) if another_begins => self.hit(POWER, names[2]),
                (true, false) => self.hit(POWER, names[3]),
                (false, false) => {}
            }
        }
        let others = OF_RECEIVED_POWER.map(|flag_byte| on(before)[index(flag_byte)] & !(1 << lane));
        if was != is && others != [0; 4] {
            self.hit(POWER, "another lane's goes on");
        }
        if self.watch.sampled >> lane & 1 == 0 && is == [false; 4] {
            self.hit(POWER, "first sample of a lane, inside its limits");
        }
    }

    /// What comes back after a read and what falls.
    fn look_at_flags_read(&mut self, before: &State, address: u8, count: u8, after: &State) {
        let read: Vec<u8> = covered(before, address, count).collect();
        if read.is_empty() {
            return;
        }
        let mut back = on(before);
        for flag_byte in (134..=153).filter(|flag_byte| !read.contains(flag_byte)) {
            back[index(flag_byte)] = 0;
        }
        self.look_at_each_flag(&read, &back);
        self.look_at_extent(before, address, count, &read);
        self.look_at_flags_together(before, &read, &back);
        self.look_at_power_read(before, &read, &back);
        self.look_at_interrupt_of_flags(before, &read, &back, after);
    }

    fn look_at_each_flag(&mut self, read: &[u8], back: &ByFlag) {
        const NAMES: [(u8, &str, &str); 10] = [
            (135, "135 comes back", "135 falls after its end"),
            (136, "136 comes back", "136 falls after its end"),
            (137, "137 comes back", "137 falls after its end"),
            (138, "138 comes back", "138 falls after its end"),
            (147, "147 comes back", "147 falls after its end"),
            (148, "148 comes back", "148 falls after its end"),
            (149, "149 comes back", "149 falls after its end"),
            (150, "150 comes back", "150 falls after its end"),
            (151, "151 comes back", "151 falls after its end"),
            (152, "152 comes back", "152 falls after its end"),
        ];
        for (flag_byte, comes_back, falls) in NAMES {
            if back[index(flag_byte)] != 0 {
                self.hit(READS, comes_back);
            }
            if read.contains(&flag_byte) && self.watch.ended[index(flag_byte)] != 0 {
                self.hit(READS, falls);
            }
        }
    }

    fn look_at_flags_together(&mut self, before: &State, read: &[u8], back: &ByFlag) {
        let up = flags(before);
        if (0..20).any(|k| back[k] != 0 && up[k] & !back[k] != 0) {
            self.hit(READS, "one lane's comes back, another's falls");
        }
        if (0..20).any(|k| back[k] & self.watch.shown[k] != 0) {
            self.hit(READS, "comes back again");
        }
        if read.contains(&134) && up[index(134)] != 0 && *back != [0; 20] {
            self.hit(READS, "134 falls, another comes back");
        }
        if any_of(&OF_CONDITIONS, back) && any_of(&OF_RECEIVED_POWER, back) {
            self.hit(READS, "conditions and received power in one read");
        }
    }

    fn look_at_power_read(&mut self, before: &State, read: &[u8], back: &ByFlag) {
        let zero_is_low = limit(&before.image, 194) > 0;
        if self.watch.sampled != 0xFF && zero_is_low && read.contains(&150) {
            let unsampled = back[index(150)] & !self.watch.sampled;
            assert_eq!(unsampled, 0, "a lane never sampled has an alarm");
            self.hit(READS, "a lane never sampled has nothing on, though 0 is below its limit");
        }
        if any_of(&OF_RECEIVED_POWER, back) {
            match self.watch.edition {
                1 => self.hit(READS, "edition 1: received power comes back"),
                2 => self.hit(READS, "edition 2: received power comes back"),
                3 => self.hit(READS, "edition 3: received power comes back"),
                _ => self.hit(READS, "edition 4: received power comes back"),
            }
        }
    }

    fn look_at_interrupt_of_flags(
        &mut self,
        before: &State,
        read: &[u8],
        back: &ByFlag,
        after: &State,
    ) {
        let asserted = |state: &State| state.image[MODULE_STATE] & INTERRUPT_DEASSERTED == 0;
        let of_the_module = after.image[MODULE_FLAGS]
            & !after.image[MODULE_MASKS]
            & (COMMAND_COMPLETE | MODULE_STATE_CHANGED);
        if read.len() == 20 && asserted(after) && of_the_module == 0 {
            self.hit(MASKS, "interrupt stays by what comes back alone");
        }
        if (0..20).any(|k| back[k] & after.image[LANE_MASKS + k] != 0) {
            self.hit(MASKS, "comes back under its mask");
            if asserted(before) && !asserted(after) {
                self.hit(MASKS, "interrupt ended by a read, what comes back is masked");
            }
        }
    }

    /// How much of the flags a read covers, and where something is on.
    fn look_at_extent(&mut self, before: &State, address: u8, count: u8, read: &[u8]) {
        let on = on(before);
        let on_where = |in_it: bool| {
            (134..=153).any(|flag| on[index(flag)] != 0 && read.contains(&flag) == in_it)
        };
        let (inside, outside) = (on_where(true), on_where(false));
        match (read.len(), inside, outside) {
            (20, true, _) if count == 128 => self.hit(READS, "the whole page, something on"),
            (20, true, _) if (address, count) == (134, 20) => {
                self.hit(READS, "all flag bytes, something on")
            }
            (1, true, false) => self.hit(READS, "one byte, which is all that is on"),
            (1, true, true) => self.hit(READS, "one byte of those that are on"),
            (2..=19, true, true) => self.hit(READS, "a part, something on in it and beside it"),
            (2..=19, true, false) => self.hit(READS, "a part with all that is on"),
            (_, false, true) => self.hit(READS, "a part, something on beside it alone"),
            _ => {}
        }
    }

    /// Masks written while a flag is on.
    fn look_at_flag_masks(&mut self, before: &State, after: &State) {
        let on = on(before);
        let masks = |state: &State, k: usize| state.image[LANE_MASKS + k];
        let set = (0..20).any(|k| on[k] & !masks(before, k) & masks(after, k) != 0);
        let cleared = (0..20).any(|k| on[k] & masks(before, k) & !masks(after, k) != 0);
        let interrupt = (before.image[MODULE_STATE] & 1, after.image[MODULE_STATE] & 1);
        if set {
            self.hit(MASKS, "set over a flag that is on");
            if interrupt == (0, 1) {
                self.hit(MASKS, "set over a flag that is on, interrupt ended");
            }
        }
        if cleared {
            self.hit(MASKS, "cleared over a flag that is on");
            if interrupt == (1, 0) {
                self.hit(MASKS, "cleared over a flag that is on, interrupt asserted");
            }
        }
    }

    /// A group that has been marked.
    pub(super) fn look_at_lasting_group(&mut self, before: &State, group: u8) {
        let of_group = on(before).map(|lanes| lanes & group);
        if any_of(&OF_CONDITIONS, &of_group) {
            self.hit(APPLY, "marked with a condition on");
        }
        if any_of(&OF_RECEIVED_POWER, &of_group) {
            self.hit(APPLY, "marked with received power on");
        }
    }

    fn look_at_lasting_work(&mut self, before: &State, lane: u8) {
        let apply = before.apply(lane).expect("work was done on an idle lane");
        if apply.group & before.with_something_on() == 0 {
            return;
        }
        self.hit(APPLY, match passing(&apply) {
            None => "closed with a rejection",
            Some(NO_NEXT_LANE) if apply.held.app_sel == 0 => "closed as a release",
            Some(NO_NEXT_LANE) => "closed with 1",
            Some(next) if before.with_something_on() >> next & 1 != 0 => "copied",
            Some(_) => "copied a lane with nothing on beside it",
        });
    }

    /// Keeps count of what began, was read and ended.
    fn watch_changes(&mut self, before: &State, event: &Event, after: &State) {
        let (was, is) = (on(before), on(after));
        for flag_byte in OF_CONDITIONS.into_iter().chain(OF_RECEIVED_POWER) {
            let k = index(flag_byte);
            let (begins, ends) = (is[k] & !was[k], was[k] & !is[k]);
            let heading = if OF_CONDITIONS.contains(&flag_byte) { CONDITIONS } else { POWER };
            if heading == CONDITIONS {
                self.look_at_condition_change(flag_byte, begins, ends);
            }
            if ends & !self.watch.shown[k] != 0 {
                self.hit(heading, "ends before its flag is read");
            }
            if ends & self.watch.shown[k] != 0 {
                self.hit(heading, "ends after its flag is read");
            }
            if begins & before.in_progress() != 0 {
                self.hit(heading, "begins on a lane in progress");
            }
            if ends & before.in_progress() != 0 {
                self.hit(heading, "ends on a lane in progress");
            }
            self.watch.shown[k] &= !begins;
            self.watch.ended[k] = self.watch.ended[k] & !begins | ends;
        }
        match *event {
            Event::Read { address, count } => {
                for flag_byte in covered(before, address, count) {
                    self.watch.shown[index(flag_byte)] |= was[index(flag_byte)];
                    self.watch.ended[index(flag_byte)] = 0;
                }
            }
            Event::Sample { lane, .. } => self.watch.sampled |= 1 << lane,
            _ => {}
        }
    }

    fn look_at_condition_change(&mut self, flag_byte: u8, begins: u8, ends: u8) {
        const NAMES: [[&str; 2]; 6] = [
            ["135 begins", "135 ends"], ["136 begins", "136 ends"], ["137 begins", "137 ends"],
            ["138 begins", "138 ends"], ["147 begins", "147 ends"], ["148 begins", "148 ends"],
        ];
        for (names, _) in NAMES.iter().zip(OF_CONDITIONS).filter(|&(_, own)| own == flag_byte) {
            if begins != 0 {
                self.hit(CONDITIONS, names[0]);
            }
            if ends != 0 {
                self.hit(CONDITIONS, names[1]);
            }
        }
    }
}
