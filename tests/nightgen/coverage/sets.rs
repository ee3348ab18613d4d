//! The two staged sets: who is in whose way, who goes on from what the other has
//! made, whether the two hold different things, and the bytes of set 1.

use super::applies::{half_copied, paths_of, TRIGGERS};
use super::Coverage;
use crate::rules::*;
use crate::staged::{of_set, other, places};
use crate::state::{passing, State};
use second::lanes::*;
use second::registers::*;

const IN_THE_WAY: &str = "triggers and lanes in progress from a set";
const BETWEEN: &str = "between the sets";
const APART: &str = "settings held that the other set has otherwise";
const BYTES: &str = "bytes of set 1";

/// Of each lane, the set that its active settings came from.
#[derive(Default)]
pub struct Makers([Option<StagedSet>; 8]);

impl Coverage {
    /// A group of a trigger's selected lanes, with both sets in mind.
    pub(super) fn look_at_both_sets(
        &mut self,
        before: &State,
        set: StagedSet,
        trigger: Trigger,
        selected: u8,
        group: u8,
    ) {
        const NAMES: [[&str; 3]; 4] = [
            ["143 marks", "143 ignored for set 0", "143 ignored for set 1"],
            ["144 marks", "144 ignored for set 0", "144 ignored for set 1"],
            ["178 marks", "178 ignored for set 0", "178 ignored for set 1"],
            ["179 marks", "179 ignored for set 0", "179 ignored for set 1"],
        ];
        let [marks, for_0, for_1] = NAMES[2 * set as usize + trigger as usize];
        let [busy_0, busy_1] = StagedSet::BOTH.map(|set| group & before.in_progress_from(set));
        match (busy_0 != 0, busy_1 != 0) {
            (false, false) => {
                self.hit(IN_THE_WAY, marks);
                self.look_at_marked_beside(before, set, group);
                self.look_at_other_set(before, set, trigger, selected, group);
            }
            (true, false) => self.hit(IN_THE_WAY, for_0),
            (false, true) => self.hit(IN_THE_WAY, for_1),
            (true, true) => self.hit(IN_THE_WAY, "ignored for both sets"),
        }
        let of_other = of_set(set, [busy_1, busy_0]);
        if of_other != 0 && of_other == group & before.in_progress() && of_other != group {
            self.hit(IN_THE_WAY, "ignored for the other set alone, with idle lanes");
        }
    }

    /// A marked group and what is in progress from the other set.
    fn look_at_marked_beside(&mut self, before: &State, set: StagedSet, group: u8) {
        let of_other = before.in_progress_from(other(set));
        if of_other != 0 {
            self.hit(BETWEEN, of_set(set, [
                "set 0 marks while a group of set 1 is in progress",
                "set 1 marks while a group of set 0 is in progress",
            ]));
        }
        if paths_of(before, group) & of_other != 0 {
            self.hit(BETWEEN, "marks while a lane of its path is in progress from the other set");
        }
        if set == StagedSet::One {
            self.hit(BETWEEN, match self.watch.edition {
                1 => "set 1 marks in edition 1",
                2 => "set 1 marks in edition 2",
                3 => "set 1 marks in edition 3",
                _ => "set 1 marks in edition 4",
            });
            if before.image[P10 + 180..P10 + 209].iter().all(|&byte| byte == 0) {
                self.hit(BETWEEN, "set 1 marks with all its bytes at 0");
            }
        }
    }

    /// What a marked group shows of its set: it would be another one, judged or
    /// held otherwise by the other set, or it goes over what that one has made.
    fn look_at_other_set(
        &mut self,
        before: &State,
        set: StagedSet,
        trigger: Trigger,
        selected: u8,
        group: u8,
    ) {
        let code = judge(before, set, trigger, group).0;
        if !groups(before, other(set), selected).contains(&group) {
            self.hit(BETWEEN, of_set(set, [
                "set 0 groups otherwise than set 1 would",
                "set 1 groups otherwise than set 0 would",
            ]));
        } else {
            match (code, judge(before, other(set), trigger, group).0) {
                (5, 1) => self.hit(BETWEEN, of_set(set, ["5 by set 0 alone", "5 by set 1 alone"])),
                (1, 5) => self.hit(BETWEEN, of_set(set, [
                    "1 by set 0, though set 1 is above a limit",
                    "1 by set 1, though set 0 is above a limit",
                ])),
                (own, others) if own != others => self.hit(BETWEEN, of_set(set, [
                    "set 0 judged otherwise than set 1 would be",
                    "set 1 judged otherwise than set 0 would be",
                ])),
                _ => {}
            }
        }
        if code == 1 {
            self.look_at_maker(before, set, group);
            LaneSet(group).for_each(|lane| self.look_at_settings_apart(before, set, lane));
        }
    }

    /// A group that passes, over a path that the other set may have made.
    fn look_at_maker(&mut self, before: &State, set: StagedSet, group: u8) {
        let first = group.trailing_zeros() as u8;
        if self.makers.0[first as usize] == Some(other(set)) {
            self.hit(BETWEEN, match before.staged(set, first) >> 4 {
                0 => of_set(set, [
                    "set 0 releases a path that set 1 made",
                    "set 1 releases a path that set 0 made",
                ]),
                _ => of_set(set, [
                    "set 0 goes over a path that set 1 made",
                    "set 1 goes over a path that set 0 made",
                ]),
            });
        }
    }

    /// The settings of a lane that will be copied, and that the other set has
    /// otherwise.
    fn look_at_settings_apart(&mut self, before: &State, set: StagedSet, lane: u8) {
        let [own, others] = [set, other(set)].map(|set| settings(before, set, lane));
        if own.app_sel == 0 {
            return;
        }
        let explicit = own.explicit_control;
        let dp_config = (own.app_sel, own.data_path_id, own.explicit_control);
        let differ = [
            dp_config != (others.app_sel, others.data_path_id, others.explicit_control),
            explicit && own.adaptive_eq != others.adaptive_eq,
            explicit && own.input_eq != others.input_eq,
            explicit && own.cdr_tx != others.cdr_tx,
            explicit && own.cdr_rx != others.cdr_rx,
            explicit && own.pre_cursor != others.pre_cursor,
            explicit && own.post_cursor != others.post_cursor,
            explicit && own.amplitude != others.amplitude,
        ];
        const NAMES: [[&str; 2]; 8] = [
            ["DPConfig of set 0", "DPConfig of set 1"],
            ["AdaptiveInputEqEnableTx of set 0", "AdaptiveInputEqEnableTx of set 1"],
            ["input EQ of set 0", "input EQ of set 1"],
            ["CDREnableTx of set 0", "CDREnableTx of set 1"],
            ["CDREnableRx of set 0", "CDREnableRx of set 1"],
            ["pre-cursor of set 0", "pre-cursor of set 1"],
            ["post-cursor of set 0", "post-cursor of set 1"],
            ["amplitude of set 0", "amplitude of set 1"],
        ];
        for (names, _) in NAMES.iter().zip(differ).filter(|&(_, differs)| differs) {
            self.hit(APART, of_set(set, *names));
        }
    }

    /// A work step on an Apply, with the other set in mind.
    pub(super) fn look_at_work_of_sets(&mut self, before: &State, apply: &Apply) {
        let set = apply.set;
        if passing(apply).is_some() && half_copied(before).any(|half| half.set != set) {
            self.hit(BETWEEN, of_set(set, [
                "set 0 worked on while a group of set 1 is half copied",
                "set 1 worked on while a group of set 0 is half copied",
            ]));
        }
        if passing(apply) == Some(NO_NEXT_LANE) {
            if before.in_progress_from(other(set)) != 0 {
                self.hit(BETWEEN, of_set(set, [
                    "set 0 closed while a group of set 1 is in progress",
                    "set 1 closed while a group of set 0 is in progress",
                ]));
            }
            let maker = if apply.held.app_sel == 0 { None } else { Some(set) };
            LaneSet(apply.group).for_each(|lane| self.makers.0[lane as usize] = maker);
        }
    }

    /// What a reset cuts off of each set.
    pub(super) fn look_at_sets_cut_off(&mut self, before: &State) {
        match StagedSet::BOTH.map(|set| before.in_progress_from(set) != 0) {
            [true, true] => self.hit(BETWEEN, "reset of groups of both sets"),
            [true, false] => self.hit(BETWEEN, "reset of groups of set 0 alone"),
            [false, true] => self.hit(BETWEEN, "reset of groups of set 1 alone"),
            [false, false] => {}
        }
        if before.image[P10 + 180..P10 + 209].iter().any(|&byte| byte != 0) {
            self.hit(BETWEEN, "reset with something staged in set 1");
        }
        self.makers = Makers::default();
    }

    /// An access of page 10h that has triggers in it, and what stands around them.
    pub(super) fn look_at_triggers_in_access(&mut self, before: &State, address: u8, data: &[u8]) {
        let byte_at = |place: u8| place.checked_sub(address).and_then(|at| data.get(at as usize));
        for (set, first) in StagedSet::BOTH.into_iter().zip([143, 178]) {
            let heading = of_set(set, TRIGGERS);
            let (dp_init, immediate) = (byte_at(first), byte_at(first + 1));
            if let (Some(_), Some(selected)) = (dp_init, immediate) {
                self.hit(heading, "both triggers in one access");
                let up_to_second = &data[..(first + 1 - address) as usize];
                let found = left_by_write_on_10h(before, address, up_to_second);
                if found.in_progress() & !before.in_progress() & selected != 0 {
                    self.hit(heading, "second trigger of an access finds lanes in progress");
                }
            }
            if immediate.is_some() && byte_at(first + 2).is_some() {
                self.hit(heading, "staged bytes after the trigger in one access");
            }
        }
        if byte_at(173).is_some() && byte_at(178).is_some() {
            self.hit(BYTES, "178 in one access behind settings of set 0");
        }
        if byte_at(208).is_some() && byte_at(213).is_some() {
            self.hit(BYTES, "masks in one access behind settings of set 1");
        }
    }

    /// A byte that is written at an address of page 10h.
    pub(super) fn look_at_byte_of_set_1(&mut self, address: u8, byte: u8) {
        self.hit(BYTES, match address {
            180..=187 => "180-187 take a write",
            188 => "188 takes a write",
            191..=194 => "191-194 take a write",
            195 => "195 takes a write",
            196 => "196 takes a write",
            197..=200 => "197-200 take a write",
            201..=204 => "201-204 take a write",
            205..=208 => "205-208 take a write",
            _ if byte == 0 => return,
            189 => "189 ignores a write",
            190 => "190 ignores a write",
            209..=210 => "209-210 ignore a write",
            211 => "211 ignores a write",
            212 => "212 ignores a write",
            _ => return,
        });
    }

    /// A read on page 10h, with the triggers in mind.
    pub(super) fn look_at_triggers_read(&mut self, before: &State, address: u8, count: u8) {
        let read = address as usize..address as usize + count as usize;
        let staged = |set: StagedSet| {
            let first = places(set).dp_config - P10;
            (first..first + 29).any(|at| read.contains(&at) && before.image[P10 + at] != 0)
        };
        if read.contains(&143) || read.contains(&144) {
            self.hit("pages", "read of the trigger bytes");
        }
        match (read.contains(&178), read.contains(&179)) {
            (true, true) => self.hit(BYTES, "178 and 179 read"),
            (true, false) => self.hit(BYTES, "178 read without 179"),
            (false, true) => self.hit(BYTES, "179 read without 178"),
            (false, false) => {}
        }
        match StagedSet::BOTH.map(staged) {
            [true, true] => self.hit(BYTES, "both sets read in one access"),
            [false, true] => self.hit(BYTES, "set 1 read back"),
            _ => {}
        }
        if (189..=190).chain(209..=212).any(|at| read.contains(&at)) {
            self.hit(BYTES, "read of bytes that ignore a write");
        }
    }
}
