//! Triggers, their verdicts, and the work steps that follow.

use super::Coverage;
use crate::rules::*;
use crate::staged::of_set;
use crate::state::*;
use second::lanes::*;
use second::module::*;
use second::registers::*;

/// The headings of what occurs in either set.
pub(super) const TRIGGERS: [&str; 2] = ["triggers of set 0", "triggers of set 1"];
const VERDICTS: [&str; 2] =
    ["verdicts fixed by a trigger of set 0", "verdicts fixed by a trigger of set 1"];
const WORK_STEPS: [&str; 2] = ["work steps of set 0", "work steps of set 1"];

impl Coverage {
    /// What a trigger of a set finds. What it leaves is held against the plain rule
    /// elsewhere.
    pub(super) fn look_at_trigger(
        &mut self,
        before: &State,
        set: StagedSet,
        trigger: Trigger,
        selected: u8,
    ) {
        let heading = of_set(set, TRIGGERS);
        if selected == 0 {
            self.hit(heading, "mask 0");
        }
        if trigger == Trigger::ApplyImmediate && before.image[2] & 0x40 != 0 {
            self.hit(heading, "ApplyImmediate switched off by 2.6");
            return;
        }
        let groups = groups(before, set, selected);
        let idle = |group: &&u8| **group & before.in_progress() == 0;
        let marked = groups.iter().filter(idle).count();
        for &group in &groups {
            self.look_at_both_sets(before, set, trigger, selected, group);
            if group & before.in_progress() != 0 {
                self.look_at_ignored_group(before, set, group);
            } else {
                self.look_at_marked_group(before, set, trigger, group);
            }
        }
        if groups.len() > 1 {
            self.hit(heading, "several groups at once");
        }
        if marked > 0 && marked < groups.len() {
            self.hit(heading, "one group ignored, another marked");
        }
    }

    fn look_at_ignored_group(&mut self, before: &State, set: StagedSet, group: u8) {
        let heading = of_set(set, TRIGGERS);
        self.hit(heading, if group & !before.in_progress() == 0 {
            "group ignored, all its lanes in progress"
        } else {
            "group ignored, some of its lanes idle"
        });
        if before.staged(set, group.trailing_zeros() as u8) >> 4 == 0 {
            self.hit(heading, "release group ignored");
        }
    }

    fn look_at_marked_group(
        &mut self,
        before: &State,
        set: StagedSet,
        trigger: Trigger,
        group: u8,
    ) {
        let heading = of_set(set, TRIGGERS);
        if group == 0xFF {
            self.hit(heading, "group of all eight lanes");
        }
        if paths_of(before, group) & before.in_progress() != 0 {
            self.hit(heading, "group marked while another lane of its path is in progress");
        }
        self.look_at_lasting_group(before, group);
        self.look_at_group_behind_reset(group);
        let (code, reason) = judge(before, set, trigger, group);
        self.hit(of_set(set, VERDICTS), reason);
        let app_sel = before.staged(set, group.trailing_zeros() as u8) >> 4;
        self.look_at_application(before, app_sel, code, reason);
    }

    /// What a group of an AppSel above 8 was judged by.
    fn look_at_application(&mut self, before: &State, app_sel: u8, code: u8, reason: &'static str) {
        if app_sel <= 8 {
            return;
        }
        let ended_low = (1..=8).any(|a| before.image[descriptor_at(a)] == 0xFF);
        let count = before.image[descriptor_at(app_sel) + 2] >> 4;
        self.hit("AppSels 9 to 15", match (code, reason) {
            (1, _) => "present and passed",
            (3, "3 descriptor begins with FFh") => "begins with FFh",
            (3, "3 earlier descriptor begins with FFh") if ended_low => {
                "behind an FFh in descriptors 1 to 8"
            }
            (3, "3 earlier descriptor begins with FFh") => "behind an FFh in descriptors 9 to 14",
            (3, _) if count == 0 => "host lane count 0",
            (3, _) => "host lane count above 8",
            _ if reason == "4 AppSels differ" => return,
            _ => "present, another rejection",
        });
        match (code, app_sel) {
            (1, 9) => self.hit("AppSels 9 to 15", "AppSel 9 passed"),
            (1, 15) => self.hit("AppSels 9 to 15", "AppSel 15 passed"),
            _ => {}
        }
    }

    pub(super) fn look_at_work(&mut self, before: &State, lane: u8, outcome: &Outcome) {
        let apply = before.apply(lane).expect("work was done on an idle lane");
        let heading = of_set(apply.set, WORK_STEPS);
        let release = apply.held.app_sel == 0;
        match apply.verdict {
            Verdict::Reject { code } => self.hit(heading, match code {
                2 => "closed with 2",
                3 => "closed with 3",
                4 => "closed with 4",
                5 => "closed with 5",
                6 => "closed with 6",
                _ => "closed with 7",
            }),
            Verdict::Pass { next } if next < 8 => {
                if next != lane {
                    self.hit(heading, "asked on a lane other than the one copied");
                }
                let held = before.apply(next).expect("next lane is idle").held;
                let now = before.staged(apply.set, next);
                if held.app_sel != now >> 4 || held.data_path_id != now >> 1 & 7 {
                    self.hit(heading, "copied after the staged bytes changed");
                }
                if !release {
                    self.hit(heading, if held.explicit_control {
                        "copied with ExplicitControl"
                    } else {
                        "copied without ExplicitControl"
                    });
                } else if before.used() >> next & 1 != 0 {
                    self.hit(heading, "copied zeros over a used lane");
                }
            }
            Verdict::Pass { .. } => {
                self.hit(heading, "closed with 1");
                if apply.group == 0xFF {
                    self.hit(heading, "closing step of eight lanes");
                }
                let name = match (release, apply.trigger) {
                    (true, Trigger::ApplyDPInit) => "release closed by ApplyDPInit",
                    (true, Trigger::ApplyImmediate) => "release closed by ApplyImmediate",
                    (false, Trigger::ApplyDPInit) => "ApplyDPInit closed, pending set",
                    _ if outcome.commission != 0 => "ApplyImmediate closed, lanes to commission",
                    _ => "ApplyImmediate closed in DPDeactivated",
                };
                self.hit(heading, name);
                if release && before.image[DP_INIT_PENDING] & apply.group != 0 {
                    self.hit(heading, "release closed, pending cleared");
                }
            }
        }
        let of_others = |half: Apply| half.group != apply.group;
        if passing(&apply).is_some() && half_copied(before).any(of_others) {
            self.hit(heading, "on a passing group while another is half copied");
        }
        self.look_at_work_of_sets(before, &apply);
    }
}

/// The lanes of the active paths that lanes of a group are on.
pub(super) fn paths_of(state: &State, group: u8) -> u8 {
    LaneSet(group & state.used()).fold(0, |lanes, lane| lanes | state.path(lane))
}

/// The Applies whose first lane is copied already, one for each of their lanes.
pub(super) fn half_copied(state: &State) -> impl Iterator<Item = Apply> + '_ {
    (0..8).filter_map(move |lane| state.apply(lane)).filter(|apply| {
        matches!(passing(apply), Some(next) if next as u32 != apply.group.trailing_zeros())
    })
}
