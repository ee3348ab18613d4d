//! The soundness test, condition by condition, written for reading and not
//! for speed. It shares nothing with the fast core but the register places,
//! the record types and the descriptor lookup.

use crate::applications::*;
use crate::lanes::*;
use crate::registers::*;

/// Whether a state meets (a) to (f).
pub fn sound(image: &[u8; IMAGE_LEN], working: &Working) -> bool {
    unsound_at(image, working).is_none()
}

/// The first condition that a state does not meet, with a lane that shows it.
pub fn unsound_at(image: &[u8; IMAGE_LEN], working: &Working) -> Option<(char, usize)> {
    let view = View { image, working };
    let conditions: [(char, &dyn Fn(usize) -> bool); 6] = [
        ('a', &|lane| view.status_fits_stage(lane)),
        ('b', &|lane| view.group_agrees(lane)),
        ('c', &|lane| view.used_lane_in_whole_path(lane)),
        ('d', &|lane| view.unused_lane_at_rest(lane)),
        ('e', &|lane| view.passing_group_fits(lane)),
        ('f', &|lane| view.what_is_on_shows(lane)),
    ];
    for (name, holds) in conditions.iter() {
        for lane in 0..LANES {
            if !holds(lane) {
                return Some((*name, lane));
            }
        }
    }
    None
}

/// The flag bytes of page 11h that can last: conditions and received power.
const CAN_LAST: [usize; 10] = [135, 136, 137, 138, 147, 148, 149, 150, 151, 152];

struct View<'a> {
    image: &'a [u8; IMAGE_LEN],
    working: &'a Working,
}

impl<'a> View<'a> {
    fn apply(&self, lane: usize) -> Option<&'a Apply> {
        match &self.working.lanes[lane] {
            Stage::Idle => None,
            Stage::InProgress(apply) => Some(apply),
        }
    }

    fn in_passing_group(&self, lane: usize) -> bool {
        matches!(self.apply(lane), Some(Apply { verdict: Verdict::Pass { .. }, .. }))
    }

    fn nibble(&self, place: usize, lane: usize) -> u8 {
        let byte = self.image[place + lane / 2];
        if lane % 2 == 0 {
            byte & 0xF
        } else {
            byte >> 4
        }
    }

    fn bit(&self, place: usize, lane: usize) -> bool {
        self.image[place] & (1 << lane) != 0
    }

    fn dp_state(&self, lane: usize) -> u8 {
        self.nibble(DP_STATE, lane)
    }

    fn active_app_sel(&self, lane: usize) -> u8 {
        app_sel(self.image[ACTIVE_DP_CONFIG + lane])
    }

    fn active_id(&self, lane: usize) -> u8 {
        data_path_id(self.image[ACTIVE_DP_CONFIG + lane])
    }

    fn used(&self, lane: usize) -> bool {
        self.active_app_sel(lane) != 0
    }

    /// Whether `set` is exactly the path that an AppSel makes from an id.
    fn whole(&self, set: &[usize], app_sel: u8, id: u8) -> bool {
        match find_descriptor(self.image, app_sel) {
            None => false,
            Some(descriptor) => {
                let first = id as usize;
                let count = descriptor.lane_count as usize;
                let allowed = descriptor.first_lanes & (1 << first) != 0;
                let wanted: Vec<usize> = (first..first + count).collect();
                allowed && set == &wanted[..]
            }
        }
    }

    /// (a) ConfigStatus is Ch exactly for lanes in progress.
    fn status_fits_stage(&self, lane: usize) -> bool {
        let marked = self.nibble(CONFIG_STATUS, lane) == config_status::IN_PROGRESS;
        marked == self.apply(lane).is_some()
    }

    /// (b) The lanes of a group tell the same story, the group holds exactly
    /// them, and every value is one it can be.
    fn group_agrees(&self, lane: usize) -> bool {
        let own = match self.apply(lane) {
            None => return true,
            Some(own) => own,
        };
        let in_group = |l: usize| own.group & (1 << l) != 0;
        let members_agree = (0..LANES).filter(|&l| in_group(l)).all(|l| match self.apply(l) {
            None => false,
            Some(other) => {
                other.group == own.group
                    && other.trigger == own.trigger
                    && other.set == own.set
                    && other.verdict == own.verdict
            }
        });
        let held = &own.held;
        let fields_fit = held.app_sel <= 15
            && held.data_path_id <= 7
            && held.input_eq <= 15
            && held.pre_cursor <= 15
            && held.post_cursor <= 15
            && held.amplitude <= 15;
        let verdict_fits = match own.verdict {
            Verdict::Reject { code } => (2..=7).contains(&code),
            Verdict::Pass { next } => {
                next == NO_NEXT_LANE || (next < NO_NEXT_LANE && in_group(next as usize))
            }
        };
        in_group(lane) && members_agree && fields_fit && verdict_fits
    }

    /// (c) A used lane outside a passing group lies in a whole path whose
    /// lanes agree on a state of 1 to 7.
    fn used_lane_in_whole_path(&self, lane: usize) -> bool {
        if !self.used(lane) || self.in_passing_group(lane) {
            return true;
        }
        let (app_sel, id) = (self.active_app_sel(lane), self.active_id(lane));
        let path: Vec<usize> =
            (0..LANES).filter(|&l| self.used(l) && self.active_id(l) == id).collect();
        let state = self.dp_state(lane);
        path.iter().all(|&l| self.active_app_sel(l) == app_sel)
            && self.whole(&path, app_sel, id)
            && path.iter().all(|&l| self.dp_state(l) == state)
            && (1..=7).contains(&state)
    }

    /// (d) An unused lane outside a passing group is DPDeactivated and has
    /// nothing pending.
    fn unused_lane_at_rest(&self, lane: usize) -> bool {
        self.used(lane)
            || self.in_passing_group(lane)
            || (self.dp_state(lane) == dp_state::DEACTIVATED && !self.bit(DP_INIT_PENDING, lane))
    }

    /// (e) A passing group is a release or makes a whole path; its lanes are
    /// in one state that lets it pass; its copied lanes hold what copying
    /// writes, and the rest still are what they can have been before.
    fn passing_group_fits(&self, lane: usize) -> bool {
        let (own, next) = match self.apply(lane) {
            Some(own) => match own.verdict {
                Verdict::Pass { next } => (own, next as usize),
                Verdict::Reject { .. } => return true,
            },
            None => return true,
        };
        let group: Vec<usize> = (0..LANES).filter(|&l| own.group & (1 << l) != 0).collect();
        // (b) has been tested by now, so every member is in progress.
        let held: Vec<&Settings> =
            group.iter().filter_map(|&l| self.apply(l)).map(|apply| &apply.held).collect();

        let release = held.iter().all(|h| h.app_sel == 0);
        let (app_sel, id) = (own.held.app_sel, own.held.data_path_id);
        let makes_path = held.iter().all(|h| h.app_sel == app_sel && h.data_path_id == id)
            && self.whole(&group, app_sel, id);

        let state = self.dp_state(lane);
        let state_fits = group.iter().all(|&l| self.dp_state(l) == state)
            && if release {
                state == dp_state::DEACTIVATED
            } else {
                state == dp_state::DEACTIVATED
                    || state == dp_state::ACTIVATED
                    || state == dp_state::INITIALIZED
            };

        let copied_hold = group
            .iter()
            .zip(&held)
            .filter(|(&l, _)| l < next)
            .all(|(&l, h)| self.active_settings(l) == written_by_copying(h));

        let rest: Vec<usize> = group.iter().copied().filter(|&l| l >= next).collect();
        let rest_fits = match rest.first() {
            None => true,
            Some(&one) => {
                let (app_sel, id) = (self.active_app_sel(one), self.active_id(one));
                rest.iter().all(|&l| !self.used(l))
                    || (rest
                        .iter()
                        .all(|&l| self.active_app_sel(l) == app_sel && self.active_id(l) == id)
                        && self.whole(&group, app_sel, id))
            }
        };

        (release || makes_path) && state_fits && copied_hold && rest_fits
    }

    /// (f) Only flags that can last are on, and each flag that is on is 1.
    fn what_is_on_shows(&self, lane: usize) -> bool {
        (0..LANE_FLAG_BYTES)
            .filter(|&k| self.working.on[k] & (1 << lane) != 0)
            .map(|k| 134 + k)
            .all(|flag_byte| CAN_LAST.contains(&flag_byte) && self.bit(P11 + flag_byte, lane))
    }

    fn active_settings(&self, lane: usize) -> Settings {
        Settings {
            app_sel: self.active_app_sel(lane),
            data_path_id: self.active_id(lane),
            explicit_control: self.image[ACTIVE_DP_CONFIG + lane] & 1 != 0,
            adaptive_eq: self.bit(ACTIVE_ADAPTIVE_EQ, lane),
            cdr_tx: self.bit(ACTIVE_CDR_TX, lane),
            cdr_rx: self.bit(ACTIVE_CDR_RX, lane),
            input_eq: self.nibble(ACTIVE_INPUT_EQ, lane),
            pre_cursor: self.nibble(ACTIVE_PRE_CURSOR, lane),
            post_cursor: self.nibble(ACTIVE_POST_CURSOR, lane),
            amplitude: self.nibble(ACTIVE_AMPLITUDE, lane),
        }
    }
}

/// What copying writes, said once more and apart from the core.
fn written_by_copying(held: &Settings) -> Settings {
    let mut written = *held;
    if !held.explicit_control {
        written.adaptive_eq = true;
        written.cdr_tx = true;
        written.cdr_rx = true;
        written.input_eq = 0;
        written.pre_cursor = 0;
        written.post_cursor = 0;
        written.amplitude = 0;
    }
    if held.app_sel == 0 {
        written = Settings::RELEASED;
    }
    written
}
