//! What the module remembers beside the image, of its lanes and of the
//! low-power line, and sets of lanes: shared by the core and the soundness test.

use crate::registers::{StagedSet, LANES, LANE_FLAG_BYTES};

/// Which trigger register started an Apply.
#[derive(Clone, Copy, PartialEq, Eq, Debug)]
pub enum Trigger {
    ApplyDPInit,
    ApplyImmediate,
}

/// What the trigger decided about a group.
#[derive(Clone, Copy, PartialEq, Eq, Debug)]
pub enum Verdict {
    /// Accepted; `next` is the lane to copy next, or `NO_NEXT_LANE`.
    Pass { next: u8 },
    /// Rejected with a ConfigStatus code of 2 to 7.
    Reject { code: u8 },
}

/// A lane's staged settings as they were when its trigger was written.
#[derive(Clone, Copy, PartialEq, Eq, Debug)]
pub struct Settings {
    pub app_sel: u8,
    pub data_path_id: u8,
    pub explicit_control: bool,
    pub adaptive_eq: bool,
    pub cdr_tx: bool,
    pub cdr_rx: bool,
    pub input_eq: u8,
    pub pre_cursor: u8,
    pub post_cursor: u8,
    pub amplitude: u8,
}

impl Settings {
    /// Every field as the copying leaves it after a release.
    pub const RELEASED: Settings = Settings {
        app_sel: 0,
        data_path_id: 0,
        explicit_control: false,
        adaptive_eq: false,
        cdr_tx: false,
        cdr_rx: false,
        input_eq: 0,
        pre_cursor: 0,
        post_cursor: 0,
        amplitude: 0,
    };
}

/// An Apply under way on a lane.
#[derive(Clone, Copy, PartialEq, Eq, Debug)]
pub struct Apply {
    /// The group's lanes, bit l for lane l.
    pub group: u8,
    pub trigger: Trigger,
    /// Where the held settings were staged.
    pub set: StagedSet,
    pub held: Settings,
    pub verdict: Verdict,
}

/// The stage a lane's Apply has reached.
#[derive(Clone, Copy, PartialEq, Eq, Debug)]
pub enum Stage {
    Idle,
    InProgress(Apply),
}

impl Stage {
    pub fn in_progress(&self) -> bool {
        match self {
            Stage::Idle => false,
            Stage::InProgress(_) => true,
        }
    }
}

/// All that the module remembers beside the image.
#[derive(Clone, Copy, PartialEq, Eq, Debug)]
pub struct Working {
    pub lanes: [Stage; LANES],
    /// Which flags are on, so that they rise again when a read has cleared
    /// them: a byte for each of the flag bytes from 11h:134 on, bit l for lane l.
    pub on: [u8; LANE_FLAG_BYTES],
    /// Whether the low-power line is on; no register shows it.
    pub line: bool,
}

impl Working {
    /// As start leaves it: no Apply under way, nothing on.
    pub const AT_START: Working =
        Working { lanes: [Stage::Idle; LANES], on: [0; LANE_FLAG_BYTES], line: false };
}

/// The lanes of a set, lowest first.
#[derive(Clone, Copy)]
pub struct LaneSet(pub u8);

impl Iterator for LaneSet {
    type Item = u8;

    #[inline(always)]
    fn next(&mut self) -> Option<u8> {
        if self.0 == 0 {
            None
        } else {
            let lane = self.0.trailing_zeros() as u8;
            self.0 &= self.0 - 1;
            Some(lane)
        }
    }
}
