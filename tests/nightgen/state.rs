//! The state a night has reached, and what a host or a test can ask of it.

use crate::staged::places;
use second::lanes::*;
use second::module::*;
use second::registers::*;

#[derive(Clone, PartialEq)]
pub struct State {
    pub image: [u8; IMAGE_LEN],
    pub working: Working,
}

impl State {
    pub fn start(image: &[u8; IMAGE_LEN]) -> State {
        let mut state = State { image: *image, working: Working::AT_START };
        assert_eq!(start(&mut state.image, &mut state.working), 0, "start refused an image");
        state
    }

    fn module(&mut self) -> Module<'_> {
        Module { image: &mut self.image, working: &mut self.working }
    }

    pub fn step(&mut self, event: &Event) -> (Outcome, Vec<u8>) {
        let mut buffer = [0u8; 128];
        let outcome = self.module().step(event, &mut buffer);
        (outcome, buffer[..outcome.read as usize].to_vec())
    }

    pub fn step_late(&mut self, event: &Event) -> (Outcome, Vec<u8>) {
        let mut buffer = [0u8; 128];
        let outcome = self.module().step_late(event, &mut buffer);
        (outcome, buffer[..outcome.read as usize].to_vec())
    }

    pub fn apply(&self, lane: u8) -> Option<Apply> {
        match self.working.lanes[lane as usize] {
            Stage::Idle => None,
            Stage::InProgress(apply) => Some(apply),
        }
    }

    pub fn lanes_where(&self, holds: impl Fn(u8) -> bool) -> u8 {
        (0..8).filter(|&lane| holds(lane)).map(|lane| 1 << lane).sum()
    }

    pub fn in_progress(&self) -> u8 {
        self.lanes_where(|lane| self.apply(lane).is_some())
    }

    /// The lanes in progress whose settings were held from a set.
    pub fn in_progress_from(&self, set: StagedSet) -> u8 {
        self.lanes_where(|lane| self.apply(lane).map_or(false, |apply| apply.set == set))
    }

    /// The lanes on which something is on.
    pub fn with_something_on(&self) -> u8 {
        self.working.on.iter().fold(0, |lanes, on| lanes | on)
    }

    /// All that is kept of a lane beside the image: the stage of its Apply, and of
    /// each flag byte whether the lane's flag is on.
    pub fn record(&self, lane: u8) -> (Stage, [bool; LANE_FLAG_BYTES]) {
        let on = self.working.on.map(|lanes| lanes >> lane & 1 != 0);
        (self.working.lanes[lane as usize], on)
    }

    pub fn nibble(&self, place: usize, lane: u8) -> u8 {
        self.image[place + lane as usize / 2] >> (4 * (lane % 2)) & 15
    }

    pub fn dp_state(&self, lane: u8) -> u8 {
        self.nibble(DP_STATE, lane)
    }

    /// The DPConfig byte that a set has staged for a lane.
    pub fn staged(&self, set: StagedSet, lane: u8) -> u8 {
        self.image[places(set).dp_config + lane as usize]
    }

    pub fn active(&self, lane: u8) -> u8 {
        self.image[ACTIVE_DP_CONFIG + lane as usize]
    }

    pub fn used(&self) -> u8 {
        self.lanes_where(|lane| self.active(lane) >> 4 != 0)
    }

    /// The lanes of the active path that a used lane is on.
    pub fn path(&self, lane: u8) -> u8 {
        let id = self.active(lane) >> 1 & 7;
        self.used() & self.lanes_where(|other| self.active(other) >> 1 & 7 == id)
    }

    pub fn module_state(&self) -> u8 {
        self.image[3] >> 1 & 7
    }

    /// The page that upper addresses go to.
    pub fn page(&self) -> u8 {
        match self.image[PAGE_SELECT] {
            page @ (0x01 | 0x02) => page,
            page @ (0x10 | 0x11 | 0x9F) if self.image[BANK_SELECT] == 0 => page,
            _ => 0,
        }
    }

    /// The place in the image that an address goes to.
    pub fn place(&self, address: u8) -> usize {
        let base = match self.page() {
            _ if address < 128 => 0,
            0x01 => P01,
            0x02 => P02,
            0x10 => P10,
            0x11 => P11,
            0x9F => P9F,
            _ => P00,
        };
        base + address as usize
    }
}

/// The lane that a passing group copies next; none for a rejected one.
pub fn passing(apply: &Apply) -> Option<u8> {
    match apply.verdict {
        Verdict::Pass { next } => Some(next),
        Verdict::Reject { .. } => None,
    }
}
