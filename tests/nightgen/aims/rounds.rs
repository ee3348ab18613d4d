//! A night for measuring that is mostly Applies: a host that provisions paths of
//! 1, 2, 4 and 8 lanes, round by round.

use super::{write_event, Maker};
use crate::image::PATH_LENGTHS;
use crate::staged::address;
use second::lanes::LaneSet;
use second::module::Event;
use second::registers::*;

impl Maker {
    /// What is in progress is worked on to its end before the round goes on; now
    /// and then something else comes between.
    pub fn next_of_applies(&mut self) -> Event {
        if self.rng.percent(6) {
            return self.aside();
        }
        let busy = self.state.in_progress();
        if busy != 0 {
            return Event::Work { lane: self.rng.lane_of(busy) };
        }
        if self.errand.is_empty() {
            self.plan_round();
        }
        self.errand.pop_front().unwrap()
    }

    /// One path, or all eight lanes in paths of one length, staged in a set and
    /// triggered; what lies in the way is released first.
    fn plan_round(&mut self) {
        let shape = self.rng.below(PATH_LENGTHS.len());
        let length = PATH_LENGTHS[shape];
        let firsts = (0..8).step_by(length);
        let mut wanted: Vec<u8> = firsts.map(|first| lanes_from(first, length)).collect();
        if self.rng.percent(70) {
            wanted = vec![self.rng.pick(&wanted)];
        }
        let set = if self.rng.percent(30) { StagedSet::One } else { StagedSet::Zero };
        let mut config = self.staged_configs(set);
        if self.state.page() != 0x10 {
            let select = self.page(0x10);
            self.errand.push_back(select);
        }
        self.plan_release(set, &mut config, &wanted);
        if self.rng.percent(15) {
            let settings = self.signal_integrity(set);
            self.errand.extend(settings);
        }
        for &path in &wanted {
            self.fill(&mut config, path, 1 + shape as u8, path.trailing_zeros() as u8);
        }
        let lanes = wanted.iter().sum();
        self.plan_apply(set, &config, lanes);
        if self.rng.percent(20) {
            // One of them is brought up: Init, Initialized, TxTurnOn, Activated.
            let lane = self.rng.lane_of(lanes);
            self.errand.extend([Event::Hardware { lane }; 4]);
        }
        if self.rng.percent(15) {
            let (there, back) = (self.page(0x11), self.page(0x10));
            self.errand.extend([there, Event::Read { address: 202, count: 4 }, back]);
        }
    }

    /// Releases the paths that share lanes with those wanted and are none of them,
    /// wound down where they are up.
    fn plan_release(&mut self, set: StagedSet, config: &mut [u8; 8], wanted: &[u8]) {
        let mut released = 0;
        for lane in LaneSet(wanted.iter().sum::<u8>() & self.state.used()) {
            let path = self.state.path(lane);
            if released & path == 0 && !wanted.contains(&path) {
                released |= path;
                self.plan_winding_down(lane, path);
            }
        }
        if released != 0 {
            for lane in LaneSet(released) {
                config[lane as usize] = 0;
            }
            self.plan_apply(set, config, released);
        }
    }

    /// As many hardware events as the path needs to come to DPDeactivated.
    fn plan_winding_down(&mut self, lane: u8, path: u8) {
        use dp_state::*;
        let steps = match self.state.dp_state(lane) {
            DEINIT => 1,
            INIT | INITIALIZED => 2,
            TX_TURN_OFF => 3,
            ACTIVATED | TX_TURN_ON => 4,
            _ => return,
        };
        self.errand.push_back(write_event(128, &[path]));
        self.errand.extend(vec![Event::Hardware { lane }; steps]);
        self.errand.push_back(write_event(128, &[0]));
    }

    /// The DPConfig bytes of these lanes, and their trigger; one trigger in sixteen
    /// leaves out a lane.
    fn plan_apply(&mut self, set: StagedSet, config: &[u8; 8], lanes: u8) {
        let (first, end) = (lanes.trailing_zeros() as usize, 8 - lanes.leading_zeros() as usize);
        self.errand.push_back(write_event(address(set, 145) + first as u8, &config[first..end]));
        let selected = match self.rng.below(16) {
            0 => lanes & !(1 << self.rng.lane_of(lanes)),
            _ => lanes,
        };
        let trigger = if self.rng.percent(40) { 144 } else { 143 };
        self.errand.push_back(write_event(address(set, trigger), &[selected]));
    }

    /// What happens beside the Applies, with the page left as it is.
    fn aside(&mut self) -> Event {
        match self.rng.below(4) {
            0 => self.hardware(),
            1 => self.condition(),
            2 => self.sample(),
            _ => Event::Read { address: 3, count: 8 },
        }
    }
}

/// So many lanes from a first one on.
fn lanes_from(first: usize, length: usize) -> u8 {
    (0xFF >> (8 - length)) << first
}
