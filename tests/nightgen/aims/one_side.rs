//! Paths made, changed, moved and released on some lanes alone: for pairs of runs that
//! differ on some lanes.

use super::{write_event, Maker};
use crate::staged::address;
use second::lanes::LaneSet;
use second::module::Event;

impl Maker {
    /// What becomes of a path on these lanes: one that is there is moved, changed or
    /// released, or another is made.
    pub fn on_one_side(&mut self, lanes: u8) -> Event {
        let mut errand = vec![self.page(0x10)];
        let there = self.state.used() & lanes & !self.state.in_progress();
        errand.extend(match self.rng.below(8) {
            0 | 1 if there != 0 => self.moved(there),
            2 if there != 0 => self.released(there),
            3 if there != 0 => self.changed(there),
            4 if there != 0 => self.taken_down(there),
            _ => self.made(lanes),
        });
        self.begin(errand)
    }

    /// A new path on idle lanes that are on none, most often worked on to its end and
    /// brought up.
    fn made(&mut self, lanes: u8) -> Vec<Event> {
        let free = lanes & !self.state.in_progress() & !self.state.used();
        let path = self.path_within(free);
        let set = self.set();
        let mut errand = self.staged_path(set, path);
        errand.push(self.trigger(set, path.0));
        errand.extend(self.work_steps(path.0));
        errand.extend(vec![Event::Hardware { lane: path.2 }; self.rng.below(6)]);
        errand
    }

    /// New settings for a path that is there.
    fn changed(&mut self, lanes: u8) -> Vec<Event> {
        let lane = self.rng.lane_of(lanes);
        let (path, active) = (self.state.path(lane), self.state.active(lane));
        let app_sel = self.alternative(active >> 4, active >> 1 & 7);
        let set = self.set();
        let mut errand = self.staged_path(set, (path, app_sel, active >> 1 & 7));
        errand.push(self.trigger(set, path));
        errand.extend(self.work_steps(path));
        errand
    }

    fn moved(&mut self, lanes: u8) -> Vec<Event> {
        let lane = self.rng.lane_of(lanes);
        vec![Event::Hardware { lane }; 1 + self.rng.below(4)]
    }

    /// A path deinitialized, and its bits cleared again.
    fn taken_down(&mut self, lanes: u8) -> Vec<Event> {
        let lane = self.rng.lane_of(lanes);
        let mut errand = vec![write_event(128, &[self.state.path(lane)])];
        errand.extend(vec![Event::Hardware { lane }; 1 + self.rng.below(4)]);
        if self.rng.percent(80) {
            errand.extend([self.page(0x10), write_event(128, &[0])]);
        }
        errand
    }

    /// A path released, one at rest if there is one.
    fn released(&mut self, lanes: u8) -> Vec<Event> {
        let resting = lanes & self.state.lanes_where(|lane| self.state.dp_state(lane) == 1);
        let lane = self.rng.lane_of(if resting != 0 { resting } else { lanes });
        let path = self.state.path(lane);
        let set = self.set();
        let mut config = self.staged_configs(set);
        LaneSet(path).for_each(|lane| config[lane as usize] &= 0x0F);
        let mut errand = vec![write_event(address(set, 145), &config), self.trigger(set, path)];
        errand.extend(self.work_steps(path));
        errand
    }

    /// The work steps of a group, at times too few.
    fn work_steps(&mut self, group: u8) -> Vec<Event> {
        let all = group.count_ones() as usize + 1;
        let steps = if self.rng.percent(75) { all } else { self.rng.below(all) };
        vec![Event::Work { lane: self.rng.lane_of(group) }; steps]
    }
}
