//! Both staged sets: a path of one taken over by the other, groups of both in
//! progress side by side or in each other's way, and accesses at the edges of
//! set 1.

use super::{write_event, Maker};
use crate::staged::{address, other};
use second::applications::find_descriptor;
use second::lanes::LaneSet;
use second::module::Event;
use second::registers::StagedSet;

/// A path that could be: its lanes, AppSel and first lane.
type Path = (u8, u8, u8);

impl Maker {
    pub(super) fn both_sets(&mut self) -> Event {
        let mut errand = vec![self.page(0x10)];
        errand.extend(match self.rng.below(10) {
            0..=3 => self.taken_over(),
            4 | 5 => self.side_by_side(),
            6 | 7 => self.in_the_way(),
            8 => self.edges_of_set_1(),
            _ => self.released_by_zeros(),
        });
        self.begin(errand)
    }

    /// A path that is there, most often staged anew in the set that has not made
    /// it, and worked on to its end.
    fn taken_over(&mut self) -> Vec<Event> {
        let free = self.state.lanes_where(|lane| {
            let path = self.state.path(lane);
            path >> lane & 1 != 0 && path & self.state.in_progress() == 0
        });
        if free == 0 {
            return self.side_by_side();
        }
        let lane = self.rng.lane_of(free);
        let active = self.state.active(lane);
        let app_sel = self.alternative(active >> 4, active >> 1 & 7);
        let holder = self.set_that_holds(lane);
        let set = if self.rng.percent(75) { other(holder) } else { holder };
        let path = (self.state.path(lane), app_sel, active >> 1 & 7);
        let mut errand = self.staged_path(set, path);
        errand.push(self.trigger(set, path.0));
        errand.extend(vec![Event::Work { lane }; path.0.count_ones() as usize + 1]);
        errand
    }

    /// A path from each set at once, worked on in turns; what is staged may change
    /// on the way.
    fn side_by_side(&mut self) -> Vec<Event> {
        let idle = !self.state.in_progress() & !self.state.used();
        let first = self.path_within(idle);
        let second = self.path_within(idle & !first.0);
        let set = self.set();
        let mut errand = self.staged_path(set, first);
        errand.extend(self.staged_path(other(set), second));
        errand.push(self.trigger(set, first.0));
        errand.push(self.trigger(other(set), second.0));
        let lanes = [first.0, second.0].map(|path| self.rng.lane_of(path));
        for step in 0..first.0.count_ones().max(second.0.count_ones()) + 1 {
            if step == 1 && self.rng.percent(50) {
                errand.extend(StagedSet::BOTH.map(|set| write_event(address(set, 145), &[0; 8])));
            }
            errand.extend(lanes.map(|lane| Event::Work { lane }));
        }
        errand
    }

    /// A trigger on a lane in progress, from either set, with others beside it.
    fn in_the_way(&mut self) -> Vec<Event> {
        let busy = self.state.in_progress();
        if busy == 0 {
            return self.side_by_side();
        }
        let set = self.set();
        let lanes = 1 << self.rng.lane_of(busy) | self.rng.byte() & self.rng.byte();
        let (app_sel, first) = (self.rng.byte() & 15, self.rng.byte() & 7);
        let mut config = self.staged_configs(set);
        self.fill(&mut config, lanes, app_sel, first);
        vec![write_event(address(set, 145), &config), self.trigger(set, lanes)]
    }

    /// Accesses over the triggers of set 1 and over its bytes that keep nothing.
    fn edges_of_set_1(&mut self) -> Vec<Event> {
        let mut bytes = [0u8; 8];
        for byte in bytes.iter_mut() {
            *byte = self.rng.byte() & self.rng.byte();
        }
        let count = 1 + self.rng.below(8);
        let (first, from) = match self.rng.below(5) {
            0 => (171 + self.rng.byte() % 9, 8),
            1 => (173, 8),
            2 => (184 + self.rng.byte() % 7, 8),
            3 => (202 + self.rng.byte() % 11, count),
            _ => (176 + self.rng.byte() % 6, count),
        };
        vec![write_event(first, &bytes[..from]), Event::Read { address: first, count: from as u8 }]
    }

    /// A trigger of a set that has AppSel 0 staged, most often as it has been since
    /// start.
    fn released_by_zeros(&mut self) -> Vec<Event> {
        let zeros = |set: &StagedSet| self.staged_configs(*set) == [0; 8];
        let untouched: Vec<StagedSet> = StagedSet::BOTH.into_iter().filter(zeros).collect();
        let mut errand = Vec::new();
        let set = if untouched.is_empty() { self.set() } else { self.rng.pick(&untouched) };
        if untouched.is_empty() {
            errand.push(write_event(address(set, 145), &[0; 8]));
        }
        let used = self.state.used();
        let lane = if used != 0 { self.rng.lane_of(used) } else { self.rng.byte() & 7 };
        let mut lanes = self.state.path(lane) | 1 << lane;
        if self.rng.percent(25) {
            lanes = self.rng.byte();
        }
        errand.push(self.trigger(set, lanes));
        errand.extend(vec![Event::Work { lane }; lanes.count_ones() as usize + 1]);
        errand
    }

    /// A path on some of these lanes that a descriptor allows; if there is none,
    /// any lane.
    pub(super) fn path_within(&mut self, lanes: u8) -> Path {
        let mut found = Vec::new();
        for app_sel in 1..=15 {
            if let Some(descriptor) = find_descriptor(&self.state.image, app_sel) {
                let paths = (0..8).filter_map(|first| Some((descriptor.lanes_from(first)?, first)));
                let within = paths.filter(|(path, _)| path & !lanes == 0);
                found.extend(within.map(|(path, first)| (path, app_sel, first)));
            }
        }
        if found.is_empty() {
            let lane = self.rng.byte() & 7;
            return (1 << lane, 1 + self.rng.byte() % 15, lane);
        }
        self.rng.pick(&found)
    }

    /// The writes that stage a path in a set, often with settings of its lanes.
    pub(super) fn staged_path(&mut self, set: StagedSet, (lanes, app_sel, first): Path) -> Vec<Event> {
        let mut errand = Vec::new();
        let mut config = self.staged_configs(set);
        self.fill(&mut config, lanes, app_sel, first);
        if self.rng.percent(50) {
            LaneSet(lanes).for_each(|lane| config[lane as usize] |= 1);
            errand.extend(self.signal_integrity(set));
        }
        let (from, to) = (lanes.trailing_zeros() as usize, 8 - lanes.leading_zeros() as usize);
        errand.push(write_event(address(set, 145) + from as u8, &config[from..to]));
        errand
    }

    /// A trigger of a set, at times both of them in one access.
    pub(super) fn trigger(&mut self, set: StagedSet, lanes: u8) -> Event {
        match self.rng.below(8) {
            0 => write_event(address(set, 143), &[lanes, lanes]),
            1..=4 => write_event(address(set, 143), &[lanes]),
            _ => write_event(address(set, 144), &[lanes]),
        }
    }

    /// Where a host looks that cares about set 1.
    pub(super) fn registers_of_set_1(&mut self) -> (u8, u8, u8) {
        match self.rng.below(6) {
            0 | 1 => (0x10, 175 + self.rng.byte() % 5, 1 + self.rng.byte() % 8),
            2 => (0x10, 180, 8),
            3 => (0x10, 180, 29),
            4 => (0x10, 143, 70),
            _ => (0x10, 185 + self.rng.byte() % 28, 1 + self.rng.byte() % 8),
        }
    }
}
