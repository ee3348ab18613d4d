//! Paths moved from state to state, deinitialized and muted.

use super::{write_event, Maker};
use crate::staged::address;
use second::module::Event;

impl Maker {
    pub(super) fn hardware(&mut self) -> Event {
        let free = self.state.used() & !self.state.in_progress();
        let lane = if free != 0 && self.rng.percent(85) {
            self.rng.lane_of(free)
        } else {
            self.lane()
        };
        Event::Hardware { lane }
    }

    pub(super) fn deinit(&mut self) -> Event {
        let used = self.state.used();
        let mask = match self.rng.below(10) {
            0..=5 => 0,
            6 => self.rng.byte(),
            7 => 0xFF,
            _ if used != 0 => {
                let lane = self.rng.lane_of(used);
                self.state.path(lane)
            }
            _ => 0,
        };
        let errand = vec![self.page(0x10), write_event(128, &[mask])];
        self.begin(errand)
    }

    /// Outputs disabled or squelched, most often of one lane of a path, which
    /// then gets hardware events; and all of them on again.
    pub(super) fn mute(&mut self) -> Event {
        let used = self.state.used();
        let lane = if used != 0 { self.rng.lane_of(used) } else { self.rng.byte() & 7 };
        let path = self.state.path(lane) | 1 << lane;
        let lanes = match self.rng.below(10) {
            0 => self.rng.byte(),
            1 => 0xFF,
            2 | 3 => !path & self.rng.byte(),
            _ => 1 << self.rng.lane_of(path),
        };
        let bytes = match self.rng.below(6) {
            0 | 1 => [lanes, self.rng.byte(), 0],
            2 | 3 => [0, self.rng.byte(), lanes],
            _ => [lanes, 0, lanes],
        };
        let mut errand = vec![self.page(0x10), write_event(130, &bytes)];
        if self.rng.percent(15) {
            // The path as it is, once more: something is pending beside.
            let set = self.set_that_holds(lane);
            errand.push(write_event(address(set, 143), &[path]));
            errand.extend(vec![Event::Work { lane }; path.count_ones() as usize + 1]);
        }
        errand.extend((0..self.rng.below(4)).map(|_| Event::Hardware { lane }));
        errand.extend([self.page(0x10), write_event(130, &[0, 0, 0])]);
        self.begin(errand)
    }
}
