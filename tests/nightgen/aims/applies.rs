//! Settings staged, triggered, worked on and released.

use super::{write_event, Maker};
use crate::rules::descriptor_at;
use crate::staged::address;
use second::lanes::LaneSet;
use second::module::Event;
use second::registers::*;

impl Maker {
    /// Stages one or more paths in a set and triggers them.
    pub(super) fn provision(&mut self) -> Event {
        let mut errand = vec![self.page(0x10)];
        let set = self.set();
        let mut config = self.staged_configs(set);
        let mut touched = 0u8;
        for _ in 0..1 + self.rng.below(3) {
            let lanes = self.stage_path(&mut config);
            touched |= lanes;
        }
        let mut selected = touched;
        match self.rng.below(14) {
            0 => selected &= self.rng.byte(),
            1 => selected |= 1 << self.rng.below(8),
            2 => selected = 0xFF,
            3 => selected ^= 1 << self.rng.below(8),
            4 => selected = 0,
            _ => {}
        }
        if self.rng.percent(8) {
            // Something wrong with one lane's staged byte.
            let lane = self.rng.below(8);
            config[lane] ^= 1 << self.rng.below(8);
        }
        let immediate = self.rng.percent(40);
        match self.rng.below(10) {
            0 => {
                // Trigger and staged bytes in one access: the old ones count.
                let bytes = [
                    if immediate { 0 } else { selected },
                    if immediate || self.rng.percent(40) { selected } else { 0 },
                    config[0], config[1], config[2], config[3], config[4], config[5],
                ];
                errand.push(write_event(address(set, 143), &bytes));
            }
            1 => {
                errand.push(write_event(address(set, 145), &config));
                let other = self.rng.byte();
                let second = if immediate { other } else { selected };
                errand.push(write_event(address(set, 143), &[selected, second]));
            }
            _ => {
                let first = touched.trailing_zeros().min(7) as usize;
                let end = 8 - (touched.leading_zeros() as usize).min(7 - first);
                if self.rng.percent(30) {
                    let settings = self.signal_integrity(set);
                    errand.extend(settings);
                }
                errand.push(write_event(address(set, 145) + first as u8, &config[first..end]));
                let trigger = if immediate { 144 } else { 143 };
                errand.push(write_event(address(set, trigger), &[selected]));
            }
        }
        self.begin(errand)
    }

    /// The DPConfig bytes that a set has staged.
    pub(super) fn staged_configs(&self, set: StagedSet) -> [u8; 8] {
        [0, 1, 2, 3, 4, 5, 6, 7].map(|lane| self.state.staged(set, lane))
    }

    /// Puts one path into the DPConfig bytes to be staged; gives its lanes.
    fn stage_path(&mut self, config: &mut [u8; 8]) -> u8 {
        let mut app_sel = 1 + self.rng.byte() % 8;
        if self.rng.percent(if self.wild { 45 } else { 4 }) {
            app_sel = 9 + self.rng.byte() % 7;
        }
        let place = descriptor_at(app_sel);
        let (count, allowed) = match self.state.image[place + 2] >> 4 {
            0 if app_sel > 8 => (1 + self.rng.byte() % 4, 0xFF),
            count => (count, self.state.image[place + 3]),
        };
        let mut first = if allowed != 0 { self.rng.lane_of(allowed) } else { 0 };
        if self.rng.percent(6) {
            first = self.rng.byte() & 7;
        }
        if self.state.used() != 0 && self.rng.percent(45) {
            // Something new for a path that is there already.
            let lane = self.rng.lane_of(self.state.used());
            first = self.state.active(lane) >> 1 & 7;
            if self.rng.percent(70) {
                let lanes = self.state.path(lane);
                let app_sel = self.state.active(lane) >> 4;
                let same = self.alternative(app_sel, first);
                return self.fill(config, lanes, same, first);
            }
        }
        let mut lanes = 0;
        for lane in first..(first + count.max(1)).min(8) {
            lanes |= 1 << lane;
        }
        if self.rng.percent(4) {
            lanes ^= 1 << self.rng.below(8);
        }
        self.fill(config, lanes, app_sel, first)
    }

    /// The same AppSel, or another one of the same shape if there is one.
    pub(super) fn alternative(&mut self, app_sel: u8, first: u8) -> u8 {
        if self.rng.percent(60) {
            return app_sel;
        }
        let count = |a: u8| self.state.image[descriptor_at(a) + 2] >> 4;
        let options = |a: u8| self.state.image[descriptor_at(a) + 3];
        let like: Vec<u8> = (1..=15)
            .filter(|&a| count(a) == count(app_sel) && options(a) >> first & 1 != 0)
            .collect();
        if like.is_empty() {
            app_sel
        } else {
            self.rng.pick(&like)
        }
    }

    pub(super) fn fill(&mut self, config: &mut [u8; 8], lanes: u8, app_sel: u8, id: u8) -> u8 {
        let explicit = self.rng.below(3);
        for lane in LaneSet(lanes) {
            let control = match explicit {
                0 => self.rng.byte() & 1,
                _ => 0,
            };
            config[lane as usize] = app_sel << 4 | id << 1 | control;
        }
        lanes
    }

    /// Writes that stage signal integrity settings of a set, mostly allowed ones.
    pub(super) fn signal_integrity(&mut self, set: StagedSet) -> Vec<Event> {
        let limits = self.state.image[P01 + 153];
        let cursors = self.state.image[P01 + 154];
        let mut writes = Vec::new();
        for &(first, limit) in
            &[(156, limits & 15), (162, cursors & 15), (166, cursors >> 4), (170, 3)]
        {
            if self.rng.percent(40) {
                continue;
            }
            let mut bytes = [0u8; 4];
            for byte in bytes.iter_mut() {
                for shift in [0, 4] {
                    let value = if self.rng.percent(6) {
                        self.rng.byte() & 15
                    } else if self.rng.percent(30) {
                        limit
                    } else {
                        self.rng.byte() % (limit + 1)
                    };
                    *byte |= value << shift;
                }
            }
            writes.push(write_event(address(set, first), &bytes));
        }
        if self.rng.percent(50) {
            let (one, two, three) = (self.rng.byte(), self.rng.byte(), self.rng.byte());
            writes.push(write_event(address(set, 153), &[one]));
            writes.push(write_event(address(set, 160), &[two, three]));
        }
        writes
    }

    /// A host that changes staged bytes at any time.
    pub(super) fn stage_something(&mut self) -> Event {
        if self.state.page() != 0x10 {
            return self.page(0x10);
        }
        let set = self.set();
        let first = 145 + self.rng.byte() % 29;
        let count = 1 + self.rng.below(4);
        let bytes = [self.rng.byte(), self.rng.byte(), self.rng.byte(), self.rng.byte()];
        write_event(address(set, first), &bytes[..count])
    }

    /// A trigger on whatever its set has staged.
    pub(super) fn trigger_again(&mut self) -> Event {
        if self.state.page() != 0x10 {
            return self.page(0x10);
        }
        let mut lanes = self.rng.byte();
        let used = self.state.used();
        if used != 0 && self.rng.percent(50) {
            let lane = self.rng.lane_of(used);
            lanes = self.state.path(lane);
            if self.rng.percent(40) {
                lanes &= self.rng.byte();
            }
        }
        let set = self.set();
        if self.rng.percent(30) {
            let other = self.rng.byte();
            write_event(address(set, 143), &[lanes, other])
        } else {
            write_event(address(set, 143 + (self.rng.byte() & 1)), &[lanes])
        }
    }

    pub(super) fn release(&mut self) -> Event {
        let used = self.state.used();
        let mut lanes = 1 << (self.rng.byte() & 7);
        if used != 0 && self.rng.percent(85) {
            let resting = self.state.lanes_where(|lane| {
                used >> lane & 1 != 0 && self.state.dp_state(lane) == 1
            });
            let from = if resting != 0 && self.rng.percent(70) { resting } else { used };
            let lane = self.rng.lane_of(from);
            lanes = self.state.path(lane);
        }
        let mut errand = vec![self.page(0x10)];
        let set = self.set();
        let mut bytes = [0u8; 8];
        if self.rng.percent(30) {
            // DataPathID and ExplicitControl beside AppSel 0 do not matter.
            for byte in bytes.iter_mut() {
                *byte = self.rng.byte() & 0x0F;
            }
        }
        let count = lanes.count_ones() as usize;
        errand.push(write_event(address(set, 145) + lanes.trailing_zeros() as u8, &bytes[..count]));
        if self.rng.percent(15) {
            lanes &= self.rng.byte();
        } else if self.rng.percent(8) {
            lanes = 0xFF;
        }
        let trigger = if self.rng.percent(40) { 144 } else { 143 };
        errand.push(write_event(address(set, trigger), &[lanes]));
        self.begin(errand)
    }

    pub(super) fn work(&mut self) -> Event {
        let busy = self.state.in_progress();
        let lane = if busy != 0 && self.rng.percent(93) {
            self.rng.lane_of(busy)
        } else {
            self.lane()
        };
        Event::Work { lane }
    }
}
