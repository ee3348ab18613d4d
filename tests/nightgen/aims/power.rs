//! The module brought up and down, low power asked for in lower 26 and by the
//! line, and resets.

use super::{write_event, Maker};
use crate::power::{holds_down, requests};
use crate::staged::address;
use second::module::Event;
use second::registers::*;

const LOWER_3: Event = Event::Read { address: 3, count: 1 };
const LOWER_8: Event = Event::Read { address: 8, count: 1 };
const LOWER_26: Event = Event::Read { address: 26, count: 1 };

/// No request for low power is left.
fn nobody_asks() -> [Event; 2] {
    [Event::Line { on: false }, write_event(26, &[0x40])]
}

impl Maker {
    /// What a night begins with: the module comes up, but for some nights.
    pub fn opening(&mut self) -> Vec<Event> {
        match self.kinds.power {
            true if !self.wild || self.rng.percent(85) => vec![Event::Module; 2],
            _ => Vec::new(),
        }
    }

    pub(super) fn power(&mut self) -> Event {
        let errand = if !self.kinds.power {
            match self.rng.below(3) {
                0 => self.reset(),
                1 => self.next_to_a_reset(),
                _ => self.controls(),
            }
        } else if holds_down(&self.state) {
            match self.rng.below(12) {
                0..=3 if self.restless => self.turned_back(),
                4 => self.controls(),
                5 => vec![Event::Module],
                _ => self.up(),
            }
        } else {
            match self.rng.below(16) {
                0..=4 => self.down(),
                5 | 6 => self.line_without_its_bit(),
                7 | 8 => self.controls(),
                9 => vec![Event::Module],
                10 => self.next_to_a_reset(),
                11 => vec![Event::Line { on: self.rng.percent(40) }],
                12 | 13 => self.release_cut_off(),
                _ => self.reset(),
            }
        };
        self.begin(errand)
    }

    /// What ends every request, and module events up to ModuleReady.
    fn up(&mut self) -> Vec<Event> {
        let mut errand = Vec::new();
        let [software, line] = requests(&self.state);
        let controls = self.state.image[MODULE_CONTROLS] & 0xE7;
        if software {
            errand.push(write_event(26, &[controls]));
        }
        if line {
            errand.push(match self.rng.below(3) {
                0 => write_event(26, &[controls & 0xBF]),
                _ => Event::Line { on: false },
            });
        }
        let masked = self.rng.percent(20);
        let lanes_masked = masked && self.rng.percent(50);
        if lanes_masked {
            errand.extend(self.all_masks(0xFF));
        }
        if masked {
            errand.extend([LOWER_8, self.masks_of_the_module()]);
        }
        let steps = match self.state.module_state() {
            1 => 2,
            3 => 0,
            4 => 3,
            _ => 1,
        };
        errand.extend(vec![Event::Module; steps + self.rng.below(4) / 3]);
        if masked {
            errand.extend([LOWER_3, write_event(31, &[0x00]), LOWER_3]);
        }
        if lanes_masked {
            errand.extend(self.all_masks(0x00));
        }
        errand.extend(self.reads_of_the_module());
        errand
    }

    /// A request for low power: by bit 4, by the line with bit 6, or by both.
    fn request(&mut self) -> Vec<Event> {
        let others = self.state.image[MODULE_CONTROLS] & 0xA7;
        match self.rng.below(9) {
            0..=2 => {
                let allowed = self.rng.pick(&[0x00, 0x40]);
                vec![write_event(26, &[others | allowed | 0x10])]
            }
            3 => vec![Event::Line { on: true }, write_event(26, &[others | 0x50])],
            4 => vec![write_event(26, &[others | 0x50]), Event::Line { on: true }],
            _ if self.state.image[MODULE_CONTROLS] & 0x40 != 0 => vec![Event::Line { on: true }],
            _ => vec![Event::Line { on: true }, write_event(26, &[others | 0x40])],
        }
    }

    /// Low power asked for, the paths wound down one by one, and the module
    /// behind them; it is also tried before they are down. Outputs may be off.
    fn down(&mut self) -> Vec<Event> {
        let mut errand = Vec::new();
        let muted = self.rng.percent(30);
        if muted {
            errand.extend([self.page(0x10), write_event(130, &[0xFF])]);
        }
        errand.extend(self.request());
        if self.rng.percent(15) {
            errand.push(self.masks_of_the_module());
        }
        let mut left = self.state.used();
        while left != 0 {
            let lane = left.trailing_zeros() as u8;
            left &= !self.state.path(lane);
            if self.rng.percent(25) {
                errand.push(Event::Module);
            }
            let steps = if self.rng.percent(70) { 4 } else { self.rng.below(4) };
            errand.extend(vec![Event::Hardware { lane }; steps]);
        }
        errand.push(Event::Module);
        if self.rng.percent(30) {
            errand.extend(nobody_asks());
            errand.extend(self.meanwhile());
        }
        errand.extend(vec![Event::Module; self.rng.below(3)]);
        if muted {
            errand.extend([self.page(0x10), write_event(130, &[0x00])]);
        }
        errand.extend(self.reads_of_the_module());
        errand
    }

    /// On the way up low power is asked for; the request may be over before the
    /// module is down.
    fn turned_back(&mut self) -> Vec<Event> {
        let mut errand = Vec::new();
        if self.state.module_state() == 1 {
            errand.extend(nobody_asks());
            errand.push(Event::Module);
        }
        errand.extend(self.meanwhile());
        errand.extend(self.request());
        errand.push(Event::Module);
        if self.rng.percent(50) {
            errand.extend(nobody_asks());
        }
        errand.extend(self.meanwhile());
        errand.extend(vec![Event::Module; 1 + self.rng.below(2)]);
        errand.extend(self.reads_of_the_module());
        errand
    }

    /// What comes while the module is between two states.
    fn meanwhile(&mut self) -> Vec<Event> {
        let used = self.state.used();
        match self.rng.below(6) {
            0 => self.reset(),
            1..=4 if used != 0 => vec![Event::Hardware { lane: self.rng.lane_of(used) }; 2],
            _ => Vec::new(),
        }
    }

    /// The line has no say while bit 6 is 0.
    fn line_without_its_bit(&mut self) -> Vec<Event> {
        let others = self.state.image[MODULE_CONTROLS] & 0xA7;
        let mut errand = vec![write_event(26, &[others]), Event::Line { on: true }];
        let lit = self.state.lanes_where(|lane| self.state.dp_state(lane) == 4);
        let lanes = if lit != 0 { lit } else { self.state.used() };
        if lanes != 0 {
            let lane = self.rng.lane_of(lanes);
            errand.extend(vec![Event::Hardware { lane }; 1 + self.rng.below(3)]);
        }
        if self.rng.percent(30) {
            let reset = self.reset();
            errand.extend(reset);
            return errand;
        }
        errand.push(Event::Module);
        errand.push(match self.rng.below(3) {
            0 => write_event(26, &[others | 0x40]),
            _ => Event::Line { on: false },
        });
        errand
    }

    /// Lower 26 with a bit changed, or anything, but no reset; and as it was.
    fn controls(&mut self) -> Vec<Event> {
        let here = self.state.image[MODULE_CONTROLS] & 0xF7;
        let byte = match self.rng.below(8) {
            0 => here,
            1 => self.rng.byte() & 0xF7,
            2 => 0xF7,
            _ => here ^ self.rng.pick(&[0x80, 0x40, 0x20, 0x10, 0x04, 0x02, 0x01]),
        };
        let mut errand = vec![write_event(26, &[byte]), LOWER_26];
        if self.rng.percent(60) {
            errand.push(write_event(26, &[here]));
        }
        errand
    }

    /// A reset at any place of its access, and what it finds and leaves; most
    /// often the module comes up again.
    fn reset(&mut self) -> Vec<Event> {
        let mut errand = Vec::new();
        if self.rng.percent(8) {
            errand.push(write_event(126, &[1]));
        }
        if self.kinds.power && self.rng.percent(25) {
            errand.push(Event::Line { on: self.rng.percent(70) });
        }
        let mut bytes = [0u8; 8];
        for byte in bytes.iter_mut() {
            *byte = self.rng.byte();
        }
        let place = self.rng.below(8);
        bytes[place] |= SOFTWARE_RESET;
        let first = MODULE_CONTROLS - place;
        errand.push(match self.rng.below(4) {
            0 => write_event(26, &[self.rng.pick(&[0x08, 0x48, 0x58, 0xFF, 0x18])]),
            1 => write_event(first as u8, &bytes[..place + 1 + self.rng.below(8 - place)]),
            _ => write_event(first as u8, &bytes),
        });
        let (busy, used) = (self.state.in_progress(), self.state.used());
        if busy != 0 && self.rng.percent(40) {
            errand.push(Event::Work { lane: self.rng.lane_of(busy) });
        }
        if used != 0 && self.rng.percent(40) {
            errand.push(Event::Hardware { lane: self.rng.lane_of(used) });
        }
        errand.extend(self.reads_of_the_module());
        if self.kinds.power && self.rng.percent(85) {
            if self.state.working.line && self.rng.percent(70) {
                errand.push(Event::Line { on: false });
            }
            errand.extend([Event::Module, Event::Module]);
        }
        errand
    }

    /// The release of a path at rest, reset before it is done, if there is one of
    /// several lanes.
    fn release_cut_off(&mut self) -> Vec<Event> {
        let resting = self.state.lanes_where(|lane| {
            let path = self.state.path(lane);
            self.state.used() >> lane & 1 != 0
                && self.state.dp_state(lane) == 1
                && path & self.state.in_progress() == 0
                && path.count_ones() > 1
        });
        let mut errand = Vec::new();
        if resting != 0 {
            let lane = self.rng.lane_of(resting);
            let path = self.state.path(lane);
            let (first, count) = (path.trailing_zeros() as u8, path.count_ones() as usize);
            let set = self.set();
            errand.extend([
                self.page(0x10),
                write_event(address(set, 145) + first, &[0; 8][..count]),
                write_event(address(set, 143), &[path]),
            ]);
            errand.extend(vec![Event::Work { lane: first }; 1 + self.rng.below(count - 1)]);
        }
        errand.extend(self.reset());
        errand
    }

    /// Accesses that are all but a reset: the bit is 0, or in another byte, or
    /// the access is refused.
    fn next_to_a_reset(&mut self) -> Vec<Event> {
        let here = self.state.image[MODULE_CONTROLS] & 0xF7;
        let odd = match self.rng.below(5) {
            0 => write_event(25, &[0xFF, here, 0xFF]),
            1 => Event::Write { address: 26, count: 9, data: [0xFF; 8] },
            2 => Event::Write { address: 26, count: 0, data: [0; 8] },
            3 => write_event(128 + 26, &[0x08]),
            _ => write_event(27, &[0x08, 0x08]),
        };
        vec![odd, LOWER_3, LOWER_26]
    }

    fn masks_of_the_module(&mut self) -> Event {
        let any = self.rng.byte();
        let masks = self.rng.pick(&[0x01, 0xFE, 0x00, any & 0xFE, any]);
        write_event(31, &[masks])
    }

    /// What a host reads when the module may have moved.
    fn reads_of_the_module(&mut self) -> Vec<Event> {
        let mut reads = Vec::new();
        for (chance, read) in [(40, LOWER_3), (45, LOWER_8), (25, LOWER_3), (20, LOWER_26)] {
            if self.rng.percent(chance) {
                reads.push(read);
            }
        }
        match self.rng.below(20) {
            0 => reads.insert(0, write_event(8, &[0x00])),
            1 | 2 => reads.insert(0, self.masks_of_the_module()),
            _ => {}
        }
        reads
    }

    /// Where a host looks that cares about the module's states.
    pub(super) fn module_registers(&mut self) -> (u8, u8, u8) {
        match self.rng.below(6) {
            0 | 1 => (0, 3, 1),
            2 => (0, 8, 1),
            3 => (0, 3, 6),
            4 => (0, 26, 1),
            _ => (0, 20 + self.rng.byte() % 7, 7 + self.rng.byte() % 10),
        }
    }
}
