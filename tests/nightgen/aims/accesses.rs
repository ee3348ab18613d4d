//! Pages, reads, masks, and accesses at the edge of what is allowed.

use super::{write_event, Maker};
use second::module::Event;
use second::registers::*;

impl Maker {
    /// Selecting a page, in one of the ways there are.
    pub(super) fn page(&mut self, page: u8) -> Event {
        if self.rng.percent(80) && self.state.image[BANK_SELECT] == 0 {
            write_event(127, &[page])
        } else {
            write_event(126, &[0, page])
        }
    }

    /// Reads of what a host looks at, with the page selected first.
    pub(super) fn look(&mut self) -> Event {
        let (page, address, count) = if self.wild && self.rng.percent(8) {
            self.command_registers()
        } else if self.wild && self.rng.percent(12) {
            self.flag_registers()
        } else if self.wild && self.rng.percent(6) {
            self.module_registers()
        } else if self.wild && self.rng.percent(8) {
            self.registers_of_set_1()
        } else {
            self.usual_registers()
        };
        // A night for measuring selects 9Fh now and then, but its host takes
        // it for a page that is not there, as it was when that night was made.
        let here = match self.state.page() {
            0x9F if !self.wild => 0x00,
            page => page,
        };
        let read = Event::Read { address, count };
        if address < 128 || (here == page && self.rng.percent(90)) {
            return read;
        }
        let errand = vec![self.page(page), read];
        self.begin(errand)
    }

    /// Page, address and count of what a host usually looks at.
    fn usual_registers(&mut self) -> (u8, u8, u8) {
        match self.rng.below(16) {
            0 | 1 => (0x11, 202, 4),
            2 => (0x11, 206, 8),
            3 => (0x11, 206, 30),
            4 | 5 => (0x11, 134, 20),
            6 => (0x11, 134 + self.rng.byte() % 20, 1),
            7 => (0x11, 128, 4),
            8 => (0x11, 186, 16),
            9 => (0x10, 140 + self.rng.byte() % 4, 4),
            10 => (0x10, 145, 8),
            11 => (0x02, 192, 8),
            12 => (0x01, 153, 2),
            13 => (0x00, 128 + self.rng.byte() % 100, 1 + self.rng.byte() % 8),
            14 if self.rng.percent(30) => (self.rng.pick(&[0x00, 0x01, 0x02, 0x10, 0x11]), 128, 128),
            14 => (0, 3, 8),
            _ => (0, self.rng.pick(&[0, 3, 8, 9, 31, 86, 120, 126]), 1 + self.rng.byte() % 2),
        }
    }

    /// A part of the flag bytes, at its edges or anywhere.
    fn flag_registers(&mut self) -> (u8, u8, u8) {
        match self.rng.below(5) {
            0 => (0x11, 135, 4),
            1 => (0x11, 147, 2),
            2 => (0x11, 149, 4),
            3 => (0x11, 134 + self.rng.byte() % 20, 1),
            _ => {
                let address = 130 + self.rng.byte() % 24;
                (0x11, address, 2 + self.rng.byte() % 20)
            }
        }
    }

    pub(super) fn select(&mut self) -> Event {
        const PAGES: [u8; 9] = [0x00, 0x01, 0x02, 0x10, 0x11, 0x10, 0x11, 0x03, 0x9F];
        let page = self.rng.pick(&PAGES);
        match self.rng.below(6) {
            0 | 1 => write_event(127, &[page]),
            2 => {
                let bank = self.rng.pick(&[0, 0, 1, 0x80]);
                write_event(126, &[bank, page])
            }
            3 => {
                // A bank that gets in the way, and accesses while it does.
                let bank = 1 + self.rng.byte() % 255;
                let first = write_event(127, &[0x10 | page & 1]);
                let errand = vec![
                    first,
                    write_event(126, &[bank]),
                    Event::Read { address: 126, count: 2 },
                    Event::Read { address: 128 + (page & 0x7F), count: 4 },
                    write_event(145, &[page, bank]),
                    write_event(126, &[0]),
                    Event::Read { address: 145, count: 2 },
                ];
                self.begin(errand)
            }
            4 => {
                let bytes = [self.rng.byte(), 0, page];
                write_event(125, &bytes)
            }
            _ => {
                let bank = self.rng.pick(&[0, 0, 0, 1]);
                write_event(126, &[bank])
            }
        }
    }

    pub(super) fn masks(&mut self) -> Event {
        let address = 213 + self.rng.byte() % 20;
        let count = 1 + self.rng.below((233 - address as usize).min(8));
        let mut bytes = [0u8; 8];
        let style = self.rng.below(3);
        for byte in bytes.iter_mut() {
            *byte = match style {
                0 => 0xFF,
                1 => 0,
                _ => self.rng.byte(),
            };
        }
        let errand = if self.rng.percent(10) {
            self.all_masks(bytes[0])
        } else {
            vec![self.page(0x10), write_event(address, &bytes[..count])]
        };
        self.begin(errand)
    }

    /// All masks of lanes alike.
    pub(super) fn all_masks(&mut self, byte: u8) -> Vec<Event> {
        let all = [byte; 8];
        vec![
            self.page(0x10),
            write_event(213, &all),
            write_event(221, &all),
            write_event(229, &all[..4]),
        ]
    }

    /// A record with anything in it, often at the edge of what is allowed.
    pub(super) fn anything(&mut self) -> Event {
        let address = match self.rng.below(4) {
            0 => self.rng.byte(),
            1 => 120 + self.rng.byte() % 16,
            2 => 248 + self.rng.byte() % 8,
            _ => self.rng.pick(&[0, 1, 31, 127, 128, 143, 144, 178, 179, 250, 255]),
        };
        match self.rng.below(12) {
            0..=4 => {
                let count = match self.rng.below(8) {
                    0 => 0,
                    1 => 9 + self.rng.byte() % 247,
                    _ => 1 + self.rng.byte() % 8,
                };
                let mut data = [0u8; 8];
                for byte in data.iter_mut().take(count as usize) {
                    *byte = self.rng.byte();
                }
                Event::Write { address, count, data }
            }
            5..=9 => {
                let count = match self.rng.below(8) {
                    0 => 0,
                    1 => 129 + self.rng.byte() % 127,
                    2 => 128,
                    3 => 128 - (address & 127),
                    4 => 129 - (address & 127),
                    _ => 1 + self.rng.byte() % 16,
                };
                Event::Read { address, count }
            }
            10 => Event::Work { lane: self.rng.byte() },
            _ => Event::Hardware { lane: self.rng.byte() },
        }
    }
}
