//! Writes and reads: pages, bytes that take a write, flags that a read clears.

use super::Coverage;
use crate::rules::left_by_write_on_10h;
use crate::staged::{keeps, trigger_at};
use crate::state::State;
use second::module::*;
use second::registers::*;

impl Coverage {
    /// A write that ends in neither a command nor a reset is the same as its
    /// bytes written one by one. (Others are not: the command or the reset comes
    /// after all their bytes. `look_at_command` and the rules of `power` say what
    /// they leave.)
    pub(super) fn look_at_write(&mut self, before: &State, address: u8, data: &[u8], after: &State) {
        let mut state = before.clone();
        let mut bank_here = false;
        for (place, &byte) in (address..=255).zip(data) {
            let (bank, page) = (state.image[BANK_SELECT], state.image[PAGE_SELECT]);
            let upper = state.page();
            match place {
                126 => {
                    bank_here = true;
                    match (page, bank != 0, byte != 0) {
                        (0x9F, false, true) => {
                            self.hit("pages", "126 moves upper addresses from 9Fh to 00h")
                        }
                        (0x9F, true, false) => self.hit("pages", "126 back to 0 brings 9Fh back"),
                        (0x10.., false, true) => {
                            self.hit("pages", "126 moves upper addresses from 10h or 11h to 00h")
                        }
                        (0x10.., true, false) => {
                            self.hit("pages", "126 back to 0 brings 10h or 11h back")
                        }
                        _ => {}
                    }
                }
                127 => {
                    if bank_here {
                        self.hit("pages", "126 and 127 in one access");
                    }
                    if byte <= 2 && bank != 0 {
                        self.hit("pages", "127 takes 00h, 01h or 02h beside a bank");
                    }
                    self.hit("pages", match (byte, bank) {
                        (0x00, _) => "127 takes 00h",
                        (0x01, _) => "127 takes 01h",
                        (0x02, _) => "127 takes 02h",
                        (0x10, 0) => "127 takes 10h",
                        (0x11, 0) => "127 takes 11h",
                        (0x9F, 0) => "127 takes 9Fh",
                        (0x9F, _) => "127 refused: 9Fh beside a bank",
                        (0x10, _) | (0x11, _) => "127 refused: 10h or 11h beside a bank",
                        _ => "127 refused: no such page",
                    });
                }
                0..=125 => self.hit("pages", match place {
                    26 | 31..=36 => "write on lower memory: byte takes it",
                    _ => "write on lower memory: byte ignores it",
                }),
                _ => {
                    self.hit("pages", match (upper, page) {
                        (0x00, 0x10) | (0x00, 0x11) => "write on 00h in place of 10h or 11h",
                        (0x00, 0x9F) => "write on 00h in place of 9Fh",
                        (0x00, _) => "write on 00h",
                        (0x01, _) => "write on 01h",
                        (0x02, _) => "write on 02h",
                        (0x10, _) => "write on 10h",
                        (0x9F, _) => "write on 9Fh",
                        _ => "write on 11h",
                    });
                    if upper == 0x10 {
                        self.look_at_byte_on_10h(&state, place, byte);
                    }
                }
            }
            state.step(&Event::Write { address: place, count: 1, data: [byte, 0, 0, 0, 0, 0, 0, 0] });
        }
        assert!(state == *after, "a write differs from its bytes written one by one");
        if address > 127 && before.page() == 0x10 {
            let plainly = left_by_write_on_10h(before, address, data);
            assert!(plainly == *after, "a write on 10h leaves otherwise than the plain rules");
            self.look_at_triggers_in_access(before, address, data);
        }
    }

    /// A byte that is written on page 10h, with the state that it finds.
    fn look_at_byte_on_10h(&mut self, before: &State, address: u8, byte: u8) {
        match trigger_at(address) {
            Some((set, trigger)) => self.look_at_trigger(before, set, trigger, byte),
            None if keeps(address) => self.hit("pages", "write on 10h: byte takes it"),
            None => self.hit("pages", "write on 10h: byte ignores it"),
        }
        self.look_at_byte_of_set_1(address, byte);
    }

    pub(super) fn look_at_read(&mut self, before: &State, address: u8, count: u8, after: &State) {
        let page = before.page();
        let selected = before.image[PAGE_SELECT];
        let end = address as u32 + count as u32;
        let over = |from: u32, to: u32| (address as u32) < to && from < end;
        self.hit("pages", match (address, page) {
            (0..=127, _) => "read on lower memory",
            (_, 0x00) if selected == 0x9F => "read on 00h in place of 9Fh",
            (_, 0x00) if selected != 0 => "read on 00h in place of 10h or 11h",
            (_, 0x00) => "read on 00h",
            (_, 0x01) => "read on 01h",
            (_, 0x02) => "read on 02h",
            (_, 0x10) => "read on 10h",
            (_, 0x9F) => "read on 9Fh",
            _ => "read on 11h",
        });
        if count == 128 {
            self.hit("pages", "read of 128 bytes");
            if address == 128 && page == 0x9F {
                self.hit("pages", "read of 128 bytes of 9Fh");
            }
        }
        if page == 0x10 {
            self.look_at_triggers_read(before, address, count);
        }
        if over(8, 10) {
            self.hit("flags", "lower 8-9 read");
        }
        if page == 0x11 && over(134, 154) {
            let flags = LANE_FLAGS..LANE_FLAGS_END;
            if before.image[flags.clone()] != after.image[flags.clone()] {
                self.hit("flags", "flag cleared by a read");
                if after.image[flags].iter().any(|&byte| byte != 0) {
                    self.hit("flags", "flags partly read");
                }
            }
        }
    }
}
