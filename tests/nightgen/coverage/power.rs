//! The module's states: every row of its table and what decided it, the line,
//! and lower 26.

use super::Coverage;
use crate::power::*;
use crate::state::State;
use second::module::Event;
use second::registers::*;

const MOVES: &str = "module events";
const DURING: &str = "module events while an Apply is under way";
const LINE: &str = "low-power line";
const CONTROLS: &str = "lower 26";

/// Of three names, the one that says who asks for low power: bit 4 of lower 26,
/// the line, or both.
fn asked_by(state: &State, names: [&'static str; 3]) -> &'static str {
    match requests(state) {
        [true, false] => names[0],
        [false, true] => names[1],
        [true, true] => names[2],
        [false, false] => panic!("nobody asks for low power, and yet: {}", names[0]),
    }
}

impl Coverage {
    /// Looks at an event that is done with the module's states in mind.
    pub(super) fn look_at_power(&mut self, before: &State, event: &Event, after: &State) {
        if let Err(what) = powers_plainly(before, event, after) {
            panic!("{}", what);
        }
        match *event {
            Event::Module => self.look_at_module(before, after),
            Event::Line { on } => self.look_at_line(before, on, after),
            Event::Write { address, count, data } => {
                if let Some(byte) = controls_written(address, &data[..count as usize]) {
                    self.look_at_controls(before, byte, after);
                }
            }
            Event::Read { address, count } => {
                if (address as usize..address as usize + count as usize).contains(&26) {
                    self.hit(CONTROLS, match before.image[26] {
                        0x40 => "read as 40h",
                        byte if byte & 0xAF != 0 => "read with a bit that has no effect",
                        _ => "read as 00h, 10h or 50h",
                    });
                }
            }
            _ => {}
        }
    }

    fn look_at_module(&mut self, before: &State, after: &State) {
        let pair = (before.module_state(), after.module_state());
        let low = low_power(before);
        self.look_at_row(before, pair, low);
        if before.in_progress() != 0 {
            self.hit(DURING, match pair {
                (1, 2) => "1 to 2",
                (1, 1) => "1 stays",
                (2, 3) => "2 to 3",
                (2, 4) => "2 to 4",
                (3, 4) => "3 to 4",
                (3, 3) if low => "3 stays, a path is up",
                (3, 3) => "3 stays, nobody asks",
                _ => "4 to 1",
            });
        }
        if before.working.line && before.image[26] & 0x50 == 0 {
            match pair {
                (1, 2) => self.hit(LINE, "on without 26.6: 1 to 2"),
                (2, 3) => self.hit(LINE, "on without 26.6: 2 to 3"),
                (3, 3) if all_deactivated(before) => {
                    self.hit(LINE, "on without 26.6: 3 stays, nothing is up")
                }
                _ => {}
            }
        }
        self.look_at_state_flag(before, pair, after);
    }

    /// The table row by row, and what decided it.
    fn look_at_row(&mut self, before: &State, pair: (u8, u8), low: bool) {
        let asked_by = |names| asked_by(before, names);
        self.hit(MOVES, match pair {
            (1, 2) => "1 to 2",
            (1, 1) => asked_by(["1 stays by 26.4", "1 stays by the line", "1 stays by both"]),
            (2, 3) => "2 to 3",
            (2, 4) => asked_by(["2 to 4 by 26.4", "2 to 4 by the line", "2 to 4 by both"]),
            (3, 4) => asked_by(["3 to 4 by 26.4", "3 to 4 by the line", "3 to 4 by both"]),
            (3, 3) if low => asked_by([
                "3 stays though 26.4 asks, a path is up",
                "3 stays though the line asks, a path is up",
                "3 stays though both ask, a path is up",
            ]),
            (3, 3) if all_deactivated(before) => "3 stays, nothing is up and nobody asks",
            (3, 3) => "3 stays, a path is up and nobody asks",
            (4, 1) if low => asked_by(["4 to 1 by 26.4", "4 to 1 by the line", "4 to 1 by both"]),
            (4, 1) => "4 to 1 though nobody asks any more",
            _ => panic!("the module's table has no {:?}", pair),
        });
        let resting = before.used() & before.lanes_where(|lane| before.dp_state(lane) == 1);
        match pair {
            (3, 4) if before.used() == 0 => self.hit(MOVES, "3 to 4, no lane is used"),
            (3, 4) => self.hit(MOVES, "3 to 4, lanes are used"),
            (3, 3) if low && resting != 0 => {
                self.hit(MOVES, "3 stays, one path is down and another is up")
            }
            _ => {}
        }
    }

    /// 8.0 on both sides.
    fn look_at_state_flag(&mut self, before: &State, pair: (u8, u8), after: &State) {
        const HEADING: &str = "module state flag";
        let entered = match pair {
            (2, 3) => "set on entering ModuleReady",
            (4, 1) if low_power(before) => "set on entering ModuleLowPwr to stay",
            (4, 1) => "not set on entering ModuleLowPwr to leave it",
            (was, is) if was == is => "not set by staying",
            _ => "not set on entering ModulePwrUp or ModulePwrDn",
        };
        if entered.starts_with("set") {
            self.hit(HEADING, entered);
            self.look_at_module_flag(MODULE_STATE_CHANGED, before, after);
        } else if before.image[MODULE_FLAGS] & MODULE_STATE_CHANGED == 0 {
            self.hit(HEADING, entered);
        }
    }

    fn look_at_line(&mut self, before: &State, on: bool, after: &State) {
        self.hit(LINE, match (before.working.line, on) {
            (false, true) => "off to on",
            (true, false) => "on to off",
            (true, true) => "on again",
            (false, false) => "off again",
        });
        let [software, _] = requests(before);
        let allowed = before.image[26] & 0x40 != 0;
        if before.working.line != on {
            self.hit(LINE, match (on, software, allowed) {
                (true, false, true) => "on with 26.6, low power begins",
                (true, true, _) => "on beside 26.4",
                (true, false, false) => "on without 26.6, nothing begins",
                (false, false, true) => "off with 26.6, low power ends",
                (false, true, _) => "off beside 26.4",
                (false, false, false) => "off without 26.6, nothing ends",
            });
        }
        self.hit(LINE, match after.module_state() {
            1 => "in ModuleLowPwr",
            2 => "in ModulePwrUp",
            3 => "in ModuleReady",
            _ => "in ModulePwrDn",
        });
        if before.in_progress() != 0 {
            self.hit(LINE, "while an Apply is under way");
        }
    }

    /// Lower 26 written, bit by bit.
    fn look_at_controls(&mut self, before: &State, byte: u8, after: &State) {
        const NAMES: [(u8, &str, &str); 7] = [
            (7, "bit 7 set", "bit 7 cleared"), (6, "bit 6 set", "bit 6 cleared"),
            (5, "bit 5 set", "bit 5 cleared"), (4, "bit 4 set", "bit 4 cleared"),
            (2, "bit 2 set", "bit 2 cleared"), (1, "bit 1 set", "bit 1 cleared"),
            (0, "bit 0 set", "bit 0 cleared"),
        ];
        if byte & SOFTWARE_RESET != 0 {
            return self.hit(CONTROLS, "bit 3 written as 1");
        }
        let (was, is) = (before.image[26], after.image[26]);
        for (bit, set, cleared) in NAMES {
            match (was >> bit & 1, is >> bit & 1) {
                (0, 1) => self.hit(CONTROLS, set),
                (1, 0) => self.hit(CONTROLS, cleared),
                _ => {}
            }
        }
        if was == is {
            self.hit(CONTROLS, "written with what it holds");
        }
        match (low_power(before), low_power(after), (was ^ is) & 0x50) {
            (false, true, 0x10) => self.hit(CONTROLS, "low power begins by bit 4"),
            (true, false, 0x10) => self.hit(CONTROLS, "low power ends by bit 4"),
            (false, true, 0x40) => self.hit(CONTROLS, "low power begins by bit 6, the line is on"),
            (true, false, 0x40) => self.hit(CONTROLS, "low power ends by bit 6, the line is on"),
            (false, false, 0x40) => self.hit(CONTROLS, "bit 6 changed, the line is off"),
            _ => {}
        }
        if self.watch.edition < 4 {
            self.hit(CONTROLS, "written in an older edition");
        }
    }
}
