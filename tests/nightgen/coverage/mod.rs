//! Counts of what nights cover. On the way the core is held against plain rules.

mod accesses;
mod applies;
mod commands;
mod lasting;
mod module_flags;
mod paths;
mod power;
mod resets;
mod sets;
mod signals;
mod wanted;

use self::lasting::Watch;
use self::resets::CutOff;
use self::sets::Makers;
use self::wanted::WANTED;
use crate::aims::Slip;
use crate::messages::runs_command;
use crate::nights::Made;
use crate::power::resets;
use crate::state::State;
use crate::tally::Tally;
use second::module::*;
use second::night::Edition;
use second::registers::*;
use std::io::{self, Write};

#[derive(Default)]
pub struct Coverage {
    tally: Tally,
    records: u64,
    watch: Watch,
    cut_off: CutOff,
    makers: Makers,
}

impl Coverage {
    pub fn hit(&mut self, heading: &'static str, name: &'static str) {
        self.tally.hit(WANTED, heading, name);
    }

    /// Prints all counts; gives how many are 0.
    pub fn print(&self, to: &mut dyn Write) -> io::Result<usize> {
        self.tally.print(WANTED, &format!("{} records", self.records), to)
    }

    /// Looks at a night as a file of an edition.
    pub fn look_at_edition(&mut self, edition: Edition, made: &Made) {
        const NAMES: [[&str; 3]; 4] = [
            ["edition 1", "edition 1 of 5000 records", "edition 1 with bytes on 9Fh left out"],
            [
                "edition 2", "edition 2 of 5000 records",
                "edition 2 with bytes on 9Fh that start clears",
            ],
            [
                "edition 3", "edition 3 of 5000 records",
                "edition 3 with bytes on 9Fh that start clears",
            ],
            [
                "edition 4", "edition 4 of 5000 records",
                "edition 4 with bytes on 9Fh that start clears",
            ],
        ];
        let [every, longest, on_9fh] = NAMES[edition.number as usize - 1];
        self.hit("nights", every);
        if made.events.len() == 5000 {
            self.hit("nights", longest);
        }
        if made.image[P9F + 128..].iter().any(|&byte| byte != 0) {
            self.hit("nights", on_9fh);
        }
    }

    /// Looks at one event: the state before it, what it gave, the state after,
    /// and what is wrong with the message that is being sent.
    pub fn look(
        &mut self,
        before: &State,
        event: &Event,
        outcome: &Outcome,
        after: &State,
        slip: Option<Slip>,
    ) {
        self.records += 1;
        let done = outcome.answer == 0;
        match *event {
            Event::Write { address, count, data } => {
                self.look_at_no_reset(address, count, &data, done);
                if done {
                    self.hit("answers", "0 write");
                    let data = &data[..count as usize];
                    if runs_command(before, address, data.len()) {
                        self.hit("pages", "write on 9Fh");
                        self.look_at_command(before, address, data, after, slip);
                    } else if resets(address, data) {
                        self.look_at_reset(before, address, data);
                    } else {
                        self.look_at_write(before, address, data, after);
                        self.look_at_no_command(before, address, data);
                        self.look_at_flags_written(before, address, data);
                    }
                } else {
                    self.look_at_refused_write(before, address);
                    self.hit("answers", match (count, address) {
                        (0, _) => "4 write of count 0",
                        (9..=255, _) => "4 write of count above 8",
                        (_, 0..=127) => "4 write past 127",
                        _ => "4 write past 255",
                    });
                }
            }
            Event::Read { address, count } => {
                if done {
                    self.hit("answers", "0 read");
                    self.look_at_read(before, address, count, after);
                    self.look_at_answer_read(before, address, count);
                    self.look_at_module_flags_read(before, address, count, after);
                } else {
                    self.hit("answers", match (count, address) {
                        (0, _) => "4 read of count 0",
                        (129..=255, _) => "4 read of count above 128",
                        (_, 0..=127) => "4 read past 127",
                        _ => "4 read past 255",
                    });
                }
            }
            Event::Work { lane } => {
                self.hit("answers", match outcome.answer {
                    0 => "0 work",
                    6 => "6 work on an idle lane",
                    _ => "8 work",
                });
                self.look_at_cut_off_lane(lane, outcome, true);
                if done {
                    self.look_at_work(before, lane, outcome);
                }
            }
            Event::Hardware { lane } => {
                let name = match outcome.answer {
                    0 => "0 hardware",
                    6 => "6 hardware on an unused lane",
                    8 => "8 hardware",
                    _ if before.apply(lane).is_none() => {
                        "7 hardware on an idle lane whose path is in progress"
                    }
                    _ if before.used() >> lane & 1 != 0 => "7 hardware on a used lane in progress",
                    _ => "7 hardware on an unused lane in progress",
                };
                self.hit("answers", name);
                self.look_at_cut_off_lane(lane, outcome, false);
                if done {
                    self.look_at_path(before, lane, after);
                }
            }
            Event::Condition { flag_byte, mask } => {
                self.hit("answers", if done { "0 condition" } else { "8 condition" });
                if done && mask != 0 {
                    self.hit("flags", match flag_byte {
                        135 => "flag byte 135 raised",
                        136 => "flag byte 136 raised",
                        137 => "flag byte 137 raised",
                        138 => "flag byte 138 raised",
                        147 => "flag byte 147 raised",
                        _ => "flag byte 148 raised",
                    });
                    if before.image[P11 + flag_byte as usize] & mask != 0 {
                        self.hit("flags", "condition on a flag that is up");
                    }
                }
            }
            Event::LastingCondition { flag_byte, .. } => self.hit("answers", match flag_byte {
                _ if done => "0 lasting condition",
                134 => "8 lasting condition on 134",
                139..=146 => "8 lasting condition on 139 to 146",
                149..=152 => "8 lasting condition on 149 to 152",
                153 => "8 lasting condition on 153",
                _ => "8 lasting condition on a byte that is no flag",
            }),
            Event::Sample { value, .. } => {
                self.hit("answers", if done { "0 sample" } else { "8 sample" });
                if done {
                    self.look_at_sample(before, value);
                }
            }
            Event::Module => self.hit("answers", "0 module"),
            Event::Line { .. } => self.hit("answers", "0 line"),
        }
        if done {
            self.look_at_interrupt(before, event, after);
            self.look_at_module_masks(before, event, after);
            self.look_at_power(before, event, after);
            self.look_at_lasting(before, event, after);
        }
    }
}
