//! The flags of lower 8, of a command that is done and of the module's state:
//! how they were set, masked and read.

use super::Coverage;
use crate::state::State;
use second::module::Event;
use second::registers::*;

/// The flags that there are, each with the heading of its counts.
const FLAGS: [(u8, &str); 2] =
    [(COMMAND_COMPLETE, "completion flag"), (MODULE_STATE_CHANGED, "module state flag")];

fn asserted(state: &State) -> bool {
    state.image[MODULE_STATE] & INTERRUPT_DEASSERTED == 0
}

impl Coverage {
    /// An event that sets a flag, whether it is up or not.
    pub(super) fn look_at_module_flag(&mut self, flag: u8, before: &State, after: &State) {
        let masks = after.image[MODULE_MASKS];
        let (up, masked) = (before.image[MODULE_FLAGS] & flag != 0, masks & flag != 0);
        for (_, heading) in FLAGS.into_iter().filter(|&(own, _)| own == flag) {
            self.hit(heading, match (up, masked) {
                (true, _) => "set again before it was read",
                (false, true) => "set, masked",
                (false, false) => "set, not masked",
            });
            if !asserted(before) && asserted(after) {
                self.hit(heading, "raises the interrupt");
                match masks {
                    0 => {}
                    _ if masks == !flag => {
                        self.hit(heading, "raises the interrupt, all other bits of 31 set")
                    }
                    _ => self.hit(heading, "raises the interrupt, other bits of 31 set"),
                }
            }
            if masked && !asserted(after) {
                self.hit(heading, "masked, and no interrupt");
                if masks == flag {
                    self.hit(heading, "masked by its bit of 31 alone, and no interrupt");
                }
            }
        }
    }

    /// A write that holds lower 8, which takes none.
    pub(super) fn look_at_flags_written(&mut self, before: &State, address: u8, data: &[u8]) {
        if (address as usize..address as usize + data.len()).contains(&MODULE_FLAGS) {
            for (flag, heading) in FLAGS {
                if before.image[MODULE_FLAGS] & flag != 0 {
                    self.hit(heading, "lower 8 ignores a write");
                }
            }
        }
    }

    /// A read that holds lower 8.
    pub(super) fn look_at_module_flags_read(
        &mut self,
        before: &State,
        address: u8,
        count: u8,
        after: &State,
    ) {
        if !(address as usize..address as usize + count as usize).contains(&MODULE_FLAGS) {
            return;
        }
        assert_eq!(after.image[MODULE_FLAGS], 0, "a read leaves lower 8");
        let up = before.image[MODULE_FLAGS];
        for (flag, heading) in FLAGS {
            if up & flag != 0 {
                self.hit(heading, "cleared by a read of lower 8");
                if asserted(before) && !asserted(after) {
                    self.hit(heading, "interrupt ended by a read of lower 8");
                }
            }
        }
        if FLAGS.iter().all(|(flag, _)| up & flag != 0) {
            self.hit("module state flag", "cleared together with that of a command");
        }
    }

    /// Masks written while a flag is up.
    pub(super) fn look_at_module_masks(&mut self, before: &State, event: &Event, after: &State) {
        if !matches!(event, Event::Write { .. }) {
            return;
        }
        for (flag, heading) in FLAGS {
            let masked = |state: &State| state.image[MODULE_MASKS] & flag != 0;
            let change = (masked(before), masked(after), asserted(before), asserted(after));
            if after.image[MODULE_FLAGS] & flag != 0 {
                match change {
                    (false, true, true, false) => {
                        self.hit(heading, "interrupt ended by its bit of 31")
                    }
                    (true, false, false, true) => {
                        self.hit(heading, "interrupt asserted by its bit of 31")
                    }
                    _ => {}
                }
            }
        }
    }
}
