//! Samples against their limits, the limits at start, and the interrupt bit.

use super::Coverage;
use crate::image::{limit, limits};
use crate::messages::runs_command;
use crate::power::is_reset;
use crate::rules::interrupts;
use crate::state::State;
use second::module::*;
use second::registers::*;

impl Coverage {
    pub(super) fn look_at_sample(&mut self, before: &State, value: u16) {
        const NAMES: [[&str; 3]; 4] = [
            ["high alarm: above", "high alarm: equal", "high alarm: below"],
            ["low alarm: above", "low alarm: equal", "low alarm: below"],
            ["high warning: above", "high warning: equal", "high warning: below"],
            ["low warning: above", "low warning: equal", "low warning: below"],
        ];
        for (which, names) in NAMES.iter().enumerate() {
            let limit = limit(&before.image, 192 + 2 * which);
            let relation = if value > limit {
                0
            } else if value == limit {
                1
            } else {
                2
            };
            self.hit("samples", names[relation]);
        }
    }

    /// How a night's limits stand, against the number of its only line, 0 if it replays.
    pub fn look_at_start(&mut self, image: &[u8; IMAGE_LEN], number: u8) {
        const HEADING: &str = "limits of received power at start";
        let [low_alarm, low_warning, high_warning, high_alarm] = limits(image);
        let wrong = [low_alarm > low_warning, low_warning > high_warning, high_warning > high_alarm];
        if wrong == [false; 3] {
            assert_eq!(number, 0, "limits in order are refused");
            if low_alarm == high_alarm {
                return self.hit(HEADING, "0 all four equal");
            }
            let equal = [
                (low_alarm == low_warning, "0 low alarm equal to low warning"),
                (low_warning == high_warning, "0 low warning equal to high warning"),
                (high_warning == high_alarm, "0 high warning equal to high alarm"),
            ];
            for &(_, name) in equal.iter().filter(|&&(holds, _)| holds) {
                self.hit(HEADING, name);
            }
            if equal.iter().all(|&(holds, _)| !holds) {
                self.hit(HEADING, "0 no two equal");
            }
        } else {
            assert_eq!(number, 10, "limits back to front are taken");
            self.hit(HEADING, match wrong {
                [true, false, false] => "10 low alarm above low warning alone",
                [false, true, false] => "10 low warning above high warning alone",
                [false, false, true] => "10 high warning above high alarm alone",
                _ => "10 more than one the wrong way round",
            });
        }
    }

    pub(super) fn look_at_interrupt(&mut self, before: &State, event: &Event, after: &State) {
        let asserted = |state: &State| state.image[3] & 1 == 0;
        assert_eq!(asserted(after), interrupts(&after.image), "lower 3.0 is not as its flags say");
        let (by_host_write, by_command) = match *event {
            Event::Write { address, count, .. } => {
                (true, runs_command(before, address, count as usize))
            }
            _ => (false, false),
        };
        match (asserted(before), asserted(after)) {
            (false, true) if *event == Event::Module => {
                self.hit("flags", "interrupt asserted by a module event")
            }
            (true, false) if is_reset(event) => self.hit("flags", "interrupt ended by a reset"),
            (false, true) if by_command => self.hit("flags", "interrupt asserted by a command"),
            (false, true) if by_host_write => self.hit("flags", "interrupt asserted by unmasking"),
            (false, true) => self.hit("flags", "interrupt asserted by an event"),
            (true, false) if by_host_write => self.hit("flags", "interrupt ended by masking"),
            (true, false) => self.hit("flags", "interrupt ended by a read"),
            (_, false) if after.image[LANE_FLAGS..LANE_FLAGS_END].iter().any(|&b| b != 0) => {
                self.hit("flags", "a flag up but masked")
            }
            _ => {}
        }
    }
}
