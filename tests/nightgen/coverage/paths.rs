//! Hardware events: every pair of the path table and what decided it.

use super::Coverage;
use crate::power::{low_power, requests};
use crate::state::State;
use second::registers::*;

impl Coverage {
    pub(super) fn look_at_path(&mut self, before: &State, lane: u8, after: &State) {
        let path = before.path(lane);
        let own_bit = before.image[DP_DEINIT] & path != 0;
        let (below, low) = (before.module_state() != 3, low_power(before));
        let deinit = below || low || own_bit;
        let by_low_power = low && !own_bit;
        let pending = before.image[DP_INIT_PENDING] & path != 0;
        let disabled = before.image[OUTPUT_DISABLE_TX] & path != 0;
        let squelched = before.image[OUTPUT_SQUELCH_FORCE_TX] & path != 0;
        let muted = disabled || squelched;
        let muted_outside =
            (before.image[OUTPUT_DISABLE_TX] | before.image[OUTPUT_SQUELCH_FORCE_TX]) & !path != 0;
        let pair = (before.dp_state(lane), after.dp_state(lane));
        let name = match pair {
            (1, 2) if !deinit => "1 to 2",
            (1, 1) if own_bit && !below && !low => "1 stays by DPDeinit",
            (1, 1) if low && !below && !own_bit => match requests(before) {
                [true, false] => "1 stays by low power by 26.4",
                [false, true] => "1 stays by low power by the line",
                _ => "1 stays by low power by both",
            },
            (1, 1) if below && !low && !own_bit => match before.module_state() {
                1 => "1 stays by ModuleLowPwr",
                2 => "1 stays by ModulePwrUp",
                _ => "1 stays by ModulePwrDn",
            },
            (1, 1) if deinit => "1 stays by more than one of them",
            (2, 3) if by_low_power => "2 to 3 by low power",
            (2, 3) if deinit => "2 to 3 by DPDeinit",
            (2, 7) if deinit => panic!("a path that is held down has come up"),
            (2, 7) if pending => "2 to 7, pending cleared",
            (2, 7) => "2 to 7",
            (7, 3) if by_low_power => "7 to 3 by low power",
            (7, 3) if deinit => "7 to 3 by DPDeinit",
            (7, 3) if pending => "7 to 3 by DPInitPending",
            (7 | 5 | 4, 7 | 5 | 4) if deinit => panic!("a path that is held down stays up"),
            (7, 7) if disabled && squelched => "7 stays by both",
            (7, 7) if disabled => "7 stays by OutputDisableTx",
            (7, 7) if squelched => "7 stays by OutputSquelchForceTx",
            (7, 5) if !muted => "7 to 5",
            (5, 6) if by_low_power => "5 to 6 by low power",
            (5, 6) if deinit => "5 to 6 by DPDeinit",
            (5, 6) if disabled && squelched => "5 to 6 by both",
            (5, 6) if disabled => "5 to 6 by OutputDisableTx",
            (5, 6) if squelched => "5 to 6 by OutputSquelchForceTx",
            (5, 4) if !muted => "5 to 4",
            (4, 6) if by_low_power => "4 to 6 by low power",
            (4, 6) if deinit => "4 to 6 by DPDeinit",
            (4, 6) if pending => "4 to 6 by DPInitPending",
            (4, 6) if disabled && squelched => "4 to 6 by both",
            (4, 6) if disabled => "4 to 6 by OutputDisableTx",
            (4, 6) if squelched => "4 to 6 by OutputSquelchForceTx",
            (4, 4) if !muted => "4 stays",
            (6, 7) => "6 to 7",
            (3, 1) => "3 to 1",
            _ => panic!(
                "the path table has no {:?} with DPDeinit {}, pending {}, disabled {}, squelched {}",
                pair, deinit, pending, disabled, squelched
            ),
        };
        self.hit("path table", name);
        if before.active(lane) >> 4 > 8 {
            self.hit("AppSels 9 to 15", "hardware event on its path");
        }
        match pair {
            (1, 2) if muted => self.hit("path table", "1 to 2 though muted"),
            (2, 7) if muted => self.hit("path table", "2 to 7 though muted"),
            (6, 7) if muted => self.hit("path table", "6 to 7 though muted"),
            (7, 3) if by_low_power && muted => {
                self.hit("path table", "7 to 3 by low power, muted as well")
            }
            (7, 3) if deinit && muted => self.hit("path table", "7 to 3 by DPDeinit, muted as well"),
            (7, 3) if muted => self.hit("path table", "7 to 3 by DPInitPending, muted as well"),
            (7, 7) => {
                let (flags, flags_after) =
                    (before.image[DP_STATE_CHANGED], after.image[DP_STATE_CHANGED]);
                assert_eq!(flags, flags_after, "a path that stays raised 134");
                if flags & path == 0 {
                    self.hit("path table", "7 stays and raises nothing");
                }
            }
            (7, 5) if muted_outside => self.hit("path table", "7 to 5 with a lane outside muted"),
            (5, 4) if muted_outside => self.hit("path table", "5 to 4 with a lane outside muted"),
            (4, 4) if muted_outside => self.hit("path table", "4 stays with a lane outside muted"),
            _ => {}
        }
        let line_unheard = before.working.line && !low;
        match pair {
            (1, 2) if line_unheard => self.hit("path table", "1 to 2 though the line is on"),
            (4, 4) if line_unheard => self.hit("path table", "4 stays though the line is on"),
            _ => {}
        }
        self.hit("path table", match path.count_ones() {
            1 => "path of 1 lane",
            8 => "path of 8 lanes",
            _ => "path of several lanes",
        });
        if before.image[DP_STATE_CHANGED] != after.image[DP_STATE_CHANGED] {
            self.hit("flags", "134 raised by a path");
        }
    }
}
