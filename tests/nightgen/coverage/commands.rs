//! Command messages: how they were sent, what was wrong with them, how they
//! ended, and what a host saw of it.

use super::Coverage;
use crate::aims::Slip;
use crate::messages::*;
use crate::state::State;
use second::registers::*;

const HEADING: &str = "command messages";

impl Coverage {
    /// An access that runs a command: not the same as its bytes written one by
    /// one, but what the plain rule says.
    pub(super) fn look_at_command(
        &mut self,
        before: &State,
        address: u8,
        data: &[u8],
        after: &State,
        slip: Option<Slip>,
    ) {
        assert!(
            after.image == left_by_write(before, address, data) && before.working == after.working,
            "a command leaves otherwise than the plain rule"
        );
        let mut message = before.image;
        for (place, &byte) in (P9F + address as usize..).zip(data) {
            message[place] = byte;
        }
        let status = after.image[COMMAND_STATUS];
        self.look_at_number(&message, status);
        self.look_at_lengths(&message, status);
        self.look_at_sending(before, address, data, status, &message);
        match status {
            0x45 => self.look_at_wrong_code(&message, slip),
            0x01 => self.look_at_reply(&message, after),
            _ => {}
        }
        if status != 0x01 {
            if message[REPLY_LENGTH] != 0 || message[REPLY_CODE] != 0 {
                self.hit(HEADING, "failed over 134 and 135 that were not 0");
            }
            if message[BODY..].iter().any(|&byte| byte != 0) {
                self.hit(HEADING, "failed, the body stays");
            }
        }
        self.look_at_module_flag(COMMAND_COMPLETE, before, after);
    }

    fn look_at_number(&mut self, message: &[u8; IMAGE_LEN], status: u8) {
        let known = [0x0000, 0x0040, 0x0041, 0x0100];
        let number = number(message);
        self.hit(HEADING, match (status, number) {
            (0x01, 0x0000) => "01h 0000h",
            (0x01, 0x0040) => "01h 0040h",
            (0x01, 0x0041) => "01h 0041h",
            (0x01, _) => "01h 0100h",
            (0x41, 0x0042) => "41h 0042h",
            (0x41, 0x0043) => "41h 0043h",
            (0x41, 0x0101) => "41h 0101h",
            (0x41, _) if known.contains(&number.swap_bytes()) => "41h a number low byte first",
            (0x41, _) => "41h another number",
            (_, _) if at(message, 132) > 120 => "45h by a length above 120",
            (_, _) if known.contains(&number) => "45h by its code, number known",
            _ => "45h by its code, number unknown",
        });
    }

    fn look_at_lengths(&mut self, message: &[u8; IMAGE_LEN], status: u8) {
        let length = at(message, 132);
        let name = match (status, length) {
            (0x01, 0) => "01h with a body of 0",
            (0x01, 1) => "01h with a body of 1",
            (0x01, 2) => "01h with a body of 2",
            (0x01, 119) => "01h with a body of 119",
            (0x01, 120) => "01h with a body of 120",
            (0x41, 120) => "41h with a body of 120",
            (0x45, 121) => "45h with a body of 121",
            (0x45, 255) => "45h with a body of 255",
            _ => "a body of another length",
        };
        self.hit(HEADING, name);
        let summed = (128..133).chain(136..256);
        if length > 120 && at(message, 133) == code_over(message, summed) {
            self.hit(HEADING, "45h by a length above 120 alone, its code right over 120");
        }
        if status == 0x01 && (at(message, 130), at(message, 131)) != (0, 0) {
            self.hit(HEADING, "01h with an EPLLength");
        }
        if status == 0x41 && (at(message, 130), at(message, 131)) != (0, 0) {
            self.hit(HEADING, "41h with an EPLLength");
        }
    }

    /// How the message came to lie there.
    fn look_at_sending(
        &mut self,
        before: &State,
        address: u8,
        data: &[u8],
        status: u8,
        message: &[u8; IMAGE_LEN],
    ) {
        const FROM_128: [&str; 7] = [
            "128-129: 129 last", "128-130", "128-131", "128-132", "128-133", "128-134",
            "128-135: a whole header",
        ];
        const FROM_129: [&str; 8] = [
            "129 alone", "129-130: 129 first", "129-131", "129-132", "129-133", "129-134", "129-135",
            "129-136",
        ];
        let done = status == 0x01;
        self.hit("accesses that run a command", match address {
            128 => FROM_128[data.len() - 2],
            _ => FROM_129[data.len() - 1],
        });
        if address == 128 && data.len() == 8 && done && at(message, 132) == 0 {
            self.hit(HEADING, "128-135 in one access, a whole command");
        }
        if address == 128 && data.len() == 2 && done && before.image[P9F + 129] != data[1] {
            self.hit(HEADING, "128-129 last of all, 01h");
        }
        if done {
            let in_one = address == 128 && data.len() >= 6 && at(message, 132) == 0;
            self.hit(HEADING, if in_one { "01h by one access" } else { "01h by several accesses" });
        }
        if before.image == *message {
            self.hit(HEADING, if done {
                "run again as it lies: 01h"
            } else {
                "run again as it lies: failed"
            });
        }
        if before.image[P9F + 128..].iter().all(|&byte| byte == 0) {
            self.hit(HEADING, "on a page of zeros");
        }
    }

    /// What makes a code wrong, if it is one thing alone.
    fn look_at_wrong_code(&mut self, message: &[u8; IMAGE_LEN], slip: Option<Slip>) {
        if let Some(slip) = slip {
            let mut mended = *message;
            mended[P9F + slip.address as usize] = slip.right;
            if code_is_right(&mended) {
                self.hit(HEADING, match slip.address {
                    128 => "45h by one in 128, number high",
                    129 => "45h by one in 129, number low",
                    130 => "45h by one in 130, EPLLength high",
                    131 => "45h by one in 131, EPLLength low",
                    132 => "45h by one in 132, length",
                    133 => "45h by one in 133, code",
                    _ => "45h by one in a byte of the body",
                });
            }
        }
        let (code, length) = (at(message, 133), at(message, 132) as usize);
        if length > 120 {
            return;
        }
        let number_and_length = || (128..130).chain(132..133);
        let header = || 128..133;
        let body = || 136..136 + length;
        let wrong: [(u8, &'static str); 5] = [
            (code_over(message, header()), "45h, code over the header alone"),
            (code_over(message, body()), "45h, code over the body alone"),
            (
                code_over(message, header().chain(134..136).chain(body())),
                "45h, code with 134 and 135 in it",
            ),
            (code_over(message, number_and_length().chain(body())), "45h, code without EPLLength"),
            (!code_over(message, header().chain(body())), "45h, code not complemented"),
        ];
        for (_, name) in wrong.iter().filter(|(its, _)| *its == code) {
            self.hit(HEADING, name);
        }
    }

    fn look_at_reply(&mut self, message: &[u8; IMAGE_LEN], after: &State) {
        let length = after.image[REPLY_LENGTH] as usize;
        if message[REPLY_LENGTH] != 0 && message[REPLY_CODE] != 0 {
            self.hit(HEADING, "01h over 134 and 135 that were not 0");
        }
        if message[BODY..BODY + length] != after.image[BODY..BODY + length] {
            self.hit(HEADING, "reply over other bytes");
        }
        if message[BODY + length..].iter().any(|&byte| byte != 0) {
            self.hit(HEADING, "bytes past a reply that are not 0 stay");
        }
        let (major, minor) = (after.image[39], after.image[40]);
        if number(message) == 0x0100 && major != minor && major != 0 && minor != 0 {
            self.hit(HEADING, "0100h tells lower 39 and 40 apart");
        }
    }

    /// A write that holds 129 and runs nothing, and writes to what takes none.
    pub(super) fn look_at_no_command(&mut self, before: &State, address: u8, data: &[u8]) {
        let end = address as usize + data.len();
        let holds_129 = (128..=129).contains(&address) && end > 129;
        let selected = before.image[PAGE_SELECT];
        if address >= 128 && before.page() == 0x9F {
            self.hit(HEADING, "nothing runs: 129 is left out");
        }
        if holds_129 {
            self.hit(HEADING, match selected {
                0x9F => "nothing runs: 129 in another bank",
                _ => "nothing runs: 129 of another page",
            });
        }
        if address <= 37 && end > 37 && before.image[COMMAND_STATUS] != 0 {
            self.hit(HEADING, "lower 37 ignores a write");
        }
    }

    /// A refused write that would hold 129.
    pub(super) fn look_at_refused_write(&mut self, before: &State, address: u8) {
        if before.page() == 0x9F && (128..=129).contains(&address) {
            self.hit(HEADING, "nothing runs: access refused");
        }
    }

    /// Reads of what a command has left.
    pub(super) fn look_at_answer_read(&mut self, before: &State, address: u8, count: u8) {
        let (from, end) = (address as usize, address as usize + count as usize);
        if (from..end).contains(&37) {
            self.hit(HEADING, match before.image[COMMAND_STATUS] {
                0x00 => "lower 37 read as 00h",
                0x01 => "lower 37 read as 01h",
                0x41 => "lower 37 read as 41h",
                _ => "lower 37 read as 45h",
            });
        }
        if before.page() == 0x9F && from <= 134 && end > 136 && before.image[REPLY_LENGTH] != 0 {
            self.hit(HEADING, "reply read with its header");
        }
    }
}
