//! Command messages: right ones, ones with a single byte off by one and ones
//! wrong otherwise, cut into accesses in every way, and what a host reads then.

use super::{write_event, Maker};
use crate::messages::{at, code_over};
use second::module::Event;
use second::registers::*;
use std::ops::Range;

/// The one byte of a message that is off by one.
#[derive(Clone, Copy)]
pub struct Slip {
    pub address: u8,
    pub right: u8,
}

impl Maker {
    /// A message and the reads that follow, or something odd about one.
    pub(super) fn command(&mut self) -> Event {
        let errand = match self.rng.below(20) {
            0 => self.in_another_bank(),
            1 => self.beside_a_bank(),
            2 => self.without_a_message(),
            _ => self.sent_and_answered(),
        };
        self.begin(errand)
    }

    fn sent_and_answered(&mut self) -> Vec<Event> {
        let mut errand = Vec::new();
        if self.rng.percent(20) {
            let any = self.rng.byte();
            let masks = self.rng.pick(&[0x40, 0xBF, 0x00, 0xFF, any & 0xBF]);
            errand.push(write_event(31, &[masks]));
        }
        if self.state.page() != 0x9F || self.rng.percent(40) {
            errand.push(self.page(0x9F));
        }
        let message = self.message();
        errand.extend(self.accesses(&message));
        errand.extend(self.reads_of_an_answer());
        errand
    }

    /// 9Fh is in 127, but the bank hides it: nothing runs.
    fn in_another_bank(&mut self) -> Vec<Event> {
        let bank = 1 + self.rng.byte() % 255;
        let mut errand = vec![self.page(0x9F), write_event(126, &[bank])];
        let message = self.message();
        errand.extend(self.accesses(&message));
        errand.extend([
            Event::Read { address: 133, count: 2 },
            Event::Read { address: 37, count: 1 },
            write_event(126, &[0]),
            Event::Read { address: 128, count: 8 },
        ]);
        errand
    }

    /// 9Fh is refused beside a bank: the message goes to page 00h.
    fn beside_a_bank(&mut self) -> Vec<Event> {
        let bank = self.rng.pick(&[1, 1, 0x80]);
        let mut errand =
            vec![write_event(126, &[bank, 0x9F]), Event::Read { address: 126, count: 2 }];
        let message = self.message();
        errand.extend(self.accesses(&message));
        errand.push(Event::Read { address: 37, count: 1 });
        errand
    }

    /// 129 on what lies there; or accesses that run nothing.
    fn without_a_message(&mut self) -> Vec<Event> {
        let here = at(&self.state.image, 129);
        let other = self.rng.pick(&[0x00, 0x40, 0x41]);
        let data = [0x00, 0x40, 0, 0, 0, 0xBF, 0, 0];
        let odd = match self.rng.below(7) {
            0 | 1 => write_event(129, &[here]),
            2 => write_event(129, &[other]),
            3 => Event::Write { address: 128, count: 9, data },
            4 => Event::Write { address: 129, count: 0, data: [0; 8] },
            5 => write_event(8, &[other, other]),
            _ => write_event(37, &[other]),
        };
        let mut errand = vec![self.page(0x9F), odd];
        errand.extend(self.reads_of_an_answer());
        errand
    }

    /// The bytes of a message from 128 on, as far as it is written.
    fn message(&mut self) -> Vec<u8> {
        let [high, low] = self.command_number().to_be_bytes();
        let [more_high, more_low] = match self.rng.below(8) {
            0 => [0, 1],
            1 => [0x12, 0x34],
            2 => [self.rng.byte(), self.rng.byte()],
            _ => [0, 0],
        };
        let length = match self.rng.below(20) {
            0 | 1 => 1,
            2..=5 => 2,
            6 => 119,
            7 => 120,
            8 => 121,
            9 => 255,
            10 => self.rng.byte(),
            _ => 0,
        };
        // A long body is most often the one that lies there.
        let mut page = self.state.image;
        page[COMMAND_NUMBER..=BODY_LENGTH].copy_from_slice(&[high, low, more_high, more_low, length]);
        let room = (length as usize).min(120);
        let mut end = 134;
        if length > 0 && self.rng.percent(if length > 16 { 15 } else { 80 }) {
            for byte in page[BODY..BODY + room].iter_mut() {
                *byte = self.rng.byte();
            }
            end = 136 + room;
        } else if self.rng.percent(50) {
            end = 136;
        }
        if self.rng.percent(40) {
            page[REPLY_LENGTH] = self.rng.byte();
            page[REPLY_CODE] = self.rng.byte();
        }
        let right = code_over(&page, (128..133).chain(136..136 + room));
        page[CHECK_CODE] = match self.rng.below(24) {
            0 => code_over(&page, 128..133),
            1 => code_over(&page, (128..133).chain(134..136 + room)),
            2 => code_over(&page, (128..130).chain(132..133).chain(136..136 + room)),
            3 => code_over(&page, 136..136 + room),
            4 => !right,
            5 => self.rng.byte(),
            _ => right,
        };
        self.slip = None;
        if page[CHECK_CODE] == right && self.rng.percent(25) {
            let address = match self.rng.below(8) {
                field @ 0..=5 => 128 + field,
                _ if end > 136 => 136 + self.rng.below(end - 136),
                _ => 133,
            };
            let place = P9F + address;
            self.slip = Some(Slip { address: address as u8, right: page[place] });
            page[place] = page[place].wrapping_add(self.rng.pick(&[1, 255]));
        }
        page[COMMAND_NUMBER..P9F + end].to_vec()
    }

    fn command_number(&mut self) -> u16 {
        if self.rng.percent(70) {
            return self.rng.pick(&[0x0000, 0x0040, 0x0041, 0x0100]);
        }
        match self.rng.below(8) {
            0 => 0x0042,
            1 => 0x0043,
            2 => 0x0101,
            3 => self.rng.pick(&[0x4000, 0x4100, 0x0001]),
            4 => self.rng.pick(&[0x0140, 0x003F, 0x00FF, 0x0200]),
            _ => self.rng.next() as u16,
        }
    }

    /// A message cut into accesses: the one with 129, which most often comes
    /// last, and the rest of the bytes in pieces.
    fn accesses(&mut self, message: &[u8]) -> Vec<Event> {
        let end = 128 + message.len();
        let (first, count) = match self.rng.below(8) {
            // As the Linux driver does.
            0 | 1 => (128, 2),
            2 => (129, 1),
            3 => (129, 2 + self.rng.below(7)),
            4 | 5 => (128, 8),
            _ => (128, 2 + self.rng.below(7)),
        };
        let running = first..(first + count).min(end);
        let mut others = self.pieces(128..first);
        others.extend(self.pieces(running.end..end));
        if self.rng.percent(30) {
            for at in (1..others.len()).rev() {
                others.swap(at, self.rng.below(at + 1));
            }
        }
        let turn = if self.rng.percent(90) { others.len() } else { self.rng.below(others.len() + 1) };
        others.insert(turn, running);
        let write = |piece: Range<usize>| {
            write_event(piece.start as u8, &message[piece.start - 128..piece.end - 128])
        };
        others.into_iter().map(write).collect()
    }

    /// A range of addresses in pieces of eight, or of any size up to it.
    fn pieces(&mut self, addresses: Range<usize>) -> Vec<Range<usize>> {
        let full = self.rng.percent(60);
        let mut pieces = Vec::new();
        let mut begin = addresses.start;
        while begin < addresses.end {
            let size = if full { 8 } else { 1 + self.rng.below(8) };
            let end = (begin + size).min(addresses.end);
            pieces.push(begin..end);
            begin = end;
        }
        pieces
    }

    /// What a host reads behind a command: the flag, the status, the reply. It
    /// may have the mask of the flag changed first.
    fn reads_of_an_answer(&mut self) -> Vec<Event> {
        let mut reads = Vec::new();
        if self.rng.percent(10) {
            let masks = self.rng.pick(&[0x40, 0x00]);
            reads.push(write_event(31, &[masks]));
        }
        let likely = [
            (50, 8, 1), (40, 37, 1), (25, 3, 1), (30, 134, 2), (15, 136, 36), (8, 134, 112),
            (5, 128, 128),
        ];
        for &(chance, address, count) in &likely {
            if self.rng.percent(chance) {
                reads.push(Event::Read { address, count });
            }
        }
        reads
    }

    /// Where a host looks that cares about commands.
    pub(super) fn command_registers(&mut self) -> (u8, u8, u8) {
        match self.rng.below(8) {
            0 | 1 => (0, 8, 1 + self.rng.byte() % 2),
            2 | 3 => (0, 37, 1),
            4 => (0, 3, 6),
            5 => (0x9F, 128, 8),
            6 => (0x9F, 134, 2 + self.rng.byte() % 112),
            _ => (0x9F, 128 + self.rng.byte() % 120, 1 + self.rng.byte() % 8),
        }
    }
}
