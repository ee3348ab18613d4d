//! The night in pieces: the replay of a file that comes in pieces cut anywhere,
//! with a carried state of fixed size and no limit on the records but that of
//! their four-byte count.
//!
//! Each part of the file is judged when its last byte has come, and not
//! before: the header, the image, every record, whose line is printed then.
//! What is printed depends on the bytes alone, never on the cuts.

use crate::lanes::*;
use crate::module::*;
use crate::night::*;
use crate::registers::*;

/// The part of the file that the next byte belongs to.
#[derive(Clone, Copy, PartialEq, Eq, Debug)]
enum Part {
    Header,
    Image,
    Record,
    /// Every record has come: a byte more is one too many.
    End,
    /// A `bad` line has been printed: whatever follows changes nothing.
    Over,
}

/// What is carried from piece to piece.
pub struct Stream {
    part: Part,
    /// How many bytes of the part have come.
    come: usize,
    header: [u8; HEADER_LEN],
    record: [u8; RECORD_LEN],
    /// The file's image while it comes, the module's from then on.
    image: [u8; IMAGE_LEN],
    /// What the header says, once it has come.
    edition: Edition,
    working: Working,
    /// Records that are still to come.
    left: u32,
    /// The index of the next line.
    next: u32,
}

impl Stream {
    pub fn begin() -> Stream {
        Stream {
            part: Part::Header,
            come: 0,
            header: [0; HEADER_LEN],
            record: [0; RECORD_LEN],
            image: [0; IMAGE_LEN],
            edition: EDITIONS[0],
            working: Working::AT_START,
            left: 0,
            next: 0,
        }
    }

    /// Takes a piece, which may be empty. What it prints goes behind what
    /// `printed` holds.
    pub fn feed(&mut self, mut piece: &[u8], printed: &mut Vec<u8>) {
        while !piece.is_empty() {
            let room = match self.part {
                Part::Header => &mut self.header[self.come..],
                Part::Image => &mut self.image[self.come..self.edition.image_len],
                Part::Record => &mut self.record[self.come..],
                Part::End => return self.bad(answer::MALFORMED, printed),
                Part::Over => return,
            };
            let taken = room.len().min(piece.len());
            let whole = taken == room.len();
            room[..taken].copy_from_slice(&piece[..taken]);
            piece = &piece[taken..];
            self.come += taken;
            if whole {
                self.come = 0;
                self.judge(printed);
            }
        }
    }

    /// The end of the input: `bad 9` if something is still to come.
    pub fn finish(mut self, printed: &mut Vec<u8>) {
        match self.part {
            Part::Header | Part::Image | Part::Record => self.bad(answer::MALFORMED, printed),
            Part::End | Part::Over => {}
        }
    }

    /// Judges the part whose last byte has come.
    fn judge(&mut self, printed: &mut Vec<u8>) {
        match self.part {
            Part::Header => match read_header(&self.header) {
                Some(header) => {
                    self.edition = header.edition;
                    self.left = header.record_count;
                    self.part = Part::Image;
                }
                None => self.bad(answer::MALFORMED, printed),
            },
            Part::Image => match start(&mut self.image, &mut self.working) {
                answer::DONE => self.await_record(),
                refusal => self.bad(refusal, printed),
            },
            Part::Record if well_formed(self.edition, &self.record) => {
                self.replay_record(printed);
                self.next += 1;
                self.left -= 1;
                self.await_record();
            }
            Part::Record => self.bad(answer::MALFORMED, printed),
            Part::End | Part::Over => {}
        }
    }

    fn await_record(&mut self) {
        self.part = if self.left == 0 { Part::End } else { Part::Record };
    }

    fn replay_record(&mut self, printed: &mut Vec<u8>) {
        let mut module = Module { image: &mut self.image, working: &mut self.working };
        let mut read = [0u8; 128];
        let outcome = module.step(&event_of(self.edition, &self.record), &mut read);
        printed.extend_from_slice(format!("{} {}", self.next, outcome.answer).as_bytes());
        for &byte in &read[..outcome.read as usize] {
            printed.extend_from_slice(&HEX[byte as usize].to_le_bytes()[..3]);
        }
        printed.push(b'\n');
    }

    /// Prints the last line there is.
    fn bad(&mut self, number: u8, printed: &mut Vec<u8>) {
        printed.extend_from_slice(format!("bad {}\n", number).as_bytes());
        self.part = Part::Over;
    }
}
