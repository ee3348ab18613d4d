//! The night file: its check, its records, and the replay from the file's
//! bytes to the printed bytes.

use crate::lanes::*;
use crate::module::*;
use crate::registers::*;

pub const MAX_RECORDS: usize = 5000;
pub const HEADER_LEN: usize = 16;
pub const RECORD_LEN: usize = 12;
/// The longest file of any edition: 60,912 bytes.
pub const MAX_FILE: usize = HEADER_LEN + IMAGE_LEN + MAX_RECORDS * RECORD_LEN;

/// An edition of the night file.
#[derive(Clone, Copy, PartialEq, Eq, Debug)]
pub struct Edition {
    pub number: u8,
    /// How many bytes of the module's image the file holds, from its beginning
    /// on; the rest of it is 0.
    pub image_len: usize,
    /// Whether kind 5 is the lasting condition (flag byte, on mask, off mask)
    /// or the one-time one (flag byte, mask).
    pub lasting: bool,
    /// Whether there are kinds 7, the module event, and 8, the low-power line.
    pub power: bool,
}

/// Every edition that is read.
pub const EDITIONS: [Edition; 4] = [
    Edition { number: 1, image_len: 768, lasting: false, power: false },
    Edition { number: 2, image_len: 896, lasting: false, power: false },
    Edition { number: 3, image_len: 896, lasting: true, power: false },
    Edition { number: 4, image_len: 896, lasting: true, power: true },
];

impl Edition {
    pub const fn records_at(self) -> usize {
        HEADER_LEN + self.image_len
    }
}

/// What a right header says.
#[derive(Clone, Copy, PartialEq, Eq, Debug)]
pub struct Header {
    pub edition: Edition,
    /// Of whatever size.
    pub record_count: u32,
}

/// A line without read bytes: at most four digits, a space, the answer and
/// the end of the line.
const SHORT_LINE: usize = 7;
/// The longest line there is: a read of 128 bytes.
const LONGEST_LINE: usize = SHORT_LINE + 3 * 128;
/// Short lines are put down as whole words of eight bytes.
const WORD: usize = 8;

/// A night file that has passed the whole check.
pub struct Night<'a> {
    edition: Edition,
    image: [u8; IMAGE_LEN],
    records: &'a [u8],
}

/// Checks the whole file. The error is the number of the only line to print:
/// 9 for a malformed file, what start answers (2 or 10) for a well-formed one
/// whose image it refuses.
pub fn check(file: &[u8]) -> Result<Night<'_>, u8> {
    let night = parts(file).ok_or(answer::MALFORMED)?;
    let forms = forms_of(night.edition);
    if !Records(night.records).all(|record| forms.include(record)) {
        return Err(answer::MALFORMED);
    }
    match start_refusal(&night.image) {
        answer::DONE => Ok(night),
        refusal => Err(refusal),
    }
}

/// The parts of a file whose header and length are right.
fn parts(file: &[u8]) -> Option<Night<'_>> {
    let header = read_header(file.get(..HEADER_LEN)?.try_into().ok()?)?;
    let (edition, count) = (header.edition, header.record_count as usize);
    let in_file = file.get(HEADER_LEN..edition.records_at())?;
    let records = &file[edition.records_at()..];
    if count > MAX_RECORDS || records.len() != count * RECORD_LEN {
        return None;
    }
    let mut image = [0; IMAGE_LEN];
    image[..in_file.len()].copy_from_slice(in_file);
    Some(Night { edition, image, records })
}

/// What a header says; none if it is wrong. Each edition has its own offset
/// of the records.
pub fn read_header(header: &[u8; HEADER_LEN]) -> Option<Header> {
    let number = |at: usize| {
        u32::from_be_bytes([header[at], header[at + 1], header[at + 2], header[at + 3]])
    };
    let edition = *EDITIONS.iter().find(|edition| edition.number == header[2])?;
    let right = header[..2] == *b"WL"
        && header[3] == 0
        && number(8) as usize == HEADER_LEN
        && number(12) as usize == edition.records_at();
    right.then(|| Header { edition, record_count: number(4) })
}

/// A record is looked at as a number, first byte lowest: that it uses so many
/// bytes at most, the others being 0, is that it is below this.
const fn using(bytes: usize) -> u128 {
    1 << (8 * bytes)
}

/// The kinds of record that an edition has.
struct Forms {
    /// For each kind but the write, its records are below this, and their last
    /// four bytes are 0; 0 for what is no kind.
    limits: [u64; 256],
}

/// A write of so many bytes, which come after three others, is below this.
const WRITE_LIMITS: [u128; 9] = [
    using(3),
    using(4),
    using(5),
    using(6),
    using(7),
    using(8),
    using(9),
    using(10),
    using(11),
];

impl Forms {
    const fn of(edition: Edition) -> Forms {
        let mut limits = [0; 256];
        limits[2] = using(3) as u64;
        limits[3] = using(2) as u64;
        limits[4] = using(2) as u64;
        limits[5] = using(if edition.lasting { 4 } else { 3 }) as u64;
        limits[6] = using(4) as u64;
        if edition.power {
            limits[7] = using(1) as u64;
            // Its second byte is 0 or 1: the line is off or on.
            limits[8] = 2 * using(1) as u64;
        }
        Forms { limits }
    }

    /// Whether a record's kind is one of these, what it does not use is 0, and
    /// the line is said to be on or off.
    #[inline(always)]
    fn include(&self, record: &[u8; RECORD_LEN]) -> bool {
        let (mut front, mut back) = ([0u8; 8], [0u8; 4]);
        front.copy_from_slice(&record[..8]);
        back.copy_from_slice(&record[8..]);
        let (front, back) = (u64::from_le_bytes(front), u32::from_le_bytes(back));
        match record[0] {
            1 => {
                let whole = front as u128 | (back as u128) << 64;
                whole < WRITE_LIMITS[record[2].min(8) as usize]
            }
            kind => front < self.limits[kind as usize] && back == 0,
        }
    }
}

/// In the order of `EDITIONS`.
static FORMS: [Forms; 4] = [
    Forms::of(EDITIONS[0]),
    Forms::of(EDITIONS[1]),
    Forms::of(EDITIONS[2]),
    Forms::of(EDITIONS[3]),
];

fn forms_of(edition: Edition) -> &'static Forms {
    &FORMS[edition.number as usize - 1]
}

/// Whether a record is one of its edition.
pub fn well_formed(edition: Edition, record: &[u8; RECORD_LEN]) -> bool {
    forms_of(edition).include(record)
}

/// The records of a night, twelve bytes each.
#[derive(Clone, Copy)]
struct Records<'a>(&'a [u8]);

impl<'a> Iterator for Records<'a> {
    type Item = &'a [u8; RECORD_LEN];

    #[inline(always)]
    fn next(&mut self) -> Option<Self::Item> {
        let record = self.0.get(..RECORD_LEN)?;
        self.0 = &self.0[RECORD_LEN..];
        record.try_into().ok()
    }
}

/// The data of a write as one word, first byte lowest.
#[inline(always)]
fn data_of(record: &[u8; RECORD_LEN]) -> u64 {
    let mut data = [0u8; 8];
    data.copy_from_slice(&record[3..11]);
    u64::from_le_bytes(data)
}

/// The event of a record that has passed the check.
#[inline(always)]
pub fn event_of(edition: Edition, record: &[u8; RECORD_LEN]) -> Event {
    let (first, second, third) = (record[1], record[2], record[3]);
    match record[0] {
        1 => Event::Write { address: first, count: second, data: data_of(record).to_le_bytes() },
        2 => Event::Read { address: first, count: second },
        3 => Event::Work { lane: first },
        4 => Event::Hardware { lane: first },
        5 if edition.lasting => {
            Event::LastingCondition { flag_byte: first, on: second, off: third }
        }
        5 => Event::Condition { flag_byte: first, mask: second },
        6 => Event::Sample { lane: first, value: u16::from_be_bytes([second, third]) },
        7 => Event::Module,
        _ => Event::Line { on: first == 1 },
    }
}

impl<'a> Night<'a> {
    pub fn image(&self) -> &[u8; IMAGE_LEN] {
        &self.image
    }

    pub fn len(&self) -> usize {
        self.records.len() / RECORD_LEN
    }

    pub fn is_empty(&self) -> bool {
        self.records.is_empty()
    }

    pub fn events(&self) -> impl Iterator<Item = Event> + 'a {
        let edition = self.edition;
        Records(self.records).map(move |record| event_of(edition, record))
    }
}

/// Replays a file: from its bytes to all the bytes to print.
pub fn replay(file: &[u8]) -> Vec<u8> {
    match check(file) {
        Ok(night) => replay_night(&night),
        Err(number) => format!("bad {}\n", number).into_bytes(),
    }
}

fn replay_night(night: &Night) -> Vec<u8> {
    let mut image = night.image;
    let mut working = Working::AT_START;
    start(&mut image, &mut working);
    let mut module = Module { image: &mut image, working: &mut working };
    let mut printed = Printed::with_room_for(night.len());
    for ten in night.records.chunks(10 * RECORD_LEN) {
        for record in Records(ten) {
            match *record {
                [2, address, count, ..] => match module.read_range(address, count) {
                    Ok(range) => {
                        // Printed straight from the image: the trigger bytes and the reset
                        // bit are 0 there from start on, so no read has to hide them.
                        printed.line_with(&module.image[range.clone()]);
                        module.after_read(range);
                    }
                    Err(number) => printed.line(number),
                },
                _ => printed.line(play(&mut module, night.edition, record)),
            }
        }
        printed.ten_more();
    }
    printed.finish()
}

/// The answer to a record that has passed the check and is no read: what
/// `event_of` and a step give, with no event made in between.
#[inline(always)]
fn play(module: &mut Module, edition: Edition, record: &[u8; RECORD_LEN]) -> u8 {
    let (first, second, third) = (record[1], record[2], record[3]);
    let outcome = match record[0] {
        1 => module.write(first, second, data_of(record)),
        3 => module.work::<false>(first),
        4 => module.hardware(first),
        5 if edition.lasting => module.lasting_condition(first, second, third),
        5 => module.condition(first, second),
        6 => module.sample(first, u16::from_be_bytes([second, third])),
        7 => module.module_event(),
        _ => module.line(first == 1),
    };
    outcome.answer
}

/// " 00" to " ff", first character lowest.
pub(crate) const HEX: [u32; 256] = hex_table();

const fn hex_table() -> [u32; 256] {
    let digits = b"0123456789abcdef";
    let mut table = [0; 256];
    let mut byte = 0;
    while byte < 256 {
        table[byte] = u32::from_le_bytes([b' ', digits[byte >> 4], digits[byte & 15], 0]);
        byte += 1;
    }
    table
}

/// The next line as it is without read bytes: its text as a word of which
/// seven characters count, first one lowest. The index has four digits there
/// and counts up as text; its leading zeros are not printed.
struct NextLine {
    /// The line with answer 0.
    word: u64,
    /// How many bits the zeros take.
    zeros: u32,
    length: u32,
}

/// Where the last two digits of the index and the answer stand, in bits.
const TENS_AT: u32 = 16;
const ONES_AT: u32 = 24;
const ANSWER_AT: u32 = 40;

impl NextLine {
    fn first() -> NextLine {
        NextLine { word: u64::from_le_bytes(*b"0000 0\n\0"), zeros: ONES_AT, length: 4 }
    }

    #[inline(always)]
    fn with_answer(&self, answer: u8) -> [u8; WORD] {
        ((self.word | (answer as u64) << ANSWER_AT) >> self.zeros).to_le_bytes()
    }

    /// The last digit one up. It may go past 9, if `carry` comes next.
    #[inline(always)]
    fn count_up(&mut self) {
        self.word += 1 << ONES_AT;
    }

    /// Carries the last digit, which has gone past 9.
    #[inline(always)]
    fn carry(&mut self) {
        self.word = self.word - (10 << ONES_AT) + (1 << TENS_AT);
        if (self.word >> TENS_AT) as u8 > b'9' || self.zeros == ONES_AT {
            self.carry_on();
        }
    }

    /// The tens have gone past 9, or are the first of all.
    #[cold]
    fn carry_on(&mut self) {
        for place in [TENS_AT, TENS_AT - 8] {
            if (self.word >> place) as u8 > b'9' {
                self.word = self.word - (10 << place) + (1 << (place - 8));
            }
        }
        let digits = self.word as u32 ^ u32::from_le_bytes(*b"0000");
        self.zeros = digits.trailing_zeros() & !7;
        self.length = SHORT_LINE as u32 - self.zeros / 8;
    }
}

/// The lines printed so far.
struct Printed {
    /// Room for all lines there may be.
    text: Vec<u8>,
    /// Where the next line begins.
    end: u32,
    next: NextLine,
}

impl Printed {
    fn with_room_for(lines: usize) -> Printed {
        Printed { text: vec![0; longest_text(lines) + WORD], end: 0, next: NextLine::first() }
    }

    /// A line with an answer alone.
    #[inline(always)]
    fn line(&mut self, answer: u8) {
        let end = self.end as usize;
        self.text[end..end + WORD].copy_from_slice(&self.next.with_answer(answer));
        self.end += self.next.length;
        self.next.count_up();
    }

    /// The line of a read that is done.
    #[inline(always)]
    fn line_with(&mut self, read: &[u8]) {
        self.line(answer::DONE);
        // The bytes go where the line ended.
        let at = self.end as usize - 1;
        let mut room = &mut self.text[at..];
        let mut left = read;
        while let ([a, b, c, d, rest @ ..], true) = (left, room.len() >= 12) {
            let (place, more) = room.split_at_mut(12);
            let [a, b, c, d] = [a, b, c, d].map(|&byte| HEX[byte as usize]);
            let front = a as u64 | (b as u64) << 24 | (c as u64) << 48;
            place[..8].copy_from_slice(&front.to_le_bytes());
            place[8..].copy_from_slice(&(c >> 16 | d << 8).to_le_bytes());
            (left, room) = (rest, more);
        }
        for &byte in left {
            room[..4].copy_from_slice(&HEX[byte as usize].to_le_bytes());
            room = &mut room[3..];
        }
        room[0] = b'\n';
        self.end += 3 * read.len() as u32;
    }

    /// The next line's index is a number of tens.
    #[inline(always)]
    fn ten_more(&mut self) {
        self.next.carry();
    }

    fn finish(mut self) -> Vec<u8> {
        self.text.truncate(self.end as usize);
        self.text
    }
}

/// The longest text a night of this many records can print.
pub fn longest_text(records: usize) -> usize {
    if records == 0 {
        SHORT_LINE
    } else {
        records * LONGEST_LINE
    }
}
