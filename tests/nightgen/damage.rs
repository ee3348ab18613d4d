//! Damaged files.

use crate::coverage::Coverage;
use crate::image::{put_limits, turned_round};
use crate::nights::{make_night, night_file, FIRST, FOURTH, SECOND, THIRD};
use crate::rng::Rng;
use second::night::{Edition, EDITIONS};

/// Damaged files by kind of damage: every listed one first, then random ones.
pub struct Damage {
    rng: Rng,
    /// The listed ones still to come, the next one last.
    pub listed: Listed,
}

/// Files with their kind of damage.
type Listed = Vec<(&'static str, Vec<u8>)>;

impl Damage {
    pub fn new(rng: &mut Rng) -> Damage {
        let mut damage = Damage { rng: Rng(rng.next()), listed: Vec::new() };
        damage.list();
        damage
    }

    fn night(&mut self, edition: Edition, length: usize) -> Vec<u8> {
        let uncounted = &mut Coverage::default();
        night_file(edition, &make_night(&mut self.rng, edition, length, true, uncounted))
    }

    /// A night for the streaming form alone. Drawn from a copy: what else a
    /// seed gives does not depend on it.
    fn long_night(&self) -> Vec<u8> {
        let mut rng = self.rng.clone();
        night_file(FOURTH, &make_night(&mut rng, FOURTH, 20_000, true, &mut Coverage::default()))
    }

    fn list(&mut self) {
        let mut list = vec![("empty", Vec::new())];
        let wholes = EDITIONS.map(|edition| self.night(edition, 20));
        for (edition, whole) in EDITIONS.iter().zip(&wholes) {
            let none = self.night(*edition, 0);
            let longest = self.night(*edition, 5000);
            list_headers(&mut list, whole, &none);
            list_lengths(&mut list, whole, &none, &longest);
            list_flat(&mut list, whole, &none, &longest);
        }
        let [first, second, third, fourth] = &wholes;
        for newer in [second, third, fourth] {
            list_editions(&mut list, first, newer);
        }
        // Faults that the streaming form finds late, some of them behind lines above 5,000.
        let long = self.long_night();
        list.push(("above the longest", with(&long, record_at(&long, 12_345), 0)));
        list.push(("above the longest", flat(&long)));
        list.push(("above the longest", long));
        let bad = with(second, record_at(second, 2), 0xFF);
        list.push(("kind", [&bad[..], second].concat()));
        list_records(&mut list, &wholes);
        list_conditions(&mut list, &wholes);
        list_power(&mut list, &wholes);
        list_limits(&mut list, second, &[0, 1, 2]);
        list_limits(&mut list, first, &[1]);
        list_limits(&mut list, third, &[1]);
        list_limits(&mut list, fourth, &[1]);
        self.listed = list;
        self.listed.reverse();
    }

    pub fn next(&mut self) -> (&'static str, Vec<u8>) {
        if let Some(listed) = self.listed.pop() {
            return listed;
        }
        let length = 1 + self.rng.below(60);
        let edition = self.rng.pick(&[FIRST, SECOND, THIRD, FOURTH, FOURTH, FOURTH]);
        let mut file = self.night(edition, length);
        let records = records_at(&file);
        match self.rng.below(10) {
            0 => {
                let place = self.rng.below(16);
                file[place] = self.rng.byte();
                ("random header byte", file)
            }
            1 => {
                let cut = self.rng.below(file.len());
                file.truncate(cut);
                ("cut anywhere", file)
            }
            2 => {
                let more = 1 + self.rng.below(40);
                for _ in 0..more {
                    let byte = self.rng.byte();
                    file.push(byte);
                }
                ("bytes added", file)
            }
            3 => {
                let record = records + 12 * self.rng.below(length);
                file[record] = self.rng.byte();
                ("random kind", file)
            }
            4..=6 => {
                let place = records + self.rng.below(12 * length);
                file[place] = self.rng.byte();
                ("random record byte", file)
            }
            7 => {
                let place = 16 + self.rng.below(records - 16);
                file[place] = self.rng.byte();
                ("random image byte", file)
            }
            8 => {
                // A byte lost or doubled somewhere, all else moved.
                let place = self.rng.below(file.len());
                if self.rng.percent(50) {
                    file.remove(place);
                } else {
                    file.insert(place, file[place]);
                }
                ("byte lost or doubled", file)
            }
            _ => {
                let length = self.rng.below(2000);
                let mut noise = vec![0u8; length];
                for byte in noise.iter_mut() {
                    *byte = self.rng.byte();
                }
                ("noise", noise)
            }
        }
    }
}

// ---- what is listed ----

/// Where a record of a whole file begins.
fn record_at(file: &[u8], index: usize) -> usize {
    records_at(file) + 12 * index
}

/// Where the records of a whole file begin.
fn records_at(file: &[u8]) -> usize {
    u32::from_be_bytes([file[12], file[13], file[14], file[15]]) as usize
}

fn with(file: &[u8], place: usize, byte: u8) -> Vec<u8> {
    let mut file = file.to_vec();
    file[place] = byte;
    file
}

fn flat(file: &[u8]) -> Vec<u8> {
    with(file, 16 + 2, file[16 + 2] | 0x80)
}

fn counted(file: &[u8], count: u32) -> Vec<u8> {
    let mut file = file.to_vec();
    file[4..8].copy_from_slice(&count.to_be_bytes());
    file
}

fn limited(file: &[u8], rising: [u16; 4]) -> Vec<u8> {
    let mut file = file.to_vec();
    put_limits(&mut file[16..], rising);
    file
}

/// A file that says it is of an edition and has its records at an offset.
fn under(file: &[u8], edition: u8, records_at: u32) -> Vec<u8> {
    let mut file = with(file, 2, edition);
    file[12..16].copy_from_slice(&records_at.to_be_bytes());
    file
}

fn list_headers(list: &mut Listed, whole: &[u8], none: &[u8]) {
    for place in 0..16 {
        let old = whole[place];
        let mut others = vec![old ^ 0x01, old ^ 0x80, old.wrapping_add(1), old ^ 0x20];
        others.sort_unstable();
        others.dedup();
        list.extend(others.iter().map(|&new| ("header byte", with(whole, place, new))));
    }
    for count in [0, 19, 21, 5000, 5001, 0x0100_0014, 0x8000_0014, 0xFFFF_FFFF] {
        list.push(("record count", counted(whole, count)));
    }
    list.push(("record count", counted(none, 0xFFFF_FFFF)));
}

fn list_lengths(list: &mut Listed, whole: &[u8], none: &[u8], longest: &[u8]) {
    for cut in [1, 2, 11, 12, 13, 24, 239, 240, 241, whole.len() - 16, whole.len() - 1] {
        list.push(("too short", whole[..whole.len() - cut].to_vec()));
    }
    for length in [2, 3, 4, 8, 12, 15] {
        list.push(("too short", whole[..length].to_vec()));
    }
    for more in [1, 2, 11, 12, 13, 24] {
        list.push(("too long for its count", [whole, &vec![0; more]].concat()));
    }
    list.push(("whole", none.to_vec()));
    list.push(("too long for its count", [none, &[0]].concat()));
    list.push(("too short", none[..none.len() - 1].to_vec()));

    // The longest file is whole; one more byte, or one more record, is not.
    list.push(("longest, whole", longest.to_vec()));
    list.push(("above the longest", [longest, &[0]].concat()));
    let one_more = [longest, &[3, 0, 0, 0, 0, 0, 0, 0, 0, 0, 0, 0][..]].concat();
    list.push(("above the longest", one_more.clone()));
    list.push(("above the longest", counted(&one_more, 5001)));
    list.push(("above the longest", [&one_more[..], &[0; 100_000][..]].concat()));
    list.push(("flat and malformed", flat(&one_more)));
}

/// Two editions, the second one of a longer image, each under the other's
/// number, offset and length; editions that there are not.
fn list_editions(list: &mut Listed, first: &[u8], second: &[u8]) {
    const KIND: &str = "edition, offset and length that do not belong together";
    let of_first = (first[2], records_at(first) as u32);
    let of_second = (second[2], records_at(second) as u32);
    for (file, own, other) in [(first, of_first, of_second), (second, of_second, of_first)] {
        list.push((KIND, under(file, own.0, other.1)));
        list.push((KIND, under(file, other.0, own.1)));
        list.push((KIND, under(file, other.0, other.1)));
        list.push((KIND, flat(&under(file, own.0, other.1))));
        list.push((KIND, flat(&under(file, other.0, own.1))));
        // Without records the length is that of the other edition's beginning.
        list.push((KIND, under(&counted(&file[..own.1 as usize], 0), other.0, other.1)));
        for number in [0, 5, 6, 255] {
            list.push(("edition that there is not", under(file, number, own.1)));
            list.push(("edition that there is not", flat(&under(file, number, own.1))));
        }
        list.push(("edition that there is not", under(file, 5, of_second.1 + 128)));
    }
    // A first night of 128 bytes more is as long as a second one, and the other way round.
    let longer = [first, &[0; 128][..]].concat();
    list.push((KIND, under(&longer, of_first.0, of_first.1)));
    list.push((KIND, under(&second[..second.len() - 128], of_second.0, of_second.1)));
}

/// Kinds and unused bytes; the editions take turns, since records are the same
/// but for conditions and the events of edition 4 alone.
fn list_records(list: &mut Listed, wholes: &[Vec<u8>; 4]) {
    for (at, whole) in [0, 9, 19, 7].iter().zip(wholes) {
        for kind in [0, 9, 0x11, 0x81, 0xFF] {
            list.push(("kind", with(whole, record_at(whole, *at), kind)));
        }
    }
    // Every byte that a kind does not use, one at a time.
    let usual: [(u8, u8, usize); 15] = [
        (1, 0, 3), (1, 1, 4), (1, 2, 5), (1, 3, 6), (1, 4, 7), (1, 5, 8), (1, 6, 9), (1, 7, 10),
        (1, 8, 11), (1, 9, 11), (1, 255, 11),
        (2, 4, 3), (3, 0, 2), (4, 0, 2), (6, 0, 4),
    ];
    for (&(kind, second, used), whole) in usual.iter().zip(wholes.iter().cycle()) {
        let third = if used > 2 { second } else { 0 };
        let file = with_record(whole, [kind, 0, third, 0]);
        list.push(("whole", file.clone()));
        if used > 3 {
            list.push(("whole", with(&file, record_at(whole, CHANGED) + used - 1, 0xA5)));
        }
        list_unused(list, &file, used);
    }
}

/// The record that is put into a whole file, and those that are changed.
const CHANGED: usize = 7;

/// A whole file with a record in it that begins with these bytes.
fn with_record(whole: &[u8], beginning: [u8; 4]) -> Vec<u8> {
    let begin = record_at(whole, CHANGED);
    let mut file = whole.to_vec();
    file[begin..begin + 12].fill(0);
    file[begin..begin + 4].copy_from_slice(&beginning);
    file
}

/// The beginning of a whole file with one record, which begins with these bytes.
fn alone(whole: &[u8], beginning: [u8; 4]) -> Vec<u8> {
    let file = counted(&with_record(whole, beginning), 1);
    let (begin, changed) = (record_at(whole, 0), record_at(whole, CHANGED));
    [&file[..begin], &file[changed..changed + 12]].concat()
}

/// Every byte that a record does not use, one at a time.
fn list_unused(list: &mut Listed, file: &[u8], used: usize) {
    for place in used..12 {
        let byte = if place % 2 == 0 { 0x01 } else { 0x80 };
        list.push(("unused byte", with(file, record_at(file, CHANGED) + place, byte)));
    }
}

/// Kind 5: three bytes used in editions 1 and 2, four from edition 3 on, whose
/// files are else as those of edition 2.
fn list_conditions(list: &mut Listed, wholes: &[Vec<u8>; 4]) {
    const OLDER: &str = "off mask in an older edition";
    let [first, second, third, fourth] = wholes;
    for whole in [first, second] {
        let file = with_record(whole, [5, 136, 0x0F, 0]);
        list.push(("whole", file.clone()));
        list_unused(list, &file, 3);
        for off in [0x01, 0x30, 0xFF] {
            list.push((OLDER, with_record(whole, [5, 136, 0x0F, off])));
        }
        list.push((OLDER, flat(&with_record(whole, [5, 136, 0x0F, 0x30]))));
        list.push((OLDER, with_record(whole, [5, 7, 0, 0x80])));
    }
    let lasting = [[5, 136, 0x0F, 0x30], [5, 148, 0, 0xFF], [5, 135, 0xFF, 0], [5, 7, 0, 0x80]];
    for (beginning, whole) in lasting.into_iter().zip([third, fourth].into_iter().cycle()) {
        let file = with_record(whole, beginning);
        list.push(("whole", file.clone()));
        list_unused(list, &file, 4);
    }
    // Nights of edition 2 are whole as nights of edition 3; the other way round only those
    // without an off mask are.
    list.push(("whole", with(&with_record(second, [5, 136, 0x0F, 0]), 2, 3)));
    list.push((OLDER, with(&with_record(third, [5, 136, 0x0F, 0x30]), 2, 2)));
    let begin = record_at(third, 0);
    let one = alone(third, [5, 136, 0x0F, 0]);
    list.push(("whole", with(&one, 2, 2)));
    list.push(("whole", with(&one, begin + 3, 0x30)));
    list.push((OLDER, with(&with(&one, begin + 3, 0x30), 2, 2)));
}

/// Kinds 7 and 8, which edition 4 alone has; its files are else as those of
/// edition 3.
fn list_power(list: &mut Listed, wholes: &[Vec<u8>; 4]) {
    const OLDER: &str = "module event or line in an older edition";
    const NEITHER: &str = "line neither on nor off";
    let [_, _, third, fourth] = wholes;
    let (module, off, on) = ([7, 0, 0, 0], [8, 0, 0, 0], [8, 1, 0, 0]);
    for older in &wholes[..3] {
        for beginning in [module, off, on] {
            list.push((OLDER, with_record(older, beginning)));
        }
        list.push((OLDER, flat(&with_record(older, module))));
        list.push((OLDER, with_record(older, [8, 2, 0, 0])));
    }
    for (beginning, used) in [(module, 1), (off, 2), (on, 2)] {
        let file = with_record(fourth, beginning);
        list.push(("whole", file.clone()));
        list_unused(list, &file, used);
    }
    for byte in [2, 3, 0x10, 0x80, 0x81, 0xFF] {
        list.push((NEITHER, with_record(fourth, [8, byte, 0, 0])));
    }
    list.push((NEITHER, flat(&with_record(fourth, [8, 2, 0, 0]))));
    // Nights of edition 3 are whole as nights of edition 4; the other way round only those
    // without these events are.
    list.push(("whole", with(third, 2, 4)));
    list.push(("whole", with(&alone(fourth, [5, 136, 0x0F, 0x30]), 2, 3)));
    for beginning in [module, off, on] {
        list.push(("whole", alone(fourth, beginning)));
        list.push((OLDER, with(&alone(fourth, beginning), 2, 3)));
    }
}

fn list_flat(list: &mut Listed, whole: &[u8], none: &[u8], longest: &[u8]) {
    let records = records_at(whole);
    list.push(("flat image", flat(whole)));
    list.push(("flat image", flat(none)));
    list.push(("flat image", flat(longest)));
    list.push(("flat image", with(whole, 16 + 2, 0xFF)));
    list.push(("flat and malformed", flat(&with(whole, records, 0))));
    list.push(("flat and malformed", flat(&with(whole, 0, b'w'))));
    list.push(("flat and malformed", flat(&with(whole, records + 239, 1))));
    list.push(("flat and malformed", flat(&whole[..whole.len() - 1])));
    list.push(("flat and malformed", flat(&[whole, &[0]].concat())));
    for cut in [records - 1, records, records + 1] {
        list.push(("flat and malformed", flat(&whole[..cut])));
    }
}

/// The comparisons of limits by 1, low byte first told apart, and the equal neighbours.
fn list_limits(list: &mut Listed, whole: &[u8], comparisons: &[usize]) {
    let usual = [1000, 1500, 15000, 20000];
    let records = records_at(whole);
    let none = counted(&whole[..records], 0);
    for &which in comparisons {
        let turned = limited(whole, turned_round(usual, which));
        list.push(("back to front", turned.clone()));
        list.push(("back to front", limited(&none, turned_round([0xFF; 4], which))));
        list.push(("back to front and flat", flat(&turned)));
        list.push(("back to front and malformed", with(&turned, records, 0)));
        for cut in [records - 1, records, records + 1, turned.len() - 1] {
            list.push(("back to front and malformed", turned[..cut].to_vec()));
        }
        list.push(("back to front, flat and malformed", flat(&with(&turned, records + 239, 1))));
        let mut level = usual;
        level[which] = level[which + 1];
        list.push(("limits equal, whole", limited(whole, level)));
    }
    list.push(("back to front", limited(whole, turned_round(usual, 3))));
    list.push(("back to front", limited(whole, [65535, 65535, 65535, 0])));
    list.push(("back to front", limited(whole, [65535, 0, 0, 0])));
    list.push(("limits equal, whole", limited(whole, [0; 4])));
    list.push(("limits equal, whole", limited(whole, [65535; 4])));
}
