//! Whole nights, and the files they make.

use crate::aims::{Kinds, Maker};
use crate::coverage::Coverage;
use crate::image::{make_image, make_image_for_applies};
use crate::rng::Rng;
use second::module::Event;
use second::night::{Edition, EDITIONS, HEADER_LEN};
use second::registers::IMAGE_LEN;

/// The editions by name.
pub const FIRST: Edition = EDITIONS[0];
pub const SECOND: Edition = EDITIONS[1];
pub const THIRD: Edition = EDITIONS[2];
pub const FOURTH: Edition = EDITIONS[3];

/// A finished night: its image and its events.
pub struct Made {
    pub image: [u8; IMAGE_LEN],
    pub events: Vec<Event>,
}

/// One night in so many has its limits back to front.
pub const REFUSED_EVERY: usize = 40;

/// A night of an edition, with the events that it has.
pub fn make_night(
    rng: &mut Rng,
    edition: Edition,
    length: usize,
    wild: bool,
    coverage: &mut Coverage,
) -> Made {
    let image = make_image(rng, wild);
    let mut maker = Maker::new(rng.clone(), &image, wild, Kinds::of(edition));
    rng.next();
    coverage.begin(edition);
    let mut opening = maker.opening().into_iter();
    let mut events = Vec::with_capacity(length);
    while events.len() < length {
        let event = opening.next().unwrap_or_else(|| maker.next());
        let before = maker.state.clone();
        let (outcome, _) = maker.state.step(&event);
        coverage.look(&before, &event, &outcome, &maker.state, maker.slip);
        events.push(event);
    }
    match length {
        0 => coverage.hit("nights", "no record"),
        1 => coverage.hit("nights", "one record"),
        5000 => coverage.hit("nights", "5000 records"),
        _ => {}
    }
    if length > 1000 {
        coverage.hit("nights", "index of four digits");
    }
    Made { image, events }
}

/// A night of the newest edition that is mostly Applies of 1, 2, 4 and 8 lanes.
pub fn make_night_of_applies(rng: &mut Rng, length: usize) -> Made {
    let image = make_image_for_applies(rng);
    let mut maker = Maker::new(rng.clone(), &image, false, Kinds::of(FOURTH));
    let mut opening = maker.opening().into_iter();
    let mut events = Vec::with_capacity(length);
    while events.len() < length {
        let event = opening.next().unwrap_or_else(|| maker.next_of_applies());
        maker.state.step(&event);
        events.push(event);
    }
    Made { image, events }
}

/// Lengths of the nights: mostly a few hundred records, the edges now and then.
pub fn night_length(rng: &mut Rng, index: usize) -> usize {
    match index % 250 {
        0 => 0,
        1 => 1,
        2 | 127 => 5000,
        3 => 1001,
        n if n % 25 == 4 => 500 + rng.below(1500),
        n if n % 5 == 0 => 2 + rng.below(40),
        _ => 100 + rng.below(400),
    }
}

/// The edition of a night: thirteen in sixteen are of the newest, at any length.
pub fn edition_of(index: usize) -> Edition {
    match (index + index / 125) % 16 {
        0 => SECOND,
        12 => THIRD,
        14 => FIRST,
        _ => FOURTH,
    }
}

/// The file of a night. What its edition has no room for in an image, start
/// clears anyway.
pub fn night_file(edition: Edition, made: &Made) -> Vec<u8> {
    let mut file = vec![b'W', b'L', edition.number, 0];
    for number in [made.events.len(), HEADER_LEN, edition.records_at()] {
        file.extend_from_slice(&(number as u32).to_be_bytes());
    }
    file.extend_from_slice(&made.image[..edition.image_len]);
    for event in &made.events {
        file.extend_from_slice(&record_of(event));
    }
    file
}

fn record_of(event: &Event) -> [u8; 12] {
    let mut record = [0u8; 12];
    match *event {
        Event::Write { address, count, data } => {
            record[..3].copy_from_slice(&[1, address, count]);
            let used = count.min(8) as usize;
            record[3..3 + used].copy_from_slice(&data[..used]);
        }
        Event::Read { address, count } => record[..3].copy_from_slice(&[2, address, count]),
        Event::Work { lane } => record[..2].copy_from_slice(&[3, lane]),
        Event::Hardware { lane } => record[..2].copy_from_slice(&[4, lane]),
        Event::Condition { flag_byte, mask } => record[..3].copy_from_slice(&[5, flag_byte, mask]),
        Event::LastingCondition { flag_byte, on, off } => {
            record[..4].copy_from_slice(&[5, flag_byte, on, off])
        }
        Event::Sample { lane, value } => {
            let [high, low] = value.to_be_bytes();
            record[..4].copy_from_slice(&[6, lane, high, low]);
        }
        Event::Module => record[0] = 7,
        Event::Line { on } => record[..2].copy_from_slice(&[8, on as u8]),
    }
    record
}
