//! Conditions that occur once or last, and samples about the limits.

use super::{write_event, Conditions, Maker};
use crate::image::limit;
use crate::lasting::{index, on, OF_CONDITIONS};
use second::module::Event;

/// Flag bytes that no condition raises, and bytes that are none.
const REFUSED: [u8; 8] = [134, 139, 146, 149, 150, 153, 0, 255];
/// From a flag byte on 11h to its mask on 10h.
const TO_ITS_MASK: u8 = 79;

impl Maker {
    pub(super) fn condition(&mut self) -> Event {
        let lasting = match self.kinds.conditions {
            Conditions::OneTime => false,
            Conditions::Lasting => true,
            Conditions::Both => self.rng.percent(60),
        };
        if lasting && self.wild {
            return self.lasting_condition();
        }
        let flag_byte = self.condition_flag();
        let mask = match self.rng.below(3) {
            0 => self.rng.byte(),
            1 => 0xFF,
            _ => 1 << self.rng.below(8),
        };
        // For measuring it lasts on the lanes of its mask and ends on the others.
        if lasting {
            Event::LastingCondition { flag_byte, on: mask, off: !mask }
        } else {
            Event::Condition { flag_byte, mask }
        }
    }

    /// A flag byte that takes a condition, or now and then one that does not.
    fn condition_flag(&mut self) -> u8 {
        let flag_byte = self.rng.pick(&OF_CONDITIONS);
        if self.wild && self.rng.percent(6) {
            self.rng.pick(&REFUSED)
        } else {
            flag_byte
        }
    }

    fn lasting_condition(&mut self) -> Event {
        let mut flag_byte = self.condition_flag();
        let now = on(&self.state);
        let lasting: Vec<u8> =
            OF_CONDITIONS.into_iter().filter(|&other| now[index(other)] != 0).collect();
        if !lasting.is_empty() && self.rng.percent(40) {
            flag_byte = self.rng.pick(&lasting);
        }
        let errand = match self.rng.below(8) {
            0 => self.begun_and_ended(flag_byte),
            1 => self.under_its_mask(flag_byte),
            _ => {
                let taken = OF_CONDITIONS.contains(&flag_byte);
                vec![self.on_and_off(flag_byte, if taken { now[index(flag_byte)] } else { 0 })]
            }
        };
        self.begin(errand)
    }

    /// One event, aimed at the lanes that are on now.
    fn on_and_off(&mut self, flag_byte: u8, now: u8) -> Event {
        let (any, other, one) = (self.rng.byte(), self.rng.byte(), 1 << self.rng.below(8));
        let (on, off) = match self.rng.below(14) {
            0..=2 => (one, 0),
            3 => (any, 0),
            4 => (0xFF, 0),
            5 | 6 => (0, now),
            7 => (0, now & any),
            8 => (0, any),
            9 => (any, other),
            10 => (any, !any),
            11 => (one, one),
            12 => (now | one, now),
            _ => (0, 0),
        };
        Event::LastingCondition { flag_byte, on, off }
    }

    /// A condition that is ended before or after its flag is read, and reads
    /// that see it go.
    fn begun_and_ended(&mut self, flag_byte: u8) -> Vec<Event> {
        let lanes = self.rng.byte() | 1 << self.rng.below(8);
        let read = Event::Read { address: flag_byte.max(128), count: 1 };
        let mut errand = vec![Event::LastingCondition { flag_byte, on: lanes, off: 0 }];
        errand.push(self.page(0x11));
        errand.extend(vec![read; self.rng.below(3)]);
        errand.push(Event::LastingCondition { flag_byte, on: 0, off: lanes });
        errand.extend([read, read]);
        errand
    }

    /// A condition whose mask is set and cleared while it lasts.
    fn under_its_mask(&mut self, flag_byte: u8) -> Vec<Event> {
        let lanes = self.rng.byte() | 1 << self.rng.below(8);
        let mask = match flag_byte {
            134..=153 => flag_byte + TO_ITS_MASK,
            _ => 213,
        };
        let lower_3 = Event::Read { address: 3, count: 1 };
        vec![
            Event::LastingCondition { flag_byte, on: lanes, off: 0 },
            self.page(0x10),
            write_event(mask, &[lanes]),
            lower_3,
            self.page(0x11),
            Event::Read { address: flag_byte.max(128), count: 1 },
            lower_3,
            self.page(0x10),
            write_event(mask, &[0]),
            lower_3,
        ]
    }

    pub(super) fn sample(&mut self) -> Event {
        if self.wild && self.rng.percent(30) {
            return self.sample_again();
        }
        let address = 192 + 2 * self.rng.below(4);
        let limit = limit(&self.state.image, address);
        let value = match self.rng.below(6) {
            0 => limit,
            1 => limit.wrapping_add(1),
            2 => limit.wrapping_sub(1),
            3 => limit.swap_bytes(),
            _ => self.rng.next() as u16,
        };
        Event::Sample { lane: self.lane(), value }
    }

    /// Another sample of a lane that has something on, if there is one: inside
    /// the limits, or at either end of the scale.
    fn sample_again(&mut self) -> Event {
        let lanes = self.state.with_something_on();
        let lane = if lanes != 0 { self.rng.lane_of(lanes) } else { self.lane() };
        let value = match self.rng.below(5) {
            0 => limit(&self.state.image, 196),
            1 => limit(&self.state.image, 198),
            2 => 0,
            3 => 65535,
            _ => self.rng.next() as u16,
        };
        Event::Sample { lane, value }
    }
}
