//! What becomes of a write of the run that leads: it is its own alone, or the other
//! run has one to the same address, and no trigger of either forms a mixed group.

use super::counts::Counts;
use super::pairs::{Making, Other};
use super::statement::*;
use second::module::Event;

fn event((address, count, data): Write) -> Event {
    Event::Write { address, count, data }
}

impl Making {
    /// The moment that a write that is done becomes.
    pub(super) fn write(&mut self, leading: Write, counts: &mut Counts) -> Moment {
        if self.other == Other::HasNoPart {
            if let Some(alone) = self.of_a_alone(leading) {
                return Moment::One(self.leads, alone);
            }
        }
        let other = match self.other {
            Other::DoesTheSame => leading,
            Other::DoesSomethingElse => self.something_else(leading),
            Other::DoesNothing | Other::HasNoPart => {
                let nothing = |bits: u8, stands: u8, byte: u8| byte & !bits | stands & bits;
                self.with_bytes(1 - self.leads, leading, nothing)
            }
        };
        let events = self.in_order(event(leading), event(other));
        Moment::Both(self.without_mixed_groups(events, counts))
    }

    /// A write with other bytes, made of the bits that belong to A where a byte goes,
    /// the byte that stands there in a run, and the one written.
    fn with_bytes(
        &self,
        run: usize,
        (address, count, mut data): Write,
        mut made_of: impl FnMut(u8, u8, u8) -> u8,
    ) -> Write {
        let state = &self.makers[run].state;
        for (k, byte) in (0..count).zip(data.iter_mut()) {
            let place = state.place(address + k);
            *byte = made_of(self.a.bits[place], state.image[place], *byte);
        }
        (address, count, data)
    }

    /// What a write of the leading run does to lanes of A, if it may stand alone and does
    /// something; at times also if it does nothing.
    fn of_a_alone(&mut self, write: Write) -> Option<Event> {
        let mut wanted = self.rng.percent(5);
        let of_a = self.with_bytes(self.leads, write, |bits, stands, byte| {
            wanted |= (byte ^ stands) & bits != 0;
            byte & bits | stands & !bits
        });
        let alone = event(of_a);
        let may = may_stand_alone(&self.a, &self.makers[self.leads].state, &alone);
        (wanted && may).then_some(alone)
    }

    /// The same outside A; inside it all bytes changed alike, or each by itself.
    fn something_else(&mut self, write: Write) -> Write {
        let alike = match self.rng.below(4) {
            0 => Some(1 << self.rng.below(8)),
            1 => Some(self.rng.byte() & 0xF0),
            _ => None,
        };
        let mut rng = self.rng.clone();
        self.rng.next();
        self.with_bytes(1 - self.leads, write, |bits, stands, byte| {
            let changed = match alike {
                Some(change) => byte ^ change,
                None => match rng.below(3) {
                    0 => byte,
                    1 => stands,
                    _ => rng.byte(),
                },
            };
            byte & !bits | changed & bits
        })
    }

    /// Takes lanes out of triggers: of each group that has lanes of A and others, those
    /// of A, or the others, and these then in both runs.
    fn without_mixed_groups(&mut self, events: [Event; 2], counts: &mut Counts) -> [Event; 2] {
        let leaves_out_a = self.rng.percent(50);
        let mixed = RUNS.map(|run| self.mixed_lanes(run, &events[run]));
        if mixed != [[0; 8]; 2] {
            counts.look_at_narrowed_trigger();
        }
        RUNS.map(|run| {
            let (address, count, mut data) = written(&events[run]);
            for (k, byte) in data.iter_mut().enumerate() {
                *byte &= !match leaves_out_a {
                    true => mixed[run][k] & self.a.lanes,
                    false => (mixed[0][k] | mixed[1][k]) & !self.a.lanes,
                };
            }
            event((address, count, data))
        })
    }

    /// Of each byte of a write, the lanes of mixed groups. What else it selects has no say
    /// in what a group is.
    fn mixed_lanes(&self, run: usize, event: &Event) -> [u8; 8] {
        let mut lanes = [0; 8];
        let bytes = bytes_in_turn(&self.makers[run].state, event);
        for (mixed, byte) in lanes.iter_mut().zip(bytes) {
            *mixed = byte.groups().into_iter().filter(|&group| self.a.parts(group)).sum();
        }
        lanes
    }
}
