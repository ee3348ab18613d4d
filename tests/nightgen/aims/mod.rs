//! Events that aim at the state a night has reached.

mod accesses;
mod applies;
mod commands;
mod one_side;
mod paths;
mod power;
mod rounds;
mod sets;
mod signals;

pub use self::commands::Slip;
use crate::power::{all_deactivated, holds_down};
use crate::rng::Rng;
use crate::state::State;
use second::module::Event;
use second::night::Edition;
use second::registers::{StagedSet, IMAGE_LEN};
use std::collections::VecDeque;

/// Which of the two condition events there are. A file has one of them.
#[derive(Clone, Copy)]
pub enum Conditions {
    OneTime,
    Lasting,
    Both,
}

/// The events that there are beside those of every edition.
#[derive(Clone, Copy)]
pub struct Kinds {
    conditions: Conditions,
    /// The module event and the low-power line.
    power: bool,
}

impl Kinds {
    /// What no file has together.
    pub const ALL: Kinds = Kinds { conditions: Conditions::Both, power: true };

    pub fn of(edition: Edition) -> Kinds {
        let conditions = if edition.lasting { Conditions::Lasting } else { Conditions::OneTime };
        Kinds { conditions, power: edition.power }
    }
}

/// Makes a night's events, looking at the state they lead to.
pub struct Maker {
    rng: Rng,
    pub state: State,
    /// Events decided on but not yet made: the rest of a host's errand.
    errand: VecDeque<Event>,
    /// Whether odd and wrong records are mixed in.
    wild: bool,
    kinds: Kinds,
    /// Whether the module, once it is up, is sent down and reset now and then.
    restless: bool,
    /// What is wrong with the last message that was decided on, if it is one
    /// byte alone.
    pub slip: Option<Slip>,
}

impl Maker {
    /// A maker of the events of a night that begins with this image.
    pub fn new(mut rng: Rng, image: &[u8; IMAGE_LEN], wild: bool, kinds: Kinds) -> Maker {
        Maker::from(Rng(rng.next()), State::start(image), wild, kinds)
    }

    /// A maker that goes on from any state.
    pub fn from(mut rng: Rng, state: State, wild: bool, kinds: Kinds) -> Maker {
        let restless = wild && rng.percent(50);
        Maker { rng, state, errand: VecDeque::new(), wild, kinds, restless, slip: None }
    }

    pub fn next(&mut self) -> Event {
        if !self.errand.is_empty() && self.rng.percent(70) {
            return self.errand.pop_front().unwrap();
        }
        // A host that is always at it, with wrong records mixed in; or, for
        // measuring, the six kinds of event of every edition about equally often.
        let free = self.errand.is_empty();
        let weights = if self.wild {
            let (provision, command, sets) = if free { (14, 11, 9) } else { (2, 0, 0) };
            // The module is left alone for a while before its paths are up.
            let power = match (free, self.kinds.power) {
                (true, true) if holds_down(&self.state) => 24,
                (true, true) if self.restless && !all_deactivated(&self.state) => 9,
                (true, _) if self.restless => 3,
                _ => 0,
            };
            [26, 24, provision, 4, 4, 22, 8, 8, 3, 3, 3, 2, 3, 4, command, power, sets]
        } else {
            [19, 19, if free { 6 } else { 0 }, 1, 1, 18, 19, 19, 1, 1, 1, 1, 0, 0, 0, 0, 0]
        };
        let mut left = self.rng.below(weights.iter().sum());
        let mut choice = 0;
        while left >= weights[choice] {
            left -= weights[choice];
            choice += 1;
        }
        match choice {
            0 => self.work(),
            1 => self.hardware(),
            2 => self.provision(),
            3 => self.release(),
            4 => self.deinit(),
            5 => self.look(),
            6 => self.condition(),
            7 => self.sample(),
            8 => self.select(),
            9 => self.masks(),
            10 => self.stage_something(),
            11 => self.trigger_again(),
            12 => self.anything(),
            13 => self.mute(),
            14 => self.command(),
            15 => self.power(),
            _ => self.both_sets(),
        }
    }

    /// Whether the next event is most likely the rest of an errand.
    pub fn is_on_an_errand(&self) -> bool {
        !self.errand.is_empty()
    }

    fn begin(&mut self, errand: Vec<Event>) -> Event {
        self.errand.extend(errand);
        self.errand.pop_front().unwrap()
    }

    /// A set to stage in. A night for measuring knows set 0 alone.
    fn set(&mut self) -> StagedSet {
        if self.wild && self.rng.percent(45) {
            StagedSet::One
        } else {
            StagedSet::Zero
        }
    }

    /// The set that has staged what a lane has active; set 0 if none has.
    fn set_that_holds(&self, lane: u8) -> StagedSet {
        let active = self.state.active(lane);
        let holds = |set: &StagedSet| self.state.staged(*set, lane) == active;
        StagedSet::BOTH.into_iter().find(holds).unwrap_or(StagedSet::Zero)
    }

    fn lane(&mut self) -> u8 {
        if self.wild && self.rng.percent(2) {
            8 + self.rng.byte() % 248
        } else {
            self.rng.byte() & 7
        }
    }
}

pub fn write_event(address: u8, bytes: &[u8]) -> Event {
    let mut data = [0u8; 8];
    data[..bytes.len()].copy_from_slice(bytes);
    Event::Write { address, count: bytes.len() as u8, data }
}
