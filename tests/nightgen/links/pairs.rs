//! Pairs of nights that differ on the lanes of a set A. Each run has a maker that
//! aims at its own state; they lead in turns, and what the one that leads decides on
//! is given to both runs or to its own alone. What would break the supposition is
//! left out: lanes of a trigger, or the whole moment.

use super::counts::{Counts, Seen};
use super::statement::*;
use crate::aims::{write_event, Kinds, Maker};
use crate::image::make_image;
use crate::rng::Rng;
use crate::state::State;
use second::applications::find_descriptor;
use second::lanes::LaneSet;
use second::module::Event;
use second::registers::*;
use std::collections::VecDeque;

/// Two runs from one image, laid side by side.
pub struct Pair {
    pub a: SetA,
    pub image: [u8; IMAGE_LEN],
    pub moments: Vec<Moment>,
    /// What is not the same in both after the last moment: a counterexample.
    pub broken: Option<String>,
}

pub fn make_pair(rng: &mut Rng, index: usize, kinds: Kinds, counts: &mut Counts) -> Pair {
    let (image, lanes) = image_and_lanes(rng, index);
    let length = 200 + rng.below(800);
    let mut making = Making::new(rng, &image, lanes, kinds);
    counts.look_at_set(&making.a);
    making.bring_up();
    while making.broken.is_none() && making.moments.len() < length {
        making.go_on(counts);
    }
    making.look_at_everything();
    while making.broken.is_none() && !making.due.is_empty() {
        making.go_on(counts);
    }
    counts.look_at_end(&making.a, &making.states());
    Pair { a: making.a, image, moments: making.moments, broken: making.broken }
}

// ---- the image and the set ----

/// An image and a set A. Most often some Applications of the image make paths inside
/// A and others outside.
fn image_and_lanes(rng: &mut Rng, index: usize) -> ([u8; IMAGE_LEN], u8) {
    let (any, one) = (rng.byte(), 1 << rng.below(8));
    match index % 25 {
        0 => return (image_of_links(rng), 0x00),
        1 => return (image_of_links(rng), 0xFF),
        2 => return (image_of_links(rng), !one),
        3 | 4 => return (image_of_links(rng), any),
        _ => {}
    }
    loop {
        let image = image_of_links(rng);
        let paths = paths_apart(rng, &image);
        let lanes = paths.iter().filter(|_| rng.percent(50)).sum();
        if lanes != 0 && paths.iter().sum::<u8>() != lanes {
            return (image, lanes);
        }
    }
}

/// An image, half of them with any settings allowed: then neighbours have different ones.
fn image_of_links(rng: &mut Rng) -> [u8; IMAGE_LEN] {
    let mut image = make_image(rng, true);
    if rng.percent(50) {
        image[EQ_MAX_AND_AMPLITUDES] = 0xFF;
        image[CURSOR_MAX] = 0xFF;
    }
    image
}

/// Paths that Applications of an image allow, none with a lane of another.
fn paths_apart(rng: &mut Rng, image: &[u8; IMAGE_LEN]) -> Vec<u8> {
    let mut paths = Vec::new();
    let mut free = 0xFF;
    for _ in 0..20 {
        let (app_sel, first) = (1 + rng.byte() % 15, rng.byte() & 7);
        match find_descriptor(image, app_sel).and_then(|found| found.lanes_from(first)) {
            Some(lanes) if lanes & !free == 0 => {
                free &= !lanes;
                paths.push(lanes);
            }
            _ => {}
        }
    }
    paths
}

// ---- moment by moment ----

/// What the run that does not lead takes of what is done to lanes of A.
#[derive(Clone, Copy, PartialEq, Eq)]
pub(super) enum Other {
    DoesTheSame,
    DoesNothing,
    DoesSomethingElse,
    /// The moment is the leading run's alone, where it can be.
    HasNoPart,
}

/// A pair that is being made.
pub(super) struct Making {
    pub(super) rng: Rng,
    pub(super) a: SetA,
    pub(super) makers: [Maker; 2],
    /// The run whose maker decides.
    pub(super) leads: usize,
    pub(super) other: Other,
    /// Moments decided on but not yet laid.
    due: VecDeque<Moment>,
    moments: Vec<Moment>,
    broken: Option<String>,
}

impl Making {
    fn new(rng: &mut Rng, image: &[u8; IMAGE_LEN], lanes: u8, kinds: Kinds) -> Making {
        Making {
            makers: RUNS.map(|_| Maker::new(Rng(rng.next()), image, true, kinds)),
            rng: Rng(rng.next()),
            a: SetA::of(lanes),
            leads: 0,
            other: Other::DoesTheSame,
            due: VecDeque::new(),
            moments: Vec::new(),
            broken: None,
        }
    }

    fn states(&self) -> [State; 2] {
        RUNS.map(|run| self.makers[run].state.clone())
    }

    /// Lays one moment, or leaves it out.
    fn go_on(&mut self, counts: &mut Counts) {
        let moment = self.next(counts);
        let before = self.states();
        assert!(allowed(&self.a, &before, &moment), "{:?} is no moment of two runs", moment);
        let laid = match lay(&self.a, &before, &moment) {
            Ok(laid) => laid,
            Err(breach) => return self.leave_out(moment, breach, counts),
        };
        self.moments.push(moment);
        self.broken = same_outside(&self.a, &laid.after)
            .and_then(|()| same_word(&self.a, &before, &moment, &laid))
            .err();
        counts.look(&Seen { a: &self.a, before: &before, moment: &moment, laid: &laid });
        for (maker, state) in self.makers.iter_mut().zip(laid.after) {
            maker.state = state;
        }
    }

    fn next(&mut self, counts: &mut Counts) -> Moment {
        if let Some(moment) = self.due.pop_front() {
            return moment;
        }
        if !self.makers[self.leads].is_on_an_errand() {
            self.change_the_lead();
            if self.rng.percent(3) {
                self.look_at_everything();
                return self.next(counts);
            }
        }
        let event = self.decided();
        self.moment_of(event, counts)
    }

    fn change_the_lead(&mut self) {
        self.leads = self.rng.below(2);
        self.other = self.rng.pick(&[
            Other::DoesTheSame, Other::DoesTheSame, Other::DoesNothing,
            Other::DoesSomethingElse, Other::HasNoPart, Other::HasNoPart,
        ]);
    }

    /// What the maker of the leading run decides on: anything, or at times something on
    /// one side alone.
    fn decided(&mut self) -> Event {
        let side = self.rng.pick(&[self.a.lanes, !self.a.lanes]);
        let maker = &mut self.makers[self.leads];
        if !maker.is_on_an_errand() && side != 0 && self.rng.percent(15) {
            maker.on_one_side(side)
        } else {
            maker.next()
        }
    }

    /// The moment that an event of the leading run becomes.
    fn moment_of(&mut self, event: Event, counts: &mut Counts) -> Moment {
        match event {
            Event::Work { lane } | Event::Hardware { lane } | Event::Sample { lane, .. }
                if self.a.has(lane) =>
            {
                if self.other == Other::DoesTheSame {
                    self.due.push_back(Moment::One(1 - self.leads, event));
                }
                Moment::One(self.leads, event)
            }
            Event::Condition { flag_byte, mask } => {
                self.condition([mask, 0], |[mask, _]| Event::Condition { flag_byte, mask })
            }
            Event::LastingCondition { flag_byte, on, off } => self
                .condition([on, off], |[on, off]| Event::LastingCondition { flag_byte, on, off }),
            Event::Write { address, count, data } if is_done(address, count) => {
                self.write((address, count, data), counts)
            }
            _ => Moment::Both([event; 2]),
        }
    }

    /// The leading run's event and the other's, in the order of the runs.
    pub(super) fn in_order(&self, leading: Event, other: Event) -> [Event; 2] {
        match self.leads {
            0 => [leading, other],
            _ => [other, leading],
        }
    }

    fn condition(&mut self, masks: [u8; 2], with: impl Fn([u8; 2]) -> Event) -> Moment {
        let [of_a, outside] =
            [self.a.lanes, !self.a.lanes].map(|lanes| masks.map(|mask| mask & lanes));
        let others = match self.other {
            Other::DoesTheSame => masks,
            Other::DoesSomethingElse => outside.map(|mask| mask | self.rng.byte() & self.a.lanes),
            Other::HasNoPart if of_a != [0; 2] => return Moment::One(self.leads, with(of_a)),
            Other::DoesNothing | Other::HasNoPart => outside,
        };
        Moment::Both(self.in_order(with(masks), with(others)))
    }

    // ---- moments that no maker decides on ----

    fn bring_up(&mut self) {
        let opening = self.makers[0].opening();
        self.due.extend(opening.into_iter().map(|event| Moment::Both([event; 2])));
    }

    /// Reads of all that belongs to lanes.
    fn look_at_everything(&mut self) {
        for page in [0x10, 0x11] {
            let select = write_event(126, &[0, page]);
            let read = Event::Read { address: 128, count: 128 };
            self.due.extend([select, read].map(|event| Moment::Both([event; 2])));
        }
    }

    /// A moment that breaks the supposition. A path that is mixed where no group was would
    /// be news.
    fn leave_out(&mut self, moment: Moment, breach: Breach, counts: &mut Counts) {
        match breach {
            Breach::Group => {}
            Breach::Path => {
                self.moments.push(moment);
                self.broken = Some("a path is mixed, and no group was".to_string());
            }
            Breach::ModuleState => {
                counts.look_at_left_out_moment();
                if self.rng.percent(60) {
                    self.wind_down();
                }
            }
        }
    }

    /// Where only one module would go on: the paths of A go down in both runs, then it is
    /// tried again.
    fn wind_down(&mut self) {
        for run in RUNS {
            let state = &self.makers[run].state;
            let (used, busy) = (state.used(), state.in_progress());
            for lane in LaneSet(self.a.lanes & used) {
                let steps = if busy >> lane & 1 != 0 { 9 } else { 0 };
                self.due.extend(vec![Moment::One(run, Event::Work { lane }); steps]);
                self.due.extend(vec![Moment::One(run, Event::Hardware { lane }); 4]);
            }
        }
        self.due.push_back(Moment::Both([Event::Module; 2]));
    }
}
