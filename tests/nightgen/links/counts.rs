//! Counts of what pairs of runs hold.

use super::registers::bits_of;
use super::statement::*;
use super::wanted::*;
use crate::lasting::{flags, on};
use crate::messages::runs_command;
use crate::power::is_reset;
use crate::state::{passing, State};
use crate::tally::Tally;
use second::lanes::*;
use second::module::Event;
use second::registers::*;
use std::io::{self, Write};
use std::ops::Range;

/// The bytes of both staged sets.
const STAGED: Range<usize> = P10 + 145..P10 + 209;
/// The active settings.
const ACTIVE: Range<usize> = P11 + 206..P11 + 235;
/// Where the nibbles among them begin.
const ACTIVE_NIBBLES: [usize; 4] =
    [ACTIVE_INPUT_EQ, ACTIVE_PRE_CURSOR, ACTIVE_POST_CURSOR, ACTIVE_AMPLITUDE];

#[derive(Default)]
pub struct Counts {
    tally: Tally,
    pub moments: u64,
    /// Those of one run alone.
    pub alone: u64,
}

/// A moment that was laid, with all that is known of it.
pub struct Seen<'a> {
    pub a: &'a SetA,
    pub before: &'a [State; 2],
    pub moment: &'a Moment,
    pub laid: &'a Laid,
}

impl<'a> Seen<'a> {
    /// The run that it is looked at in, and its event there.
    fn here(&self) -> (usize, Event) {
        match *self.moment {
            Moment::Both([event, _]) => (0, event),
            Moment::One(run, event) => (run, event),
        }
    }

    fn state_before(&self) -> &'a State {
        &self.before[self.here().0]
    }

    fn state_after(&self) -> &'a State {
        &self.laid.after[self.here().0]
    }

    fn done(&self) -> bool {
        matches!(&self.laid.gave[self.here().0], Some((outcome, _)) if outcome.answer == 0)
    }

    /// Lanes to be commissioned.
    fn commission(&self) -> u8 {
        self.laid.gave[self.here().0].as_ref().map_or(0, |(outcome, _)| outcome.commission)
    }

    /// Of a pair of names, that for a lane outside A or that for a lane of A.
    fn side(&self, names: [&'static str; 2], lane: u8) -> &'static str {
        names[self.a.has(lane) as usize]
    }

    /// The lanes of A of which something was said in one run alone, before the moment.
    fn in_one_run(&self, lanes: impl Fn(&State) -> u8) -> u8 {
        (lanes(&self.before[0]) ^ lanes(&self.before[1])) & self.a.lanes
    }

    fn in_progress_in_one_run(&self) -> u8 {
        self.in_one_run(State::in_progress)
    }

    /// Whether something of A was not the same in both runs, before the moment.
    fn is_apart(&self) -> bool {
        lanes_apart(self.a, self.before) != 0
    }
}

/// The lanes of A that are not the same in both runs, in bits or records.
fn lanes_apart(a: &SetA, states: &[State; 2]) -> u8 {
    let [one, other] = states;
    let records_apart = |lane: u8| one.record(lane) != other.record(lane);
    one.lanes_where(|lane| {
        a.has(lane) && (records_apart(lane) || bits_apart(states, lane, 0..IMAGE_LEN))
    })
}

/// Whether bits of a lane differ in a part of the image.
fn bits_apart(states: &[State; 2], lane: u8, mut part: Range<usize>) -> bool {
    let bits = bits_of(1 << lane);
    part.any(|place| (states[0].image[place] ^ states[1].image[place]) & bits[place] != 0)
}

/// A lane's nibbles of active settings.
fn nibbles(state: &State, lane: u8) -> [u8; 4] {
    ACTIVE_NIBBLES.map(|place| state.nibble(place, lane))
}

fn pending(state: &State) -> u8 {
    state.image[DP_INIT_PENDING]
}

/// What a byte makes of lanes as a trigger: those that it marks, and those of groups
/// that it ignores.
fn formed(byte: &Byte) -> [u8; 2] {
    let stopped = byte.state.image[CHARACTERISTICS] & STEPPED_CONFIG_ONLY != 0;
    if stopped && matches!(byte.trigger(), Some((_, Trigger::ApplyImmediate))) {
        return [0; 2];
    }
    let busy = byte.state.in_progress();
    let (marked, ignored): (Vec<u8>, Vec<u8>) =
        byte.groups().into_iter().partition(|group| group & busy == 0);
    [marked, ignored].map(|groups| groups.iter().sum())
}

impl Counts {
    fn hit(&mut self, heading: &'static str, name: &'static str) {
        self.tally.hit(WANTED, heading, name);
    }

    fn hit_if(&mut self, holds: bool, heading: &'static str, name: &'static str) {
        if holds {
            self.hit(heading, name);
        }
    }

    /// Prints all counts; gives how many are 0.
    pub fn print(&self, to: &mut dyn Write) -> io::Result<usize> {
        self.tally.print(WANTED, &format!("{} moments", self.moments), to)
    }

    // ---- pairs as a whole ----

    pub fn look_at_set(&mut self, a: &SetA) {
        self.hit(THE_SET, match a.lanes.count_ones() {
            0 => "no lane",
            1 => "one lane",
            2 | 3 => "two or three lanes",
            4 => "four lanes",
            5 | 6 => "five or six lanes",
            7 => "seven lanes",
            _ => "all lanes",
        });
        let divided = (a.lanes ^ a.lanes >> 1) & 0x55;
        self.hit_if(divided != 0, THE_SET, "neighbours that share bytes divided");
        let first_ones = a.lanes & !(a.lanes << 1);
        self.hit_if(first_ones.count_ones() > 1, THE_SET, "lanes that do not lie side by side");
    }

    pub fn look_at_end(&mut self, a: &SetA, states: &[State; 2]) {
        let apart = lanes_apart(a, states);
        for lane in LaneSet(a.lanes) {
            self.hit_if(apart >> lane & 1 != 0, AT_THE_END, "different");
            for (part, name) in [
                (STAGED, "different in what is staged"),
                (ACTIVE, "different in active settings"),
                (CONFIG_STATUS..CONFIG_STATUS + 4, "different in ConfigStatus"),
                (DP_STATE..DP_STATE + 4, "different in DPState"),
            ] {
                self.hit_if(bits_apart(states, lane, part), AT_THE_END, name);
            }
            let [one, other] = RUNS.map(|run| states[run].apply(lane).is_some());
            self.hit_if(one != other, AT_THE_END, "in progress in one run alone");
        }
    }

    pub fn look_at_narrowed_trigger(&mut self) {
        self.hit(LEFT_OUT, "lanes of a trigger, for a mixed group");
    }

    pub fn look_at_left_out_moment(&mut self) {
        self.hit(LEFT_OUT, "a moment, for modules in different states");
    }

    // ---- moments ----

    pub fn look(&mut self, seen: &Seen) {
        self.moments += 1;
        match seen.moment {
            Moment::Both(events) => self.look_at_both(events),
            Moment::One(run, event) => self.look_at_one(seen, *run, event),
        }
        match seen.here().1 {
            Event::Write { .. } => self.look_at_write(seen),
            Event::Read { address, .. } => self.look_at_read(seen, address),
            Event::Work { lane } => self.look_at_work(seen, lane),
            Event::Hardware { lane } => self.look_at_hardware(seen, lane),
            Event::Module => self.look_at_module(seen),
            _ => {}
        }
    }

    fn look_at_both(&mut self, [one, other]: &[Event; 2]) {
        self.hit(MOMENTS, match one {
            _ if one == other => "both, the same event",
            Event::Write { .. } => "both, writes that differ",
            _ => "both, conditions that differ",
        });
    }

    fn look_at_one(&mut self, seen: &Seen, run: usize, event: &Event) {
        self.alone += 1;
        self.hit(MOMENTS, ["the first alone", "the second alone"][run]);
        let bytes = bytes_in_turn(&seen.before[run], event);
        let triggers = bytes.iter().any(|byte| byte.trigger().is_some());
        self.hit(MOMENTS, match event {
            Event::Work { .. } => "alone: work",
            Event::Hardware { .. } => "alone: hardware",
            Event::Sample { .. } => "alone: sample",
            Event::Write { .. } if seen.state_after() == seen.state_before() => {
                "alone: write that changes nothing"
            }
            Event::Write { .. } if triggers => "alone: trigger",
            Event::Write { .. } => "alone: other write",
            _ => "alone: condition",
        });
        if seen.before[run].in_progress() & !seen.a.lanes != 0 {
            self.hit(BESIDE, "Apply in progress: a moment in one run alone");
        }
        self.look_at_flags(seen);
    }

    // ---- triggers and other writes ----

    fn look_at_write(&mut self, seen: &Seen) {
        let events = seen.moment.events();
        let bytes = RUNS.map(|run| match &events[run] {
            Some(event) => bytes_in_turn(&seen.before[run], event),
            None => Vec::new(),
        });
        for k in 0..8 {
            self.look_at_trigger(seen, RUNS.map(|run| bytes[run].get(k)));
        }
        let (_, event) = seen.here();
        let (address, count, _) = written(&event);
        if seen.done() {
            let command = runs_command(seen.state_before(), address, count as usize);
            self.hit_if(command, MOMENTS, "both: command");
            if is_reset(&event) {
                self.look_at_reset(seen);
            }
        }
    }

    /// A byte of a write in each run that has it, where it is a trigger's.
    fn look_at_trigger(&mut self, seen: &Seen, bytes: [Option<&Byte>; 2]) {
        let (set, trigger) = match bytes.iter().flatten().find_map(|byte| byte.trigger()) {
            Some(found) => found,
            None => return,
        };
        if let [Some(one), Some(other)] = bytes {
            self.hit_if(one.value != other.value, MOMENTS, "both, triggers that differ");
        }
        let name = TRIGGER_BYTES[2 * set as usize + trigger as usize];
        let [one, other] = bytes.map(|byte| byte.map_or([0; 2], formed));
        let inside = seen.a.lanes;
        let (marked, ignored) = (one[0] | other[0], one[1] | other[1]);
        self.hit_if(marked & !inside != 0, TRIGGERS[0], name);
        self.hit_if(marked & inside != 0, TRIGGERS[1], name);
        self.hit_if(
            ignored & !inside != 0 && marked & inside != 0,
            BESIDE,
            "group ignored: a group marked",
        );
        if marked & !inside != 0 {
            let [one, other] = [one[1] & inside != 0, other[1] & inside != 0];
            self.hit_if(one || other, BESIDE, "group marked: a group ignored");
            self.hit_if(one != other, BESIDE, "group marked: a group ignored in one run alone");
            self.look_at_marked(seen, marked & !inside);
        }
    }

    /// Lanes outside A that were marked.
    fn look_at_marked(&mut self, seen: &Seen, marked: u8) {
        let busy = seen.in_progress_in_one_run() != 0;
        self.hit_if(busy, BESIDE, "group marked: lanes in progress");
        let passes = LaneSet(marked).filter_map(|lane| seen.state_after().apply(lane)).any(|apply| {
            passing(&apply).is_some() && apply.held.app_sel != 0
        });
        let on_a_path = seen.in_one_run(State::used) != 0;
        self.hit_if(passes && on_a_path, BESIDE, "group passes: lanes on a path");
    }

    fn look_at_reset(&mut self, seen: &Seen) {
        self.hit(MOMENTS, "both: reset");
        let cut_off = seen.state_before().in_progress() & !seen.a.lanes != 0;
        self.hit_if(cut_off && seen.is_apart(), BESIDE, "Apply cut off by a reset: something");
        self.hit_if(seen.in_progress_in_one_run() != 0, BESIDE, "reset: lanes in progress");
    }

    fn look_at_module(&mut self, seen: &Seen) {
        if seen.state_before().module_state() != seen.state_after().module_state() {
            self.hit(MOMENTS, "both: the module goes on");
            self.hit_if(seen.is_apart(), BESIDE, "module goes on: something");
        }
    }

    // ---- work and hardware ----

    fn look_at_work(&mut self, seen: &Seen, lane: u8) {
        let apply = match lane {
            0..=7 => seen.state_before().apply(lane),
            _ => return,
        };
        let lower = (1 << lane) - 1;
        let busy = seen.in_progress_in_one_run() & lower != 0;
        self.hit_if(!seen.a.has(lane) && busy, BESIDE, "work step: a lower lane in progress");
        match apply {
            Some(apply) => match passing(&apply) {
                Some(next) if next < 8 => self.look_at_copied(seen, next),
                _ => self.look_at_closed(seen, &apply),
            },
            None => {}
        }
    }

    fn look_at_copied(&mut self, seen: &Seen, lane: u8) {
        let beside = lane ^ 1;
        match (seen.a.has(lane), seen.a.has(beside)) {
            (false, true) => {
                let [one, other] = RUNS.map(|run| nibbles(&seen.before[run], beside));
                self.hit_if(one != other, BESIDE, "lane copied: its neighbour's settings");
            }
            (true, false) => {
                let settings = nibbles(seen.state_before(), beside) != [0; 4];
                let name = "lane with settings: its neighbour copied in one run alone";
                self.hit_if(settings, BESIDE, name);
            }
            _ => {}
        }
    }

    fn look_at_closed(&mut self, seen: &Seen, apply: &Apply) {
        let lane = apply.group.trailing_zeros() as u8;
        let heading = seen.side(CLOSED, lane);
        let code = seen.state_after().nibble(CONFIG_STATUS, lane);
        if let Some(&name) = CODES.get(usize::from(code).wrapping_sub(1)) {
            self.hit(heading, name);
        }
        self.hit_if(seen.commission() != 0, heading, "by ApplyImmediate, lanes to commission");
        if passing(apply).is_some() && apply.held.app_sel == 0 {
            self.hit(heading, "a release");
            let name = "lanes pending: a release closed in one run alone";
            let outside = pending(seen.state_before()) & !seen.a.lanes != 0;
            self.hit_if(seen.a.has(lane) && outside, BESIDE, name);
            let inside = seen.in_one_run(pending) != 0;
            self.hit_if(!seen.a.has(lane) && inside, BESIDE, "release closed: pending bits");
        }
    }

    fn look_at_hardware(&mut self, seen: &Seen, lane: u8) {
        if !seen.done() {
            return;
        }
        let (from, to) = (seen.state_before().dp_state(lane), seen.state_after().dp_state(lane));
        if from != to {
            self.hit(seen.side(ENTERED, lane), STATES[to as usize - 1]);
        }
        if !seen.a.has(lane) {
            let busy = seen.in_progress_in_one_run() != 0;
            self.hit_if(busy, BESIDE, "hardware event done: lanes in progress");
            if let (1, 2) | (2, 7) | (7, 5) | (5, 4) = (from, to) {
                self.look_at_way_up(seen);
            }
        }
    }

    /// A path outside A that goes up.
    fn look_at_way_up(&mut self, seen: &Seen) {
        let deinit = seen.in_one_run(|state| state.image[DP_DEINIT]);
        let off = |state: &State| {
            state.image[OUTPUT_DISABLE_TX] | state.image[OUTPUT_SQUELCH_FORCE_TX]
        };
        let lit = |state: &State| state.lanes_where(|lane| state.dp_state(lane) == 4);
        for (lanes, name) in [
            (deinit, "path goes up: DPDeinit bits"),
            (seen.in_one_run(pending), "path goes up: pending bits"),
            (seen.in_one_run(off), "path goes up: outputs off"),
            (seen.in_one_run(lit), "path goes up: lanes DPActivated"),
        ] {
            self.hit_if(lanes != 0, BESIDE, name);
        }
    }

    // ---- flags and reads ----

    /// Flags that a run alone has raised, or that are no longer on.
    fn look_at_flags(&mut self, seen: &Seen) {
        let (before, after) = (seen.state_before(), seen.state_after());
        let outside = !seen.a.lanes;
        for k in 0..20 {
            let [was_up, is_up] = [flags(before)[k], flags(after)[k]];
            let [was_on, is_on] = [on(before)[k], on(after)[k]];
            let raised = is_up & !was_up != 0 && was_up & outside != 0;
            self.hit_if(raised, BESIDE, "flag up: the same one raised in one run alone");
            let ended = was_on & !is_on != 0 && was_on & outside != 0;
            self.hit_if(ended, BESIDE, "flag on: the same one ended in one run alone");
        }
    }

    fn look_at_read(&mut self, seen: &Seen, address: u8) {
        let (one, other) = match &seen.laid.gave {
            [Some((_, one)), Some((_, other))] => (one, other),
            _ => return,
        };
        let outside = bits_of(!seen.a.lanes);
        let up = on(seen.state_before());
        let from = seen.state_before().place(address);
        for (place, (one, other)) in (from..).zip(one.iter().zip(other)) {
            let (of_a, others) = (seen.a.bits[place], outside[place]);
            let shared = of_a != 0 && others != 0;
            let settings = ACTIVE_NIBBLES.iter().any(|first| (*first..first + 4).contains(&place));
            self.hit_if(others != 0, READS, "with bits outside A");
            self.hit_if(shared, READS, "shared by lanes of A and others");
            self.hit_if(shared && one != other, READS, "shared, with different bits of A");
            self.hit_if(shared && settings, READS, "shared nibbles of active settings");
            if (LANE_FLAGS..LANE_FLAGS_END).contains(&place) {
                let on = up[place - LANE_FLAGS] & others != 0;
                self.hit_if(one & others != 0, READS, "with a flag outside A");
                self.hit_if(on, READS, "with a flag outside A that is on");
            }
        }
    }
}
