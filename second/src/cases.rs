//! Cases from the scope paper, run with `second/check` (rustc --test).

use crate::lanes::*;
use crate::module::*;
use crate::night;
use crate::registers::*;
use crate::soundness;
use crate::stream::Stream;

/// A module on the bench: Application 1 with 4 lanes beginning on 0 or 4, and
/// descriptor 2 at FFh unless a case changes the image first.
struct Bench {
    image: [u8; IMAGE_LEN],
    working: Working,
}

fn usual_image() -> [u8; IMAGE_LEN] {
    let mut image = [0u8; IMAGE_LEN];
    image[88] = 0x44;
    image[89] = 0x11;
    image[90] = 0xFF;
    image
}

/// The image with these limits of received power, in rising order.
fn with_limits(
    mut image: [u8; IMAGE_LEN],
    low_alarm: u16,
    low_warning: u16,
    high_warning: u16,
    high_alarm: u16,
) -> [u8; IMAGE_LEN] {
    let in_memory = [high_alarm, low_alarm, high_warning, low_warning];
    for (which, limit) in in_memory.iter().enumerate() {
        image[P02 + 192 + 2 * which..][..2].copy_from_slice(&limit.to_be_bytes());
    }
    image
}

impl Bench {
    fn of(image: [u8; IMAGE_LEN]) -> Bench {
        let mut bench = Bench { image, working: Working::AT_START };
        assert_eq!(start(&mut bench.image, &mut bench.working), 0);
        bench.write(127, &[0x10]);
        bench
    }

    fn new() -> Bench {
        Bench::of(usual_image())
    }

    /// The usual module in ModuleReady.
    fn ready() -> Bench {
        Bench::new().brought_up()
    }

    /// Brought from its start to ModuleReady, the flag of that read.
    fn brought_up(mut self) -> Bench {
        self.module();
        self.module();
        assert_eq!((self.image[MODULE_STATE], self.shown(8, 1)), (0x06, vec![0x01]));
        self
    }

    fn event(&mut self, event: Event) -> Outcome {
        let before = (self.image, self.working);
        let mut buffer = [0xEE; 128];
        let outcome = desk(&mut self.image, &mut self.working, &event, &mut buffer);
        assert_eq!(soundness::unsound_at(&self.image, &self.working), None);
        assert!(buffer[outcome.read as usize..].iter().all(|&byte| byte == 0xEE));
        if outcome.answer != 0 {
            assert!(before == (self.image, self.working), "a refusal changed something");
        }
        outcome
    }

    fn write(&mut self, address: u8, bytes: &[u8]) -> u8 {
        let mut data = [0u8; 8];
        data[..bytes.len()].copy_from_slice(bytes);
        self.event(Event::Write { address, count: bytes.len() as u8, data }).answer
    }

    fn read(&mut self, address: u8, count: u8) -> Result<Vec<u8>, u8> {
        let mut buffer = [0u8; 128];
        let event = Event::Read { address, count };
        let outcome = desk(&mut self.image, &mut self.working, &event, &mut buffer);
        match outcome.answer {
            0 => Ok(buffer[..outcome.read as usize].to_vec()),
            number => Err(number),
        }
    }

    fn work(&mut self, lane: u8) -> Outcome {
        self.event(Event::Work { lane })
    }

    fn hardware(&mut self, lane: u8) -> u8 {
        self.event(Event::Hardware { lane }).answer
    }

    fn status(&self, lane: usize) -> u8 {
        self.image[CONFIG_STATUS + lane / 2] >> (4 * (lane % 2)) & 15
    }

    /// Stages the bytes from a lane on, in the set of a trigger, writes the
    /// trigger and works until closed.
    fn apply(&mut self, lane: u8, staged: &[u8], trigger: u8, selected: u8) -> u8 {
        let dp_configs = if trigger < 178 { 145 } else { 180 };
        self.write(dp_configs + lane, staged);
        self.write(trigger, &[selected]);
        while self.working.lanes[lane as usize].in_progress() {
            assert_eq!(self.work(lane).answer, 0);
        }
        self.status(lane as usize)
    }
}

#[test]
fn both_sides_of_each_line() {
    assert_eq!(Bench::new().apply(0, &[0x10, 0x10, 0x10], 143, 0x07), 7);
    assert_eq!(Bench::new().apply(2, &[0x14, 0x14, 0x14, 0x14], 143, 0x3C), 4);
    assert_eq!(Bench::new().apply(0, &[0x20, 0x20, 0x20, 0x20], 143, 0x0F), 3);
    assert_eq!(Bench::new().apply(0, &[0x90, 0x90, 0x90, 0x90], 143, 0x0F), 3);
    assert_eq!(Bench::new().apply(0, &[0x10, 0x10, 0x10, 0x10], 143, 0x0F), 1);

    let mut bench = Bench::new();
    bench.write(145, &[0x10; 4]);
    let before = (bench.image, bench.working);
    assert_eq!(bench.write(143, &[0]), 0);
    assert!(before == (bench.image, bench.working));

    assert_eq!(bench.write(248, &[0; 8]), 0);
    assert_eq!(bench.write(250, &[0; 8]), 4);
    assert_eq!(bench.read(120, 8).map(|bytes| bytes.len()), Ok(8));
    assert_eq!(bench.read(120, 9), Err(4));
}

/// An image whose descriptors 1 to 15 are all one of 4 lanes beginning on 0 or
/// 4, each byte written at the address that 002 prints.
fn fifteen_image() -> [u8; IMAGE_LEN] {
    let mut image = [0u8; IMAGE_LEN];
    for first_byte in (86..118).step_by(4).chain((P01 + 223..P01 + 251).step_by(4)) {
        image[first_byte..first_byte + 4].copy_from_slice(&[0x11, 0x22, 0x44, 0x11]);
    }
    image
}

#[test]
fn the_descriptors_of_both_areas_are_one_list() {
    let closed_with = |app_sel: u8, changes: &[(usize, u8)]| {
        let mut image = fifteen_image();
        for &(place, byte) in changes {
            image[place] = byte;
        }
        Bench::of(image).apply(0, &[app_sel << 4; 4], 143, 0x0F)
    };
    // AppSel 9 is there, or missing by its own count, or behind an end.
    assert_eq!(closed_with(9, &[]), 1);
    assert_eq!(closed_with(9, &[(P01 + 225, 0x04)]), 3);
    assert_eq!(closed_with(9, &[(P01 + 225, 0x94)]), 3);
    assert_eq!(closed_with(9, &[(P01 + 223, 0xFF)]), 3);
    assert_eq!(closed_with(9, &[(114, 0xFF)]), 3);
    assert_eq!(closed_with(9, &[(86, 0xFF)]), 3);
    assert_eq!(closed_with(9, &[(P01 + 227, 0xFF)]), 1);
    // An area of zeros holds no descriptor 9; the eight before it stay.
    let zeros: Vec<(usize, u8)> = (P01 + 223..P01 + 251).map(|place| (place, 0)).collect();
    assert_eq!(closed_with(9, &zeros), 3);
    assert_eq!(closed_with(8, &zeros), 1);
    assert_eq!(closed_with(8, &[(P01 + 223, 0xFF)]), 1);
    // A bad count before it ends nothing, an FFh beside the list neither.
    assert_eq!(closed_with(10, &[(P01 + 225, 0x04)]), 1);
    assert_eq!(closed_with(15, &[(118, 0xFF), (P01 + 222, 0xFF), (P01 + 251, 0xFF)]), 1);
    // AppSel 15, whose last byte, its first lanes, is 01h:250.
    assert_eq!(closed_with(15, &[]), 1);
    assert_eq!(closed_with(15, &[(P01 + 250, 0x10)]), 4);
    assert_eq!(closed_with(15, &[(P01 + 249, 0x04)]), 3);
    assert_eq!(closed_with(15, &[(P01 + 243, 0xFF)]), 3);
}

#[test]
fn a_path_of_application_fifteen_goes_its_way() {
    let mut bench = Bench::of(fifteen_image()).brought_up();
    assert_eq!(bench.apply(4, &[0xF8; 4], 143, 0xF0), 1);
    for _ in 0..4 {
        assert_eq!(bench.hardware(5), 0);
    }
    assert_eq!(bench.image[DP_STATE + 2..DP_STATE + 4], [0x44, 0x44]);
    // The list ends under it: the state is not sound any more.
    bench.image[P01 + 239] = 0xFF;
    let found = soundness::unsound_at(&bench.image, &bench.working);
    assert_eq!(found.map(|(condition, _)| condition), Some('c'));
}

#[test]
fn low_alarm_is_strict_and_high_byte_first() {
    let mut bench = Bench::of(with_limits(usual_image(), 1000, 1000, 1000, 1000));
    bench.event(Event::Sample { lane: 5, value: 1000 });
    assert_eq!(bench.image[RX_POWER_LOW_ALARM_FLAG], 0);
    bench.event(Event::Sample { lane: 5, value: 999 });
    assert_eq!(bench.image[RX_POWER_LOW_ALARM_FLAG], 0x20);
    assert_eq!(bench.image[RX_POWER + 10..RX_POWER + 12], [0x03, 0xE7]);
    assert_eq!(bench.image[3], 0x02);
}

#[test]
fn a_trigger_holds_what_was_staged_before_it() {
    let mut bench = Bench::new();
    bench.write(145, &[0x10; 4]);
    assert_eq!(bench.write(143, &[0x0F, 0, 0x90, 0x90, 0x90, 0x90, 0x90, 0x90]), 0);
    for _ in 0..5 {
        bench.work(2);
    }
    assert_eq!(bench.image[ACTIVE_DP_CONFIG..ACTIVE_DP_CONFIG + 5], [0x10, 0x10, 0x10, 0x10, 0]);
    assert_eq!(bench.image[STAGED_DP_CONFIG], 0x90);
}

#[test]
fn the_second_trigger_of_an_access_sees_the_first() {
    let mut bench = Bench::new();
    bench.write(145, &[0x10, 0x10, 0x10, 0x10, 0x18, 0x18, 0x18, 0x18]);
    bench.write(143, &[0x0F, 0xFF]);
    match (bench.working.lanes[0], bench.working.lanes[4]) {
        (Stage::InProgress(one), Stage::InProgress(two)) => {
            assert_eq!((one.trigger, one.group), (Trigger::ApplyDPInit, 0x0F));
            assert_eq!((two.trigger, two.group), (Trigger::ApplyImmediate, 0xF0));
        }
        stages => panic!("{:?}", stages),
    }
}

#[test]
fn page_and_bank() {
    let mut bench = Bench::new();
    bench.write(126, &[0x01]);
    assert_eq!(bench.read(126, 2), Ok(vec![0x01, 0x10]));
    bench.write(145, &[0x77]);
    assert_eq!(bench.image[STAGED_DP_CONFIG], 0);
    bench.write(126, &[0x00]);
    bench.write(145, &[0x77]);
    assert_eq!(bench.image[STAGED_DP_CONFIG], 0x77);
    bench.write(126, &[0x01, 0x11]);
    assert_eq!(bench.read(126, 2), Ok(vec![0, 0]));
    bench.write(126, &[0x05, 0x02]);
    assert_eq!(bench.read(126, 2), Ok(vec![5, 2]));
    bench.write(127, &[0x9F]);
    assert_eq!(bench.read(126, 2), Ok(vec![0, 0]));
}

#[test]
fn flags_are_cleared_after_their_value_is_taken() {
    let mut bench = Bench::new();
    bench.event(Event::Condition { flag_byte: 136, mask: 0x81 });
    bench.event(Event::Condition { flag_byte: 148, mask: 0x02 });
    assert_eq!(bench.image[3], 0x02);
    bench.write(127, &[0x11]);
    assert_eq!(bench.read(136, 1), Ok(vec![0x81]));
    assert_eq!(bench.image[3], 0x02);
    assert_eq!(bench.read(134, 20).map(|bytes| (bytes[2], bytes[14])), Ok((0, 0x02)));
    assert_eq!(bench.image[3], 0x03);
}

// ---- flags that stay true ----

/// The usual module with limits of received power at 1000h (low) and 2000h
/// (high), in ModuleReady, page 11h selected.
fn watched() -> Bench {
    let limits = with_limits(usual_image(), 0x1000, 0x1000, 0x2000, 0x2000);
    let mut bench = Bench::of(limits).brought_up();
    bench.write(127, &[0x11]);
    bench
}

impl Bench {
    fn one_time(&mut self, flag_byte: u8, mask: u8) -> u8 {
        self.event(Event::Condition { flag_byte, mask }).answer
    }

    fn lasting(&mut self, flag_byte: u8, on: u8, off: u8) -> u8 {
        self.event(Event::LastingCondition { flag_byte, on, off }).answer
    }

    fn sample(&mut self, lane: u8, value: u16) {
        assert_eq!(self.event(Event::Sample { lane, value }).answer, 0);
    }

    /// What two reads of the same bytes give, one after the other.
    fn twice(&mut self, address: u8, count: u8) -> [Vec<u8>; 2] {
        [self.shown(address, count), self.shown(address, count)]
    }
}

#[test]
fn a_condition_lasts_till_it_is_ended() {
    let mut bench = watched();
    assert_eq!(bench.lasting(135, 0x0F, 0x00), 0);
    assert_eq!(bench.twice(135, 1), [[0x0F], [0x0F]]);
    assert_eq!(bench.shown(3, 1), [0x06]);
    assert_eq!(bench.lasting(135, 0x30, 0x3C), 0);
    assert_eq!(bench.twice(135, 1), [[0x3F], [0x33]]);
    // Its end clears no flag.
    assert_eq!(bench.lasting(135, 0x00, 0xFF), 0);
    assert_eq!(bench.shown(3, 1), [0x06]);
    assert_eq!(bench.twice(135, 1), [[0x33], [0x00]]);
    assert_eq!(bench.shown(3, 1), [0x07]);
}

#[test]
fn a_bit_in_both_masks_is_on() {
    let mut bench = watched();
    assert_eq!(bench.lasting(137, 0x81, 0x81), 0);
    assert_eq!(bench.twice(137, 1), [[0x81], [0x81]]);
    // So is one that was on before; with neither mask nothing changes.
    assert_eq!(bench.lasting(137, 0x01, 0x81), 0);
    assert_eq!(bench.twice(137, 1), [[0x81], [0x01]]);
    let before = (bench.image, bench.working);
    assert_eq!(bench.lasting(137, 0x00, 0x00), 0);
    assert!(before == (bench.image, bench.working));
}

#[test]
fn six_flag_bytes_take_a_condition() {
    let mut bench = watched();
    for flag_byte in 0..=255 {
        let listed = [135, 136, 137, 138, 147, 148].contains(&flag_byte);
        let answer = if listed { 0 } else { 8 };
        assert_eq!(bench.lasting(flag_byte, 0x01, 0x02), answer, "{}", flag_byte);
        assert_eq!(bench.one_time(flag_byte, 0x01), answer, "{}", flag_byte);
    }
}

#[test]
fn the_one_time_event_leaves_what_is_on() {
    let mut bench = watched();
    assert_eq!(bench.one_time(135, 0x01), 0);
    assert_eq!(bench.twice(135, 1), [[0x01], [0x00]]);
    assert_eq!(bench.lasting(148, 0x81, 0x00), 0);
    let on = bench.working.on;
    assert_eq!(bench.one_time(148, 0x02), 0);
    assert!(on == bench.working.on);
    assert_eq!(bench.twice(148, 1), [[0x83], [0x81]]);
}

#[test]
fn a_sample_lasts_till_the_next_of_its_lane() {
    let mut bench = watched();
    assert_eq!(bench.shown(149, 4), [0; 4], "never sampled, though 0 is stored");
    bench.sample(3, 0x0FFF);
    assert_eq!(bench.twice(149, 4), [[0, 8, 0, 8], [0, 8, 0, 8]]);
    bench.sample(3, 0x1000);
    assert_eq!(bench.twice(149, 4), [[0, 8, 0, 8], [0, 0, 0, 0]]);
    bench.sample(3, 0x2001);
    bench.sample(5, 0x0FFF);
    bench.sample(3, 0x1800);
    assert_eq!(bench.twice(149, 4), [[0x08, 0x20, 0x08, 0x20], [0x00, 0x20, 0x00, 0x20]]);
}

#[test]
fn the_four_comparisons_last_each_by_itself() {
    let mut bench = Bench::of(with_limits(usual_image(), 1000, 2000, 3000, 4000));
    bench.write(127, &[0x11]);
    let lasting = [
        (4001, [1, 0, 1, 0]), (4000, [0, 0, 1, 0]), (3000, [0; 4]), (2000, [0; 4]),
        (1999, [0, 0, 0, 1]), (999, [0, 1, 0, 1]), (65535, [1, 0, 1, 0]), (0, [0, 1, 0, 1]),
    ];
    for (value, flags) in lasting {
        bench.sample(0, value);
        bench.shown(149, 4);
        assert_eq!(bench.shown(149, 4), flags, "{}", value);
    }
}

#[test]
fn a_read_sets_again_what_it_read() {
    let mut bench = watched();
    bench.lasting(135, 0x01, 0x00);
    bench.lasting(136, 0x02, 0x00);
    bench.lasting(136, 0x00, 0x02);
    assert_eq!(bench.shown(136, 1), [0x02]);
    assert_eq!(bench.twice(134, 4), [[0x00, 0x01, 0x00, 0x00], [0x00, 0x01, 0x00, 0x00]]);
    // Bytes beside a read stay as they are.
    bench.lasting(138, 0x40, 0x00);
    bench.lasting(138, 0x00, 0x40);
    bench.one_time(136, 0x04);
    bench.shown(137, 1);
    bench.shown(139, 8);
    bench.shown(154, 102);
    assert_eq!(bench.shown(134, 20)[..5], [0, 0x01, 0x04, 0, 0x40]);
    assert_eq!(bench.shown(128, 128)[6..11], [0, 0x01, 0, 0, 0]);
    // A path's own flag is of an event and does not come back.
    bench.write(127, &[0x10]);
    bench.apply(0, &[0x10; 4], 143, 0x0F);
    bench.hardware(0);
    bench.hardware(0);
    bench.write(127, &[0x11]);
    assert_eq!(bench.twice(134, 2), [[0x0F, 0x01], [0x00, 0x01]]);
}

#[test]
fn masks_have_a_say_in_the_interrupt_alone() {
    let mut bench = watched();
    bench.lasting(147, 0x01, 0x00);
    bench.write(127, &[0x10]);
    bench.write(226, &[0x01]);
    assert_eq!(bench.shown(3, 1), [0x07]);
    bench.write(127, &[0x11]);
    assert_eq!(bench.twice(147, 1), [[0x01], [0x01]]);
    assert_eq!(bench.shown(3, 1), [0x07]);
    bench.write(127, &[0x10]);
    bench.write(226, &[0x00]);
    assert_eq!(bench.shown(3, 1), [0x06]);
}

#[test]
fn flags_masks_and_the_interrupt() {
    let mut bench = Bench::of(with_limits([0; IMAGE_LEN], 10, 20, 80, 100));
    bench.one_time(136, 0x81);
    assert_eq!(bench.shown(3, 1), [0x02]);
    bench.sample(7, 101);
    bench.write(213, &[0x00, 0x00, 0xFF]);
    bench.write(221, &[0x00]);
    assert_eq!(bench.shown(3, 1), [0x02]);
    bench.write(228, &[0x80]);
    bench.write(230, &[0x80]);
    assert_eq!(bench.shown(3, 1), [0x03]);
    bench.write(230, &[0x7F]);
    assert_eq!(bench.shown(3, 1), [0x02]);
    bench.write(127, &[0x11]);
    assert_eq!(bench.shown(136, 1), [0x81]);
    // Amended by Req 02: the sample above its limits comes back, and the
    // interrupt with its warning, which no mask hides.
    let mut flags = [0; 20];
    (flags[15], flags[17]) = (0x80, 0x80);
    assert_eq!(bench.shown(134, 20), flags);
    assert_eq!(bench.shown(3, 1), [0x02]);
    assert_eq!(bench.shown(200, 2), [0x00, 0x65]);
    assert_eq!(bench.shown(134, 20), flags);
}

#[test]
fn an_apply_leaves_what_is_on() {
    // Marked, copied, closed with 1, released; and closed with a rejection.
    for (staged, status) in [(0x10, 1), (0x00, 1), (0x20, 3)] {
        let mut bench = watched();
        bench.lasting(138, 0x05, 0x00);
        bench.sample(1, 0x2001);
        let mut on = [0; LANE_FLAG_BYTES];
        (on[4], on[15], on[17]) = (0x05, 0x02, 0x02);
        assert_eq!(bench.working.on, on);
        bench.write(127, &[0x10]);
        assert_eq!(bench.apply(0, &[staged; 4], 143, 0x0F), status);
        assert_eq!(bench.working.on, on);
        assert_eq!(start(&mut bench.image, &mut bench.working), 0);
        assert_eq!(bench.working, Working::AT_START, "start ends all");
    }
    // What begins and ends in the middle of one holds as elsewhere.
    let mut bench = watched();
    bench.write(127, &[0x10]);
    bench.write(145, &[0x10; 4]);
    bench.write(143, &[0x0F]);
    bench.work(0);
    bench.lasting(148, 0x03, 0x00);
    bench.work(0);
    bench.lasting(148, 0x00, 0x02);
    while bench.working.lanes[0].in_progress() {
        bench.work(0);
    }
    bench.write(127, &[0x11]);
    assert_eq!(bench.twice(148, 1), [[0x03], [0x01]]);
}

#[test]
fn what_is_on_must_show() {
    let bench = watched();
    let answer = |on: u32, flags: &[u8]| {
        let (mut image, mut working) = (bench.image, bench.working);
        for k in (0..LANE_FLAG_BYTES).filter(|k| on >> k & 1 != 0) {
            working.on[k] = 0x40;
        }
        for &flag_byte in flags {
            image[P11 + flag_byte as usize] = 0x40;
        }
        let found = soundness::unsound_at(&image, &working);
        let read = Event::Read { address: 0, count: 1 };
        let answer = desk(&mut image, &mut working, &read, &mut [0]).answer;
        assert_eq!(found, (answer == 3).then(|| ('f', 6)));
        answer
    };
    let every: Vec<u8> = (134..=153).collect();
    for flag_byte in 134..=153 {
        let can_last = matches!(flag_byte, 135..=138 | 147..=152);
        let bit = 1 << (flag_byte - 134);
        assert_eq!(answer(bit, &[flag_byte]), if can_last { 0 } else { 3 }, "{}", flag_byte);
        assert_eq!(answer(bit, &[]), 3, "{} without its flag", flag_byte);
        let others: Vec<u8> = every.iter().copied().filter(|&other| other != flag_byte).collect();
        assert_eq!(answer(bit, &others), 3, "{} without its flag", flag_byte);
    }
    assert_eq!(answer(1 << 1 | 1 << 18, &[135, 152]), 0);
    assert_eq!(answer(1 << 1 | 1 << 18, &[135]), 3);
    // Not more: the stored sample has no say.
    assert_eq!(answer(1 << 15 | 1 << 16, &[149, 150]), 0);
}

#[test]
fn a_path_from_rest_to_active_and_back() {
    let mut bench = Bench::ready();
    assert_eq!(bench.apply(4, &[0x18; 4], 143, 0xF0), 1);
    assert_eq!(bench.image[DP_INIT_PENDING], 0xF0);
    let mut states = Vec::new();
    for _ in 0..5 {
        assert_eq!(bench.hardware(6), 0);
        states.push(bench.image[DP_STATE + 2]);
    }
    assert_eq!(states, [0x22, 0x77, 0x55, 0x44, 0x44]);
    // ApplyDPInit on the active path makes it go round.
    assert_eq!(bench.apply(4, &[0x18; 4], 143, 0xF0), 1);
    states.clear();
    for _ in 0..7 {
        assert_eq!(bench.hardware(6), 0);
        states.push(bench.image[DP_STATE + 2] & 15);
    }
    assert_eq!(states, [6, 7, 3, 1, 2, 7, 5]);
    assert_eq!(bench.hardware(0), 6);
    // With DPDeinit it rests, and then it can be released.
    bench.write(128, &[0x80]);
    for _ in 0..6 {
        bench.hardware(7);
    }
    assert_eq!(bench.image[DP_STATE + 2], 0x11);
    assert_eq!(bench.apply(4, &[0x0F, 0, 0, 0], 144, 0xF0), 1);
    assert_eq!(bench.image[ACTIVE_DP_CONFIG..ACTIVE_DP_CONFIG + 29], [0u8; 29]);
}

/// Hardware events on lane 0, and the state its path has after each.
fn states_after(bench: &mut Bench, events: usize) -> Vec<u8> {
    (0..events)
        .map(|_| {
            assert_eq!(bench.hardware(0), 0);
            let states = bench.image[DP_STATE];
            assert_eq!([states; 2], bench.image[DP_STATE..DP_STATE + 2], "a path in two states");
            states & 15
        })
        .collect()
}

#[test]
fn light_goes_off_when_told() {
    for address in [130, 132] {
        let mut bench = Bench::ready();
        bench.apply(0, &[0x10; 4], 143, 0x0F);
        assert_eq!(states_after(&mut bench, 4), [2, 7, 5, 4]);
        // One lane takes the whole path back, and keeps it in DPInitialized.
        bench.write(address, &[0x04]);
        assert_eq!(states_after(&mut bench, 2), [6, 7]);
        bench.image[DP_STATE_CHANGED] = 0;
        assert_eq!(states_after(&mut bench, 2), [7, 7]);
        assert_eq!(bench.image[DP_STATE_CHANGED], 0, "staying enters nothing");
        bench.write(address, &[0x00]);
        assert_eq!(states_after(&mut bench, 2), [5, 4]);
        assert_eq!(bench.image[DP_STATE_CHANGED], 0x0F);
        // So does a lane told in DPTxTurnOn.
        bench.write(address, &[0x08]);
        assert_eq!(states_after(&mut bench, 2), [6, 7]);
        bench.write(address, &[0x00]);
        assert_eq!(states_after(&mut bench, 1), [5]);
        bench.write(address, &[0x01]);
        assert_eq!(states_after(&mut bench, 3), [6, 7, 7]);
    }
}

#[test]
fn light_off_has_no_say_elsewhere() {
    // Not outside the path, and not by the registers beside them.
    let mut bench = Bench::ready();
    bench.apply(0, &[0x10; 4], 143, 0x0F);
    bench.write(129, &[0xFF, 0xF0, 0xFF, 0xF0]);
    assert_eq!(states_after(&mut bench, 5), [2, 7, 5, 4, 4]);
    // Not on the way to DPInitialized; something pending goes before it there.
    let mut bench = Bench::ready();
    bench.apply(0, &[0x10; 4], 143, 0x0F);
    bench.write(130, &[0x0F, 0, 0x0F]);
    assert_eq!(states_after(&mut bench, 3), [2, 7, 7]);
    assert_eq!(bench.apply(0, &[0x10; 4], 143, 0x0F), 1);
    assert_eq!(states_after(&mut bench, 4), [3, 1, 2, 7]);
    bench.write(128, &[0x02]);
    assert_eq!(states_after(&mut bench, 3), [3, 1, 1]);
}

#[test]
fn commission_mask_only_when_immediate_closes_on_a_live_path() {
    let mut bench = Bench::ready();
    assert_eq!(bench.apply(0, &[0x10; 4], 144, 0x0F), 1);
    assert_eq!(bench.image[DP_INIT_PENDING], 0);
    bench.hardware(0);
    bench.hardware(0);
    bench.write(144, &[0x0F]);
    let masks: Vec<u8> = (0..5).map(|_| bench.work(1).commission).collect();
    assert_eq!(masks, [0, 0, 0, 0, 0x0F]);
    assert_eq!(bench.work(1).answer, 6);
}

#[test]
fn refusals_in_their_order() {
    let mut working = Working::AT_START;
    let read = Event::Read { address: 0, count: 0 };
    for length in [0, 1, 767, 768, 769, 784, 895, 897, 1024] {
        let mut image = vec![0u8; length];
        assert_eq!(start(&mut image, &mut working), 1, "{} bytes", length);
        assert_eq!(desk(&mut image, &mut working, &read, &mut []).answer, 1);
        assert_eq!(desk_list(&mut image, &mut working, &[], &mut []), 1);
    }
    let mut image = [0u8; IMAGE_LEN];
    image[2] = 0x80;
    assert_eq!(start(&mut image, &mut working), 2);
    assert_eq!(desk(&mut image, &mut working, &read, &mut []).answer, 2);
    image[2] = 0;
    assert_eq!(desk(&mut image, &mut working, &read, &mut []).answer, 3);
    assert_eq!(start(&mut image, &mut working), 0);
    assert_eq!(desk(&mut image, &mut working, &read, &mut []).answer, 4);
    let read = Event::Read { address: 0, count: 1 };
    assert_eq!(desk(&mut image, &mut working, &read, &mut []).answer, 5);
    assert_eq!(desk(&mut image, &mut working, &read, &mut [0]).answer, 0);
}

#[test]
fn limits_back_to_front_are_refused_at_start_alone() {
    let answer = |low_alarm, low_warning, high_warning, high_alarm| {
        let limits = with_limits(usual_image(), low_alarm, low_warning, high_warning, high_alarm);
        let (mut image, mut working) = (limits, Working::AT_START);
        let answer = start(&mut image, &mut working);
        assert!(answer == 0 || image == limits, "a refused start changed the image");
        answer
    };
    // Both sides of each of the three comparisons, the other two far apart.
    assert_eq!([answer(501, 500, 900, 999), answer(500, 500, 900, 999)], [10, 0]);
    assert_eq!([answer(100, 601, 600, 999), answer(100, 600, 600, 999)], [10, 0]);
    assert_eq!([answer(100, 200, 701, 700), answer(100, 200, 700, 700)], [10, 0]);
    assert_eq!([answer(0, 0, 0, 0), answer(1000, 1000, 1000, 1000)], [0, 0]);
    assert_eq!([answer(65535, 65535, 65535, 65535), answer(0, 0, 65535, 65535)], [0, 0]);
    // Low byte first, 00ffh and 0100h would stand the other way round.
    assert_eq!([answer(0x00FF, 0x0100, 0x01FF, 0x0200), answer(0x0100, 0x00FF, 900, 999)], [0, 10]);
    // Asked after 1 and 2, and of no other call.
    let mut working = Working::AT_START;
    let mut image = with_limits(usual_image(), 65535, 65535, 0, 0);
    assert_eq!(start(&mut image[..768], &mut working), 1);
    image[2] = 0x80;
    assert_eq!(start(&mut image, &mut working), 2);
    let mut bench = Bench::new();
    bench.image = with_limits(bench.image, 3, 2, 1, 0);
    assert_eq!(bench.event(Event::Sample { lane: 0, value: 2 }).answer, 0);
    assert_eq!(bench.image[RX_POWER_HIGH_ALARM_FLAG..=RX_POWER_LOW_WARNING_FLAG], [1, 1, 1, 0]);
    assert_eq!(desk_list(&mut bench.image, &mut bench.working, &[], &mut []), 0);
}

#[test]
fn soundness_looks_at_odd_records_too() {
    let bench = {
        let mut bench = Bench::new();
        bench.write(145, &[0x10; 4]);
        bench.write(143, &[0x0F]);
        bench
    };
    let broken = |change: &dyn Fn(&mut [u8; IMAGE_LEN], &mut Apply)| {
        let (mut image, mut working) = (bench.image, bench.working);
        if let Stage::InProgress(apply) = &mut working.lanes[1] {
            change(&mut image, apply);
        }
        soundness::unsound_at(&image, &working).map(|(condition, _)| condition)
    };
    assert_eq!(broken(&|_, _| ()), None);
    assert_eq!(broken(&|image, _| image[CONFIG_STATUS] = 0x1C), Some('a'));
    assert_eq!(broken(&|_, apply| apply.held.amplitude = 16), Some('b'));
    assert_eq!(broken(&|_, apply| apply.held.data_path_id = 8), Some('b'));
    assert_eq!(broken(&|_, apply| apply.verdict = Verdict::Pass { next: 9 }), Some('b'));
    assert_eq!(broken(&|_, apply| apply.group = 0x0E), Some('b'));
    assert_eq!(broken(&|_, apply| apply.trigger = Trigger::ApplyImmediate), Some('b'));
    assert_eq!(broken(&|_, apply| apply.set = StagedSet::One), Some('b'));
    assert_eq!(broken(&|image, _| image[ACTIVE_DP_CONFIG + 7] = 0x18), Some('c'));
    assert_eq!(broken(&|image, _| image[DP_INIT_PENDING] = 0x80), Some('d'));
    assert_eq!(broken(&|image, _| image[DP_INIT_PENDING] = 0x0F), None);
    assert_eq!(broken(&|image, _| image[ACTIVE_DP_CONFIG + 1] = 0x10), Some('e'));
    assert_eq!(broken(&|_, apply| apply.held.app_sel = 2), Some('e'));
    // Flags that no record calls on say nothing.
    assert_eq!(broken(&|image, _| image[LANE_FLAGS..LANE_FLAGS_END].fill(0xFF)), None);
    // The bytes of both staged sets, triggers among them, of the module's state
    // and of its controls are nobody's business here.
    assert_eq!(broken(&|image, _| image[P10 + 143..P10 + 213].fill(0xFF)), None);
    for byte in 0..=255 {
        assert_eq!(broken(&|image, _| image[MODULE_STATE] = byte), None);
        assert_eq!(broken(&|image, _| image[MODULE_CONTROLS] = byte), None);
    }
}

#[test]
fn what_only_lent_states_show() {
    // A path in DPTxTurnOn with a bit pending goes back.
    let mut bench = Bench::ready();
    bench.apply(0, &[0x10; 4], 144, 0x0F);
    for _ in 0..3 {
        bench.hardware(0);
    }
    assert_eq!(bench.image[DP_STATE], 0x55);
    bench.image[DP_INIT_PENDING] = 0x08;
    bench.hardware(0);
    assert_eq!(bench.image[DP_STATE..DP_STATE + 2], [0x66, 0x66]);
    // Every flag byte, and only it, is cleared by a read.
    for place in 134..=153u8 {
        bench.image[LANE_FLAGS - 1..=LANE_FLAGS_END].fill(0x5A);
        bench.write(127, &[0x11]);
        assert_eq!(bench.image[3], 0x06);
        assert_eq!(bench.read(place, 1), Ok(vec![0x5A]));
        let left = bench.image[LANE_FLAGS - 1..=LANE_FLAGS_END].iter();
        assert_eq!(left.filter(|&&byte| byte == 0).count(), 1);
        assert_eq!(bench.image[P11 + place as usize], 0);
    }
    bench.image[7..11].fill(0x77);
    assert_eq!(bench.read(0, 128).map(|bytes| bytes[8]), Ok(0x77));
    assert_eq!(bench.image[7..11], [0x77, 0, 0, 0x77]);
    // Page 00h lies where its own address 136 is, and clears nothing.
    bench.image[P00 + 136] = 0x33;
    bench.write(127, &[0x00]);
    assert_eq!(bench.read(136, 1), Ok(vec![0x33]));
    assert_eq!(bench.image[P00 + 136], 0x33);
}

#[test]
fn trigger_bytes_read_as_zero_in_any_image() {
    let mut bench = Bench::new();
    for trigger in [143, 178u8] {
        bench.image[P10 + trigger as usize..][..3].copy_from_slice(&[0xAA, 0xBB, 0xCC]);
        assert_eq!(bench.read(trigger - 1, 4), Ok(vec![0, 0, 0, 0xCC]));
        assert_eq!(bench.read(trigger, 1), Ok(vec![0]));
        assert_eq!(bench.read(trigger + 1, 2), Ok(vec![0, 0xCC]));
    }
    // The bytes of the triggers by direction are no triggers: they show.
    bench.image[P10 + 211..P10 + 213].fill(0xDD);
    let page = bench.shown(128, 128);
    assert_eq!(page[15..18], [0, 0, 0xCC]);
    assert_eq!((&page[50..53], &page[83..85]), (&[0, 0, 0xCC][..], &[0xDD, 0xDD][..]));
}

#[test]
fn a_list_is_answered_as_its_events_are() {
    let night = example();
    let night = night::check(&night).unwrap_or_else(|number| panic!("bad {}", number));
    let events: Vec<Event> = night.events().collect();
    let (mut image, mut working) = (*night.image(), Working::AT_START);
    assert_eq!(start(&mut image, &mut working), 0);
    let before = (image, working);
    let mut short = vec![0x55; events.len() - 1];
    assert_eq!(desk_list(&mut image, &mut working, &events, &mut short), 5);
    assert!(before == (image, working) && short.iter().all(|&slot| slot == 0x55));
    let mut answers = vec![0x55; events.len() + 1];
    assert_eq!(desk_list(&mut image, &mut working, &events, &mut answers), 0);
    assert_eq!(answers, [0, 0, 0, 0, 0, 0, 0, 0, 0, 0, 0, 0, 0, 6, 0, 0, 0x55]);
    assert_eq!(desk_list(&mut image, &mut working, &[], &mut []), 0);
}

fn example() -> Vec<u8> {
    include_bytes!("../../nights/example.night").to_vec()
}

/// The example in edition 4, with this many module events before its hardware
/// event.
fn example_with_module_events(count: usize) -> Vec<u8> {
    let hardware_at = 912 + 14 * 12;
    let mut file = in_edition(4, &example());
    for _ in 0..count {
        file.splice(hardware_at..hardware_at, [7, 0, 0, 0, 0, 0, 0, 0, 0, 0, 0, 0]);
    }
    file[4..8].copy_from_slice(&(16 + count as u32).to_be_bytes());
    file
}

#[test]
fn the_example_prints_as_the_paper_and_its_request_say() {
    let lines = "0 0\n1 0\n2 0\n3 0\n4 0\n5 0 cc cc 00 00\n6 0\n7 0\n8 0\n9 0\n\
                 10 0 11 11 00 00\n11 0 10 10 10 10 00\n12 0 0f\n13 6\n";
    for (file, end) in [
        (example(), "14 0\n15 0 11 11\n"),
        (example_with_module_events(0), "14 0\n15 0 11 11\n"),
        (example_with_module_events(1), "14 0\n15 0\n16 0 11 11\n"),
        (example_with_module_events(2), "14 0\n15 0\n16 0\n17 0 22 22\n"),
        (example_with_module_events(3), "14 0\n15 0\n16 0\n17 0\n18 0 22 22\n"),
    ] {
        assert_eq!(printed(&file), lines.to_string() + end);
    }
    let ready = include_bytes!("../../nights/example-ready.night");
    assert_eq!(printed(ready), lines.to_string() + "14 0\n15 0\n16 0\n17 0 22 22\n");
}

#[test]
fn malformed_comes_before_flat_and_flat_before_back_to_front() {
    let mut file = example();
    file[16 + P02 + 195] = 1;
    assert_eq!(night::replay(&file), b"bad 10\n");
    file[16 + 2] = 0x80;
    assert_eq!(night::replay(&file), b"bad 2\n");
    file[784] = 7;
    assert_eq!(night::replay(&file), b"bad 9\n");
    file[16 + 2] = 0;
    assert_eq!(night::replay(&file), b"bad 9\n");
    assert_eq!(night::replay(&[]), b"bad 9\n");
    let mut none = example();
    none.truncate(784);
    assert_eq!(night::replay(&none), b"bad 9\n");
    none[7] = 0;
    assert_eq!(night::replay(&none), b"");
}

#[test]
fn the_index_counts_past_every_digit() {
    let mut file = example();
    file.truncate(784);
    file[4..8].copy_from_slice(&5000u32.to_be_bytes());
    for _ in 0..5000 {
        file.extend_from_slice(&[3, 9, 0, 0, 0, 0, 0, 0, 0, 0, 0, 0]);
    }
    let expected: String = (0..5000).map(|index| format!("{} 8\n", index)).collect();
    assert!(night::replay(&file) == expected.as_bytes());
}

// ---- command messages ----

/// The example's module in ModuleReady, firmware 7.254, with page 9Fh selected.
fn commanded() -> Bench {
    let mut image = [0u8; IMAGE_LEN];
    image[88..90].copy_from_slice(&[0x44, 0x11]);
    image[39..41].copy_from_slice(&[0x07, 0xFE]);
    let mut bench = Bench::of(image).brought_up();
    bench.write(127, &[0x9F]);
    bench
}

impl Bench {
    /// Reads that are done.
    fn shown(&mut self, address: u8, count: u8) -> Vec<u8> {
        self.read(address, count).unwrap_or_else(|number| panic!("answer {}", number))
    }

    /// Fills the body, from 136 to 255.
    fn fill_body(&mut self, byte: u8) {
        for address in (136..=248).step_by(8) {
            self.write(address, &[byte; 8]);
        }
    }

    /// A command in one access of its header: lower 37 after it.
    fn command(&mut self, number: u16, length: u8, code: u8) -> u8 {
        let [high, low] = number.to_be_bytes();
        assert_eq!(self.write(128, &[high, low, 0, 0, length, code, 0xAA, 0xBB]), 0);
        assert_eq!(self.shown(128, 6), [high, low, 0, 0, length, code], "128-133 stay");
        self.image[COMMAND_STATUS]
    }
}

/// Bytes from a beginning on, then zeros.
fn then_zeros(beginning: &[u8], length: usize) -> Vec<u8> {
    let mut bytes = beginning.to_vec();
    bytes.resize(length, 0);
    bytes
}

#[test]
fn a_command_without_a_body_in_one_access() {
    let mut bench = commanded();
    bench.write(128, &[0x00, 0x40, 0x00, 0x00, 0x00, 0xBF, 0x00, 0x00]);
    assert_eq!(bench.shown(37, 1), [0x01]);
    assert_eq!(bench.shown(3, 1), [0x06]);
    assert_eq!(bench.shown(8, 1), [0x40]);
    assert_eq!(bench.shown(3, 1), [0x07]);
    assert_eq!(bench.shown(8, 1), [0x00]);
    assert_eq!(bench.shown(37, 1), [0x01], "it stays till the next command");
    let reply = [&[0x24, 0xFB][..], &then_zeros(&[0, 0, 1], 10), &then_zeros(&[3], 26)].concat();
    assert_eq!(bench.shown(134, 38), reply);

    // With the wrong code, over the reply of the other.
    bench.write(136, &[0x55; 8]);
    bench.write(128, &[0x00, 0x40, 0x00, 0x00, 0x00, 0xBE, 0x00, 0x00]);
    assert_eq!(bench.shown(37, 1), [0x45]);
    assert_eq!(bench.shown(134, 11), [0, 0, 0x55, 0x55, 0x55, 0x55, 0x55, 0x55, 0x55, 0x55, 0]);
    assert_eq!(bench.shown(146, 2), [3, 0]);
    assert_eq!(bench.shown(8, 1), [0x40]);
}

#[test]
fn each_command_has_its_reply() {
    let mut bench = commanded();
    bench.fill_body(0x09);
    bench.write(136, &[0x01, 0xF4, 0x77]);
    assert_eq!(bench.command(0x0000, 2, 0x08), 0x01);
    assert_eq!(bench.shown(134, 6), [0x02, 0xFD, 0x02, 0x00, 0x77, 0x09]);

    let mut bench = commanded();
    bench.fill_body(0x09);
    assert_eq!(bench.command(0x0041, 0, 0xBE), 0x01);
    assert_eq!(bench.shown(134, 20), then_zeros(&[0x12, 0xFF], 20));
    assert_eq!(bench.shown(154, 102), [0x09; 102]);
    assert_eq!(bench.command(0x0040, 0, 0xBF), 0x01);
    assert_eq!(bench.shown(134, 3), [0x24, 0xFB, 0]);
    assert_eq!(bench.shown(147, 25), [0; 25]);
    assert_eq!(bench.shown(172, 84), [0x09; 84]);

    let mut bench = commanded();
    bench.fill_body(0x09);
    assert_eq!(bench.command(0x0100, 0, 0xFE), 0x01);
    let reply = [&[0x6E, 0xF6][..], &then_zeros(&[0, 4], 74), &then_zeros(&[7, 0xFE], 36)].concat();
    assert_eq!(bench.shown(134, 112), reply);
    assert_eq!(bench.shown(246, 10), [0x09; 10]);
    assert_eq!(bench.shown(39, 2), [0x07, 0xFE]);
}

#[test]
fn the_code_is_asked_before_the_number() {
    let mut bench = commanded();
    bench.fill_body(0x66);
    for (number, code, status) in [
        (0x0101, 0xFD, 0x41), (0x0101, 0xFC, 0x45), (0x0042, 0xBD, 0x41), (0x0043, 0xBC, 0x41),
        (0x4000, 0xBF, 0x41), (0x0001, 0xFE, 0x41), (0x0140, 0xBE, 0x41), (0xFFFF, 0x01, 0x41),
    ] {
        assert_eq!(bench.command(number, 0, code), status, "{:04x}h", number);
        assert_eq!(bench.shown(134, 122), [&[0, 0][..], &[0x66; 120]].concat());
        assert_eq!(bench.shown(8, 1), [0x40]);
    }
}

#[test]
fn a_fresh_page_has_the_wrong_code() {
    let mut bench = commanded();
    bench.write(129, &[0x00]);
    assert_eq!(bench.shown(37, 1), [0x45]);
    let mut bench = commanded();
    bench.write(133, &[0xFF]);
    assert_eq!(bench.shown(37, 1), [0x00]);
    bench.write(129, &[0x00]);
    assert_eq!(bench.shown(37, 1), [0x01]);
    // The same byte again runs it again, now over its own reply.
    bench.shown(8, 1);
    bench.write(134, &[0x11, 0x22, 0x33]);
    bench.write(129, &[0x00]);
    assert_eq!(bench.shown(8, 1), [0x40]);
    assert_eq!(bench.shown(134, 4), [0x02, 0xFD, 0x02, 0x00]);
}

#[test]
fn lengths_count_in_the_code_alone() {
    assert_eq!(commanded().command(0x0040, 120, 0x47), 0x01);
    assert_eq!(commanded().command(0x0040, 121, 0x46), 0x45);
    assert_eq!(commanded().command(0x0040, 255, 0xC0), 0x45);
    assert_eq!(commanded().command(0x0000, 0, 0xFF), 0x01);
    assert_eq!(commanded().command(0x0000, 1, 0xFE), 0x01);
    // The last byte of the longest body counts, the one behind a body not.
    let mut bench = commanded();
    bench.write(255, &[0x01]);
    assert_eq!(bench.command(0x0041, 119, 0x47), 0x01);
    assert_eq!(bench.command(0x0041, 120, 0x46), 0x45);
    assert_eq!(bench.command(0x0041, 120, 0x45), 0x01);
    // EPLLength counts too, and nothing else of it.
    let mut bench = commanded();
    bench.write(128, &[0x00, 0x40, 0x12, 0x34, 0x00, 0x79]);
    assert_eq!(bench.shown(37, 1), [0x01]);
    bench.write(128, &[0x00, 0x40, 0x12, 0x34, 0x00, 0xBF]);
    assert_eq!(bench.shown(37, 1), [0x45]);
}

#[test]
fn a_command_runs_when_129_is_written() {
    let mut bench = commanded();
    bench.write(132, &[0x00, 0xBF]);
    bench.write(128, &[0x00, 0x40]);
    assert_eq!(bench.shown(37, 1), [0x01]);
    // Its own access may hold what it needs behind 129.
    let mut bench = commanded();
    bench.write(129, &[0x40, 0x00, 0x00, 0x00, 0xBF]);
    assert_eq!(bench.shown(37, 1), [0x01]);
    // Without 129 nothing runs, nor in an access that is refused.
    let mut bench = commanded();
    bench.write(128, &[0x00]);
    bench.write(130, &[0x00, 0x00, 0x00, 0xBF, 0x00, 0x00]);
    let data = [0x00, 0x40, 0x00, 0x00, 0x00, 0xBF, 0x00, 0x00];
    assert_eq!(bench.event(Event::Write { address: 128, count: 9, data }).answer, 4);
    assert_eq!(bench.event(Event::Write { address: 129, count: 0, data }).answer, 4);
    bench.write(127, &[0x10]);
    bench.write(129, &[0x40]);
    bench.write(127, &[0x00]);
    bench.write(129, &[0x40]);
    assert_eq!((bench.shown(37, 1), bench.shown(8, 1)), (vec![0], vec![0]));
    bench.write(127, &[0x9F]);
    assert_eq!(bench.shown(128, 8), [0, 0, 0, 0, 0, 0xBF, 0, 0]);
    bench.write(129, &[0x40]);
    assert_eq!(bench.shown(37, 1), [0x01]);
}

#[test]
fn bit_6_of_31_masks_the_completion() {
    for (masks, lower_3) in [(0x40, 0x07), (0xBF, 0x06), (0x00, 0x06), (0xFF, 0x07)] {
        for code in [0xBF, 0xBE] {
            let mut bench = commanded();
            bench.write(31, &[masks]);
            bench.command(0x0040, 0, code);
            assert_eq!(bench.shown(3, 1), [lower_3]);
            bench.write(31, &[!masks]);
            assert_eq!(bench.shown(3, 1), [lower_3 ^ 1]);
            assert_eq!((bench.shown(8, 1), bench.shown(3, 1)), (vec![0x40], vec![0x07]));
        }
    }
    // But for bit 0, no other bit of lower 8 and 9 has a say, in a lent image
    // either.
    let mut bench = commanded();
    bench.image[8..10].copy_from_slice(&[0xBE, 0xFF]);
    bench.write(31, &[0x00]);
    assert_eq!(bench.shown(3, 1), [0x07]);
    bench.command(0x0040, 0, 0xBF);
    assert_eq!((bench.image[3], bench.shown(8, 2)), (0x06, vec![0xFE, 0xFF]));
    assert_eq!((bench.image[3], bench.shown(8, 2)), (0x07, vec![0, 0]));
    // Lower 8 and 37 take no write.
    bench.command(0x0040, 0, 0xBF);
    bench.write(8, &[0]);
    bench.write(37, &[0x77]);
    assert_eq!((bench.shown(37, 1), bench.shown(8, 1)), (vec![0x01], vec![0x40]));
}

#[test]
fn page_9f_is_there_in_bank_0_alone() {
    let mut bench = commanded();
    bench.write(126, &[0x01, 0x9F]);
    assert_eq!(bench.shown(126, 2), [0, 0]);
    bench.write(126, &[0x00, 0x9F]);
    assert_eq!(bench.shown(126, 2), [0, 0x9F]);
    bench.write(133, &[0xFF]);
    bench.write(126, &[0x01]);
    assert_eq!(bench.shown(126, 2), [1, 0x9F]);
    bench.write(129, &[0x00]);
    bench.write(200, &[0x55]);
    assert_eq!((bench.shown(37, 1), bench.shown(133, 1)), (vec![0], vec![0]));
    bench.write(126, &[0x00]);
    assert_eq!((bench.shown(133, 1), bench.shown(200, 1)), (vec![0xFF], vec![0]));
    bench.write(129, &[0x00]);
    assert_eq!(bench.shown(37, 1), [0x01]);
}

#[test]
fn every_byte_of_page_9f_is_kept_till_start() {
    let mut image = [0u8; IMAGE_LEN];
    image[768..].fill(0x5A);
    let mut bench = Bench::of(image);
    bench.write(127, &[0x9F]);
    assert_eq!(bench.shown(128, 128), [0; 128]);
    for address in 128..=255u8 {
        assert_eq!(bench.write(address, &[address]), 0);
    }
    // 129 ran a command before 130 to 255 were written.
    let kept: Vec<u8> = (128..=255).collect();
    assert_eq!(bench.shown(128, 128), kept);
    assert_eq!(bench.shown(128, 128), kept, "a read clears nothing");
    assert_eq!(bench.image[768..], kept[..]);
    assert_eq!(start(&mut bench.image, &mut bench.working), 0);
    assert_eq!(bench.image[768..], [0; 128]);
}

/// A command as the Linux driver sends it and waits for it: 130-135 and the
/// body in accesses of at most eight bytes, 128-129 alone in the last, one poll
/// of lower 8, then lower 37, the reply's header and the reply.
fn driven(bench: &mut Bench, number: u16, body: &[u8]) -> (u8, Vec<u8>) {
    let [high, low] = number.to_be_bytes();
    let summed: u32 = body.iter().map(|&byte| byte as u32).sum();
    let sum = high as u32 + low as u32 + body.len() as u32 + summed;
    let code = 255 - (sum % 256) as u8;
    let message = [&[0, 0, body.len() as u8, code, 0, 0][..], body].concat();
    for (index, access) in message.chunks(8).enumerate() {
        assert_eq!(bench.write(130 + 8 * index as u8, access), 0);
        assert_eq!(bench.image[MODULE_FLAGS], 0, "nothing has run yet");
    }
    assert_eq!(bench.write(128, &[high, low]), 0);
    assert_eq!(bench.shown(8, 1)[0] & 0x40, 0x40, "the first poll finds it done");
    let status = bench.shown(37, 1)[0];
    let header = bench.shown(134, 2);
    if header[0] == 0 {
        assert_eq!(header[1], 0);
        return (status, Vec::new());
    }
    let reply = bench.shown(136, header[0]);
    let summed: u32 = reply.iter().map(|&byte| byte as u32).sum();
    assert_eq!(header[1] as u32, 255 - summed % 256);
    (status, reply)
}

#[test]
fn the_linux_driver_is_served() {
    let mut bench = commanded();
    assert_eq!(driven(&mut bench, 0x0000, &[0, 0]), (0x01, vec![2, 0]));
    let features = [then_zeros(&[0, 0, 1], 10), then_zeros(&[3], 26)].concat();
    assert_eq!(driven(&mut bench, 0x0040, &[]), (0x01, features));
    assert_eq!(driven(&mut bench, 0x0041, &[]), (0x01, vec![0; 18]));
    let versions = [then_zeros(&[0, 4], 74), then_zeros(&[7, 0xFE], 36)].concat();
    assert_eq!(driven(&mut bench, 0x0100, &[]), (0x01, versions));
    // What the driver would go on with: start of a download, of a full body.
    assert_eq!(driven(&mut bench, 0x0101, &[0xA5; 120]), (0x41, Vec::new()));
    assert_eq!(bench.shown(136, 120), [0xA5; 120]);
}

// ---- power states ----

impl Bench {
    /// A module event, and lower 3 after it.
    fn module(&mut self) -> u8 {
        let before = (self.image, self.working);
        assert_eq!(self.event(Event::Module).answer, 0);
        let mut unchanged = (self.image, self.working);
        for (place, bits) in [(MODULE_STATE, 0x0F), (MODULE_FLAGS, 0x01)] {
            unchanged.0[place] = (unchanged.0[place] & !bits) | (before.0[place] & bits);
        }
        assert!(before == unchanged, "it changes its state, 8.0 and lower 3.0, nothing else");
        self.image[MODULE_STATE]
    }

    /// The low-power line is on, or off; no register shows it.
    fn line(&mut self, on: bool) {
        let before = (self.image, Working { line: on, ..self.working });
        assert_eq!(self.event(Event::Line { on }).answer, 0);
        assert!(before == (self.image, self.working));
    }

    /// Lower 26 is written: what it then reads as.
    fn controls(&mut self, byte: u8) -> u8 {
        assert_eq!(self.write(26, &[byte]), 0);
        self.shown(26, 1)[0]
    }

    /// A path of lanes 0 to 3 in DPActivated, in ModuleReady.
    fn lit() -> Bench {
        let mut bench = Bench::ready();
        assert_eq!(bench.apply(0, &[0x10; 4], 143, 0x0F), 1);
        assert_eq!(states_after(&mut bench, 4), [2, 7, 5, 4]);
        bench
    }
}

#[test]
fn the_module_comes_up() {
    let mut bench = Bench::new();
    assert_eq!((bench.shown(3, 6), bench.shown(26, 1)), (vec![0x03, 0, 0, 0, 0, 0], vec![0x40]));
    assert_eq!(bench.module(), 0x05);
    assert_eq!(bench.shown(8, 1), [0x00]);
    assert_eq!(bench.module(), 0x06);
    assert_eq!(bench.shown(8, 1), [0x01]);
    assert_eq!(bench.shown(3, 1), [0x07]);
    assert_eq!(bench.module(), 0x07);
    assert_eq!(bench.shown(8, 1), [0x00], "staying enters nothing");
}

#[test]
fn the_line_holds_the_module_down_where_it_may() {
    let mut bench = Bench::new();
    bench.line(true);
    assert_eq!(bench.module(), 0x03);
    assert_eq!(bench.controls(0x00), 0x00);
    assert_eq!(bench.module(), 0x05);
    assert_eq!(bench.controls(0x40), 0x40);
    assert_eq!(bench.module(), 0x09);
    assert_eq!(bench.module(), 0x02);
    assert_eq!((bench.shown(8, 1), bench.shown(3, 1)), (vec![0x01], vec![0x03]));
    assert_eq!(bench.module(), 0x03);
    bench.line(false);
    assert_eq!([bench.module(), bench.module()], [0x05, 0x06]);
}

#[test]
fn a_request_that_is_over_raises_no_flag() {
    let mut bench = Bench::new();
    assert_eq!(bench.module(), 0x05);
    assert_eq!(bench.controls(0x50), 0x50);
    assert_eq!(bench.module(), 0x09);
    assert_eq!(bench.controls(0x40), 0x40);
    assert_eq!((bench.module(), bench.shown(8, 1)), (0x03, vec![0x00]));
    // While it lasts, ModuleLowPwr is there to stay in.
    assert_eq!(bench.module(), 0x05);
    assert_eq!(bench.controls(0x10), 0x10);
    assert_eq!([bench.module(), bench.module()], [0x09, 0x02]);
    assert_eq!((bench.shown(8, 1), bench.module()), (vec![0x01], 0x03));
}

/// The path of lanes 0 to 3 winds down in ModuleReady, and the module goes
/// down behind it.
fn winds_down(mut bench: Bench) {
    assert_eq!(bench.module() & 0x0E, 0x06);
    assert_eq!(states_after(&mut bench, 3), [6, 7, 3]);
    assert_eq!(bench.module() & 0x0E, 0x06, "a path is still up");
    assert_eq!(states_after(&mut bench, 1), [1]);
    assert_eq!(bench.module(), 0x08, "134 is up");
    assert_eq!((bench.module(), bench.shown(8, 1)), (0x02, vec![0x01]));
    assert_eq!(bench.shown(3, 1), [0x02]);
    assert_eq!(states_after(&mut bench, 2), [1, 1]);
}

#[test]
fn paths_wind_down_before_the_module() {
    let mut bench = Bench::lit();
    assert_eq!(bench.controls(0x50), 0x50);
    winds_down(bench);

    let mut bench = Bench::lit();
    bench.line(true);
    winds_down(bench);

    // The line has no say without its bit, and is heard as soon as it has.
    let mut bench = Bench::lit();
    assert_eq!(bench.controls(0x00), 0x00);
    bench.line(true);
    assert_eq!(bench.module() & 0x0E, 0x06);
    assert_eq!(states_after(&mut bench, 3), [4, 4, 4]);
    assert_eq!(bench.module() & 0x0E, 0x06);
    assert_eq!(bench.controls(0x40), 0x40);
    winds_down(bench);

    // A request that ends halfway lets the path come back.
    let mut bench = Bench::lit();
    assert_eq!(bench.controls(0x10), 0x10);
    assert_eq!(states_after(&mut bench, 2), [6, 7]);
    assert_eq!(bench.controls(0x00), 0x00);
    assert_eq!(states_after(&mut bench, 2), [5, 4]);
}

#[test]
fn a_request_takes_a_path_back_from_every_state() {
    for (events, states) in [(1, [3, 1, 1]), (2, [3, 1, 1]), (3, [6, 7, 3]), (4, [6, 7, 3])] {
        let mut bench = Bench::ready();
        bench.apply(0, &[0x10; 4], 144, 0x0F);
        states_after(&mut bench, events);
        bench.line(true);
        assert_eq!(states_after(&mut bench, 3), states, "after {} hardware events", events);
    }
}

#[test]
fn every_lane_counts_for_leaving_module_ready() {
    // A path of lanes 4 to 7 keeps the module up, and so does an Apply on it.
    let mut bench = Bench::ready();
    assert_eq!(bench.apply(4, &[0x18; 4], 143, 0xF0), 1);
    assert_eq!(bench.hardware(7), 0);
    bench.line(true);
    bench.write(143, &[0xF0]);
    for _ in 0..3 {
        assert_eq!(bench.hardware(4), 7);
        assert_eq!(bench.module(), 0x07);
    }
    bench.work(4);
    assert_eq!((bench.status(4), bench.module()), (2, 0x07));
    assert_eq!([bench.hardware(4), bench.hardware(4)], [0, 0]);
    bench.write(143, &[0xF0]);
    assert_eq!(bench.module(), 0x08, "an Apply on paths at rest does not hinder it");
    assert_eq!(bench.module(), 0x02);
    for _ in 0..5 {
        assert_eq!(bench.work(6).answer, 0);
    }
    assert_eq!(bench.status(6), 1);
}

#[test]
fn lower_26_keeps_what_is_written_but_for_the_reset() {
    let mut bench = Bench::ready();
    for byte in (0..=255).filter(|byte| byte & 0x08 == 0) {
        assert_eq!(bench.controls(byte), byte);
    }
    assert_eq!(bench.controls(0xF7), 0xF7);
    assert_eq!(bench.controls(0xFF), 0x40);
    assert_eq!(bench.shown(3, 1), [0x03]);
    // Bits 7, 5 and 2 to 0 have no effect.
    let mut bench = Bench::lit();
    assert_eq!(bench.controls(0xA7), 0xA7);
    assert_eq!((states_after(&mut bench, 2), bench.module() & 0x0E), (vec![4, 4], 0x06));
    // The bit is 0 in what is read, also if a lent image has it at 1.
    bench.image[MODULE_CONTROLS] = 0xFF;
    assert_eq!((bench.shown(26, 1), bench.shown(24, 3)), (vec![0xF7], vec![0, 0, 0xF7]));
    assert_eq!(bench.shown(0, 128)[26], 0xF7);
    assert_eq!(bench.shown(27, 1), [0x00]);
}

#[test]
fn a_reset_comes_after_all_bytes_of_its_access() {
    let mut bench = Bench::ready();
    assert_eq!(bench.write(25, &[0xFF, 0x08, 0, 0, 0, 0, 0xFF, 0xFF]), 0);
    assert_eq!((bench.shown(3, 1), bench.shown(26, 1)), (vec![0x03], vec![0x40]));
    assert_eq!((bench.shown(31, 2), bench.shown(8, 1)), (vec![0, 0], vec![0]));
    // The same bytes with the bit at 0, and beside it.
    let mut bench = Bench::ready();
    assert_eq!(bench.write(25, &[0xFF, 0x00, 0xFF, 0, 0, 0, 0xFF, 0xFF]), 0);
    assert_eq!((bench.shown(3, 1), bench.shown(26, 1)), (vec![0x07], vec![0x00]));
    assert_eq!(bench.shown(31, 2), [0xFF, 0xFF]);
    // At every place of an access, and not in one that is refused.
    for first in 19..=26 {
        let mut bench = Bench::ready();
        let mut bytes = [0xFF; 8];
        assert_eq!(bench.event(Event::Write { address: first, count: 9, data: bytes }).answer, 4);
        assert_eq!(bench.event(Event::Write { address: first, count: 0, data: bytes }).answer, 4);
        bytes[26 - first as usize] = 0x00;
        bench.write(first, &bytes);
        assert_eq!(bench.shown(3, 1), [0x07]);
        bytes[26 - first as usize] = 0x08;
        bench.write(first, &bytes);
        assert_eq!((bench.shown(3, 1), bench.shown(26, 11)), (vec![0x03], then_zeros(&[0x40], 11)));
    }
    // An address of 26 in the upper half is another byte.
    let mut bench = Bench::ready();
    bench.write(128 + 26, &[0x08]);
    assert_eq!(bench.shown(3, 1), [0x07]);
}

#[test]
fn a_reset_is_a_fresh_start_with_the_line_as_it_was() {
    for line in [false, true] {
        let mut bench = Bench::of(with_limits(usual_image(), 1000, 1000, 1000, 1000));
        let mut fresh = bench.image;
        assert_eq!(start(&mut fresh, &mut { Working::AT_START }), 0);
        bench.write(145, &[0x10; 4]);
        bench.write(143, &[0x0F]);
        assert_eq!(bench.work(0).answer, 0);
        bench.sample(0, 999);
        bench.line(line);
        assert_eq!(bench.write(26, &[0x48]), 0);
        assert!(bench.image == fresh);
        assert_eq!(bench.working, Working { line, ..Working::AT_START });
        assert_eq!((bench.work(0).answer, bench.hardware(0)), (6, 6));
        assert_eq!(bench.shown(126, 2), [0, 0]);
        bench.write(127, &[0x11]);
        assert_eq!((bench.shown(202, 1), bench.shown(206, 1)), (vec![0], vec![0]));
        assert_eq!((bench.shown(186, 2), bench.shown(149, 4)), (vec![0, 0], vec![0; 4]));
        assert_eq!(bench.module(), if line { 0x03 } else { 0x05 });
    }
}

#[test]
fn a_reset_drops_every_stage_of_an_apply() {
    // Works so often on a group and resets; then the same Apply is new.
    let reset_after = |staged: u8, steps: usize| {
        let mut bench = Bench::ready();
        bench.write(145, &[staged; 4]);
        bench.write(143, &[0x0F]);
        for _ in 0..steps {
            assert_eq!(bench.work(0).answer, 0);
        }
        assert!(bench.working.lanes[3].in_progress());
        assert_eq!(bench.write(26, &[0x08]), 0);
        assert_eq!(bench.working, Working::AT_START);
        assert_eq!(bench.image[P10 + 128..DP_STATE], [0; 128]);
        assert_eq!(bench.image[DP_STATE + 4..], [0; 252]);
        bench.write(127, &[0x10]);
        assert_eq!(bench.apply(0, &[0x10; 4], 143, 0x0F), 1);
    };
    for steps in 0..=4 {
        reset_after(0x10, steps);
    }
    reset_after(0x20, 0);
    reset_after(0x00, 0);
}

#[test]
fn a_reset_ends_conditions_and_commands() {
    let mut bench = watched();
    bench.lasting(135, 0x0F, 0x00);
    bench.write(26, &[0x08]);
    bench.write(127, &[0x11]);
    assert_eq!(bench.twice(135, 1), [[0x00], [0x00]]);
    let mut bench = commanded();
    assert_eq!(bench.command(0x0040, 0, 0xBF), 0x01);
    bench.write(26, &[0x08]);
    bench.write(127, &[0x9F]);
    assert_eq!((bench.shown(37, 1), bench.shown(128, 128)), (vec![0], vec![0; 128]));
    assert_eq!((bench.shown(8, 1), bench.shown(39, 2)), (vec![0], vec![0x07, 0xFE]));
}

#[test]
fn below_module_ready_an_apply_passes_and_its_path_stays() {
    for events in 0..=2 {
        let mut bench = Bench::new();
        for _ in 0..events {
            bench.module();
        }
        assert_eq!(bench.apply(0, &[0x10; 4], 143, 0x0F), 1);
        assert_eq!([bench.hardware(0), bench.hardware(4)], [0, 6]);
        bench.write(127, &[0x11]);
        assert_eq!(bench.shown(202, 2), [0x11, 0x11]);
        let moved = if events == 2 { 0x22 } else { 0x11 };
        assert_eq!((bench.shown(128, 2), bench.shown(134, 1)), (vec![moved; 2], vec![0]));
    }
}

#[test]
fn bit_0_of_31_masks_the_module_state() {
    for (masks, lower_3) in [(0x01, 0x07), (0xFE, 0x06), (0x00, 0x06), (0xFF, 0x07)] {
        let mut bench = Bench::new();
        bench.write(31, &[masks]);
        bench.module();
        assert_eq!(bench.module(), lower_3);
        bench.write(31, &[!masks]);
        assert_eq!(bench.shown(3, 1), [lower_3 ^ 1]);
        assert_eq!((bench.shown(8, 1), bench.shown(3, 1)), (vec![0x01], vec![0x07]));
    }
}

#[test]
fn a_lent_module_state_that_is_none_of_the_four_stays() {
    for state in 0..8u8 {
        for rest in [0x01, 0xF1] {
            let mut bench = Bench::lit();
            bench.image[MODULE_STATE] = state << 1 | rest;
            // Bits 7 to 4 are left alone; every such state holds its paths down.
            assert_eq!(bench.hardware(2), 0);
            let path = if state == 3 { 0x44 } else { 0x66 };
            assert_eq!(bench.image[DP_STATE..DP_STATE + 4], [path, path, 0x11, 0x11]);
            let next = match state {
                1 => 2,
                2 => 3,
                4 => 1,
                _ => state,
            };
            assert_eq!(bench.module() & 0xFE, next << 1 | rest & 0xF0);
            bench.write(26, &[0x08]);
            assert_eq!(bench.image[MODULE_STATE], 0x03);
        }
    }
}

#[test]
fn what_a_refused_call_says_of_the_line() {
    let on = Working { line: true, ..Working::AT_START };
    let mut working = on;
    let (unsound, mut flat) = ([0u8; IMAGE_LEN], [0u8; IMAGE_LEN]);
    flat[2] = 0x80;
    for event in [Event::Module, Event::Line { on: false }] {
        let mut answer = |image: &[u8]| {
            desk(&mut image.to_vec(), &mut working, &event, &mut []).answer
        };
        assert_eq!([answer(&flat[..895]), answer(&flat), answer(&unsound)], [1, 2, 3]);
        assert_eq!(working, on);
    }
    let (mut bench, data) = (Bench::new(), [0xFF; 8]);
    bench.line(true);
    assert_eq!(bench.event(Event::Write { address: 26, count: 9, data }).answer, 4);
    assert!(bench.working.line);
    // Start has it off, refused or not.
    assert_eq!(start(&mut bench.image, &mut bench.working), 0);
    assert_eq!(start(&mut flat, &mut working), 2);
    assert_eq!([bench.working, working], [Working::AT_START; 2]);
}

// ---- the second staged set ----

/// The triggers of a set and of the other one, ApplyDPInit and ApplyImmediate,
/// for either set.
const SETS_EXCHANGED: [([u8; 2], [u8; 2]); 2] =
    [([143, 144], [178, 179]), ([178, 179], [143, 144])];

impl Bench {
    /// Work steps that are done, all on one lane.
    fn works(&mut self, lane: u8, steps: usize) {
        for _ in 0..steps {
            assert_eq!(self.work(lane).answer, 0);
        }
    }

    /// What page 11h shows; then page 10h is selected again.
    fn on_11h(&mut self, address: u8, count: u8) -> Vec<u8> {
        self.write(127, &[0x11]);
        let bytes = self.shown(address, count);
        self.write(127, &[0x10]);
        bytes
    }

    /// The sets that the lanes in progress were held from, and their triggers.
    fn held_from(&self) -> [Option<(StagedSet, Trigger)>; LANES] {
        self.working.lanes.map(|stage| match stage {
            Stage::Idle => None,
            Stage::InProgress(apply) => Some((apply.set, apply.trigger)),
        })
    }
}

#[test]
fn set_1_is_staged_triggered_and_copied() {
    let mut bench = Bench::new();
    bench.write(180, &[0x10; 4]);
    bench.write(178, &[0x0F]);
    assert_eq!(bench.held_from()[..4], [Some((StagedSet::One, Trigger::ApplyDPInit)); 4]);
    bench.works(0, 5);
    assert_eq!(bench.shown(178, 4), [0x00, 0x00, 0x10, 0x10]);
    assert_eq!(bench.on_11h(202, 4), [0x11, 0x11, 0x00, 0x00]);
    assert_eq!(bench.on_11h(206, 5), [0x10, 0x10, 0x10, 0x10, 0x00]);
    assert_eq!(bench.on_11h(235, 1), [0x0F]);
    // By 179 nothing is pending; set 0 has nothing to do with it.
    let mut bench = Bench::new();
    assert_eq!(bench.apply(4, &[0x18; 4], 179, 0xF0), 1);
    assert_eq!(bench.on_11h(206, 8), [0, 0, 0, 0, 0x18, 0x18, 0x18, 0x18]);
    assert_eq!((bench.on_11h(235, 1), bench.shown(143, 31)), (vec![0], vec![0; 31]));
}

#[test]
fn a_trigger_of_set_1_holds_what_was_staged_before_it() {
    let mut bench = Bench::new();
    bench.write(180, &[0x10; 4]);
    bench.write(178, &[0x0F]);
    bench.write(145, &[0x11; 4]);
    let held = bench.working;
    bench.write(143, &[0x0F]);
    assert_eq!(bench.working, held, "ignored, in progress from set 1");
    bench.write(180, &[0x20; 4]);
    bench.works(0, 5);
    assert_eq!((bench.on_11h(202, 2), bench.on_11h(206, 4)), (vec![0x11; 2], vec![0x10; 4]));
    // In its own access, too, what comes behind it is too late.
    let mut bench = Bench::new();
    bench.write(180, &[0x10; 4]);
    bench.write(178, &[0x0F, 0x00, 0x20, 0x20, 0x20, 0x20, 0x00, 0x00]);
    assert_eq!(bench.shown(178, 8), [0x00, 0x00, 0x20, 0x20, 0x20, 0x20, 0x00, 0x00]);
    bench.works(0, 5);
    assert_eq!(bench.on_11h(206, 4), [0x10; 4]);
}

#[test]
fn a_lane_in_progress_from_one_set_blocks_the_other() {
    for (own, other) in SETS_EXCHANGED {
        for (first, second) in [(own[0], other[0]), (own[0], other[1]), (own[1], other[0])] {
            let mut bench = Bench::new();
            bench.write(145, &[0x10; 4]);
            bench.write(180, &[0x10; 4]);
            bench.write(first, &[0x03]);
            bench.write(second, &[0x0F]);
            assert_eq!(bench.on_11h(202, 2), [0xCC, 0x00]);
            assert_eq!([bench.work(3).answer, bench.work(1).answer], [6, 0]);
            assert_eq!(bench.on_11h(202, 2), [0x77, 0x00]);
            // Now nothing is in the way.
            bench.write(second, &[0x0F]);
            assert_eq!(bench.on_11h(202, 2), [0xCC, 0xCC]);
        }
    }
    // A lane in progress that is not selected changes nothing.
    let mut bench = Bench::new();
    bench.write(145, &[0x10; 4]);
    bench.write(180, &[0x10; 4]);
    bench.write(143, &[0x03]);
    bench.write(178, &[0x0C]);
    assert_eq!(bench.on_11h(202, 2), [0xCC, 0xCC]);
    let [zero, one] = StagedSet::BOTH.map(|set| Some((set, Trigger::ApplyDPInit)));
    assert_eq!(bench.held_from(), [zero, zero, one, one, None, None, None, None]);
    assert_eq!([bench.work(3).answer, bench.work(0).answer], [0, 0]);
    assert_eq!(bench.on_11h(202, 2), [0x77, 0x77]);
}

#[test]
fn a_group_of_the_other_set_is_ignored_beside_one_that_is_marked() {
    for (own, other) in SETS_EXCHANGED {
        let mut bench = Bench::new();
        bench.write(145, &[0x10, 0x10, 0x10, 0x10, 0x18, 0x18, 0x18, 0x18]);
        bench.write(180, &[0x10, 0x10, 0x10, 0x10, 0x18, 0x18, 0x18, 0x18]);
        bench.write(own[0], &[0x0F]);
        bench.write(other[1], &[0xFF]);
        let held = bench.held_from();
        assert_ne!(held[0], held[4]);
        bench.works(0, 5);
        assert_eq!(bench.on_11h(202, 4), [0x11, 0x11, 0xCC, 0xCC]);
        bench.works(7, 5);
        assert_eq!((bench.on_11h(202, 4), bench.on_11h(235, 1)), (vec![0x11; 4], vec![0x0F]));
    }
}

#[test]
fn stepped_config_stops_the_immediate_trigger_of_either_set() {
    for (lower_2, first) in [(0x40, 6), (0x00, 0), (0x3F, 0), (0x7F, 6)] {
        for (triggers, _) in SETS_EXCHANGED {
            let mut image = usual_image();
            image[2] = lower_2;
            let mut bench = Bench::of(image);
            bench.write(triggers[0] + 2, &[0x10; 4]);
            bench.write(triggers[1], &[0x0F]);
            assert_eq!(bench.work(0).answer, first);
            bench.write(triggers[0], &[0x0F]);
            assert_eq!(bench.work(0).answer, 0);
        }
    }
}

#[test]
fn two_triggers_of_set_1_in_one_access() {
    let mut bench = Bench::new();
    bench.write(180, &[0x10; 4]);
    bench.write(178, &[0x0F, 0x0F]);
    bench.works(0, 5);
    assert_eq!((bench.on_11h(235, 1), bench.work(0).answer), (vec![0x0F], 6));
    // The second one marks what the first has left.
    let mut bench = Bench::new();
    bench.write(180, &[0x10, 0x10, 0x10, 0x10, 0x18, 0x18, 0x18, 0x18]);
    bench.write(178, &[0x0F, 0xFF]);
    let held = bench.held_from();
    assert_eq!(held[3], Some((StagedSet::One, Trigger::ApplyDPInit)));
    assert_eq!(held[4], Some((StagedSet::One, Trigger::ApplyImmediate)));
    // A mask of 0 is nothing.
    let mut bench = Bench::new();
    bench.write(180, &[0x10; 4]);
    let before = (bench.image, bench.working);
    assert_eq!(bench.write(178, &[0, 0]), 0);
    assert!(before == (bench.image, bench.working));
}

#[test]
fn accesses_at_and_beside_the_triggers_of_set_1() {
    let mut bench = Bench::new();
    bench.write(180, &[0x10; 4]);
    bench.write(173, &[0x0F; 8]);
    assert_eq!(bench.shown(173, 8), [0x0F, 0, 0, 0, 0, 0, 0, 0x0F]);
    assert_eq!(bench.on_11h(202, 4), [0xCC, 0xCC, 0x00, 0x00]);
    // Wherever an access begins: with which trigger it marks lanes 0 to 3.
    for first in 141..=214u8 {
        let mut bench = Bench::new();
        bench.write(145, &[0x10; 4]);
        bench.write(180, &[0x10; 4]);
        assert_eq!(bench.write(first, &[0x0F; 8]), 0);
        let expected = match first {
            141..=143 => Some((StagedSet::Zero, Trigger::ApplyDPInit)),
            144 => Some((StagedSet::Zero, Trigger::ApplyImmediate)),
            171..=178 => Some((StagedSet::One, Trigger::ApplyDPInit)),
            179 => Some((StagedSet::One, Trigger::ApplyImmediate)),
            _ => None,
        };
        assert_eq!(bench.held_from()[..4], [expected; 4], "from {}", first);
        assert_eq!(bench.held_from()[4..], [None; 4]);
    }
}

#[test]
fn every_byte_of_page_10h_keeps_a_write_or_not() {
    for address in 128..=255u8 {
        let mut bench = Bench::new();
        bench.write(145, &[0x10; 8]);
        assert_eq!(bench.write(address, &[0xA5]), 0);
        let kept = match address {
            128..=132 | 137..=139 | 145..=153 | 156..=173 => true,
            180..=188 | 191..=208 | 213..=232 => true,
            _ => false,
        };
        assert_eq!(bench.shown(address, 1) == [0xA5], kept, "{}", address);
        let triggers = [143, 144, 178, 179].contains(&address);
        assert_eq!(bench.working != Working::AT_START, triggers, "{}", address);
    }
    let mut bench = Bench::new();
    bench.write(188, &[0xFF; 4]);
    assert_eq!(bench.shown(188, 4), [0xFF, 0x00, 0x00, 0xFF]);
    bench.write(206, &[1, 2, 3, 4, 5, 6, 7, 8]);
    assert_eq!(bench.shown(206, 8), [1, 2, 3, 0, 0, 0, 0, 8]);
    assert_eq!(bench.working, Working::AT_START);
}

/// The usual image with every setting within its limit.
fn unlimited_image() -> [u8; IMAGE_LEN] {
    let mut image = usual_image();
    image[P01 + 153..P01 + 155].fill(0xFF);
    image
}

#[test]
fn every_setting_of_set_1_has_its_place() {
    let mut bench = Bench::of(unlimited_image());
    bench.write(180, &[0x11; 4]);
    bench.write(188, &[0x05]);
    bench.write(191, &[0x21, 0x43]);
    bench.write(195, &[0x0A, 0x03]);
    bench.write(197, &[0x65, 0x87]);
    bench.write(201, &[0xA9, 0xCB]);
    bench.write(205, &[0x10, 0x32]);
    bench.write(178, &[0x0F]);
    bench.works(0, 5);
    let active = [
        0x11, 0x11, 0, 0, 0x11, 0x11, 0x11, 0x11, 0, 0, 0, 0, 0x05, 0, 0, 0x21, 0x43, 0, 0,
        0x0A, 0x03, 0x65, 0x87, 0, 0, 0xA9, 0xCB, 0, 0, 0x10, 0x32, 0, 0, 0x0F,
    ];
    assert_eq!(bench.on_11h(202, 34), active);
}

#[test]
fn each_set_keeps_and_gives_its_own_settings() {
    // All eight lanes with ExplicitControl, every nibble another one.
    let settings = |seed: u8| -> Vec<u8> {
        let mut bytes: Vec<u8> = (0..29).map(|at| seed.wrapping_mul(at + 1)).collect();
        bytes[..8].copy_from_slice(&[0x11, 0x11, 0x11, 0x11, 0x19, 0x19, 0x19, 0x19]);
        bytes[9..11].fill(0);
        bytes[25..].iter_mut().for_each(|byte| *byte &= 0x33);
        bytes
    };
    let staged = [settings(0x35), settings(0xB7)];
    let mut bench = Bench::of(unlimited_image());
    for (first, bytes) in [145, 180].into_iter().zip(&staged) {
        for (at, access) in bytes.chunks(8).enumerate() {
            bench.write(first + 8 * at as u8, access);
        }
        assert_eq!(bench.shown(first, 29), *bytes);
    }
    for trigger in [178, 143, 179, 144] {
        bench.write(trigger, &[0xFF]);
        bench.works(0, 5);
        bench.works(4, 5);
        assert_eq!(bench.on_11h(206, 29), staged[(trigger >= 178) as usize], "by {}", trigger);
    }
    // Without ExplicitControl the module has its own; lanes 4 to 7 are left alone.
    assert_eq!(bench.apply(0, &[0x10; 4], 178, 0x0F), 1);
    let (active, before) = (bench.on_11h(206, 29), &staged[0]);
    assert_eq!((&active[..4], &active[4..8]), (&[0x10; 4][..], &before[4..8]));
    assert_eq!(active[8], before[8] | 0x0F);
    assert_eq!((&active[11..13], &active[13..15]), (&[0; 2][..], &before[13..15]));
}

#[test]
fn an_untouched_set_1_releases() {
    let mut bench = Bench::new();
    assert_eq!(bench.apply(0, &[0x10; 4], 143, 0x0F), 1);
    bench.write(178, &[0x07]);
    bench.works(0, 1);
    assert_eq!(bench.on_11h(202, 2), [0x77, 0x17], "a lane of the path is missing");
    bench.write(178, &[0x0F]);
    bench.works(3, 5);
    assert_eq!(bench.on_11h(202, 34), then_zeros(&[0x11, 0x11], 34));
    // Outside DPDeactivated it is 6; lanes on no path are released each alone.
    let mut bench = Bench::lit();
    bench.write(179, &[0xFF]);
    bench.works(0, 1);
    assert_eq!(bench.on_11h(202, 4), [0x66, 0x66, 0xCC, 0xCC]);
    for lane in 4..8 {
        bench.works(lane, 2);
        assert_eq!(bench.work(lane).answer, 6);
    }
    assert_eq!(bench.on_11h(202, 4), [0x66, 0x66, 0x11, 0x11]);
}

#[test]
fn start_and_reset_leave_set_1_at_0() {
    let mut image = usual_image();
    image[P10 + 174..P10 + 213].fill(0x5A);
    let mut bench = Bench::of(image);
    assert_eq!(bench.shown(174, 39), [0; 39]);
    bench.write(180, &[0x10; 8]);
    bench.write(191, &[0xFF; 8]);
    bench.write(178, &[0x0F]);
    bench.works(0, 2);
    assert_eq!(bench.write(26, &[0x08]), 0);
    assert_eq!(bench.working, Working::AT_START);
    bench.write(127, &[0x10]);
    assert_eq!((bench.shown(174, 39), bench.work(0).answer), (vec![0; 39], 6));
    assert_eq!(bench.apply(0, &[0x10; 4], 178, 0x0F), 1);
}

#[test]
fn groups_of_both_sets_worked_on_in_turns() {
    let mut bench = Bench::new();
    bench.write(145, &[0x10; 4]);
    bench.write(184, &[0x18; 4]);
    bench.write(143, &[0x0F]);
    bench.write(178, &[0xF0]);
    for step in 0..5 {
        if step == 2 {
            bench.write(145, &[0; 4]);
            bench.write(184, &[0; 4]);
        }
        bench.works(step % 4, 1);
        bench.works(7 - step % 4, 1);
    }
    let active = [0x11, 0x11, 0x11, 0x11, 0x10, 0x10, 0x10, 0x10, 0x18, 0x18, 0x18, 0x18];
    assert_eq!((bench.on_11h(202, 12), bench.on_11h(235, 1)), (active.to_vec(), vec![0xFF]));
}

#[test]
fn one_set_goes_on_from_what_the_other_has_made() {
    for (own, other) in SETS_EXCHANGED {
        let mut bench = Bench::of(unlimited_image()).brought_up();
        assert_eq!(bench.apply(0, &[0x10; 4], own[0], 0x0F), 1);
        assert_eq!(states_after(&mut bench, 4), [2, 7, 5, 4]);
        // New settings at once, with lanes to commission.
        bench.write(other[0] + 2, &[0x11; 4]);
        bench.write(other[1], &[0x0F]);
        let masks: Vec<u8> = (0..5).map(|_| bench.work(2).commission).collect();
        assert_eq!(masks, [0, 0, 0, 0, 0x0F]);
        assert_eq!((bench.on_11h(206, 4), bench.on_11h(214, 1)), (vec![0x11; 4], vec![0]));
        // And round again by the first.
        assert_eq!(bench.apply(0, &[0x10; 4], own[0], 0x0F), 1);
        assert_eq!((bench.on_11h(206, 4), bench.on_11h(214, 1)), (vec![0x10; 4], vec![0x0F]));
        assert_eq!(states_after(&mut bench, 4), [6, 7, 3, 1]);
        assert_eq!(bench.apply(0, &[0x00; 4], other[1], 0x0F), 1);
        assert_eq!(bench.on_11h(206, 30), [0; 30]);
    }
}

/// Application 1 as usual, Application 2 of one lane anywhere, a limit for each
/// setting: input EQ 3, amplitude codes 0 and 1, pre-cursor 2, post-cursor 5.
fn two_applications_image() -> [u8; IMAGE_LEN] {
    let mut image = usual_image();
    image[90..95].copy_from_slice(&[0x00, 0x00, 0x11, 0xFF, 0xFF]);
    image[P01 + 153..P01 + 155].copy_from_slice(&[0x33, 0x52]);
    image
}

#[test]
fn a_verdict_looks_at_its_own_set() {
    for (own, other) in SETS_EXCHANGED {
        // What the other set has staged would pass, or not, everywhere else.
        for beside in [0x10, 0x30, 0x01, 0xF5] {
            let fresh = || {
                let mut bench = Bench::of(two_applications_image()).brought_up();
                bench.write(other[0] + 2, &[beside; 8]);
                bench
            };
            assert_eq!(fresh().apply(0, &[0x10; 4], own[0], 0x0F), 1);
            assert_eq!(fresh().apply(0, &[0x10; 4], own[0], 0x07), 7);
            assert_eq!(fresh().apply(2, &[0x14; 4], own[0], 0x3C), 4);
            assert_eq!(fresh().apply(0, &[0x10, 0x20, 0x10, 0x10], own[1], 0x0F), 4);
            assert_eq!(fresh().apply(0, &[0x30; 4], own[1], 0x0F), 3);
            assert_eq!(fresh().apply(5, &[0x2A], own[1], 0x20), 1);
            let mut bench = fresh();
            assert_eq!(bench.apply(0, &[0x10; 4], own[0], 0x0F), 1);
            assert_eq!(bench.apply(3, &[0x26], own[0], 0x08), 6);
            assert_eq!(bench.apply(1, &[0x00; 3], own[0], 0x0E), 7);
            assert_eq!(states_after(&mut bench, 1), [2]);
            assert_eq!(bench.apply(0, &[0x10; 4], own[0], 0x0F), 2);
            assert_eq!(bench.apply(0, &[0x00; 4], own[1], 0x0F), 6);
            let mut bench = fresh();
            assert_eq!(bench.apply(6, &[0x2C], own[1], 0x40), 1);
            assert_eq!([bench.hardware(6), bench.hardware(6)], [0, 0]);
            assert_eq!(bench.apply(6, &[0x1C], own[1], 0x40), 4);
            assert_eq!(bench.apply(6, &[0x2D], own[1], 0x40), 1);
        }
    }
}

#[test]
fn the_limits_are_asked_of_the_trigger_s_own_set() {
    // Settings of lanes 0 and 1 by their offset from the first DPConfig byte:
    // at the limit, and above it.
    let fields =
        [(11, 0x30, 0x40), (17, 0x20, 0x30), (21, 0x50, 0x60), (25, 0x10, 0x20), (25, 0x00, 0x40)];
    for (own, other) in SETS_EXCHANGED {
        for (at, allowed, above) in fields {
            let closed_with = |staged: u8, beside: u8, control: u8| {
                let mut bench = Bench::of(two_applications_image());
                bench.write(own[0] + 2 + at, &[staged]);
                bench.write(other[0] + 2 + at, &[beside]);
                bench.write(other[0] + 2, &[0x21, 0x23]);
                bench.apply(1, &[0x22 | control], own[0], 0x02)
            };
            assert_eq!([closed_with(allowed, above, 1), closed_with(above, allowed, 1)], [1, 5]);
            assert_eq!([closed_with(above, above, 0), closed_with(above, above, 1)], [1, 5]);
        }
    }
}

#[test]
fn staged_set_1_supported_is_not_asked() {
    for (first, second) in [(0x20, 0x00), (0xFF, 0xDF)] {
        let closed = |byte: u8| {
            let mut image = usual_image();
            image[P01 + 162] = byte;
            let mut bench = Bench::of(image);
            bench.apply(0, &[0x10; 4], 178, 0x0F);
            bench.image[P01 + 162] = 0;
            (bench.image, bench.working)
        };
        assert!(closed(first) == closed(second));
    }
}

#[test]
fn a_lent_state_of_set_1_is_as_sound_as_one_of_set_0() {
    let mut bench = Bench::new();
    bench.write(145, &[0x10, 0x10, 0x10, 0x10, 0x28, 0x28, 0x00, 0x00]);
    bench.write(143, &[0xFF]);
    bench.works(0, 2);
    // The same with these lanes' records saying set 1.
    let with_set_1_on = |lanes: u8| {
        let mut working = bench.working;
        for lane in LaneSet(lanes) {
            if let Stage::InProgress(apply) = &mut working.lanes[lane as usize] {
                apply.set = StagedSet::One;
            }
        }
        (bench.image, working)
    };
    // Groups are lanes 0 to 3, 4 and 5, 6, 7. No work step looks at the set.
    for lanes in [0x00, 0xFF, 0x0F, 0x30, 0x40, 0xB0] {
        let (mut image, mut working) = with_set_1_on(lanes);
        assert_eq!(soundness::unsound_at(&image, &working), None);
        for lane in [0, 1, 3, 4, 6, 7, 6, 7] {
            let step = desk(&mut image, &mut working, &Event::Work { lane }, &mut []);
            assert_eq!(step.answer, 0);
        }
        assert_eq!(working, Working::AT_START);
        assert_eq!(image[CONFIG_STATUS..CONFIG_STATUS + 4], [0x11, 0x11, 0x33, 0x11]);
    }
    // A group of two sets is not sound.
    for (lanes, found_at) in [(0x01, 0), (0xF7, 0), (0x10, 4), (0xEF, 4)] {
        let (mut image, mut working) = with_set_1_on(lanes);
        assert_eq!(soundness::unsound_at(&image, &working), Some(('b', found_at)));
        let step = desk(&mut image, &mut working, &Event::Work { lane: 6 }, &mut []);
        assert_eq!(step.answer, 3);
        assert!((image, working) == with_set_1_on(lanes), "a refusal changed something");
    }
}

// ---- the editions of the night file ----

/// An edition 1 file in a later edition, its page 9Fh filled with what start
/// wipes.
fn in_edition(number: u8, file: &[u8]) -> Vec<u8> {
    let mut made = [&file[..784], &[0xC3; 128], &file[784..]].concat();
    made[2] = number;
    made[12..16].copy_from_slice(&912u32.to_be_bytes());
    made
}

/// An edition 1 file in each of the editions.
fn in_every_edition(file: &[u8]) -> [Vec<u8>; 4] {
    [file.to_vec(), in_edition(2, file), in_edition(3, file), in_edition(4, file)]
}

/// The image of a file with these records, each given by its first four bytes.
fn with_records(file: &[u8], records: &[[u8; 4]]) -> Vec<u8> {
    let mut made = file[..night_records(file)].to_vec();
    made[4..8].copy_from_slice(&(records.len() as u32).to_be_bytes());
    for record in records {
        made.extend_from_slice(record);
        made.extend_from_slice(&[0; 8]);
    }
    made
}

/// What a file prints, in one and in pieces.
fn printed(file: &[u8]) -> String {
    let text = String::from_utf8_lossy(&night::replay(file)).to_string();
    assert_eq!(streamed(file), text);
    text
}

#[test]
fn every_edition_prints_the_same() {
    for number in 2..=4 {
        let file = in_edition(number, &example());
        assert_eq!(file.len(), example().len() + 128);
        assert_eq!(printed(&file).as_bytes(), night::replay(&example()));
    }
    // An edition 1 night can select page 9Fh, and finds zeros there.
    for file in in_every_edition(&example()) {
        let records = [[1, 127, 1, 0x9F], [1, 133, 1, 0xFF], [2, 128, 8, 0]];
        let text = "0 0\n1 0\n2 0 00 00 00 00 00 ff 00 00\n";
        assert_eq!(printed(&with_records(&file, &records)), text);
    }
}

#[test]
fn files_of_every_edition_run_with_both_sets() {
    let mut records = vec![[1, 127, 1, 0x10]];
    records.extend([180, 181, 182, 183].map(|address| [1, address, 1, 0x10]));
    records.extend([[1, 178, 1, 0x0F], [1, 127, 1, 0x11], [2, 202, 2, 0]]);
    records.extend([[3, 0, 0, 0]; 5]);
    records.push([2, 202, 2, 0]);
    let text = "0 0\n1 0\n2 0\n3 0\n4 0\n5 0\n6 0\n7 0 cc cc\n\
                8 0\n9 0\n10 0\n11 0\n12 0\n13 0 11 11\n";
    for file in in_every_edition(&example()) {
        assert_eq!(printed(&with_records(&file, &records)), text);
    }
}

#[test]
fn kind_5_lasts_from_edition_3_on() {
    let editions = in_every_edition(&example());
    let twice = [[1, 127, 1, 0x11], [5, 135, 0x0F, 0], [2, 135, 1, 0], [2, 135, 1, 0]];
    let (once, lasting) = ("0 0\n1 0\n2 0 0f\n3 0 00\n", "0 0\n1 0\n2 0 0f\n3 0 0f\n");
    for (file, text) in editions.iter().zip([once, once, lasting, lasting]) {
        assert_eq!(printed(&with_records(file, &twice)), text);
    }
    // The off mask is the fourth byte, which older editions do not use.
    let ended = [
        [1, 127, 1, 0x11], [5, 135, 0x0F, 0], [5, 135, 0x30, 0x3C], [2, 135, 1, 0], [2, 135, 1, 0],
    ];
    let [first, second, third, fourth] = editions.map(|file| with_records(&file, &ended));
    for newer in [&third, &fourth] {
        assert_eq!(printed(newer), "0 0\n1 0\n2 0\n3 0 3f\n4 0 33\n");
    }
    for older in [&first, &second] {
        assert_eq!(night::replay(older), b"bad 9\n");
        assert_eq!(streamed(older), "0 0\n1 0\nbad 9\n");
    }
    // Its fifth byte and those behind it are unused in every edition.
    for place in 4..12 {
        let wrong = with_byte(third.clone(), 912 + 2 * 12 + place, 0x01);
        assert_eq!(night::replay(&wrong), b"bad 9\n");
        assert_eq!(streamed(&wrong), "0 0\n1 0\nbad 9\n");
    }
}

#[test]
fn samples_last_in_every_edition() {
    let limits = with_limits([0; IMAGE_LEN], 1000, 1000, 1000, 1000);
    let mut file = example();
    file[16..784].copy_from_slice(&limits[..768]);
    let records = [[6, 0, 0x03, 0xE7], [1, 127, 1, 0x11], [2, 150, 1, 0], [2, 150, 1, 0]];
    for file in in_every_edition(&file) {
        assert_eq!(printed(&with_records(&file, &records)), "0 0\n1 0\n2 0 01\n3 0 01\n");
    }
}

#[test]
fn kinds_7_and_8_are_there_from_edition_4_on() {
    let editions = in_every_edition(&example());
    let text_of = |file: &[u8], record: [u8; 4]| printed(&with_records(file, &[record]));
    for (number, file) in (1..).zip(&editions) {
        let (done, bad) = ("0 0\n", "bad 9\n");
        let text = if number == 4 { done } else { bad };
        assert_eq!(text_of(file, [7, 0, 0, 0]), text, "module event in edition {}", number);
        assert_eq!(text_of(file, [8, 0, 0, 0]), text, "line off in edition {}", number);
        assert_eq!(text_of(file, [8, 1, 0, 0]), text, "line on in edition {}", number);
        // Of the line no more can be said, and there is no kind above it.
        for record in [[8, 2, 0, 0], [8, 3, 0, 0], [8, 0x80, 0, 0], [8, 0xFF, 0, 0], [9, 0, 0, 0]] {
            assert_eq!(text_of(file, record), bad, "{:?} in edition {}", record, number);
        }
    }
    // No byte behind the kind, or behind the one of the line, is used.
    for (record, used) in [([7, 0, 0, 0], 1), ([8, 0, 0, 0], 2), ([8, 1, 0, 0], 2)] {
        let file = with_records(&editions[3], &[record]);
        for place in used..12 {
            assert_eq!(printed(&with_byte(file.clone(), 912 + place, 1)), "bad 9\n");
        }
    }
}

fn night_records(file: &[u8]) -> usize {
    u32::from_be_bytes([file[12], file[13], file[14], file[15]]) as usize
}

#[test]
fn an_edition_has_its_own_offset_and_length() {
    let (first, second) = (example(), in_edition(2, &example()));
    let offset = |file: &[u8], offset: u32| {
        let mut file = file.to_vec();
        file[12..16].copy_from_slice(&offset.to_be_bytes());
        file
    };
    let mut wrong = vec![
        // Each under the other's offset, or number, or with the other's length.
        offset(&second, 784), offset(&first, 912),
        with_byte(first.clone(), 2, 2), with_byte(second.clone(), 2, 1),
        offset(&with_byte(first.clone(), 2, 2), 912),
        offset(&with_byte(second.clone(), 2, 1), 784),
        second[..911].to_vec(), second[..912].to_vec(), second[..second.len() - 1].to_vec(),
        [&second[..], &[0]].concat(),
    ];
    // No other edition is read, whatever its offset.
    for number in [0, 5, 6, 255] {
        wrong.push(with_byte(first.clone(), 2, number));
        wrong.push(with_byte(second.clone(), 2, number));
        wrong.push(offset(&with_byte(second.clone(), 2, number), 1040));
    }
    for file in wrong {
        assert_eq!(night::replay(&file), b"bad 9\n");
        let flat = with_byte(file, 16 + 2, 0x80);
        assert_eq!(night::replay(&flat), b"bad 9\n");
    }
    let flat = with_byte(second.clone(), 16 + 2, 0x80);
    assert_eq!(night::replay(&flat), b"bad 2\n");
    assert_eq!(night::replay(&with_byte(second.clone(), 16 + P02 + 195, 1)), b"bad 10\n");
    assert_eq!(night::replay(&with_byte(flat, 912, 7)), b"bad 9\n");
    assert_eq!(streamed(&with_byte(second[..912].to_vec(), 16 + 2, 0x80)), "bad 2\n");
    assert_eq!(streamed(&with_byte(second[..911].to_vec(), 16 + 2, 0x80)), "bad 9\n");
    assert_eq!(streamed(&second[..912 + 12]), "0 0\nbad 9\n");
}

#[test]
fn the_longest_file_of_an_edition() {
    let longest = [60_784, 60_912, 60_912, 60_912];
    for (file, longest) in in_every_edition(&example()).into_iter().zip(longest) {
        let mut file = file[..night_records(&file)].to_vec();
        file[4..8].copy_from_slice(&5000u32.to_be_bytes());
        file.resize(file.len() + 5000 * 12, 0);
        for record in file[longest - 60_000..].chunks_mut(12) {
            record[..2].copy_from_slice(&[3, 9]);
        }
        assert_eq!(file.len(), longest);
        assert_eq!(night::replay(&file).iter().filter(|&&byte| byte == b'\n').count(), 5000);
        file.extend_from_slice(&[3, 9, 0, 0, 0, 0, 0, 0, 0, 0, 0, 0]);
        assert_eq!(night::replay(&file), b"bad 9\n");
        file[4..8].copy_from_slice(&5001u32.to_be_bytes());
        assert_eq!(night::replay(&file), b"bad 9\n");
        assert_eq!(streamed(&file).lines().count(), 5001);
    }
    assert_eq!(night::MAX_FILE, 60_912);
}

// ---- the night in pieces ----

/// What the streaming form prints for each piece, and at last for the end.
fn texts(pieces: &[&[u8]]) -> Vec<String> {
    let mut stream = Stream::begin();
    let mut printed = Vec::new();
    let mut texts = Vec::new();
    for piece in pieces {
        stream.feed(piece, &mut printed);
        texts.push(String::from_utf8_lossy(&printed).to_string());
        printed.clear();
    }
    stream.finish(&mut printed);
    texts.push(String::from_utf8_lossy(&printed).to_string());
    texts
}

/// All that the streaming form prints for a file, the same however it is cut.
fn streamed(file: &[u8]) -> String {
    let text = texts(&[file]).concat();
    for size in [1, 5, 11, 12, 13, 16, 783, 784, 785, 911, 912, 913, 4096] {
        let pieces: Vec<&[u8]> = file.chunks(size).collect();
        assert_eq!(texts(&pieces).concat(), text, "in pieces of {}", size);
    }
    let empty: &[u8] = &[];
    let (first, rest) = file.split_at(file.len().min(5));
    let (second, rest) = rest.split_at(rest.len().min(785));
    assert_eq!(texts(&[empty, first, empty, second, rest, empty]).concat(), text);
    text
}

/// The example's image and three records: `work 0`, `work 9`, `read 0 1`.
fn three_records() -> Vec<u8> {
    let mut file = example();
    file.truncate(784);
    file[4..8].copy_from_slice(&3u32.to_be_bytes());
    for record in [[3, 0, 0], [3, 9, 0], [2, 0, 1]] {
        file.extend_from_slice(&record);
        file.extend_from_slice(&[0; 9]);
    }
    file
}

fn with_byte(mut file: Vec<u8>, place: usize, byte: u8) -> Vec<u8> {
    file[place] = byte;
    file
}

#[test]
fn a_whole_file_prints_the_same_in_pieces() {
    assert_eq!(streamed(&three_records()), "0 6\n1 8\n2 0 00\n");
    assert_eq!(streamed(&example()).as_bytes(), night::replay(&example()));
    let mut none = with_byte(three_records(), 7, 0);
    none.truncate(784);
    assert_eq!(streamed(&none), "");
}

#[test]
fn a_fault_found_later_is_the_last_line() {
    let file = three_records();
    for length in [0, 1, 15, 16, 783, 784, 795] {
        assert_eq!(streamed(&file[..length]), "bad 9\n", "its first {} bytes", length);
    }
    assert_eq!(streamed(&file[..796]), "0 6\nbad 9\n");
    assert_eq!(streamed(&file[..file.len() - 1]), "0 6\n1 8\nbad 9\n");
    assert_eq!(streamed(&[&file[..], &[0]].concat()), "0 6\n1 8\n2 0 00\nbad 9\n");
    let wrong = with_byte(file.clone(), 784 + 24, 0xFF);
    assert_eq!(streamed(&[&wrong[..], &file].concat()), "0 6\n1 8\nbad 9\n");
    let unused = with_byte(file.clone(), 784 + 23, 1);
    assert_eq!(streamed(&unused), "0 6\nbad 9\n");
    let none = with_byte(file[..785].to_vec(), 7, 0);
    assert_eq!(streamed(&none), "bad 9\n");
    let mut most = file;
    most[4..8].fill(0xFF);
    assert_eq!(streamed(&most), "0 6\n1 8\n2 0 00\nbad 9\n");
}

#[test]
fn a_refused_image_hides_every_later_fault() {
    let flat = with_byte(three_records(), 16 + 2, 0x80);
    let turned = with_byte(three_records(), 16 + P02 + 195, 1);
    for (file, line) in [(flat, "bad 2\n"), (turned, "bad 10\n")] {
        let malformed = with_byte(file.clone(), 784, 0xFF);
        for file in [&file[..], &file[..784], &file[..785], &[&file[..], &[0]].concat(), &malformed] {
            assert_eq!(streamed(file), line);
        }
        assert_eq!(texts(&[&file[..784], &file[784..785]]), [line, "", ""]);
        assert_eq!(streamed(&file[..783]), "bad 9\n");
        assert_eq!(streamed(&with_byte(file, 15, 0x11)), "bad 9\n");
    }
}

#[test]
fn each_part_is_judged_at_its_last_byte() {
    let file = three_records();
    let cut = |file: &[u8], at: usize| texts(&[&file[..at - 1], &file[at - 1..at], &file[at..]]);
    assert_eq!(cut(&with_byte(file.clone(), 0, b'w'), 16), ["", "bad 9\n", "", ""]);
    assert_eq!(cut(&with_byte(file.clone(), 16 + 2, 0x80), 784), ["", "bad 2\n", "", ""]);
    assert_eq!(cut(&with_byte(file.clone(), 784, 7), 796), ["", "bad 9\n", "", ""]);
    assert_eq!(cut(&file, 796), ["", "0 6\n", "1 8\n2 0 00\n", ""]);
    assert_eq!(cut(&[&file[..], &[0, 0]].concat(), 821), ["0 6\n1 8\n2 0 00\n", "bad 9\n", "", ""]);
    assert_eq!(cut(&file[..819], 819), ["0 6\n1 8\n", "", "", "bad 9\n"]);
}

#[test]
fn the_streaming_form_has_no_limit_of_5000() {
    let mut file = three_records();
    file[4..8].copy_from_slice(&100_001u32.to_be_bytes());
    for _ in 3..100_001 {
        file.extend_from_slice(&[3, 9, 0, 0, 0, 0, 0, 0, 0, 0, 0, 0]);
    }
    let lines: String = (3..100_001).map(|index| format!("{} 8\n", index)).collect();
    assert!(streamed(&file) == "0 6\n1 8\n2 0 00\n".to_string() + &lines);
    file[4..8].copy_from_slice(&5001u32.to_be_bytes());
    file.truncate(784 + 12 * 5001);
    assert_eq!(streamed(&file).lines().count(), 5001);
    assert_eq!(night::replay(&file), b"bad 9\n");
    assert!(std::mem::size_of::<Stream>() < IMAGE_LEN + 256, "the carried state is small");
}
