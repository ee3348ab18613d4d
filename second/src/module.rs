//! The register core: start and the nine events.

use crate::applications::*;
use crate::commands;
use crate::lanes::*;
use crate::registers::*;
use crate::soundness;
use std::ops::Range;

/// One event of a night.
#[derive(Clone, Copy, PartialEq, Eq, Debug)]
pub enum Event {
    /// `data` past the smaller of `count` and 8 has no meaning.
    Write { address: u8, count: u8, data: [u8; 8] },
    Read { address: u8, count: u8 },
    Work { lane: u8 },
    Hardware { lane: u8 },
    /// The one-time event: it leaves what is on.
    Condition { flag_byte: u8, mask: u8 },
    /// A bit in both masks is on.
    LastingCondition { flag_byte: u8, on: u8, off: u8 },
    Sample { lane: u8, value: u16 },
    /// The module goes one state on, if it can.
    Module,
    /// The low-power line is now on, or off.
    Line { on: bool },
}

/// What an event gave back.
#[derive(Clone, Copy, PartialEq, Eq, Debug)]
pub struct Outcome {
    /// The answer number; 0 is done.
    pub answer: u8,
    /// Lanes to be commissioned; only ever set by a closing work step.
    pub commission: u8,
    /// Bytes put into the read buffer.
    pub read: u8,
}

impl Outcome {
    const DONE: Outcome = Outcome { answer: answer::DONE, commission: 0, read: 0 };

    #[inline(always)]
    fn refused(answer: u8) -> Outcome {
        Outcome { answer, commission: 0, read: 0 }
    }
}

/// Puts the image into its start state and makes all lanes idle, with nothing
/// on and the low-power line off. A refusal (1, 2 or 10) leaves the image
/// alone; what is beside it is as after start all the same.
pub fn start(image: &mut [u8], working: &mut Working) -> u8 {
    *working = Working::AT_START;
    let image = match <&mut [u8; IMAGE_LEN]>::try_from(image) {
        Ok(image) => image,
        Err(_) => return answer::IMAGE_LENGTH,
    };
    let refusal = start_refusal(image);
    if refusal == answer::DONE {
        make_fresh(image);
    }
    refusal
}

/// The image as start leaves it: what is kept, and else zeros, but in
/// ModuleLowPwr without an interrupt, the line having a say, and every lane
/// DPDeactivated.
fn make_fresh(image: &mut [u8; IMAGE_LEN]) {
    image[3..39].fill(0);
    image[41..85].fill(0);
    image[118..128].fill(0);
    image[P10 + 128..].fill(0);
    image[MODULE_STATE] = module_state::LOW_PWR << MODULE_STATE_SHIFT | INTERRUPT_DEASSERTED;
    image[MODULE_CONTROLS] = LOW_PWR_ALLOW_REQUEST_HW;
    image[DP_STATE..DP_STATE + 4].copy_from_slice(&ALL_DEACTIVATED);
}

/// DPState of all eight lanes where each is DPDeactivated.
const ALL_DEACTIVATED: [u8; 4] = [dp_state::DEACTIVATED * 0x11; 4];

/// What start has against an image of the right length, flat memory first;
/// 0 if nothing.
pub fn start_refusal(image: &[u8; IMAGE_LEN]) -> u8 {
    if image[CHARACTERISTICS] & FLAT_MEMORY != 0 {
        answer::FLAT
    } else if back_to_front(image) {
        answer::BACK_TO_FRONT
    } else {
        answer::DONE
    }
}

/// Whether the limits of received power do not rise, or stay level, from low
/// alarm over low and high warning to high alarm. Only start asks.
fn back_to_front(image: &[u8; IMAGE_LEN]) -> bool {
    let rising = [
        u16_at(image, RX_POWER_LOW_ALARM),
        u16_at(image, RX_POWER_LOW_WARNING),
        u16_at(image, RX_POWER_HIGH_WARNING),
        u16_at(image, RX_POWER_HIGH_ALARM),
    ];
    rising.windows(2).any(|pair| pair[0] > pair[1])
}

/// A U16 of the image, high byte first.
#[inline(always)]
fn u16_at(image: &[u8; IMAGE_LEN], place: usize) -> u16 {
    u16::from_be_bytes([image[place], image[place + 1]])
}

/// One event with every question asked: length, flat memory and soundness
/// first, then the event's own. An answer other than 0 changes nothing.
pub fn desk(
    image: &mut [u8],
    working: &mut Working,
    event: &Event,
    buffer: &mut [u8],
) -> Outcome {
    match admit(image, working) {
        Ok(mut module) => module.step(event, buffer),
        Err(number) => Outcome::refused(number),
    }
}

/// A night as a lent list of events: the answers go into `answers`, read
/// bytes are dropped. 1, 2, 3 and 5 are given once, for the whole list, and
/// then nothing is changed.
pub fn desk_list(
    image: &mut [u8],
    working: &mut Working,
    events: &[Event],
    answers: &mut [u8],
) -> u8 {
    let mut module = match admit(image, working) {
        Ok(module) => module,
        Err(number) => return number,
    };
    if answers.len() < events.len() {
        return answer::SHORT_BUFFER;
    }
    let mut buffer = [0u8; 128];
    for (event, slot) in events.iter().zip(answers.iter_mut()) {
        *slot = module.step(event, &mut buffer).answer;
    }
    answer::DONE
}

/// The three questions asked of a lent state, in their order.
fn admit<'a>(image: &'a mut [u8], working: &'a mut Working) -> Result<Module<'a>, u8> {
    let image = match <&mut [u8; IMAGE_LEN]>::try_from(image) {
        Ok(image) => image,
        Err(_) => return Err(answer::IMAGE_LENGTH),
    };
    if image[CHARACTERISTICS] & FLAT_MEMORY != 0 {
        return Err(answer::FLAT);
    }
    if !soundness::sound(image, working) {
        return Err(answer::NOT_SOUND);
    }
    Ok(Module { image, working })
}

/// Whether a byte of page 10h keeps what is written to it.
const fn stored_on_10h(address: usize) -> bool {
    matches!(
        address,
        128..=132 | 137..=139 | 145..=153 | 156..=173 | 180..=188 | 191..=208 | 213..=232
    )
}

/// Of the eight bytes from each offset on page 10h on, FFh in those that keep
/// what is written; nothing past the page's end. First byte lowest.
const STORED_FROM: [u64; 128] = stored_from();

const fn stored_from() -> [u64; 128] {
    let mut table = [0u64; 128];
    let mut offset = 0;
    while offset < 128 {
        let mut byte = 0;
        while byte < 8 {
            let address = 128 + offset + byte;
            if address < 256 && stored_on_10h(address) {
                table[offset] |= 0xFF << (8 * byte);
            }
            byte += 1;
        }
        offset += 1;
    }
    table
}

/// The base of each page that there is; page 00h for all others. From page 10h
/// on they are those of bank 0.
const BASES: [u16; 256] = bases();

const fn bases() -> [u16; 256] {
    let mut table = [P00 as u16; 256];
    table[0x01] = P01 as u16;
    table[0x02] = P02 as u16;
    table[0x10] = P10 as u16;
    table[0x11] = P11 as u16;
    table[0x9F] = P9F as u16;
    table
}

/// Bits that read as 0: triggers are never stored, nor is the reset, but a lent
/// image may hold something in their places.
const NEVER_SHOWN: [(usize, u8); 5] = [
    (StagedSet::Zero.place(APPLY_DP_INIT), 0xFF),
    (StagedSet::Zero.place(APPLY_IMMEDIATE), 0xFF),
    (StagedSet::One.place(APPLY_DP_INIT), 0xFF),
    (StagedSet::One.place(APPLY_IMMEDIATE), 0xFF),
    (MODULE_CONTROLS, SOFTWARE_RESET),
];

/// For each offset on page 10h, how many bytes an access from there on has to
/// have to cover a trigger; more than any access has if there is none.
const TO_TRIGGER: [u8; 128] = to_trigger();

const fn to_trigger() -> [u8; 128] {
    let mut table = [0xFF; 128];
    let mut offset = 128;
    let mut bytes = 0xFF;
    while offset > 0 {
        offset -= 1;
        bytes = match trigger_at(P10 + 128 + offset) {
            Some(_) => 1,
            None if bytes < 0xFF => bytes + 1,
            None => bytes,
        };
        table[offset] = bytes;
    }
    table
}

/// The trigger that a place of the image is, with the set that it applies.
const fn trigger_at(place: usize) -> Option<(StagedSet, Trigger)> {
    if place == StagedSet::Zero.place(APPLY_DP_INIT) {
        Some((StagedSet::Zero, Trigger::ApplyDPInit))
    } else if place == StagedSet::Zero.place(APPLY_IMMEDIATE) {
        Some((StagedSet::Zero, Trigger::ApplyImmediate))
    } else if place == StagedSet::One.place(APPLY_DP_INIT) {
        Some((StagedSet::One, Trigger::ApplyDPInit))
    } else if place == StagedSet::One.place(APPLY_IMMEDIATE) {
        Some((StagedSet::One, Trigger::ApplyImmediate))
    } else {
        None
    }
}

/// For a set of lanes, Fh in the nibble of each of them.
const NIBBLES_OF: [u32; 256] = nibbles_of();

const fn nibbles_of() -> [u32; 256] {
    let mut table = [0u32; 256];
    let mut set = 0;
    while set < 256 {
        let mut lane = 0;
        while lane < 8 {
            if set >> lane & 1 != 0 {
                table[set] |= 0xF << (4 * lane);
            }
            lane += 1;
        }
        set += 1;
    }
    table
}

/// Of each of the eight bytes, the top bit says whether it is not zero in its
/// lower seven bits. The other bits say nothing.
#[inline(always)]
fn nonzero(word: u64) -> u64 {
    (word & everywhere(0x7F)) + everywhere(0x7F)
}

/// One bit a byte: the lanes whose byte has its top bit set.
#[inline(always)]
fn lanes_marked(marks: u64) -> u8 {
    ((marks >> 7 & everywhere(1)).wrapping_mul(0x0102_0408_1020_4080) >> 56) as u8
}

/// `byte` eight times.
#[inline(always)]
const fn everywhere(byte: u8) -> u64 {
    byte as u64 * 0x0101_0101_0101_0101
}

/// DPConfig bytes of all lanes: the mark of each whose AppSel is not 0.
#[inline(always)]
fn app_sel_marks(dp_configs: u64) -> u64 {
    nonzero(dp_configs & everywhere(0x70)) | dp_configs
}

/// DPConfig bytes of all lanes: the lanes whose AppSel is not 0.
#[inline(always)]
fn with_app_sel(dp_configs: u64) -> u8 {
    lanes_marked(app_sel_marks(dp_configs))
}

/// DPConfig bytes of all lanes: the lanes whose AppSel is not 0 and whose
/// DataPathID is that of `own`.
#[inline(always)]
fn path_with(dp_configs: u64, own: u8) -> u8 {
    let other_ids = nonzero((dp_configs ^ everywhere(own)) & everywhere(0x0E));
    lanes_marked(app_sel_marks(dp_configs) & !other_ids)
}

/// A state at work: the lent image and what is beside it. Its steps take the
/// state to be sound; `desk` asks first.
pub struct Module<'a> {
    pub image: &'a mut [u8; IMAGE_LEN],
    pub working: &'a mut Working,
}

impl<'a> Module<'a> {
    /// One event on a sound state of a paged module.
    #[inline]
    pub fn step(&mut self, event: &Event, buffer: &mut [u8]) -> Outcome {
        self.step_in_mode::<false>(event, buffer)
    }

    /// The comparison run: as `step`, but a passing group's settings are all
    /// copied by its closing work step. For checks only.
    pub fn step_late(&mut self, event: &Event, buffer: &mut [u8]) -> Outcome {
        self.step_in_mode::<true>(event, buffer)
    }

    #[inline(always)]
    fn step_in_mode<const LATE: bool>(&mut self, event: &Event, buffer: &mut [u8]) -> Outcome {
        let outcome = match *event {
            Event::Write { address, count, data } => {
                self.write(address, count, u64::from_le_bytes(data))
            }
            Event::Read { address, count } => self.read(address, count, buffer),
            Event::Work { lane } => self.work::<LATE>(lane),
            Event::Hardware { lane } => self.hardware(lane),
            Event::Condition { flag_byte, mask } => self.condition(flag_byte, mask),
            Event::LastingCondition { flag_byte, on, off } => {
                self.lasting_condition(flag_byte, on, off)
            }
            Event::Sample { lane, value } => self.sample(lane, value),
            Event::Module => self.module_event(),
            Event::Line { on } => self.line(on),
        };
        // A lent state may have had it wrong.
        if outcome.answer == answer::DONE {
            self.settle_interrupt();
        }
        outcome
    }

    // ---- small reads and writes of the image ----

    #[inline(always)]
    fn word(&self, place: usize) -> u64 {
        let mut bytes = [0u8; 8];
        bytes.copy_from_slice(&self.image[place..place + 8]);
        u64::from_le_bytes(bytes)
    }

    #[inline(always)]
    fn half_word(&self, place: usize) -> u32 {
        let mut bytes = [0u8; 4];
        bytes.copy_from_slice(&self.image[place..place + 4]);
        u32::from_le_bytes(bytes)
    }

    #[inline(always)]
    fn set_half_word(&mut self, place: usize, value: u32) {
        self.image[place..place + 4].copy_from_slice(&value.to_le_bytes());
    }

    #[inline(always)]
    fn bit(&self, place: usize, lane: u8) -> bool {
        self.image[place] >> lane & 1 != 0
    }

    #[inline(always)]
    fn set_bit(&mut self, place: usize, lane: u8, on: bool) {
        self.image[place] = (self.image[place] & !(1 << lane)) | ((on as u8) << lane);
    }

    #[inline(always)]
    fn nibble(&self, place: usize, lane: u8) -> u8 {
        self.image[place + (lane >> 1 & 3) as usize] >> (4 * (lane & 1)) & 0xF
    }

    #[inline(always)]
    fn set_nibble(&mut self, place: usize, lane: u8, value: u8) {
        let byte = &mut self.image[place + (lane >> 1 & 3) as usize];
        let shift = 4 * (lane & 1);
        *byte = (*byte & !(0xF << shift)) | (value << shift);
    }

    /// Gives every lane of a set the same nibble.
    #[inline(always)]
    fn set_nibbles(&mut self, place: usize, lanes: u8, value: u8) {
        let field = NIBBLES_OF[lanes as usize];
        let all = (self.half_word(place) & !field) | ((value as u32 * 0x1111_1111) & field);
        self.set_half_word(place, all);
    }

    /// Bit 0 of lower 3 is 0 exactly while a flag is up that its mask lets
    /// through. It is right after start, and every event keeps it so: this is
    /// asked again where a flag may have gone or a mask changed.
    #[inline(always)]
    fn settle_interrupt(&mut self) {
        const LOOKED_AT: u8 = COMMAND_COMPLETE | MODULE_STATE_CHANGED;
        let showing = (self.word(LANE_FLAGS) & !self.word(LANE_MASKS))
            | (self.word(LANE_FLAGS + 8) & !self.word(LANE_MASKS + 8))
            | (self.half_word(LANE_FLAGS + 16) & !self.half_word(LANE_MASKS + 16)) as u64
            | (self.image[MODULE_FLAGS] & !self.image[MODULE_MASKS] & LOOKED_AT) as u64;
        self.image[MODULE_STATE] =
            (self.image[MODULE_STATE] & !INTERRUPT_DEASSERTED) | (showing == 0) as u8;
    }

    /// Raises lane flags. The interrupt may come of it, but not go.
    #[inline(always)]
    fn raise(&mut self, flag: usize, lanes: u8) {
        self.image[flag] |= lanes;
        if lanes & !self.image[mask_of(flag)] != 0 {
            self.image[MODULE_STATE] &= !INTERRUPT_DEASSERTED;
        }
    }

    // ---- host accesses ----

    /// Base of the page that upper addresses go to.
    #[inline(always)]
    pub fn upper_page(&self) -> usize {
        let page = BASES[self.image[PAGE_SELECT] as usize] as usize;
        if page >= P10 && self.image[BANK_SELECT] != 0 {
            P00
        } else {
            page
        }
    }

    /// The data come as one word, first byte lowest.
    #[inline(always)]
    pub(crate) fn write(&mut self, address: u8, count: u8, data: u64) -> Outcome {
        if count > 8 || !within_its_half(address, count) {
            return Outcome::refused(answer::BAD_ACCESS);
        }
        if address == PAGE_SELECT as u8 {
            self.select_page(data as u8);
        } else if address < 128 {
            self.write_lower(address, count, data);
        } else {
            match self.upper_page() {
                P10 => self.write_on_10h(address, count, data),
                P9F => self.write_on_9fh(address, count, data),
                _ => {}
            }
        }
        Outcome::DONE
    }

    #[inline(always)]
    fn write_on_10h(&mut self, address: u8, count: u8, data: u64) {
        let offset = (address & 127) as usize;
        if count >= TO_TRIGGER[offset] {
            self.write_with_triggers(address, count, data);
        } else {
            self.store_on_10h(offset, data, count);
            if P10 + address as usize + count as usize > LANE_MASKS {
                self.settle_interrupt();
            }
        }
    }

    /// Every byte of page 9Fh takes a write. When all are stored, a command
    /// runs if the second byte of its number was among them.
    #[inline(never)]
    fn write_on_9fh(&mut self, address: u8, count: u8, data: u64) {
        let bytes = data.to_le_bytes();
        let from = P9F + address as usize;
        let written = from..from + count as usize;
        self.image[written.clone()].copy_from_slice(&bytes[..count as usize]);
        if written.contains(&COMMAND_TRIGGER) {
            commands::run(self.image);
            self.settle_interrupt();
        }
    }

    /// Few lower bytes take a write; the page is selected in its turn. When
    /// all are stored, the module is reset if its bit was among them.
    #[inline(never)]
    fn write_lower(&mut self, address: u8, count: u8, data: u64) {
        let bytes = data.to_le_bytes();
        let mut resets = false;
        for (place, &byte) in (address as usize..).zip(&bytes[..count as usize]) {
            match place {
                MODULE_CONTROLS => {
                    self.image[place] = byte & !SOFTWARE_RESET;
                    resets = byte & SOFTWARE_RESET != 0;
                }
                31..=36 | BANK_SELECT => self.image[place] = byte,
                PAGE_SELECT => self.select_page(byte),
                _ => {}
            }
        }
        if resets {
            self.reset();
        } else if address as usize <= MODULE_MASKS {
            self.settle_interrupt();
        }
    }

    /// A fresh start, whatever was under way, but the line stays as it is.
    fn reset(&mut self) {
        make_fresh(self.image);
        *self.working = Working { line: self.working.line, ..Working::AT_START };
    }

    /// Stores up to eight bytes on page 10h, those that take it, at once.
    #[inline(always)]
    fn store_on_10h(&mut self, offset: usize, bytes: u64, count: u8) {
        let offset = offset & 127;
        let counted = !0u64 >> ((64 - 8 * count as u32) & 63);
        let field = STORED_FROM[offset] & counted;
        let place = P10 + 128 + offset;
        let all = (self.word(place) & !field) | (bytes & field);
        self.image[place..place + 8].copy_from_slice(&all.to_le_bytes());
    }

    /// A write that covers a trigger goes byte by byte: the trigger acts on
    /// what is staged when its turn comes.
    #[inline(never)]
    fn write_with_triggers(&mut self, address: u8, count: u8, data: u64) {
        let bytes = data.to_le_bytes();
        for (place, &byte) in (P10 + address as usize..).zip(&bytes[..count as usize]) {
            match trigger_at(place) {
                Some((set, trigger)) => self.apply(set, trigger, byte),
                None => self.store_on_10h(place - P10 - 128, byte as u64, 1),
            }
        }
    }

    #[inline(always)]
    fn select_page(&mut self, page: u8) {
        let there = match page {
            0x00..=0x02 => true,
            0x10 | 0x11 | 0x9F => self.image[BANK_SELECT] == 0,
            _ => false,
        };
        if there {
            self.image[PAGE_SELECT] = page;
        } else {
            self.image[BANK_SELECT] = 0;
            self.image[PAGE_SELECT] = 0;
        }
    }

    /// The part of the image that a read takes its bytes from.
    #[inline(always)]
    pub(crate) fn read_range(&self, address: u8, count: u8) -> Result<Range<usize>, u8> {
        if count > 128 || !within_its_half(address, count) {
            return Err(answer::BAD_ACCESS);
        }
        let base = if address < 128 { 0 } else { self.upper_page() };
        let from = base + address as usize;
        Ok(from..from + count as usize)
    }

    /// What follows when the bytes of a read have been taken.
    #[inline(always)]
    pub(crate) fn after_read(&mut self, range: Range<usize>) {
        if range.start < MODULE_FLAGS_END {
            self.clear_module_flags(&range);
        } else if range.end > LANE_FLAGS {
            self.clear_lane_flags(&range);
        }
    }

    #[inline(always)]
    fn read(&mut self, address: u8, count: u8, buffer: &mut [u8]) -> Outcome {
        let range = match self.read_range(address, count) {
            Ok(range) => range,
            Err(number) => return Outcome::refused(number),
        };
        if buffer.len() < range.len() {
            return Outcome::refused(answer::SHORT_BUFFER);
        }
        let bytes = &mut buffer[..range.len()];
        bytes.copy_from_slice(&self.image[range.clone()]);
        for (place, bits) in NEVER_SHOWN {
            if range.contains(&place) {
                bytes[place - range.start] &= !bits;
            }
        }
        self.after_read(range);
        Outcome { answer: answer::DONE, commission: 0, read: count }
    }

    /// Takes what a range covers of lower 8-9 to 0.
    #[inline(always)]
    fn clear_module_flags(&mut self, range: &Range<usize>) {
        let (first, end) = (range.start.max(MODULE_FLAGS), range.end.min(MODULE_FLAGS_END));
        if first < end {
            self.image[first..end].fill(0);
            self.settle_interrupt();
        }
    }

    /// Of the lane flags that a range covers, those that are on stay.
    #[inline(always)]
    fn clear_lane_flags(&mut self, range: &Range<usize>) {
        let (first, end) = (range.start.max(LANE_FLAGS), range.end.min(LANE_FLAGS_END));
        if first < end {
            let on = &self.working.on[first - LANE_FLAGS..end - LANE_FLAGS];
            self.image[first..end].copy_from_slice(on);
            self.settle_interrupt();
        }
    }

    // ---- triggers and verdicts ----

    /// The lanes with a non-zero active AppSel.
    #[inline(always)]
    pub fn used_lanes(&self) -> u8 {
        with_app_sel(self.word(ACTIVE_DP_CONFIG))
    }

    /// The active path that lane is on, or no lanes if it is unused.
    #[inline(always)]
    pub fn path_of(&self, lane: u8) -> u8 {
        let active = self.word(ACTIVE_DP_CONFIG);
        let own = (active >> (8 * (lane & 7))) as u8;
        if app_sel(own) == 0 {
            0
        } else {
            path_with(active, own)
        }
    }

    pub fn dp_state(&self, lane: u8) -> u8 {
        self.nibble(DP_STATE, lane)
    }

    /// The group of the lowest lane of `selected`, which is not empty: the
    /// selected lanes that are judged together with it.
    #[inline]
    pub fn first_group(&self, set: StagedSet, selected: u8) -> u8 {
        let lane = selected.trailing_zeros() as u8;
        let staged = self.word(set.place(STAGED_DP_CONFIG));
        let own = (staged >> (8 * lane)) as u8;
        if app_sel(own) != 0 {
            selected & path_with(staged, own)
        } else {
            let path = self.path_of(lane);
            selected & !with_app_sel(staged) & (path | 1 << lane)
        }
    }

    /// Writing `selected` to a trigger of a set: every group without a lane
    /// already in progress, from whichever set, is marked, its settings held
    /// and its verdict fixed.
    fn apply(&mut self, set: StagedSet, trigger: Trigger, selected: u8) {
        if trigger == Trigger::ApplyImmediate
            && self.image[CHARACTERISTICS] & STEPPED_CONFIG_ONLY != 0
        {
            return;
        }
        let mut left = selected;
        while left != 0 {
            let group = self.first_group(set, left);
            left &= !group;
            if !self.any_in_progress(group) {
                self.mark(set, trigger, group);
            }
        }
    }

    /// Whether one of these lanes is in progress. By (a) of soundness that
    /// shows in ConfigStatus, where all lanes are seen at once: a nibble of
    /// `others` is 0 exactly for a lane of the set in progress.
    #[inline(always)]
    pub fn any_in_progress(&self, lanes: u8) -> bool {
        const ONES: u32 = 0x1111_1111;
        let other = self.half_word(CONFIG_STATUS) ^ (ONES * config_status::IN_PROGRESS as u32);
        let others = other | !NIBBLES_OF[lanes as usize];
        others.wrapping_sub(ONES) & !others & (8 * ONES) != 0
    }

    fn mark(&mut self, set: StagedSet, trigger: Trigger, group: u8) {
        let verdict = self.verdict(set, trigger, group);
        self.set_nibbles(CONFIG_STATUS, group, config_status::IN_PROGRESS);
        for lane in LaneSet(group) {
            let held = self.staged(set, lane);
            self.working.lanes[lane as usize & 7] =
                Stage::InProgress(Apply { group, trigger, set, held, verdict });
        }
    }

    #[inline]
    fn staged(&self, set: StagedSet, lane: u8) -> Settings {
        let dp_config = self.image[set.place(STAGED_DP_CONFIG) + (lane & 7) as usize];
        Settings {
            app_sel: app_sel(dp_config),
            data_path_id: data_path_id(dp_config),
            explicit_control: explicit_control(dp_config),
            adaptive_eq: self.bit(set.place(STAGED_ADAPTIVE_EQ), lane),
            cdr_tx: self.bit(set.place(STAGED_CDR_TX), lane),
            cdr_rx: self.bit(set.place(STAGED_CDR_RX), lane),
            input_eq: self.nibble(set.place(STAGED_INPUT_EQ), lane),
            pre_cursor: self.nibble(set.place(STAGED_PRE_CURSOR), lane),
            post_cursor: self.nibble(set.place(STAGED_POST_CURSOR), lane),
            amplitude: self.nibble(set.place(STAGED_AMPLITUDE), lane),
        }
    }

    /// Descriptor of an AppSel, if it is present.
    #[inline]
    pub fn descriptor(&self, app_sel: u8) -> Option<Descriptor> {
        find_descriptor(self.image, app_sel)
    }

    /// The verdict on a group that is about to be marked.
    fn verdict(&self, set: StagedSet, trigger: Trigger, group: u8) -> Verdict {
        let first = group.trailing_zeros() as u8;
        let own = self.image[set.place(STAGED_DP_CONFIG) + (first & 7) as usize];
        let judged = if app_sel(own) == 0 {
            self.judge_release(group, first)
        } else {
            self.judge_use(set, trigger, group, own)
        };
        match judged {
            Ok(()) => Verdict::Pass { next: first },
            Err(code) => Verdict::Reject { code },
        }
    }

    fn judge_release(&self, group: u8, first: u8) -> Result<(), u8> {
        let path = self.path_of(first);
        if path != 0 {
            if path != group {
                return Err(config_status::PARTIAL_DATA_PATH);
            }
            if self.dp_state(first) != dp_state::DEACTIVATED {
                return Err(config_status::LANES_IN_USE);
            }
        }
        Ok(())
    }

    /// The first lane's DPConfig byte is `own`.
    fn judge_use(&self, set: StagedSet, trigger: Trigger, group: u8, own: u8) -> Result<(), u8> {
        // The group shares a DataPathID; its AppSels may differ.
        let staged = self.word(set.place(STAGED_DP_CONFIG));
        if with_app_sel(staged ^ everywhere(own)) & group != 0 {
            return Err(config_status::INVALID_DATA_PATH);
        }
        let descriptor = match self.descriptor(app_sel(own)) {
            Some(descriptor) => descriptor,
            None => return Err(config_status::INVALID_APP_SEL),
        };
        let path = match descriptor.lanes_from(data_path_id(own)) {
            Some(path) => path,
            None => return Err(config_status::INVALID_DATA_PATH),
        };
        if group & !path != 0 {
            return Err(config_status::INVALID_DATA_PATH);
        }
        if group != path {
            return Err(config_status::PARTIAL_DATA_PATH);
        }
        // If the path of one used lane is the group, it is that of all lanes.
        let used = self.used_lanes() & group;
        if used != 0 && self.path_of(used.trailing_zeros() as u8) != group {
            return Err(config_status::LANES_IN_USE);
        }
        let explicit = lanes_marked(staged << 7) & group;
        if !LaneSet(explicit).all(|lane| self.settings_allowed(set, lane)) {
            return Err(config_status::INVALID_SI);
        }
        // From here the group is either unused or exactly one active path,
        // so its first lane speaks for all.
        let first = group.trailing_zeros() as u8;
        match self.dp_state(first) {
            dp_state::DEACTIVATED => Ok(()),
            dp_state::INITIALIZED | dp_state::ACTIVATED => {
                let active = self.image[ACTIVE_DP_CONFIG + (first & 7) as usize];
                if trigger == Trigger::ApplyImmediate && app_sel(active) != app_sel(own) {
                    Err(config_status::REJECTED)
                } else {
                    Ok(())
                }
            }
            _ => Err(config_status::REJECTED),
        }
    }

    /// Whether the staged signal integrity settings of a lane, which only
    /// matter with ExplicitControl, keep to the advertised limits.
    #[inline]
    fn settings_allowed(&self, set: StagedSet, lane: u8) -> bool {
        let eq_and_amplitudes = self.image[EQ_MAX_AND_AMPLITUDES];
        let cursors = self.image[CURSOR_MAX];
        let amplitude = self.nibble(set.place(STAGED_AMPLITUDE), lane);
        self.nibble(set.place(STAGED_INPUT_EQ), lane) <= eq_and_amplitudes & 0xF
            && self.nibble(set.place(STAGED_PRE_CURSOR), lane) <= cursors & 0xF
            && self.nibble(set.place(STAGED_POST_CURSOR), lane) <= cursors >> 4
            && amplitude <= 3
            && eq_and_amplitudes >> (4 + amplitude) & 1 != 0
    }

    // ---- work ----

    #[inline(always)]
    pub(crate) fn work<const LATE: bool>(&mut self, lane: u8) -> Outcome {
        if lane > 7 {
            return Outcome::refused(answer::NO_SUCH_PLACE);
        }
        let apply = match self.working.lanes[lane as usize & 7] {
            Stage::InProgress(apply) => apply,
            Stage::Idle => return Outcome::refused(answer::NOTHING_THERE),
        };
        match apply.verdict {
            Verdict::Reject { code } => {
                self.close(apply.group, code);
                Outcome::DONE
            }
            Verdict::Pass { next } if next != NO_NEXT_LANE => {
                if !LATE {
                    self.copy(next);
                }
                self.advance(apply.group, next);
                Outcome::DONE
            }
            Verdict::Pass { .. } => {
                if LATE {
                    for lane in LaneSet(apply.group) {
                        self.copy(lane);
                    }
                }
                self.close(apply.group, config_status::SUCCESS);
                let commission = self.account_for_pass(&apply);
                Outcome { answer: answer::DONE, commission, read: 0 }
            }
        }
    }

    /// Moves a passing group on to its next lane after `copied`.
    #[inline(always)]
    fn advance(&mut self, group: u8, copied: u8) {
        let above = group & !((2u32 << (copied & 7)) - 1) as u8;
        // An empty byte has eight trailing zeros, which is NO_NEXT_LANE.
        let next = above.trailing_zeros() as u8;
        for lane in LaneSet(group) {
            if let Stage::InProgress(apply) = &mut self.working.lanes[lane as usize & 7] {
                apply.verdict = Verdict::Pass { next };
            }
        }
    }

    /// Copies a lane's held settings into the active set.
    #[inline(always)]
    fn copy(&mut self, lane: u8) {
        let new = match self.working.lanes[lane as usize & 7] {
            Stage::InProgress(apply) => as_copied(apply.held),
            Stage::Idle => return,
        };
        self.image[ACTIVE_DP_CONFIG + (lane & 7) as usize] =
            new.app_sel << 4 | new.data_path_id << 1 | new.explicit_control as u8;
        self.set_bit(ACTIVE_ADAPTIVE_EQ, lane, new.adaptive_eq);
        self.set_bit(ACTIVE_CDR_TX, lane, new.cdr_tx);
        self.set_bit(ACTIVE_CDR_RX, lane, new.cdr_rx);
        self.set_nibble(ACTIVE_INPUT_EQ, lane, new.input_eq);
        self.set_nibble(ACTIVE_PRE_CURSOR, lane, new.pre_cursor);
        self.set_nibble(ACTIVE_POST_CURSOR, lane, new.post_cursor);
        self.set_nibble(ACTIVE_AMPLITUDE, lane, new.amplitude);
    }

    /// Ends a group's Apply with a ConfigStatus code.
    #[inline(always)]
    fn close(&mut self, group: u8, code: u8) {
        self.set_nibbles(CONFIG_STATUS, group, code);
        for lane in LaneSet(group) {
            self.working.lanes[lane as usize & 7] = Stage::Idle;
        }
    }

    /// DPInitPending of a group that has just passed; gives the lanes that
    /// the hardware has to commission.
    #[inline(always)]
    fn account_for_pass(&mut self, apply: &Apply) -> u8 {
        if apply.held.app_sel == 0 {
            self.image[DP_INIT_PENDING] &= !apply.group;
            return 0;
        }
        match apply.trigger {
            Trigger::ApplyDPInit => {
                self.image[DP_INIT_PENDING] |= apply.group;
                0
            }
            Trigger::ApplyImmediate => match self.dp_state(apply.group.trailing_zeros() as u8) {
                dp_state::INITIALIZED | dp_state::ACTIVATED => apply.group,
                _ => 0,
            },
        }
    }

    // ---- the module's own states ----

    #[inline(always)]
    fn module_state(&self) -> u8 {
        (self.image[MODULE_STATE] & MODULE_STATE_BITS) >> MODULE_STATE_SHIFT
    }

    /// LowPwrS: low power is asked for in lower 26, or by the line where that
    /// lets it.
    #[inline(always)]
    fn low_power(&self) -> bool {
        let controls = self.image[MODULE_CONTROLS];
        controls & LOW_PWR_REQUEST_SW != 0
            || controls & LOW_PWR_ALLOW_REQUEST_HW != 0 && self.working.line
    }

    /// One state on, if there is a way; the flag rises where a steady state is
    /// entered that is not to be left at once.
    pub(crate) fn module_event(&mut self) -> Outcome {
        use module_state::*;
        let low_power = self.low_power();
        let state = self.module_state();
        let next = match state {
            LOW_PWR if !low_power => PWR_UP,
            PWR_UP if low_power => PWR_DN,
            PWR_UP => READY,
            READY if low_power && self.image[DP_STATE..DP_STATE + 4] == ALL_DEACTIVATED => PWR_DN,
            PWR_DN => LOW_PWR,
            _ => return Outcome::DONE,
        };
        self.image[MODULE_STATE] =
            (self.image[MODULE_STATE] & !MODULE_STATE_BITS) | next << MODULE_STATE_SHIFT;
        if next == READY || next == LOW_PWR && low_power {
            self.image[MODULE_FLAGS] |= MODULE_STATE_CHANGED;
            self.settle_interrupt();
        }
        Outcome::DONE
    }

    pub(crate) fn line(&mut self, on: bool) -> Outcome {
        self.working.line = on;
        Outcome::DONE
    }

    // ---- hardware, conditions, samples ----

    #[inline(always)]
    pub(crate) fn hardware(&mut self, lane: u8) -> Outcome {
        if lane > 7 {
            return Outcome::refused(answer::NO_SUCH_PLACE);
        }
        let path = self.path_of(lane);
        if self.any_in_progress(path | 1 << lane) {
            return Outcome::refused(answer::BUSY);
        }
        if path == 0 {
            return Outcome::refused(answer::NOTHING_THERE);
        }
        use dp_state::*;
        let held_down = self.module_state() != module_state::READY || self.low_power();
        let deinit = held_down || self.image[DP_DEINIT] & path != 0;
        let again = deinit || self.image[DP_INIT_PENDING] & path != 0;
        let muted = self.image[OUTPUT_DISABLE_TX] | self.image[OUTPUT_SQUELCH_FORCE_TX];
        let deactivate = again || muted & path != 0;
        let state = self.dp_state(lane);
        let next = match state {
            DEACTIVATED if !deinit => INIT,
            INIT if deinit => DEINIT,
            INIT => {
                self.image[DP_INIT_PENDING] &= !path;
                INITIALIZED
            }
            INITIALIZED if again => DEINIT,
            INITIALIZED if !deactivate => TX_TURN_ON,
            TX_TURN_ON if deactivate => TX_TURN_OFF,
            TX_TURN_ON => ACTIVATED,
            ACTIVATED if deactivate => TX_TURN_OFF,
            TX_TURN_OFF => INITIALIZED,
            DEINIT => DEACTIVATED,
            _ => state,
        };
        if next != state {
            self.set_nibbles(DP_STATE, path, next);
            if let DEACTIVATED | INITIALIZED | ACTIVATED = next {
                self.raise(DP_STATE_CHANGED, path);
            }
        }
        Outcome::DONE
    }

    #[inline(always)]
    pub(crate) fn condition(&mut self, flag_byte: u8, mask: u8) -> Outcome {
        match condition_flag(flag_byte) {
            Some(flag) => {
                self.raise(flag, mask);
                Outcome::DONE
            }
            None => Outcome::refused(answer::NO_SUCH_PLACE),
        }
    }

    /// The flags of the on mask rise; those of the off mask stay till a read.
    #[inline(always)]
    pub(crate) fn lasting_condition(&mut self, flag_byte: u8, on: u8, off: u8) -> Outcome {
        let flag = match condition_flag(flag_byte) {
            Some(flag) => flag,
            None => return Outcome::refused(answer::NO_SUCH_PLACE),
        };
        self.raise(flag, on);
        let lasting = &mut self.working.on[flag - LANE_FLAGS];
        *lasting = (*lasting & !off) | on;
        Outcome::DONE
    }

    #[inline(always)]
    pub(crate) fn sample(&mut self, lane: u8, value: u16) -> Outcome {
        if lane > 7 {
            return Outcome::refused(answer::NO_SUCH_PLACE);
        }
        let place = RX_POWER + 2 * (lane & 7) as usize;
        self.image[place..place + 2].copy_from_slice(&value.to_be_bytes());
        let holds = [
            value > u16_at(self.image, RX_POWER_HIGH_ALARM),
            value < u16_at(self.image, RX_POWER_LOW_ALARM),
            value > u16_at(self.image, RX_POWER_HIGH_WARNING),
            value < u16_at(self.image, RX_POWER_LOW_WARNING),
        ];
        // The four flag bytes are neighbours in this order: one word, as are
        // their masks and what is on of them.
        let raised = u32::from_le_bytes(holds.map(|holds| holds as u8)) << lane;
        let of_the_lane = 0x0101_0101 << lane;
        let flags = self.half_word(RX_POWER_HIGH_ALARM_FLAG);
        self.set_half_word(RX_POWER_HIGH_ALARM_FLAG, flags | raised);
        if raised & !self.half_word(mask_of(RX_POWER_HIGH_ALARM_FLAG)) != 0 {
            self.image[MODULE_STATE] &= !INTERRUPT_DEASSERTED;
        }
        let first = RX_POWER_HIGH_ALARM_FLAG - LANE_FLAGS;
        let on = &mut self.working.on[first..first + 4];
        let lasting = u32::from_le_bytes([on[0], on[1], on[2], on[3]]);
        on.copy_from_slice(&((lasting & !of_the_lane) | raised).to_le_bytes());
        Outcome::DONE
    }
}

/// Where the mask of a lane flag byte lies.
#[inline(always)]
const fn mask_of(flag: usize) -> usize {
    flag - LANE_FLAGS + LANE_MASKS
}

/// Where a flag byte that conditions raise lies; none for any other byte.
#[inline(always)]
fn condition_flag(flag_byte: u8) -> Option<usize> {
    match flag_byte {
        135..=138 | 147 | 148 => Some(P11 + flag_byte as usize),
        _ => None,
    }
}

/// What copying held settings puts into the active set: all zeros for AppSel
/// 0, the module's own choice (bits on, targets 0) without ExplicitControl,
/// else the settings themselves.
#[inline]
pub fn as_copied(held: Settings) -> Settings {
    if held.app_sel == 0 {
        Settings::RELEASED
    } else if held.explicit_control {
        held
    } else {
        Settings {
            adaptive_eq: true,
            cdr_tx: true,
            cdr_rx: true,
            input_eq: 0,
            pre_cursor: 0,
            post_cursor: 0,
            amplitude: 0,
            ..held
        }
    }
}

/// An access is not empty and ends in the half it begins in.
#[inline(always)]
fn within_its_half(address: u8, count: u8) -> bool {
    count != 0 && (address & 127) as u32 + count as u32 <= 128
}
