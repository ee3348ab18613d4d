//! Where things sit in the 896-byte memory image, and the codes they carry.
//!
//! The image is lower memory followed by pages 00h, 01h, 02h, 10h, 11h and
//! 9Fh, 128 bytes each. An upper address runs from 128 to 255, so with the page
//! bases below a register's place in the image is simply `base + address`.

/// Length of the memory image.
pub const IMAGE_LEN: usize = 896;
/// Number of lanes of the one bank.
pub const LANES: usize = 8;
/// The "next lane" of a pass that has copied all its lanes.
pub const NO_NEXT_LANE: u8 = 8;

/// Page 00h: base to which an upper address is added.
pub const P00: usize = 0;
/// Page 01h.
pub const P01: usize = 128;
/// Page 02h.
pub const P02: usize = 256;
/// Page 10h.
pub const P10: usize = 384;
/// Page 11h.
pub const P11: usize = 512;
/// Page 9Fh.
pub const P9F: usize = 640;

// ---- lower memory ----

/// Lower 2: bit 7 MemoryModel (1 is flat), bit 6 SteppedConfigOnly.
pub const CHARACTERISTICS: usize = 2;
pub const FLAT_MEMORY: u8 = 0x80;
pub const STEPPED_CONFIG_ONLY: u8 = 0x40;
/// Lower 3: ModuleState in bits 3-1, InterruptDeasserted in bit 0.
pub const MODULE_STATE: usize = 3;
pub const INTERRUPT_DEASSERTED: u8 = 0x01;
/// Where the module's state stands in lower 3.
pub const MODULE_STATE_SHIFT: u8 = 1;
pub const MODULE_STATE_BITS: u8 = 0x0E;
/// Lower 8-9: module flags, cleared by reading.
pub const MODULE_FLAGS: usize = 8;
pub const MODULE_FLAGS_END: usize = 10;
/// Bit 6 of lower 8: a command message has been dealt with.
pub const COMMAND_COMPLETE: u8 = 0x40;
/// Bit 0 of lower 8: the module has come to a state that it may stay in.
pub const MODULE_STATE_CHANGED: u8 = 0x01;
/// Lower 26: bit 6 lets the low-power line have a say, bit 4 asks for low
/// power, and bit 3, which is never stored, resets the module.
pub const MODULE_CONTROLS: usize = 26;
pub const LOW_PWR_ALLOW_REQUEST_HW: u8 = 0x40;
pub const LOW_PWR_REQUEST_SW: u8 = 0x10;
pub const SOFTWARE_RESET: u8 = 0x08;
/// Lower 31: masks of lower 8.
pub const MODULE_MASKS: usize = 31;
/// Lower 37: how the last command message ended.
pub const COMMAND_STATUS: usize = 37;
/// Lower 39-40: version of the firmware, major and minor.
pub const FIRMWARE_VERSION: usize = 39;
/// Lower 86: Application descriptors 1 to 8, of four bytes each.
pub const DESCRIPTORS: usize = 86;
/// A descriptor that begins with this ends the list.
pub const DESCRIPTOR_END: u8 = 0xFF;
pub const BANK_SELECT: usize = 126;
pub const PAGE_SELECT: usize = 127;

// ---- page 01h: signal integrity limits ----

/// Bits 3-0 TxInputEqMax, bit 4+c says that amplitude code c is supported.
pub const EQ_MAX_AND_AMPLITUDES: usize = P01 + 153;
/// Bits 3-0 RxOutputEqPreCursorMax, bits 7-4 RxOutputEqPostCursorMax.
pub const CURSOR_MAX: usize = P01 + 154;

// ---- page 01h: the rest of the list of Applications ----

/// 01h:223: Application descriptors 9 to 15, the last byte at 01h:250.
pub const MORE_DESCRIPTORS: usize = P01 + 223;

// ---- page 02h: received power limits, U16 in 0.1 uW, high byte first ----

pub const RX_POWER_HIGH_ALARM: usize = P02 + 192;
pub const RX_POWER_LOW_ALARM: usize = P02 + 194;
pub const RX_POWER_HIGH_WARNING: usize = P02 + 196;
pub const RX_POWER_LOW_WARNING: usize = P02 + 198;

// ---- page 10h: controls and the staged control sets ----

pub const DP_DEINIT: usize = P10 + 128;
/// A bit a lane: its output must not shine.
pub const OUTPUT_DISABLE_TX: usize = P10 + 130;
/// A bit a lane: its output is held at squelch.
pub const OUTPUT_SQUELCH_FORCE_TX: usize = P10 + 132;
// From here to the amplitudes: registers of Staged Control Set 0. Those of set 1
// are where `StagedSet::place` says.
pub const APPLY_DP_INIT: usize = P10 + 143;
pub const APPLY_IMMEDIATE: usize = P10 + 144;
/// Eight bytes, one a lane: AppSel 7-4, DataPathID 3-1, ExplicitControl 0.
pub const STAGED_DP_CONFIG: usize = P10 + 145;
pub const STAGED_ADAPTIVE_EQ: usize = P10 + 153;
pub const STAGED_INPUT_EQ: usize = P10 + 156;
pub const STAGED_CDR_TX: usize = P10 + 160;
pub const STAGED_CDR_RX: usize = P10 + 161;
pub const STAGED_PRE_CURSOR: usize = P10 + 162;
pub const STAGED_POST_CURSOR: usize = P10 + 166;
pub const STAGED_AMPLITUDE: usize = P10 + 170;
/// How far each of them lies higher in Staged Control Set 1.
const SET_1_ABOVE: usize = 35;
/// Masks of the twenty flag bytes 11h:134-153, in the same order.
pub const LANE_MASKS: usize = P10 + 213;

// ---- page 11h: states, flags, monitors, status, the active control set ----

/// Eight nibbles, the even lane in the low half.
pub const DP_STATE: usize = P11 + 128;
/// Twenty flag bytes, 11h:134-153, cleared by reading.
pub const LANE_FLAGS: usize = P11 + 134;
pub const LANE_FLAGS_END: usize = P11 + 154;
pub const LANE_FLAG_BYTES: usize = LANE_FLAGS_END - LANE_FLAGS;
pub const DP_STATE_CHANGED: usize = P11 + 134;
pub const RX_POWER_HIGH_ALARM_FLAG: usize = P11 + 149;
pub const RX_POWER_LOW_ALARM_FLAG: usize = P11 + 150;
pub const RX_POWER_HIGH_WARNING_FLAG: usize = P11 + 151;
pub const RX_POWER_LOW_WARNING_FLAG: usize = P11 + 152;
pub const RX_POWER: usize = P11 + 186;
/// Eight nibbles, the even lane in the low half.
pub const CONFIG_STATUS: usize = P11 + 202;
pub const ACTIVE_DP_CONFIG: usize = P11 + 206;
pub const ACTIVE_ADAPTIVE_EQ: usize = P11 + 214;
pub const ACTIVE_INPUT_EQ: usize = P11 + 217;
pub const ACTIVE_CDR_TX: usize = P11 + 221;
pub const ACTIVE_CDR_RX: usize = P11 + 222;
pub const ACTIVE_PRE_CURSOR: usize = P11 + 223;
pub const ACTIVE_POST_CURSOR: usize = P11 + 227;
pub const ACTIVE_AMPLITUDE: usize = P11 + 231;
pub const DP_INIT_PENDING: usize = P11 + 235;

// ---- page 9Fh: command messages ----

/// Two bytes, high byte first; writing the second one runs the command.
pub const COMMAND_NUMBER: usize = P9F + 128;
pub const COMMAND_TRIGGER: usize = P9F + 129;
/// Length of the body at 136, which is at most `BODY_ROOM`.
pub const BODY_LENGTH: usize = P9F + 132;
pub const CHECK_CODE: usize = P9F + 133;
pub const REPLY_LENGTH: usize = P9F + 134;
pub const REPLY_CODE: usize = P9F + 135;
/// Body and reply share one place.
pub const BODY: usize = P9F + 136;
pub const BODY_ROOM: usize = 120;

/// Module states (lower 3, bits 3-1).
pub mod module_state {
    pub const LOW_PWR: u8 = 1;
    pub const PWR_UP: u8 = 2;
    pub const READY: u8 = 3;
    pub const PWR_DN: u8 = 4;
}

/// Data path states (11h:128-131).
pub mod dp_state {
    pub const DEACTIVATED: u8 = 1;
    pub const INIT: u8 = 2;
    pub const DEINIT: u8 = 3;
    pub const ACTIVATED: u8 = 4;
    pub const TX_TURN_ON: u8 = 5;
    pub const TX_TURN_OFF: u8 = 6;
    pub const INITIALIZED: u8 = 7;
}

/// ConfigStatus codes (11h:202-205).
pub mod config_status {
    pub const SUCCESS: u8 = 1;
    pub const REJECTED: u8 = 2;
    pub const INVALID_APP_SEL: u8 = 3;
    pub const INVALID_DATA_PATH: u8 = 4;
    pub const INVALID_SI: u8 = 5;
    pub const LANES_IN_USE: u8 = 6;
    pub const PARTIAL_DATA_PATH: u8 = 7;
    pub const IN_PROGRESS: u8 = 12;
}

/// Numbers of the command messages that there are (9Fh:128-129).
pub mod command {
    pub const QUERY_STATUS: u16 = 0x0000;
    pub const MODULE_FEATURES: u16 = 0x0040;
    pub const FIRMWARE_FEATURES: u16 = 0x0041;
    pub const FIRMWARE_INFO: u16 = 0x0100;
}

/// How a command message ends (lower 37).
pub mod command_status {
    pub const SUCCESS: u8 = 0x01;
    pub const UNKNOWN: u8 = 0x41;
    pub const WRONG_CODE: u8 = 0x45;
}

/// The numbers the desk answers with.
pub mod answer {
    pub const DONE: u8 = 0;
    pub const IMAGE_LENGTH: u8 = 1;
    pub const FLAT: u8 = 2;
    pub const NOT_SOUND: u8 = 3;
    pub const BAD_ACCESS: u8 = 4;
    pub const SHORT_BUFFER: u8 = 5;
    pub const NOTHING_THERE: u8 = 6;
    pub const BUSY: u8 = 7;
    pub const NO_SUCH_PLACE: u8 = 8;
    pub const MALFORMED: u8 = 9;
    pub const BACK_TO_FRONT: u8 = 10;
}

/// One of the two Staged Control Sets, which have the same registers.
#[derive(Clone, Copy, PartialEq, Eq, Debug)]
pub enum StagedSet {
    Zero,
    One,
}

impl StagedSet {
    pub const BOTH: [StagedSet; 2] = [StagedSet::Zero, StagedSet::One];

    /// Where the set has a register, given where set 0 has it.
    #[inline(always)]
    pub const fn place(self, in_set_0: usize) -> usize {
        in_set_0 + SET_1_ABOVE * self as usize
    }
}

/// Where the descriptor of an AppSel of 1 to 15 begins.
#[inline(always)]
pub fn descriptor_place(app_sel: u8) -> usize {
    match app_sel as usize {
        low @ 1..=8 => DESCRIPTORS + 4 * (low - 1),
        high => MORE_DESCRIPTORS + 4 * (high - 9),
    }
}

/// AppSel of a DPConfig byte.
#[inline(always)]
pub fn app_sel(dp_config: u8) -> u8 {
    dp_config >> 4
}

/// DataPathID of a DPConfig byte.
#[inline(always)]
pub fn data_path_id(dp_config: u8) -> u8 {
    dp_config >> 1 & 7
}

/// ExplicitControl of a DPConfig byte.
#[inline(always)]
pub fn explicit_control(dp_config: u8) -> bool {
    dp_config & 1 != 0
}
