//! Command messages on page 9Fh: a message as it lies there is checked, run
//! and answered in its place.

use crate::registers::*;

/// The commands that there are; the feature map of 0040h is made of them.
const SUPPORTED: [u16; 4] = [
    command::QUERY_STATUS,
    command::MODULE_FEATURES,
    command::FIRMWARE_FEATURES,
    command::FIRMWARE_INFO,
];

/// A reply under construction. What nothing fixes is 0.
struct Reply {
    bytes: [u8; BODY_ROOM],
    length: usize,
}

/// Runs the message that lies on page 9Fh. Besides the page's reply it touches
/// lower 37 and the completion flag; the interrupt is settled by the caller.
pub fn run(image: &mut [u8; IMAGE_LEN]) {
    let number = u16::from_be_bytes([image[COMMAND_NUMBER], image[COMMAND_TRIGGER]]);
    let status = if !code_is_right(image) {
        fail(image, command_status::WRONG_CODE)
    } else if !SUPPORTED.contains(&number) {
        fail(image, command_status::UNKNOWN)
    } else {
        answer_with(image, &reply_to(number, image))
    };
    image[COMMAND_STATUS] = status;
    image[MODULE_FLAGS] |= COMMAND_COMPLETE;
}

/// A body that does not fit has no right code.
fn code_is_right(image: &[u8; IMAGE_LEN]) -> bool {
    let length = image[BODY_LENGTH] as usize;
    length <= BODY_ROOM && {
        let header = sum_of(&image[COMMAND_NUMBER..=BODY_LENGTH]);
        let body = sum_of(&image[BODY..BODY + length]);
        image[CHECK_CODE] == !header.wrapping_add(body)
    }
}

/// The sum of bytes modulo 256; its complement is their check code.
fn sum_of(bytes: &[u8]) -> u8 {
    bytes.iter().fold(0, |sum: u8, &byte| sum.wrapping_add(byte))
}

/// There is no reply, and the body stays.
fn fail(image: &mut [u8; IMAGE_LEN], status: u8) -> u8 {
    image[REPLY_LENGTH] = 0;
    image[REPLY_CODE] = 0;
    status
}

/// Past the reply the body stays.
fn answer_with(image: &mut [u8; IMAGE_LEN], reply: &Reply) -> u8 {
    let bytes = &reply.bytes[..reply.length];
    image[REPLY_LENGTH] = reply.length as u8;
    image[REPLY_CODE] = !sum_of(bytes);
    image[BODY..BODY + reply.length].copy_from_slice(bytes);
    command_status::SUCCESS
}

/// What a supported command is answered with; addresses are those of the page.
fn reply_to(number: u16, image: &[u8; IMAGE_LEN]) -> Reply {
    let mut bytes = [0; BODY_ROOM];
    let mut put = |address: usize, byte: u8| bytes[address - 136] |= byte;
    let length = match number {
        command::QUERY_STATUS => {
            // Its own length; the status stays 0.
            put(136, 2);
            2
        }
        command::MODULE_FEATURES => {
            // A bit for each command up to 00FFh.
            for &one in SUPPORTED.iter().filter(|&&one| one < 256) {
                put(138 + one as usize / 8, 1 << (one % 8));
            }
            36
        }
        command::FIRMWARE_FEATURES => 18,
        _ => {
            // Firmware information: of the factory image alone.
            put(137, 0x04);
            put(210, image[FIRMWARE_VERSION]);
            put(211, image[FIRMWARE_VERSION + 1]);
            110
        }
    };
    Reply { bytes, length }
}
