//! Command messages, said plainly: what a write on page 9Fh leaves. Held
//! against the core on every such write.

use crate::rules::interrupts;
use crate::state::State;
use second::registers::*;

/// Whether a write that is done runs a command.
pub fn runs_command(before: &State, address: u8, count: usize) -> bool {
    before.page() == 0x9F && (128..=129).contains(&address) && address as usize + count > 129
}

/// A byte of page 9Fh.
pub fn at(image: &[u8; IMAGE_LEN], address: usize) -> u8 {
    image[P9F + address]
}

/// The number of the message that lies on page 9Fh.
pub fn number(image: &[u8; IMAGE_LEN]) -> u16 {
    at(image, 128) as u16 * 256 + at(image, 129) as u16
}

/// 255 less the sum of some bytes of page 9Fh modulo 256.
pub fn code_over(image: &[u8; IMAGE_LEN], addresses: impl Iterator<Item = usize>) -> u8 {
    let sum: usize = addresses.map(|address| at(image, address) as usize).sum();
    255 - (sum % 256) as u8
}

/// Whether the message that lies on page 9Fh has the right check code.
pub fn code_is_right(image: &[u8; IMAGE_LEN]) -> bool {
    let length = at(image, 132) as usize;
    length <= 120 && at(image, 133) == code_over(image, (128..133).chain(136..136 + length))
}

/// The reply to a command that there is.
pub fn reply(image: &[u8; IMAGE_LEN], number: u16) -> Option<Vec<u8>> {
    match number {
        0x0000 => Some(vec![2, 0]),
        0x0040 => {
            let mut reply = vec![0; 36];
            reply[2] = 0x01;
            reply[10] = 0x03;
            Some(reply)
        }
        0x0041 => Some(vec![0; 18]),
        0x0100 => {
            let mut reply = vec![0; 110];
            reply[1] = 0x04;
            reply[74] = image[39];
            reply[75] = image[40];
            Some(reply)
        }
        _ => None,
    }
}

/// The image that a write on page 9Fh leaves: its bytes are stored, then the
/// command runs if there is one, then the interrupt is settled.
pub fn left_by_write(before: &State, address: u8, data: &[u8]) -> [u8; IMAGE_LEN] {
    let mut image = before.image;
    for (place, &byte) in (P9F + address as usize..).zip(data) {
        image[place] = byte;
    }
    if runs_command(before, address, data.len()) {
        let reply = reply(&image, number(&image)).filter(|_| code_is_right(&image));
        image[37] = match reply {
            Some(_) => 0x01,
            None if code_is_right(&image) => 0x41,
            None => 0x45,
        };
        let reply = reply.unwrap_or_default();
        image[P9F + 134] = reply.len() as u8;
        for (k, &byte) in reply.iter().enumerate() {
            image[P9F + 136 + k] = byte;
        }
        image[P9F + 135] = match reply.len() {
            0 => 0,
            length => code_over(&image, 136..136 + length),
        };
        image[8] |= 0x40;
    }
    image[3] = image[3] & 0xFE | !interrupts(&image) as u8;
    image
}
