//! Which bits of the image belong to a lane, register by register.

use second::lanes::LaneSet;
use second::registers::*;
use std::ops::RangeInclusive;

/// Of each byte of the image, some of its bits.
pub type Bits = [u8; IMAGE_LEN];

/// Bytes of a page with a bit for each lane.
const BITS: [(usize, RangeInclusive<usize>); 14] = [
    (P10, 128..=132), (P10, 137..=139), (P10, 143..=144), (P10, 153..=153), (P10, 160..=161),
    (P10, 178..=179), (P10, 188..=188), (P10, 195..=196), (P10, 213..=232),
    (P11, 132..=153), (P11, 214..=214), (P11, 221..=221), (P11, 222..=222), (P11, 235..=235),
];

/// Where four bytes begin that have a nibble for each lane, the even one low.
const NIBBLES: [usize; 14] = [
    P10 + 156, P10 + 162, P10 + 166, P10 + 170, P10 + 191, P10 + 197, P10 + 201, P10 + 205,
    P11 + 128, P11 + 202, P11 + 217, P11 + 223, P11 + 227, P11 + 231,
];

/// Where eight bytes begin, one for each lane.
const BYTES: [usize; 3] = [P10 + 145, P10 + 180, P11 + 206];

/// Where sixteen bytes begin, two for each lane.
const BYTE_PAIRS: [usize; 1] = [P11 + 186];

/// The bits that belong to a lane of a set.
pub fn bits_of(lanes: u8) -> Bits {
    let mut bits = [0; IMAGE_LEN];
    for (page, addresses) in BITS {
        addresses.for_each(|address| bits[page + address] = lanes);
    }
    for lane in LaneSet(lanes).map(usize::from) {
        for first in NIBBLES {
            bits[first + lane / 2] |= 0x0F << (4 * (lane % 2));
        }
        for first in BYTES {
            bits[first + lane] = 0xFF;
        }
        for first in BYTE_PAIRS {
            bits[first + 2 * lane..][..2].fill(0xFF);
        }
    }
    bits
}
