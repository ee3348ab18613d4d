//! Images that nights begin with.

use crate::rng::Rng;
use crate::rules::DESCRIPTOR_PLACES;
use second::registers::*;

/// An image as a night begins with: some Applications, limits, thresholds in
/// order, so that start takes it.
pub fn make_image(rng: &mut Rng, wild: bool) -> [u8; IMAGE_LEN] {
    let mut image = [0u8; IMAGE_LEN];
    if rng.percent(40) {
        for byte in image[..P9F + 128].iter_mut() {
            *byte = rng.byte();
        }
    }
    image[2] = rng.byte() & 0x3F | if rng.percent(12) { 0x40 } else { 0 };
    let end = if rng.percent(50) { 9 } else { 1 + rng.below(10) };
    for a in 1..=8 {
        put_descriptor(rng, &mut image, a, end);
    }
    // The list goes on in most images, but not in those for measuring. From
    // numbers of its own: the rest of a seed's night does not depend on it.
    let mut more = Rng(!rng.0);
    if wild && more.percent(75) {
        let end = if more.percent(50) { 16 } else { 9 + more.below(7) };
        for a in 9..=15 {
            put_descriptor(&mut more, &mut image, a, end);
        }
    }
    // Start clears page 9Fh, and what it keeps of lower 39-40 is told in a reply.
    if wild && more.percent(60) {
        for place in (39..41).chain(P9F + 128..IMAGE_LEN) {
            image[place] = more.byte();
        }
    }
    image[P01 + 153] = rng.pick(&[0xFF, 0xF5, 0x73, 0x3F, 0x00, 0xF9]);
    image[P01 + 154] = rng.pick(&[0xFF, 0x77, 0x52, 0x25, 0x00, 0x7F]);
    let mut rising = match rng.below(4) {
        0 => [1000, 1500, 15000, 20000],
        1 => [0x0102, 0x0201, 0x1200, 0x1234],
        2 => level_limits(rng.clone()),
        _ => [rng.next() as u16, rng.next() as u16, rng.next() as u16, rng.next() as u16],
    };
    rising.sort_unstable();
    put_limits(&mut image, rising);
    image
}

/// How many lanes a path has in an image for Applies, by AppSel from 1 on.
pub const PATH_LENGTHS: [usize; 4] = [1, 2, 4, 8];

/// An image for measuring Applies: both triggers act, and paths of every length
/// may begin wherever eight lanes can be cut into them. No more Applications.
pub fn make_image_for_applies(rng: &mut Rng) -> [u8; IMAGE_LEN] {
    let mut image = make_image(rng, false);
    image[2] &= !0x40;
    for (&length, place) in PATH_LENGTHS.iter().zip(DESCRIPTOR_PLACES) {
        let first_lanes = (0..8).step_by(length).fold(0, |lanes, lane| lanes | 1 << lane);
        image[place..place + 4].copy_from_slice(&[0x11, 0, (length as u8) << 4, first_lanes]);
    }
    image[DESCRIPTOR_PLACES[PATH_LENGTHS.len()]] = 0xFF;
    image
}

/// Puts a descriptor of a usual or odd shape, or one that ends the list.
fn put_descriptor(rng: &mut Rng, image: &mut [u8; IMAGE_LEN], a: usize, end: usize) {
    // Usual shapes of an Application: lane count, allowed first lanes.
    const SHAPES: [(u8, u8); 8] = [
        (8, 0x01), (4, 0x11), (2, 0x55), (1, 0xFF), (4, 0x1F), (2, 0x7F), (3, 0x09), (1, 0x0F),
    ];
    let (mut count, mut first) = SHAPES[if rng.percent(60) { (a - 1) % 8 } else { rng.below(8) }];
    if rng.percent(8) {
        count = rng.pick(&[0, 5, 6, 7, 9, 15]);
    }
    if rng.percent(8) {
        first = rng.byte();
    }
    let place = DESCRIPTOR_PLACES[a - 1];
    image[place] = if a == end { 0xFF } else { rng.byte() & 0x7F };
    image[place + 1] = rng.byte();
    image[place + 2] = count << 4 | rng.byte() & 0x0F;
    image[place + 3] = first;
}

/// Limits of received power in rising order: low alarm, low warning, high
/// warning, high alarm. In memory they stand otherwise.
pub fn put_limits(image: &mut [u8], rising: [u16; 4]) {
    let [low_alarm, low_warning, high_warning, high_alarm] = rising;
    let in_memory = [high_alarm, low_alarm, high_warning, low_warning];
    for (which, limit) in in_memory.iter().enumerate() {
        image[P02 + 192 + 2 * which..][..2].copy_from_slice(&limit.to_be_bytes());
    }
}

/// The limit of received power at an address of page 02h.
pub fn limit(image: &[u8], address: usize) -> u16 {
    image[P02 + address] as u16 * 256 + image[P02 + address + 1] as u16
}

/// The four limits, in rising order.
pub fn limits(image: &[u8]) -> [u16; 4] {
    [194, 198, 196, 192].map(|address| limit(image, address))
}

/// Limits back to front: the first of the three comparisons alone and by 1,
/// the second, the third, or all of them.
pub fn turned_round(mut rising: [u16; 4], which: usize) -> [u16; 4] {
    if which == 3 {
        return [20000, 15000, 1500, 1000];
    }
    rising[which + 1] = rising[which + 1].min(65534);
    rising[which] = rising[which + 1] + 1;
    rising
}

/// Limits in order, some or all of them equal. Drawn from a copy: what else a
/// seed gives does not depend on them.
fn level_limits(mut rng: Rng) -> [u16; 4] {
    let limit = rng.next() as u16;
    let (below, above) = (limit / 2, limit.saturating_add(5000));
    match rng.below(5) {
        0 => [limit; 4],
        1 => [limit, limit, above, above.saturating_add(1)],
        2 => [below, limit, limit, above],
        3 => [below, limit, above, above],
        _ => [0, 0, 65535, 65535],
    }
}
