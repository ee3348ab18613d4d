//! The list of Applications: descriptors and how one is found. Shared by the
//! core and the soundness test.

use crate::registers::*;

/// An Application descriptor that is present.
#[derive(Clone, Copy, PartialEq, Eq, Debug)]
pub struct Descriptor {
    /// Host lanes, 1 to 8.
    pub lane_count: u8,
    /// Bit f set if a path may begin on lane f.
    pub first_lanes: u8,
}

impl Descriptor {
    /// The lanes of a path that begins on lane `first`, if the descriptor
    /// allows one there.
    #[inline]
    pub fn lanes_from(self, first: u8) -> Option<u8> {
        if self.first_lanes >> first & 1 == 0 || first + self.lane_count > 8 {
            None
        } else {
            Some(((0xFFu32 >> (8 - self.lane_count)) << first) as u8)
        }
    }
}

/// Descriptor of an AppSel of 1 to 15, if no descriptor up to it, in either
/// area, ends the list and its own host lane count is one a path can have.
#[inline]
pub fn find_descriptor(image: &[u8; IMAGE_LEN], app_sel: u8) -> Option<Descriptor> {
    if app_sel == 0 || app_sel > 15 {
        return None;
    }
    if (1..=app_sel).any(|earlier| image[descriptor_place(earlier)] == DESCRIPTOR_END) {
        return None;
    }
    let place = descriptor_place(app_sel);
    let lane_count = image[place + 2] >> 4;
    if lane_count == 0 || lane_count > 8 {
        return None;
    }
    Some(Descriptor { lane_count, first_lanes: image[place + 3] })
}
