// Made by rust/make from crates/arc/src/lib.rt: not to be edited.
//! Whether a fade passes through a band of hues: asked on numbers, before the fade is sent. Document 01, "Arc".

use crate::hue::LAST_CURRENT_HUE;
use crate::hue::distance_up;
use crate::hue::hue_path_delta;
use crate::matter::DirectionEnum;

/// The hues from `low` up to `high`, past 65,535 to 0 where `high` is below `low`.
#[derive(Clone, Copy, Debug, PartialEq, Eq)]
pub struct Band {
    pub low: u16,
    pub high: u16,
}

/// The first stored hue of a CurrentHue. 255, which no hue has, is taken as 254.
fn first_stored(current: u8) -> u16 {
    if current < LAST_CURRENT_HUE {
        (current as u16) * 256
    } else {
        (LAST_CURRENT_HUE as u16) * 256
    }
}

/// The last stored hue of a CurrentHue. 255 is taken as 254 again.
fn last_stored(current: u8) -> u16 {
    if current < LAST_CURRENT_HUE {
        (current as u16) * 256 + 255
    } else {
        65535
    }
}

impl Band {
    /// The stored hues whose CurrentHue is one of `low` up to `high`; an end of 255 is taken as 254.
    pub fn of_current_hue(low: u8, high: u8) -> Band {
        Band {
            low: first_stored(low),
            high: last_stored(high),
        }
    }
}

/// Whether the hues from `from` up to `to` and those from `low` up to `high` have one in common: the first of one run
/// is then in the other.
fn runs_meet(from: u16, to: u16, low: u16, high: u16) -> bool {
    distance_up(from, low) <= distance_up(from, to)
        || distance_up(low, from) <= distance_up(low, high)
}

/// Whether some hue on the arc from `found` to `target`, in the direction asked for, is in the band. Hues are stored
/// ones.
pub fn passes_through(found: u16, target: u16, direction: DirectionEnum, band: Band) -> bool {
    if hue_path_delta(found, target, direction).delta >= 0 {
        return runs_meet(found, target, band.low, band.high);
    }
    runs_meet(target, found, band.low, band.high)
}

/// The same for the plain command, whose hue is times 256.
pub fn plain_passes_through(found: u16, hue: u8, direction: DirectionEnum, band: Band) -> bool {
    passes_through(found, (hue as u16) * 256, direction, band)
}
