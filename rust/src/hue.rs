// Made by rust/make from crates/hue/src/lib.rt: not to be edited.
//! Hues on their circle of 65,536 places: the delta from one to another, a hue moved by a partial delta, and CurrentHue.
//! Document 01, leaf 1.
//!
//! Carried over from project-chip/rs-matter, commit 43f61585a4 (Apache-2.0, see NOTICE), and changed.

use crate::matter::DirectionEnum;

/// The distance up from one hue to another. The distance down is the distance up the other way round.
pub fn distance_up(from: u16, to: u16) -> u16 {
    to.wrapping_sub(from)
}

/// The signed delta from one hue to another, and whether it is a tie: Shortest or Longest was asked, and both distances are
/// 32,768. There is a delta with a tie too.
#[derive(Clone, Copy, Debug, PartialEq, Eq)]
pub struct HuePath {
    pub delta: i32,
    pub is_tie: bool,
}

/// Half the circle.
const HALF_TURN: u16 = 32768;

/// The distance that `direction` chooses, with its sign.
fn chosen_delta(up: u16, down: u16, direction: DirectionEnum) -> i32 {
    match direction {
        DirectionEnum::Up => i32::from(up),
        DirectionEnum::Down => -i32::from(down),
        DirectionEnum::Shortest => {
            if up <= down {
                i32::from(up)
            } else {
                -i32::from(down)
            }
        }
        DirectionEnum::Longest => {
            if up > down {
                i32::from(up)
            } else {
                -i32::from(down)
            }
        }
    }
}

/// Whether Shortest or Longest is asked, and both distances are half the circle.
fn is_tie(up: u16, down: u16, direction: DirectionEnum) -> bool {
    match direction {
        DirectionEnum::Up | DirectionEnum::Down => false,
        DirectionEnum::Shortest | DirectionEnum::Longest => { up == HALF_TURN && down == HALF_TURN }
    }
}

/// The delta from `current` to `target`, in the direction asked for.
pub fn hue_path_delta(current: u16, target: u16, direction: DirectionEnum) -> HuePath {
    let up_distance = distance_up(current, target);
    let down_distance = distance_up(target, current);
    HuePath {
        delta: chosen_delta(up_distance, down_distance, direction),
        is_tie: is_tie(up_distance, down_distance, direction),
    }
}

/// The hue a signed part away from `start`. It wraps past 65,535 to 0, and below 0 to 65,535, on purpose.
pub fn moved_hue(start: u16, part: i64) -> u16 {
    start.wrapping_add(part.rem_euclid(65536) as u16)
}

/// The last CurrentHue.
pub const LAST_CURRENT_HUE: u8 = 254;

/// CurrentHue: the upper byte of the stored hue, at most 254.
pub fn current_hue(hue: u16) -> u8 {
    ((hue / 256) as u8).min(LAST_CURRENT_HUE)
}
