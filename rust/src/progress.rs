// Made by rust/make from crates/progress/src/lib.rt: not to be edited.
//! The arithmetic of a step (document 01): how much of a way is done at an elapsed time, what is left, and how long to
//! wait for the next step. Times are whole milliseconds.
//!
//! Carried over from project-chip/rs-matter, commit 43f61585a4 (Apache-2.0, see NOTICE), and changed.

use crate::matter::CLOCK_LIMIT;
use crate::matter::ColorLoopDirectionEnum;

/// The wait between two steps where nothing is nearer; a move at a rate always asks for it.
pub const TICK: u64 = 100;

/// How many thousandths of `time` have passed. At or past the time, and where the time is 0, all of them.
pub fn permille(elapsed: u64, time: u32) -> u16 {
    let total = time as u64;
    if total <= elapsed {
        return 1000;
    }
    (elapsed * 1000 / total) as u16
}

/// A way or a rate beyond ±65,535, which no valid task has, is read as that limit.
fn limited(signed: i64) -> i64 {
    signed.clamp(-65535, 65535)
}

/// The part of a signed way at so many thousandths. The fraction is dropped toward zero.
pub fn part(way: i64, permille: u16) -> i64 {
    limited(way) * (permille as i64) / 1000
}

/// An elapsed time past the limit of clocks is read as the limit.
fn within_limit(elapsed: u64) -> u64 {
    elapsed.min(CLOCK_LIMIT)
}

/// The signed way that a move at a rate per second has gone. The fraction is dropped toward zero.
pub fn delta_at_rate(rate: i64, elapsed: u64) -> i64 {
    limited(rate) * (within_limit(elapsed) as i64) / 1000
}

/// The time of one turn of the colour loop. 0 seconds are read as 25.
fn loop_ms(seconds: u16) -> u64 {
    if seconds == 0 {
        return 25000;
    }
    (seconds as u64) * 1000
}

/// How far the colour loop has turned, without sign and unwrapped: near a whole turn, that whole turn.
pub fn loop_turn(elapsed: u64, seconds: u16) -> u64 {
    let e = within_limit(elapsed);
    let raw = 65536 * e / loop_ms(seconds);
    let rem = raw % 65536;
    if 65152 <= rem {
        return raw + (65536 - rem);
    }
    if raw < 65536 {
        return raw;
    }
    if rem <= 384 {
        return raw - rem;
    }
    raw
}

/// The colour loop's turn with its sign.
pub fn loop_delta(direction: ColorLoopDirectionEnum, elapsed: u64, seconds: u16) -> i64 {
    let turn = loop_turn(elapsed, seconds) as i64;
    match direction {
        ColorLoopDirectionEnum::Increment => turn,
        ColorLoopDirectionEnum::Decrement => -turn,
    }
}

/// Milliseconds in tenths of a second, rounded up.
pub fn tenths(ms: u64) -> u64 {
    ms.div_ceil(100)
}

/// The sum of a start and a signed part, clamped to `lo` and `hi`; `lo` is checked first, also where the two cross, for which
/// the library's `clamp` has no answer.
pub fn clamped_sum(lo: u16, hi: u16, start: u16, part: i64) -> u16 {
    if part < (lo as i64) - (start as i64) {
        return lo;
    }
    if (hi as i64) - (start as i64) < part {
        return hi;
    }
    ((start as i64) + part) as u16
}

/// A saturation moved by a signed part, within 0 and 254.
pub fn moved_saturation(start: u8, part: i64) -> u8 {
    clamped_sum(0, 254, start as u16, part) as u8
}

/// The time from one clock to a later one; 0 where it is not later.
pub fn elapsed(start: u64, clock: u64) -> u64 {
    clock.saturating_sub(start)
}

/// What is left of a move-to's time.
pub fn time_left(elapsed: u64, time: u32) -> u64 {
    u64::from(time).saturating_sub(elapsed)
}

/// The wait before a move-to's next step: its end, if that is nearer than a tick.
pub fn wait_for_end(elapsed: u64, time: u32) -> u64 {
    time_left(elapsed, time).min(TICK)
}

/// The wait before the colour loop's next step: its next whole turn, if that is nearer than a tick.
pub fn wait_for_turn(elapsed: u64, seconds: u16) -> u64 {
    let total = loop_ms(seconds);
    (total - elapsed % total).min(TICK)
}
