//! What the stubs share: the clock set by hand, the on/off input, the notices in the
//! order in which they come, and the wait that was asked for last.

use std::cell::Cell;

pub const PLACES: usize = 64;

pub struct Recorder {
    clock: Cell<u64>,
    on: Cell<bool>,
    inside: Cell<bool>,
    wait: Cell<u64>,
    count: Cell<usize>,
    notices: [Cell<u8>; PLACES],
}

thread_local! {
    static RECORDER: Recorder = const {
        Recorder {
            clock: Cell::new(0),
            on: Cell::new(true),
            inside: Cell::new(false),
            wait: Cell::new(0),
            count: Cell::new(0),
            notices: [const { Cell::new(0) }; PLACES],
        }
    };
}

pub const DIRTY: u8 = 13;
pub const SCENES: u8 = 14;
pub const DEVICE_HUE_SATURATION: u8 = 15;
pub const DEVICE_MIREDS: u8 = 16;
pub const TASK: u8 = 17;

/// Before each run of the Rust: the clock, and nothing noticed yet.
pub fn begin(clock: u64) {
    RECORDER.with(|r| {
        r.clock.set(clock);
        r.count.set(0);
        r.wait.set(0);
    })
}

pub fn clock() -> u64 {
    RECORDER.with(|r| r.clock.get())
}

pub fn set_on(on: bool) {
    RECORDER.with(|r| r.on.set(on))
}

pub fn on() -> bool {
    RECORDER.with(|r| r.on.get())
}

/// Whether the Rust is being run.
pub fn set_inside(inside: bool) {
    RECORDER.with(|r| r.inside.set(inside))
}

pub fn inside() -> bool {
    RECORDER.with(|r| r.inside.get())
}

pub fn set_wait(ms: u64) {
    RECORDER.with(|r| r.wait.set(ms))
}

pub fn wait() -> u64 {
    RECORDER.with(|r| r.wait.get())
}

pub fn notice(number: u8) {
    RECORDER.with(|r| {
        let n = r.count.get();
        assert!(n < PLACES, "too many notices");
        r.notices[n].set(number);
        r.count.set(n + 1);
    })
}

pub fn with_notices<R>(f: impl FnOnce(&[Cell<u8>]) -> R) -> R {
    RECORDER.with(|r| f(&r.notices[..r.count.get()]))
}
