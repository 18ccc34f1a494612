// Made by rust/make from crates/lamp/src/passes.rt: not to be edited.
//! One pass of each transition: document 01, leaf 6. A pass is given what it needs of the lamp and says what it changes; its
//! notices are put together once, from the last to the first.
//!
//! Carried over from project-chip/rs-matter, commit 43f61585a4 (Apache-2.0, see NOTICE), and changed.

use crate::color::Change;
use crate::color::Color;
use crate::color::ColorSet;
use crate::color::cons_change;
use crate::hue::moved_hue;
use crate::matter::Bounds;
use crate::matter::MoveModeEnum;
use crate::notices::Notice;
use crate::notices::Numeral;
use crate::progress::TICK;
use crate::progress::clamped_sum;
use crate::progress::delta_at_rate;
use crate::progress::elapsed;
use crate::progress::loop_delta;
use crate::progress::moved_saturation;
use crate::progress::part;
use crate::progress::time_left;
use crate::progress::wait_for_end;
use crate::progress::wait_for_turn;
use crate::remaining_time::RemainingTime;
use crate::tasks::ColorLoopRun;
use crate::tasks::ColorTemperatureRun;
use crate::tasks::ColorTemperatureToRun;
use crate::tasks::HueRun;
use crate::tasks::HueSaturationRun;
use crate::tasks::Running;
use crate::tasks::SaturationRun;

/// What a pass is given of the lamp.
#[derive(Clone, Copy, Debug, PartialEq, Eq)]
pub struct Found {
    pub clock: u64,
    pub bounds: Bounds,
    pub remaining: RemainingTime,
    pub color: Color,
}

/// What a move-to moves: the colour, its changes in their order, and the notice of the device that is written, where one is.
#[derive(Clone, Copy, Debug, PartialEq, Eq)]
pub struct Moved {
    pub color: Color,
    pub first: Option<Change>,
    pub second: Option<Change>,
    pub device: Option<Notice>,
}

/// What a pass leaves: what moves, whether the remaining time is reported, the wait, the remaining time, and whether the
/// transition ends.
#[derive(Clone, Copy, Debug, PartialEq, Eq)]
pub struct Passed {
    pub color: Color,
    pub first: Option<Change>,
    pub second: Option<Change>,
    pub device: Option<Notice>,
    pub time: bool,
    pub wait: u64,
    pub remaining: RemainingTime,
    pub ends: bool,
}

/// A start or a step: whether the full time is reported first, the pass, and the record that stays.
#[derive(Clone, Copy, Debug, PartialEq, Eq)]
pub struct Left {
    pub full: bool,
    pub passed: Passed,
    pub running: Running,
}

/// The way from one number to another, with its sign.
fn delta_between(start: u16, target: u16) -> i64 {
    (target as i64) - (start as i64)
}

/// What is left running, and the wait for it: nothing at an end.
fn running_unless(is_end: bool, run: Running) -> Running {
    if is_end { Running::Idle } else { run }
}

fn wait_unless(is_end: bool, wait: u64) -> u64 {
    if is_end { 0 } else { wait }
}

/// What is left of a move-to's time: 0 at its end.
fn left_unless(is_end: bool, passed: u64, ms: u32) -> u64 {
    if is_end { 0 } else { time_left(passed, ms) }
}

pub(in crate::lamp) fn left_by(full: bool, passed: Passed, running: Running) -> Left {
    let stays = running_unless(passed.ends, running);
    Left {
        full,
        passed,
        running: stays,
    }
}

/// The hue's part of a move-to, where it moves the hue.
fn move_hue(
    color: Color,
    delta: Option<i64>,
    start: u16,
    permille: u16,
    is_enhanced: bool,
    clock: u64,
) -> ColorSet {
    match delta {
        None => ColorSet::unchanged(color),
        Some(way) => {
            let now = moved_hue(start, part(way, permille));
            color.set_hue(now, at_end(permille), is_enhanced, clock)
        }
    }
}

/// At permille 1000 the final number is used.
fn at_end(permille: u16) -> bool {
    1000 <= permille
}

fn saturation_now(start: u8, target: u8, permille: u16) -> u8 {
    if at_end(permille) {
        return target;
    }
    moved_saturation(
        start,
        part(delta_between(start as u16, target as u16), permille),
    )
}

/// The saturation's part of a move-to, where it moves the saturation.
fn move_saturation(
    color: Color,
    target: Option<u8>,
    start: u8,
    permille: u16,
    clock: u64,
) -> ColorSet {
    match target {
        None => ColorSet::unchanged(color),
        Some(saturation) => {
            let now = saturation_now(start, saturation, permille);
            color.set_saturation(now, at_end(permille), clock)
        }
    }
}

fn mireds_now(bounds: Bounds, start: u16, target: u16, permille: u16) -> u16 {
    if at_end(permille) {
        return target;
    }
    clamped_sum(
        bounds.min,
        bounds.max,
        start,
        part(delta_between(start, target), permille),
    )
}

fn saturation_done(direction: MoveModeEnum, now: u8) -> bool {
    match direction {
        MoveModeEnum::Stop => false,
        MoveModeEnum::Up => now == 254,
        MoveModeEnum::Down => now == 0,
    }
}

fn mireds_done(rate: i64, lo: u16, hi: u16, now: u16) -> bool {
    ((0 < rate) & (now == hi)) | ((rate < 0) & (now == lo))
}

/// The notice of the device that is written, where one is, in front of a list.
fn cons_device(list: Numeral, device: Option<Notice>) -> Numeral {
    match device {
        Some(device) => list.note(device),
        None => list,
    }
}

impl Passed {
    /// What the pass reports behind its first change. Apart from that, so that both are inlined (docs/SPEED.md).
    pub(in crate::lamp) fn behind(self, loop_active: bool) -> Numeral {
        let time = Numeral::new().note_if(self.time, Notice::RemainingTime);
        cons_change(self.second, cons_device(time, self.device), loop_active)
    }
}

impl Found {
    pub(in crate::lamp) fn move_to_hue_saturation_transition(
        self,
        run: HueSaturationRun,
        permille: u16,
    ) -> Moved {
        let task = run.task;
        let hued = move_hue(
            self.color,
            task.delta,
            run.hue,
            permille,
            task.enhanced,
            self.clock,
        );
        let between = hued.color;
        let set = move_saturation(
            between,
            task.saturation,
            run.saturation,
            permille,
            self.clock,
        );
        Moved {
            color: set.color,
            first: hued.change,
            second: set.change,
            device: Some(Notice::DeviceHueSaturation),
        }
    }

    pub(in crate::lamp) fn move_to_color_temperature_transition(
        self,
        run: ColorTemperatureToRun,
        permille: u16,
    ) -> Moved {
        let now = mireds_now(self.bounds, run.mireds, run.task.target, permille);
        let set = self
            .color
            .set_color_temperature(now, at_end(permille), self.clock);
        Moved {
            color: set.color,
            first: set.change,
            second: None,
            device: Some(Notice::DeviceMireds),
        }
    }

    /// A move-to's pass: after what moves, the remaining time.
    pub(in crate::lamp) fn timed(self, moved: Moved, start: u64, ms: u32, permille: u16) -> Passed {
        let ends = at_end(permille);
        let passed = elapsed(start, self.clock);
        let w = self
            .remaining
            .write_remaining_time_quietly(left_unless(ends, passed, ms), false);
        Passed {
            color: moved.color,
            first: moved.first,
            second: moved.second,
            device: moved.device,
            time: w.reported,
            wait: wait_unless(ends, wait_for_end(passed, ms)),
            remaining: w.remaining,
            ends,
        }
    }

    /// A pass that moves one attribute and leaves the remaining time.
    fn passed(self, set: ColorSet, device: Option<Notice>, wait: u64, ends: bool) -> Passed {
        Passed {
            color: set.color,
            first: set.change,
            second: None,
            device,
            time: false,
            wait: wait_unless(ends, wait),
            remaining: self.remaining,
            ends,
        }
    }

    pub(in crate::lamp) fn hue_move_transition(self, run: HueRun) -> Passed {
        let task = run.task;
        let rate = task.direction.signed(task.rate);
        let now = moved_hue(run.hue, delta_at_rate(rate, elapsed(run.start, self.clock)));
        let set = self.color.set_hue(now, false, task.enhanced, self.clock);
        self.passed(set, Some(Notice::DeviceHueSaturation), TICK, false)
    }

    pub(in crate::lamp) fn saturation_move_transition(self, run: SaturationRun) -> Passed {
        let task = run.task;
        let rate = task.direction.signed(task.rate);
        let now = moved_saturation(
            run.saturation,
            delta_at_rate(rate, elapsed(run.start, self.clock)),
        );
        let ends = saturation_done(task.direction, now);
        let set = self.color.set_saturation(now, ends, self.clock);
        self.passed(set, Some(Notice::DeviceHueSaturation), TICK, ends)
    }

    pub(in crate::lamp) fn color_temperature_move_transition(
        self,
        run: ColorTemperatureRun,
    ) -> Passed {
        let way = delta_at_rate(run.rate, elapsed(run.start, self.clock));
        let now = clamped_sum(run.lo, run.hi, run.mireds, way);
        let ends = mireds_done(run.rate, run.lo, run.hi, now);
        let set = self.color.set_color_temperature(now, ends, self.clock);
        self.passed(set, Some(Notice::DeviceMireds), TICK, ends)
    }

    pub(in crate::lamp) fn color_loop_transition(self, run: ColorLoopRun) -> Passed {
        let task = run.task;
        let passed = elapsed(run.start, self.clock);
        let now = moved_hue(run.hue, loop_delta(task.direction, passed, task.seconds));
        let set = self.color.set_hue(now, false, true, self.clock);
        let wait = wait_for_turn(passed, task.seconds);
        self.passed(set, Some(Notice::DeviceHueSaturation), wait, false)
    }

    /// Where nothing runs, nothing changes, and no device is written.
    pub(in crate::lamp) fn no_transition(self) -> Passed {
        self.passed(ColorSet::unchanged(self.color), None, 0, true)
    }
}
