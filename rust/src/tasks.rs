// Made by rust/make from crates/tasks/src/lib.rt: not to be edited.
//! The tasks that commands give, the records of what runs, and the form of both: document 01, "Task out of form" and the
//! running record of "Lamp out of form".
//!
//! Carried over from project-chip/rs-matter, commit 43f61585a4 (Apache-2.0, see NOTICE), and changed.

use crate::matter::Bounds;
use crate::matter::ColorLoopDirectionEnum;
use crate::matter::MoveModeEnum;

/// To a hue, a saturation or both: the signed way of the hue where it moves the hue, the time in milliseconds, the target
/// where it moves the saturation, and whether the hue is reported as an enhanced one.
#[derive(Clone, Copy, Debug, PartialEq, Eq)]
pub struct HueSaturationMoveTo {
    pub delta: Option<i64>,
    pub ms: u32,
    pub saturation: Option<u8>,
    pub enhanced: bool,
}

/// The hue at a rate, in enhanced units a second.
#[derive(Clone, Copy, Debug, PartialEq, Eq)]
pub struct HueMove {
    pub rate: u32,
    pub direction: MoveModeEnum,
    pub enhanced: bool,
}

/// The saturation at a rate, in units a second.
#[derive(Clone, Copy, Debug, PartialEq, Eq)]
pub struct SaturationMove {
    pub rate: u32,
    pub direction: MoveModeEnum,
}

/// To a target in mireds, in a time in milliseconds.
#[derive(Clone, Copy, Debug, PartialEq, Eq)]
pub struct ColorTemperatureMoveTo {
    pub ms: u32,
    pub target: u16,
}

/// The mireds at a signed rate a second, between the caller's limits.
#[derive(Clone, Copy, Debug, PartialEq, Eq)]
pub struct ColorTemperatureMove {
    pub rate: i64,
    pub min: u16,
    pub max: u16,
}

/// The colour loop: a turn in so many seconds.
#[derive(Clone, Copy, Debug, PartialEq, Eq)]
pub struct ColorLoop {
    pub direction: ColorLoopDirectionEnum,
    pub seconds: u16,
}

#[derive(Clone, Copy, Debug, PartialEq, Eq)]
pub enum Task {
    HueSaturationMoveTo(HueSaturationMoveTo),
    HueMove(HueMove),
    SaturationMove(SaturationMove),
    ColorTemperatureMoveTo(ColorTemperatureMoveTo),
    ColorTemperatureMove(ColorTemperatureMove),
    ColorLoop(ColorLoop),
    Stop,
}

/// What runs: the clock at its start, the numbers found there, and the task. Each kind of task has a record of its own; a record
/// generic in its task would be shared by two of the six, the hue's moves at a rate and in the loop.
#[derive(Clone, Copy, Debug, PartialEq, Eq)]
pub struct HueSaturationRun {
    pub start: u64,
    pub hue: u16,
    pub saturation: u8,
    pub task: HueSaturationMoveTo,
}

#[derive(Clone, Copy, Debug, PartialEq, Eq)]
pub struct HueRun {
    pub start: u64,
    pub hue: u16,
    pub task: HueMove,
}

#[derive(Clone, Copy, Debug, PartialEq, Eq)]
pub struct SaturationRun {
    pub start: u64,
    pub saturation: u8,
    pub task: SaturationMove,
}

#[derive(Clone, Copy, Debug, PartialEq, Eq)]
pub struct ColorTemperatureToRun {
    pub start: u64,
    pub mireds: u16,
    pub task: ColorTemperatureMoveTo,
}

/// The limits are worked out at the start: `lo` and `hi`.
#[derive(Clone, Copy, Debug, PartialEq, Eq)]
pub struct ColorTemperatureRun {
    pub start: u64,
    pub mireds: u16,
    pub lo: u16,
    pub hi: u16,
    pub rate: i64,
}

#[derive(Clone, Copy, Debug, PartialEq, Eq)]
pub struct ColorLoopRun {
    pub start: u64,
    pub hue: u16,
    pub task: ColorLoop,
}

/// The loop's four numbers stand in the variant itself: they fill the bytes between the tag and a record's clock, so that no
/// copy of a lamp carries a gap (docs/SPEED.md). Idle is a case as document 01 has it, and no `None` around the others.
#[derive(Clone, Copy, Debug, PartialEq, Eq)]
pub enum Running {
    Idle,
    HueSaturationMoveTo(HueSaturationRun),
    HueMove(HueRun),
    SaturationMove(SaturationRun),
    ColorTemperatureMoveTo(ColorTemperatureToRun),
    ColorTemperatureMove(ColorTemperatureRun),
    ColorLoop {
        direction: ColorLoopDirectionEnum,
        hue: u16,
        seconds: u16,
        start: u64,
    },
}

/// The colour loop's record as what runs.
impl From<ColorLoopRun> for Running {
    fn from(run: ColorLoopRun) -> Running {
        Running::ColorLoop {
            direction: run.task.direction,
            hue: run.hue,
            seconds: run.task.seconds,
            start: run.start,
        }
    }
}

/// Whole tenths of a second, of which there are at most 65,535.
fn is_valid_time(ms: u32) -> bool {
    (ms % 100 == 0) & (ms <= 6553500)
}

/// A signed rate of mireds that moves, within 65,535.
fn is_valid_rate(rate: i64) -> bool {
    (rate != 0) & ((-65535 <= rate) & (rate <= 65535))
}

fn within_bounds(bounds: Bounds, mireds: u16) -> bool {
    (bounds.min <= mireds) & (mireds <= bounds.max)
}

/// Up and down move; stop does not.
fn moving(direction: MoveModeEnum) -> bool {
    !matches!(direction, MoveModeEnum::Stop)
}

fn is_valid_delta(delta: Option<i64>) -> bool {
    delta.is_none_or(|way| (-65535 <= way) & (way <= 65535))
}

fn is_valid_saturation(target: Option<u8>) -> bool {
    target.is_none_or(|saturation| saturation <= 254)
}

/// A rate in its range, in a direction that moves.
fn is_valid_move(rate: u32, most: u32, direction: MoveModeEnum) -> bool {
    (0 < rate) & (rate <= most) & moving(direction)
}

impl HueSaturationMoveTo {
    fn is_valid(self) -> bool {
        is_valid_time(self.ms)
            & is_valid_delta(self.delta)
            & is_valid_saturation(self.saturation)
            & (self.delta.is_some() | self.saturation.is_some())
    }
}

impl HueMove {
    fn is_valid(self) -> bool {
        is_valid_move(self.rate, 65535, self.direction)
    }
}

impl SaturationMove {
    fn is_valid(self) -> bool {
        is_valid_move(self.rate, 255, self.direction)
    }
}

impl Task {
    pub fn is_valid(self) -> bool {
        match self {
            Task::HueSaturationMoveTo(t) => t.is_valid(),
            Task::HueMove(t) => t.is_valid(),
            Task::SaturationMove(t) => t.is_valid(),
            Task::ColorTemperatureMoveTo(t) => is_valid_time(t.ms),
            Task::ColorTemperatureMove(t) => is_valid_rate(t.rate),
            Task::ColorLoop(_) => true,
            Task::Stop => false,
        }
    }
}

impl Running {
    /// Whether something runs.
    pub fn is_running(self) -> bool {
        !matches!(self, Running::Idle)
    }

    /// Whether a mired task runs.
    pub fn moves_mireds(self) -> bool {
        matches!(
            self,
            Running::ColorTemperatureMoveTo(_) | Running::ColorTemperatureMove(_)
        )
    }

    /// Whether a lamp with these bounds and this clock can be valid with this record.
    pub fn is_valid(self, bounds: Bounds, clock: u64) -> bool {
        match self {
            Running::Idle => true,
            Running::HueSaturationMoveTo(run) => {
                run.task.is_valid()
                    & (0 < run.task.ms)
                    & (run.saturation <= 254)
                    & (run.start <= clock)
            }
            Running::HueMove(run) => { run.task.is_valid() & (run.start <= clock) }
            Running::SaturationMove(run) => {
                run.task.is_valid() & (run.saturation <= 254) & (run.start <= clock)
            }
            Running::ColorTemperatureMoveTo(run) => {
                let task = run.task;
                is_valid_time(task.ms)
                    & (0 < task.ms)
                    & within_bounds(bounds, run.mireds)
                    & within_bounds(bounds, task.target)
                    & (run.start <= clock)
            }
            Running::ColorTemperatureMove(run) => {
                is_valid_rate(run.rate)
                    & within_bounds(bounds, run.mireds)
                    & (run.lo < run.hi)
                    & within_bounds(bounds, run.lo)
                    & within_bounds(bounds, run.hi)
                    & (run.start <= clock)
            }
            Running::ColorLoop { start, .. } => start <= clock,
        }
    }
}
