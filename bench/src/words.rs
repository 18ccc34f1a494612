//! Lamps, calls, tasks and records as the words of `crates/exports`.

// Without the archive no lamp and no call is sent as words.
#![cfg_attr(not(feature = "archive"), allow(dead_code))]

use oracle_lib::data::{Command, Fields, OnOff, Record, Task};

pub const LAMP: usize = 28;
pub const CALL: usize = 10;
pub const ANSWER: usize = 25;

/// What `crates/exports` answers to a call that it cannot read.
pub const UNREADABLE: u8 = 100;
/// The record of an idle lamp, and the task where none is given.
pub const IDLE: [u64; 10] = [0; 10];
pub const NO_TASK: [u64; 7] = [0; 7];

const START: u64 = 256;
const STEP: u64 = 257;
const HALT: u64 = 258;
/// A kind that does not exist: the call is turned away unread.
const NONE: u64 = 260;

#[derive(Clone, Copy)]
pub enum Call {
    Command(Command, OnOff, u8, u8),
    Start(Task),
    Step,
    Halt,
    /// Nothing is called: what the harness costs by itself.
    Nothing,
}

#[derive(Clone, Copy)]
pub struct Timed {
    pub call: Call,
    pub clock: u64,
}

fn signed(x: i64) -> [u64; 2] {
    [if x < 0 { 2 } else { 1 }, x.unsigned_abs()]
}

#[inline(always)]
pub fn of_task(task: &Task) -> [u64; 7] {
    match *task {
        Task::MoveTo {
            way,
            sat,
            ms,
            enhanced,
        } => {
            let [sign, size] = way.map_or([0, 0], signed);
            let [given, sat] = sat.map_or([0, 0], |s| [1, s.into()]);
            [1, sign, size, given, sat, ms.into(), enhanced.into()]
        }
        Task::HueMove {
            mode,
            rate,
            enhanced,
        } => [2, mode as u64, rate.into(), enhanced.into(), 0, 0, 0],
        Task::SatMove { mode, rate } => [3, mode as u64, rate.into(), 0, 0, 0, 0],
        Task::CtTo { target, ms } => [4, target.into(), ms.into(), 0, 0, 0, 0],
        Task::CtMove { rate, min, max } => {
            let [sign, size] = signed(rate);
            [5, sign, size, min.into(), max.into(), 0, 0]
        }
        Task::Loop { dir, seconds } => [6, dir as u64, seconds.into(), 0, 0, 0, 0],
        Task::Stop => [7, 0, 0, 0, 0, 0, 0],
    }
}

#[inline(always)]
pub fn of_record(r: &Record) -> [u64; 10] {
    let [k, a, b, c, d, e, f] = of_task(&r.task);
    let (x, y) = match r.task {
        Task::MoveTo { .. } => (r.hue.into(), r.sat.into()),
        Task::HueMove { .. } | Task::Loop { .. } => (r.hue.into(), 0),
        Task::SatMove { .. } => (r.sat.into(), 0),
        Task::CtTo { .. } | Task::CtMove { .. } => (r.mireds.into(), 0),
        Task::Stop => (0, 0),
    };
    [r.clock, x, y, k, a, b, c, d, e, f]
}

#[inline(always)]
pub fn of_fields(f: &Fields) -> [u64; 18] {
    [
        f.min.into(),
        f.max.into(),
        f.clock,
        f.options.into(),
        f.remaining.into(),
        f.stamp_hue,
        f.stamp_sat,
        f.stamp_mireds,
        f.hue.into(),
        f.sat.into(),
        f.mireds.into(),
        f.mode as u64,
        f.emode as u64,
        f.loop_active.into(),
        f.loop_dir as u64,
        f.loop_time.into(),
        f.loop_start.into(),
        f.loop_stored.into(),
    ]
}

/// An idle lamp.
pub fn of_lamp(f: &Fields) -> [u64; LAMP] {
    let mut words = [0; LAMP];
    words[..18].copy_from_slice(&of_fields(f));
    words
}

/// The number of a command in the cluster, and its arguments.
fn of_command(c: &Command) -> (u64, [u64; 5]) {
    use Command::*;
    match *c {
        MoveToHue(hue, direction, tenths) => {
            (0x00, [hue.into(), direction as u64, tenths.into(), 0, 0])
        }
        MoveHue(mode, rate, enhanced) => (0x01, [mode as u64, rate.into(), enhanced.into(), 0, 0]),
        StepHue(mode, step, tenths) => (0x02, [mode as u64, step.into(), tenths.into(), 0, 0]),
        MoveToSaturation(sat, tenths) => (0x03, [sat.into(), tenths.into(), 0, 0, 0]),
        MoveSaturation(mode, rate) => (0x04, [mode as u64, rate.into(), 0, 0, 0]),
        StepSaturation(mode, step, tenths) => {
            (0x05, [mode as u64, step.into(), tenths.into(), 0, 0])
        }
        MoveToHueAndSaturation(hue, sat, tenths, enhanced, enhanced_hue) => (
            0x06,
            [
                hue.into(),
                sat.into(),
                tenths.into(),
                enhanced.into(),
                enhanced_hue.into(),
            ],
        ),
        MoveToColorTemperature(mireds, tenths) => (0x0a, [mireds.into(), tenths.into(), 0, 0, 0]),
        EnhancedMoveToHue(hue, direction, tenths) => {
            (0x40, [hue.into(), direction as u64, tenths.into(), 0, 0])
        }
        EnhancedMoveHue(mode, rate) => (0x41, [mode as u64, rate.into(), 0, 0, 0]),
        EnhancedStepHue(mode, step, tenths) => {
            (0x42, [mode as u64, step.into(), tenths.into(), 0, 0])
        }
        ColorLoopSet(flags, action, direction, seconds, start_hue) => (
            0x44,
            [
                flags.into(),
                action as u64,
                direction as u64,
                seconds.into(),
                start_hue.into(),
            ],
        ),
        StopMoveStep => (0x47, [0; 5]),
        MoveColorTemperature(mode, rate, min, max) => {
            (0x4b, [mode as u64, rate.into(), min.into(), max.into(), 0])
        }
        StepColorTemperature(mode, step, tenths, min, max) => (
            0x4c,
            [
                mode as u64,
                step.into(),
                tenths.into(),
                min.into(),
                max.into(),
            ],
        ),
    }
}

pub fn of_call(t: &Timed) -> [u64; CALL] {
    let mut w = [0; CALL];
    w[1] = t.clock;
    match t.call {
        Call::Command(command, on_off, mask, over) => {
            let (number, arguments) = of_command(&command);
            w[0] = number;
            w[2] = match on_off {
                OnOff::Off => 0,
                OnOff::On => 1,
                OnOff::None => 2,
            };
            w[3] = mask.into();
            w[4] = over.into();
            w[5..].copy_from_slice(&arguments);
        }
        Call::Start(task) => {
            w[0] = START;
            w[3..].copy_from_slice(&of_task(&task));
        }
        Call::Step => w[0] = STEP,
        Call::Halt => w[0] = HALT,
        Call::Nothing => w[0] = NONE,
    }
    w
}
