//! The oracle's plain data as the crate's types, and back.

use oracle_lib::data;
use yemkruos::color::{Color, Stamps};
use yemkruos::lamp::{Lamp, LoopSettings};
use yemkruos::matter::{self, Bounds, Command};
use yemkruos::remaining_time::RemainingTime;
use yemkruos::tasks::*;

/// The crate's value for the oracle's.
pub trait Ours {
    type Ours;
    fn ours(self) -> Self::Ours;
}

/// The oracle's value for the crate's.
pub trait Theirs {
    type Theirs;
    fn theirs(self) -> Self::Theirs;
}

macro_rules! same_cases {
    ($($name:ident: $($case:ident)*;)*) => { $(
        impl Ours for data::$name {
            type Ours = matter::$name;
            #[inline]
            fn ours(self) -> matter::$name {
                match self {
                    $(data::$name::$case => matter::$name::$case,)*
                }
            }
        }

        impl Theirs for matter::$name {
            type Theirs = data::$name;
            #[inline]
            fn theirs(self) -> data::$name {
                match self {
                    $(matter::$name::$case => data::$name::$case,)*
                }
            }
        }
    )* };
}

same_cases! {
    DirectionEnum: Shortest Longest Up Down;
    MoveModeEnum: Stop Up Down;
    StepModeEnum: Up Down;
    ColorLoopActionEnum:
        Deactivate ActivateFromColorLoopStartEnhancedHue ActivateFromEnhancedCurrentHue;
    ColorLoopDirectionEnum: Decrement Increment;
    ColorModeEnum: CurrentHueAndCurrentSaturation CurrentXAndCurrentY ColorTemperatureMireds;
    EnhancedColorModeEnum:
        CurrentHueAndCurrentSaturation CurrentXAndCurrentY ColorTemperatureMireds
        EnhancedCurrentHueAndCurrentSaturation;
}

impl Ours for data::OnOff {
    type Ours = matter::OnOff;

    fn ours(self) -> matter::OnOff {
        match self {
            data::OnOff::On => matter::OnOff::On,
            data::OnOff::Off => matter::OnOff::Off,
            data::OnOff::None => matter::OnOff::NoHandler,
        }
    }
}

impl Ours for data::Command {
    type Ours = Command;

    fn ours(self) -> Command {
        use data::Command::*;
        match self {
            MoveToHue(hue, direction, time) => Command::move_to_hue(hue, direction.ours(), time),
            EnhancedMoveToHue(hue, direction, time) => {
                Command::enhanced_move_to_hue(hue, direction.ours(), time)
            }
            MoveHue(mode, rate, enhanced) => Command::move_hue(mode.ours(), rate, enhanced),
            EnhancedMoveHue(mode, rate) => Command::enhanced_move_hue(mode.ours(), rate),
            MoveSaturation(mode, rate) => Command::move_saturation(mode.ours(), rate),
            StepHue(mode, size, time) => Command::step_hue(mode.ours(), size, time),
            EnhancedStepHue(mode, size, time) => {
                Command::enhanced_step_hue(mode.ours(), size, time)
            }
            StepSaturation(mode, size, time) => Command::step_saturation(mode.ours(), size, time),
            MoveToSaturation(saturation, time) => Command::move_to_saturation(saturation, time),
            MoveToHueAndSaturation(hue, saturation, time, enhanced, enhanced_hue) => {
                Command::move_to_hue_and_saturation(hue, saturation, time, enhanced, enhanced_hue)
            }
            StopMoveStep => Command::stop_move_step(),
            MoveToColorTemperature(mireds, time) => {
                Command::move_to_color_temperature(mireds, time)
            }
            MoveColorTemperature(mode, rate, min, max) => {
                Command::move_color_temperature(mode.ours(), rate, min, max)
            }
            StepColorTemperature(mode, size, time, min, max) => {
                Command::step_color_temperature(mode.ours(), size, time, min, max)
            }
            ColorLoopSet(flags, action, direction, time, start_hue) => {
                Command::color_loop_set(flags, action.ours(), direction.ours(), time, start_hue)
            }
        }
    }
}

fn move_to(way: Option<i64>, sat: Option<u8>, ms: u32, enhanced: bool) -> HueSaturationMoveTo {
    HueSaturationMoveTo {
        delta: way.map_or(None, Some),
        saturation: sat.map_or(None, Some),
        ms,
        enhanced,
    }
}

impl Ours for data::Task {
    type Ours = Task;

    fn ours(self) -> Task {
        match self {
            data::Task::MoveTo {
                way,
                sat,
                ms,
                enhanced,
            } => Task::HueSaturationMoveTo(move_to(way, sat, ms, enhanced)),
            data::Task::HueMove {
                mode,
                rate,
                enhanced,
            } => Task::HueMove(HueMove {
                direction: mode.ours(),
                rate,
                enhanced,
            }),
            data::Task::SatMove { mode, rate } => Task::SaturationMove(SaturationMove {
                direction: mode.ours(),
                rate,
            }),
            data::Task::CtTo { target, ms } => {
                Task::ColorTemperatureMoveTo(ColorTemperatureMoveTo { target, ms })
            }
            data::Task::CtMove { rate, min, max } => {
                Task::ColorTemperatureMove(ColorTemperatureMove { rate, min, max })
            }
            data::Task::Loop { dir, seconds } => Task::ColorLoop(ColorLoop {
                direction: dir.ours(),
                seconds,
            }),
            data::Task::Stop => Task::Stop,
        }
    }
}

impl Theirs for HueSaturationMoveTo {
    type Theirs = data::Task;

    #[inline]
    fn theirs(self) -> data::Task {
        data::Task::MoveTo {
            way: match self.delta {
                None => None,
                Some(delta) => Some(delta),
            },
            sat: match self.saturation {
                None => None,
                Some(saturation) => Some(saturation),
            },
            ms: self.ms,
            enhanced: self.enhanced,
        }
    }
}

impl Theirs for Task {
    type Theirs = data::Task;

    #[inline]
    fn theirs(self) -> data::Task {
        match self {
            Task::HueSaturationMoveTo(t) => t.theirs(),
            Task::HueMove(t) => data::Task::HueMove {
                mode: t.direction.theirs(),
                rate: t.rate,
                enhanced: t.enhanced,
            },
            Task::SaturationMove(t) => data::Task::SatMove {
                mode: t.direction.theirs(),
                rate: t.rate,
            },
            Task::ColorTemperatureMoveTo(t) => data::Task::CtTo {
                target: t.target,
                ms: t.ms,
            },
            Task::ColorTemperatureMove(t) => data::Task::CtMove {
                rate: t.rate,
                min: t.min,
                max: t.max,
            },
            Task::ColorLoop(t) => data::Task::Loop {
                dir: t.direction.theirs(),
                seconds: t.seconds,
            },
            Task::Stop => data::Task::Stop,
        }
    }
}

/// A lamp with these fields and this running record.
pub fn lamp(f: &data::Fields, running: Running) -> Lamp {
    Lamp {
        clock: f.clock,
        bounds: Bounds {
            min: f.min,
            max: f.max,
        },
        color: Color {
            hue: f.hue,
            saturation: f.sat,
            mireds: f.mireds,
            mode: f.mode.ours(),
            emode: f.emode.ours(),
            stamps: Stamps {
                hue: f.stamp_hue,
                saturation: f.stamp_sat,
                mireds: f.stamp_mireds,
            },
        },
        looping: LoopSettings {
            active: f.loop_active,
            direction: f.loop_dir.ours(),
            time: f.loop_time,
            start: f.loop_start,
            stored: f.loop_stored,
        },
        remaining: RemainingTime {
            tenths: f.remaining,
        },
        options: f.options,
        running,
    }
}

#[inline]
pub fn fields(lamp: &Lamp) -> data::Fields {
    data::Fields {
        min: lamp.bounds.min,
        max: lamp.bounds.max,
        clock: lamp.clock,
        options: lamp.options,
        remaining: lamp.remaining.tenths,
        stamp_hue: lamp.color.stamps.hue,
        stamp_sat: lamp.color.stamps.saturation,
        stamp_mireds: lamp.color.stamps.mireds,
        hue: lamp.color.hue,
        sat: lamp.color.saturation,
        mireds: lamp.color.mireds,
        mode: lamp.color.mode.theirs(),
        emode: lamp.color.emode.theirs(),
        loop_active: lamp.looping.active,
        loop_dir: lamp.looping.direction.theirs(),
        loop_time: lamp.looping.time,
        loop_start: lamp.looping.start,
        loop_stored: lamp.looping.stored,
    }
}

/// The oracle's running record as the crate's. A kept minimum and maximum are lo and hi.
pub fn running(record: Option<&data::Record>) -> Running {
    let Some(&data::Record {
        clock: start,
        hue,
        sat: saturation,
        mireds,
        task,
    }) = record
    else {
        return Running::Idle;
    };
    if let data::Task::CtMove { rate, min, max } = task {
        return Running::ColorTemperatureMove(ColorTemperatureRun {
            start,
            mireds,
            rate,
            lo: min,
            hi: max,
        });
    }
    match task.ours() {
        Task::HueSaturationMoveTo(task) => Running::HueSaturationMoveTo(HueSaturationRun {
            start,
            hue,
            saturation,
            task,
        }),
        Task::HueMove(task) => Running::HueMove(HueRun { start, hue, task }),
        Task::SaturationMove(task) => Running::SaturationMove(SaturationRun {
            start,
            saturation,
            task,
        }),
        Task::ColorTemperatureMoveTo(task) => {
            Running::ColorTemperatureMoveTo(ColorTemperatureToRun {
                start,
                mireds,
                task,
            })
        }
        Task::ColorLoop(ColorLoop { direction, seconds }) => Running::ColorLoop {
            direction,
            hue,
            seconds,
            start,
        },
        Task::ColorTemperatureMove(_) | Task::Stop => unreachable!("no record has this task"),
    }
}

/// The crate's running record as the oracle's; numbers that it does not keep are 0.
#[inline]
pub fn record(running: &Running) -> Option<data::Record> {
    let of = |clock, task| data::Record {
        clock,
        hue: 0,
        sat: 0,
        mireds: 0,
        task,
    };
    Some(match *running {
        Running::Idle => return None,
        Running::HueSaturationMoveTo(run) => data::Record {
            hue: run.hue,
            sat: run.saturation,
            ..of(run.start, run.task.theirs())
        },
        Running::HueMove(run) => data::Record {
            hue: run.hue,
            ..of(run.start, Task::HueMove(run.task).theirs())
        },
        Running::SaturationMove(run) => data::Record {
            sat: run.saturation,
            ..of(run.start, Task::SaturationMove(run.task).theirs())
        },
        Running::ColorTemperatureMoveTo(run) => data::Record {
            mireds: run.mireds,
            ..of(run.start, Task::ColorTemperatureMoveTo(run.task).theirs())
        },
        Running::ColorTemperatureMove(run) => {
            let task = data::Task::CtMove {
                rate: run.rate,
                min: run.lo,
                max: run.hi,
            };
            data::Record {
                mireds: run.mireds,
                ..of(run.start, task)
            }
        }
        Running::ColorLoop {
            direction,
            hue,
            seconds,
            start,
        } => data::Record {
            hue,
            ..of(
                start,
                Task::ColorLoop(ColorLoop { direction, seconds }).theirs(),
            )
        },
    })
}

/// The oracle's record without the numbers that its task does not keep: they are 0.
pub fn kept(r: &data::Record) -> data::Record {
    let (hue, sat, mireds) = match r.task {
        data::Task::MoveTo { .. } => (r.hue, r.sat, 0),
        data::Task::HueMove { .. } | data::Task::Loop { .. } => (r.hue, 0, 0),
        data::Task::SatMove { .. } => (0, r.sat, 0),
        data::Task::CtTo { .. } | data::Task::CtMove { .. } => (0, 0, r.mireds),
        data::Task::Stop => (0, 0, 0),
    };
    data::Record {
        hue,
        sat,
        mireds,
        ..*r
    }
}
