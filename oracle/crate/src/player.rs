//! The protocol's calls, played by the crate.

use oracle_lib::data;
use oracle_lib::protocol::Call;
use yemkruos::commands::{self, *};
use yemkruos::hue::{HuePath, current_hue, hue_path_delta};
use yemkruos::lamp::{self, Answer, Lamp};
use yemkruos::matter::{Bounds, color_mode_of, should_continue};
use yemkruos::remaining_time::RemainingTime;
use yemkruos::tasks::{Running, Task};

use crate::data::{Ours, Theirs, lamp, running};
use crate::setters::{Setter, set};

/// What a call is answered with.
#[derive(Debug)]
// The answer is by far the most frequent.
#[allow(clippy::large_enum_variant)]
pub enum Reply {
    Delta(HuePath),
    Remaining(bool, u16),
    Leave(bool),
    ModeOf(data::ColorModeEnum),
    Shown(u8),
    /// A making that is refused.
    NotMade(u8),
    /// Too early: there is no lamp, or no task was given.
    Error,
    OnLamp(Answer),
}

#[derive(Default)]
pub struct Player {
    lamp: Option<Lamp>,
    last: Option<Task>,
    /// Commands go by their `cmd_` functions and by `call`, in turn.
    by_name: bool,
}

impl Player {
    pub fn play(&mut self, call: Call) -> Reply {
        match call {
            Call::Delta(current, target, direction) => {
                Reply::Delta(hue_path_delta(current, target, direction.ours()))
            }
            Call::Remaining(old, ms, is_start) => {
                let mut remaining = RemainingTime { tenths: old };
                let reported = remaining.write_quietly(ms, is_start);
                Reply::Remaining(reported, remaining.tenths)
            }
            Call::Leave(on_off, options, mask, over) => {
                Reply::Leave(should_continue(on_off.ours(), options, mask, over))
            }
            Call::ModeOf(emode) => Reply::ModeOf(color_mode_of(emode.ours()).theirs()),
            Call::Shown(stored) => Reply::Shown(current_hue(stored)),
            Call::New(min, max, features, options, clock) => {
                match Lamp::new(Bounds { min, max }, features, options, clock) {
                    Ok(lamp) => self.put(lamp),
                    Err(refusal) => Reply::NotMade(refusal.number()),
                }
            }
            Call::Lamp(fields) => self.put(lamp(&fields, Running::Idle)),
            call => match self.lamp.and_then(|lamp| self.on_lamp(lamp, call)) {
                None => Reply::Error,
                Some(answer) => {
                    self.lamp = Some(answer.lamp);
                    self.last = answer.given_task().or(self.last);
                    Reply::OnLamp(answer)
                }
            },
        }
    }

    fn put(&mut self, lamp: Lamp) -> Reply {
        self.lamp = Some(lamp);
        self.last = None;
        Reply::OnLamp(quiet(lamp))
    }

    fn on_lamp(&mut self, at: Lamp, call: Call) -> Option<Answer> {
        Some(match call {
            Call::Show => quiet(at),
            Call::Poke(fields) => quiet(lamp(&fields, at.running)),
            Call::Record(record) => quiet(Lamp {
                running: running(record.as_ref()),
                ..at
            }),
            Call::Command(on_off, command, mask, over, clock) => {
                self.by_name = !self.by_name;
                if self.by_name {
                    named(at, command, mask, over, on_off, clock)
                } else {
                    let call = lamp::Call::Command {
                        request: command.ours().with_options(mask, over),
                        on_off: on_off.ours(),
                        clock,
                    };
                    commands::call(at, call)
                }
            }
            Call::Start(task, clock) => commands::call(at, start(task.ours(), clock)),
            Call::StartLast(clock) => commands::call(at, start(self.last?, clock)),
            Call::Step(clock) => commands::call(at, lamp::Call::Step { clock }),
            Call::Halt(clock) => commands::call(at, lamp::Call::Halt { clock }),
            Call::Bounds(min, max, clock) => {
                let bounds = Bounds { min, max };
                commands::call(at, lamp::Call::SetBounds { bounds, clock })
            }
            Call::SetHue(hue, is_end, enhanced, clock) => {
                set(at, Setter::Hue { hue, enhanced }, is_end, clock)
            }
            Call::SetSat(saturation, is_end, clock) => {
                set(at, Setter::Saturation(saturation), is_end, clock)
            }
            Call::SetCt(mireds, is_end, clock) => set(at, Setter::Mireds(mireds), is_end, clock),
            _ => unreachable!("no call of a lamp"),
        })
    }
}

fn start(task: Task, clock: u64) -> lamp::Call {
    lamp::Call::Start { task, clock }
}

/// The answer where nothing but the lamp is changed, and nothing reported.
fn quiet(lamp: Lamp) -> Answer {
    lamp.unchanged(Ok(()))
}

/// A command by the function of its name.
fn named(
    lamp: Lamp,
    command: data::Command,
    mask: u8,
    over: u8,
    on_off: data::OnOff,
    clock: u64,
) -> Answer {
    use data::Command::*;
    let on = on_off.ours();
    match command {
        MoveToHue(hue, direction, tenths) => {
            cmd_move_to_hue(lamp, hue, direction.ours(), tenths, mask, over, on, clock)
        }
        EnhancedMoveToHue(hue, direction, tenths) => {
            cmd_enhanced_move_to_hue(lamp, hue, direction.ours(), tenths, mask, over, on, clock)
        }
        MoveHue(mode, rate, enhanced) => {
            cmd_move_hue(lamp, mode.ours(), rate, mask, over, enhanced, on, clock)
        }
        EnhancedMoveHue(mode, rate) => {
            cmd_enhanced_move_hue(lamp, mode.ours(), rate, mask, over, on, clock)
        }
        MoveSaturation(mode, rate) => {
            cmd_move_saturation(lamp, mode.ours(), rate, mask, over, on, clock)
        }
        StepHue(mode, size, tenths) => {
            cmd_step_hue(lamp, mode.ours(), size, tenths, mask, over, on, clock)
        }
        EnhancedStepHue(mode, size, tenths) => {
            cmd_enhanced_step_hue(lamp, mode.ours(), size, tenths, mask, over, on, clock)
        }
        StepSaturation(mode, size, tenths) => {
            cmd_step_saturation(lamp, mode.ours(), size, tenths, mask, over, on, clock)
        }
        MoveToSaturation(saturation, tenths) => {
            cmd_move_to_saturation(lamp, saturation, tenths, mask, over, on, clock)
        }
        MoveToHueAndSaturation(hue, saturation, tenths, enhanced, enhanced_hue) => {
            cmd_move_to_hue_and_saturation(
                lamp,
                hue,
                saturation,
                tenths,
                mask,
                over,
                enhanced,
                enhanced_hue,
                on,
                clock,
            )
        }
        StopMoveStep => cmd_stop_move_step(lamp, mask, over, on, clock),
        MoveToColorTemperature(mireds, tenths) => {
            cmd_move_to_color_temperature(lamp, mireds, tenths, mask, over, on, clock)
        }
        MoveColorTemperature(mode, rate, min, max) => {
            let mode = mode.ours();
            cmd_move_color_temperature(lamp, mode, rate, min, max, mask, over, on, clock)
        }
        StepColorTemperature(mode, size, tenths, min, max) => {
            let mode = mode.ours();
            cmd_step_color_temperature(lamp, mode, size, tenths, min, max, mask, over, on, clock)
        }
        ColorLoopSet(flags, action, direction, seconds, start_hue) => cmd_color_loop_set(
            lamp,
            flags,
            action.ours(),
            direction.ours(),
            seconds,
            start_hue,
            mask,
            over,
            on,
            clock,
        ),
    }
}
