// Made by rust/make from crates/commands/src/lib.rt: not to be edited.
//! The commands: document 01, leaf 7 and "Commands in their order". `invoke` makes the checks that all commands share and
//! executes one; the `cmd_` functions have the names and parameters of the source's handlers, one for each command, also where
//! two read alike; `call` takes any call of a lamp.
//!
//! Carried over from project-chip/rs-matter, commit 43f61585a4 (Apache-2.0, see NOTICE), and changed.

mod checks;
mod hues;
mod loops;
mod outcomes;
mod saturations;
mod temperatures;

use checks::Checks;
use checks::checks_of;
pub use hues::cmd_enhanced_move_hue;
pub use hues::cmd_enhanced_move_to_hue;
pub use hues::cmd_enhanced_step_hue;
pub use hues::cmd_move_hue;
pub use hues::cmd_move_to_hue;
pub use hues::cmd_move_to_hue_and_saturation;
pub use hues::cmd_step_hue;
use hues::enhanced_rate;
use hues::move_hue;
use hues::step_hue;
use hues::stored_hue;
use hues::to_both;
use hues::to_hue;
use hues::to_plain_hue;
use crate::lamp::Answer;
use crate::lamp::Call;
use crate::lamp::Lamp;
use crate::lamp::ValidLamp;
pub use loops::cmd_color_loop_set;
use loops::set_loop;
use crate::matter::Command;
use crate::matter::CommandOptions;
use crate::matter::OnOff;
use crate::matter::Refusal;
use crate::matter::Request;
use crate::matter::should_continue;
use outcomes::Outcome;
use outcomes::given;
use outcomes::nothing;
pub use saturations::cmd_move_saturation;
pub use saturations::cmd_move_to_saturation;
pub use saturations::cmd_step_saturation;
use saturations::move_saturation;
use saturations::step_saturation;
use saturations::to_saturation;
use crate::tasks::Task;
pub use temperatures::cmd_move_color_temperature;
pub use temperatures::cmd_move_to_color_temperature;
pub use temperatures::cmd_step_color_temperature;
use temperatures::move_mireds;
use temperatures::step_mireds;
use temperatures::to_mireds;

/// What a command does that may execute and is in no Stop mode.
fn execute(lamp: Lamp, command: Command, clock: u64) -> Outcome {
    match command {
        Command::MoveToHue {
            hue,
            direction,
            time,
        } => to_plain_hue(lamp, hue, direction, time),
        Command::MoveHue {
            mode,
            rate,
            enhanced,
        } => move_hue(lamp, mode, enhanced_rate(rate, enhanced), enhanced),
        Command::StepHue { mode, size, time } => {
            step_hue(lamp, mode, stored_hue(size), time, false)
        }
        Command::MoveToSaturation { saturation, time } => to_saturation(lamp, saturation, time),
        Command::MoveSaturation { mode, rate } => move_saturation(lamp, mode, rate),
        Command::StepSaturation { mode, size, time } => step_saturation(lamp, mode, size, time),
        Command::MoveToHueAndSaturation {
            hue,
            saturation,
            time,
            enhanced,
            enhanced_hue,
        } => to_both(lamp, hue, saturation, time, enhanced, enhanced_hue),
        Command::EnhancedMoveToHue {
            hue,
            direction,
            time,
        } => to_hue(lamp, hue, direction, None, time, true),
        Command::EnhancedMoveHue { mode, rate } => move_hue(lamp, mode, rate as u32, true),
        Command::EnhancedStepHue { mode, size, time } => step_hue(lamp, mode, size, time, true),
        Command::MoveToColorTemperature { mireds, time } => to_mireds(lamp, mireds, time),
        Command::MoveColorTemperature {
            mode,
            rate,
            min,
            max,
        } => move_mireds(lamp, mode, rate, min, max),
        Command::StepColorTemperature {
            mode,
            size,
            time,
            min,
            max,
        } => step_mireds(lamp, mode, size, time, min, max),
        Command::ColorLoopSet {
            flags,
            action,
            direction,
            time,
            start_hue,
        } => set_loop(lamp, clock, flags, action, direction, time, start_hue),
        Command::StopMoveStep => given(lamp, Task::Stop),
    }
}

/// Whether a command of a valid lamp is accepted, by its checks in their order: 4, Stop mode, its own numbers.
fn verdict(lamp: Lamp, checks: Checks, clock: u64) -> Result<(), Refusal> {
    lamp.clock_cause(clock)?;
    if checks.stop {
        return Ok(());
    }
    checks.cause
}

/// What an accepted command comes to: the Stop task in Stop mode, and nothing where it may not execute.
fn outcome(lamp: Lamp, request: Request, stop: bool, on_off: OnOff, clock: u64) -> Outcome {
    if stop {
        return given(lamp, Task::Stop);
    }
    let options = request.options;
    if !should_continue(on_off, lamp.options, options.mask, options.overrides) {
        return nothing(lamp);
    }
    execute(lamp, request.command, clock)
}

/// A command to a valid lamp. The answer is built in one place, accepted or refused: built in two, it is copied (docs/SPEED.md).
fn invoke_valid(valid: ValidLamp, request: Request, on_off: OnOff, clock: u64) -> Answer {
    let lamp = valid.lamp();
    let checks = checks_of(request.command);
    let verdict = verdict(lamp, checks, clock);
    let is_accepted = verdict.is_ok();
    let done = if is_accepted {
        outcome(lamp, request, checks.stop, on_off, clock)
    } else {
        nothing(lamp)
    };
    Answer {
        verdict,
        lamp: Lamp {
            clock: if is_accepted { clock } else { lamp.clock },
            color: done.color,
            looping: done.looping,
            ..lamp
        },
        notices: done.reported.notices(),
        task: done.task,
        wait: 0,
    }
}

/// Any command, with its options, the on/off input and the clock.
pub fn invoke(lamp: Lamp, request: Request, on_off: OnOff, clock: u64) -> Answer {
    match lamp.validated() {
        Some(valid) => invoke_valid(valid, request, on_off, clock),
        None => lamp.refused(Refusal::InvalidLamp),
    }
}

/// A command with its options, as the `cmd_` functions take them.
pub(in crate::commands) fn with_options(
    lamp: Lamp,
    command: Command,
    mask: u8,
    overrides: u8,
    on_off: OnOff,
    clock: u64,
) -> Answer {
    let options = CommandOptions { mask, overrides };
    invoke(lamp, Request { options, command }, on_off, clock)
}

/// StopMoveStep.
pub fn cmd_stop_move_step(
    lamp: Lamp,
    options_mask: u8,
    options_override: u8,
    on_off: OnOff,
    clock: u64,
) -> Answer {
    let command = Command::StopMoveStep;
    with_options(lamp, command, options_mask, options_override, on_off, clock)
}

/// Any call of a lamp: the one door to commands, starts, steps, halts and new bounds. That the lamp is valid is checked here, whatever
/// the call is.
pub fn call(lamp: Lamp, call: Call) -> Answer {
    let Some(valid) = lamp.validated() else {
        return lamp.refused(Refusal::InvalidLamp);
    };
    match call {
        Call::Command {
            request,
            on_off,
            clock,
        } => invoke_valid(valid, request, on_off, clock),
        Call::Start { task, clock } => valid.start(task, clock),
        Call::Step { clock } => valid.step(clock),
        Call::Halt { clock } => valid.halt(clock),
        Call::SetBounds { bounds, clock } => valid.set_bounds(bounds, clock),
    }
}
