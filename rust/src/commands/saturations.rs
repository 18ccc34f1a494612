// Made by rust/make from crates/commands/src/saturations.rt: not to be edited.
//! The commands of the saturation alone. `cmd_`: the source's names and parameters.
//!
//! Carried over from project-chip/rs-matter, commit 43f61585a4 (Apache-2.0, see NOTICE), and changed.

use crate::commands::outcomes::Outcome;
use crate::commands::outcomes::given;
use crate::commands::with_options;
use crate::lamp::Answer;
use crate::lamp::Lamp;
use crate::matter::Command;
use crate::matter::MoveModeEnum;
use crate::matter::OnOff;
use crate::matter::StepModeEnum;
use crate::tasks::HueSaturationMoveTo;
use crate::tasks::SaturationMove;
use crate::tasks::Task;

fn saturation_step(mode: StepModeEnum, now: u8, size: u8) -> u8 {
    match mode {
        StepModeEnum::Up => now.saturating_add(size).min(254),
        StepModeEnum::Down => now.saturating_sub(size),
    }
}

/// A move to a saturation; the time is in tenths.
pub(in crate::commands) fn to_saturation(lamp: Lamp, saturation: u8, tenths: u16) -> Outcome {
    let task = HueSaturationMoveTo {
        delta: None,
        saturation: Some(saturation),
        ms: (tenths as u32) * 100,
        enhanced: false,
    };
    given(lamp, Task::HueSaturationMoveTo(task))
}

pub(in crate::commands) fn step_saturation(
    lamp: Lamp,
    mode: StepModeEnum,
    size: u8,
    tenths: u16,
) -> Outcome {
    to_saturation(
        lamp,
        saturation_step(mode, lamp.color.saturation, size),
        tenths,
    )
}

pub(in crate::commands) fn move_saturation(lamp: Lamp, mode: MoveModeEnum, rate: u8) -> Outcome {
    let task = SaturationMove {
        direction: mode,
        rate: rate as u32,
    };
    given(lamp, Task::SaturationMove(task))
}

/// MoveToSaturation.
pub fn cmd_move_to_saturation(
    lamp: Lamp,
    saturation: u8,
    transition_time_ds: u16,
    options_mask: u8,
    options_override: u8,
    on_off: OnOff,
    clock: u64,
) -> Answer {
    let command = Command::MoveToSaturation {
        saturation,
        time: transition_time_ds,
    };
    with_options(lamp, command, options_mask, options_override, on_off, clock)
}

/// MoveSaturation: at a rate in units a second.
pub fn cmd_move_saturation(
    lamp: Lamp,
    move_mode: MoveModeEnum,
    rate: u8,
    options_mask: u8,
    options_override: u8,
    on_off: OnOff,
    clock: u64,
) -> Answer {
    let command = Command::MoveSaturation {
        mode: move_mode,
        rate,
    };
    with_options(lamp, command, options_mask, options_override, on_off, clock)
}

/// StepSaturation: by a step, as far as 0 or 254.
pub fn cmd_step_saturation(
    lamp: Lamp,
    step_mode: StepModeEnum,
    step_size: u8,
    transition_time_ds: u16,
    options_mask: u8,
    options_override: u8,
    on_off: OnOff,
    clock: u64,
) -> Answer {
    let command = Command::StepSaturation {
        mode: step_mode,
        size: step_size,
        time: transition_time_ds,
    };
    with_options(lamp, command, options_mask, options_override, on_off, clock)
}
