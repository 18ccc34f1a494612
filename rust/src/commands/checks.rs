// Made by rust/make from crates/commands/src/checks.rt: not to be edited.
//! What is checked of a command by itself, in one row each: Stop mode, and its own numbers.

use crate::matter::Command;
use crate::matter::MoveModeEnum;
use crate::matter::Refusal;

/// Whether it is a move in Stop mode, and the cause that its numbers give; a move in Stop mode can have a cause too.
#[derive(Clone, Copy, Debug, PartialEq, Eq)]
pub struct Checks {
    pub stop: bool,
    pub cause: Result<(), Refusal>,
}

fn is_stop(mode: MoveModeEnum) -> bool {
    matches!(mode, MoveModeEnum::Stop)
}

/// A cause where the test holds.
fn cause_if(test: bool, cause: Refusal) -> Result<(), Refusal> {
    if test { Err(cause) } else { Ok(()) }
}

/// A number out of its range.
fn constrained(bad: bool) -> Checks {
    Checks {
        stop: false,
        cause: cause_if(bad, Refusal::ConstraintError),
    }
}

/// A rate or a step of 0.
fn nonzero(n: u16) -> Checks {
    Checks {
        stop: false,
        cause: cause_if(n == 0, Refusal::InvalidCommand),
    }
}

fn moving(mode: MoveModeEnum, rate: u16) -> Checks {
    Checks {
        stop: is_stop(mode),
        cause: nonzero(rate).cause,
    }
}

pub(in crate::commands) fn checks_of(command: Command) -> Checks {
    match command {
        Command::MoveToHue { hue, .. } => constrained(254 < hue),
        Command::MoveHue { mode, rate, .. } => moving(mode, rate as u16),
        Command::StepHue { size, .. } => nonzero(size as u16),
        Command::MoveToSaturation { saturation, .. } => constrained(254 < saturation),
        Command::MoveSaturation { mode, rate } => moving(mode, rate as u16),
        Command::StepSaturation { size, .. } => nonzero(size as u16),
        Command::MoveToHueAndSaturation {
            hue,
            saturation,
            enhanced,
            ..
        } => constrained((!enhanced & (254 < hue)) | (254 < saturation)),
        Command::EnhancedMoveToHue { .. } => constrained(false),
        Command::EnhancedMoveHue { mode, rate } => moving(mode, rate),
        Command::EnhancedStepHue { size, .. } => nonzero(size),
        Command::MoveToColorTemperature { mireds, .. } => constrained(mireds == 0),
        Command::MoveColorTemperature { mode, rate, .. } => moving(mode, rate),
        Command::StepColorTemperature { size, .. } => nonzero(size),
        Command::ColorLoopSet { .. } => constrained(false),
        Command::StopMoveStep => constrained(false),
    }
}
