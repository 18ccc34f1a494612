//! The protocol's lamps, commands, tasks and records as plain data.

pub use crate::color_control_decl::{
    ColorLoopActionEnum, ColorLoopDirectionEnum, ColorModeEnum, DirectionEnum,
    EnhancedColorModeEnum, MoveModeEnum, StepModeEnum,
};

#[derive(Clone, Copy, Debug, PartialEq, Eq)]
pub struct Fields {
    pub min: u16,
    pub max: u16,
    pub clock: u64,
    pub options: u8,
    pub remaining: u16,
    pub stamp_hue: u64,
    pub stamp_sat: u64,
    pub stamp_mireds: u64,
    pub hue: u16,
    pub sat: u8,
    pub mireds: u16,
    pub mode: ColorModeEnum,
    pub emode: EnhancedColorModeEnum,
    pub loop_active: bool,
    pub loop_dir: ColorLoopDirectionEnum,
    pub loop_time: u16,
    pub loop_start: u16,
    pub loop_stored: u16,
}

#[derive(Clone, Copy, Debug, PartialEq, Eq)]
pub enum OnOff {
    On,
    Off,
    None,
}

#[derive(Clone, Copy, Debug, PartialEq, Eq)]
pub enum Command {
    MoveToHue(u8, DirectionEnum, u16),
    EnhancedMoveToHue(u16, DirectionEnum, u16),
    MoveHue(MoveModeEnum, u8, bool),
    EnhancedMoveHue(MoveModeEnum, u16),
    MoveSaturation(MoveModeEnum, u8),
    StepHue(StepModeEnum, u8, u16),
    EnhancedStepHue(StepModeEnum, u16, u16),
    StepSaturation(StepModeEnum, u8, u16),
    MoveToSaturation(u8, u16),
    MoveToHueAndSaturation(u8, u8, u16, bool, u16),
    StopMoveStep,
    MoveToColorTemperature(u16, u16),
    MoveColorTemperature(MoveModeEnum, u16, u16, u16),
    StepColorTemperature(StepModeEnum, u16, u16, u16, u16),
    ColorLoopSet(u8, ColorLoopActionEnum, ColorLoopDirectionEnum, u16, u16),
}

#[derive(Clone, Copy, Debug, PartialEq, Eq)]
pub enum Task {
    MoveTo {
        way: Option<i64>,
        sat: Option<u8>,
        ms: u32,
        enhanced: bool,
    },
    HueMove {
        mode: MoveModeEnum,
        rate: u32,
        enhanced: bool,
    },
    SatMove {
        mode: MoveModeEnum,
        rate: u32,
    },
    CtTo {
        target: u16,
        ms: u32,
    },
    CtMove {
        rate: i64,
        min: u16,
        max: u16,
    },
    Loop {
        dir: ColorLoopDirectionEnum,
        seconds: u16,
    },
    Stop,
}

/// A task that runs: its start clock, the numbers saved at its start, and what it keeps.
/// In a mired move the kept minimum and maximum are lo and hi.
#[derive(Clone, Copy, Debug, PartialEq, Eq)]
pub struct Record {
    pub clock: u64,
    pub hue: u16,
    pub sat: u8,
    pub mireds: u16,
    pub task: Task,
}
