//! The cluster's generated enums, bitmaps and traits, as far as the source names them.

use core::future::Future;
use core::marker::PhantomData;

use crate::dm::{Cluster, HandlerContext, InvokeContext, LifecycleOp, ReadContext, WriteContext};
use crate::error::{Error, ErrorCode};
use crate::tlv::Nullable;

pub const FULL_CLUSTER: Cluster<'static> = Cluster::new(0x0300, 9);

macro_rules! enums {
    ($($name:ident { $($case:ident = $number:literal),* $(,)? })*) => { $(
        #[derive(Clone, Copy, Debug, PartialEq, Eq, Hash)]
        #[repr(u8)]
        pub enum $name { $($case = $number),* }

        impl $name {
            pub const fn from_number(number: u64) -> Option<Self> {
                match number {
                    $($number => Some($name::$case),)*
                    _ => None,
                }
            }
        }
    )* };
}

enums! {
    DirectionEnum { Shortest = 0, Longest = 1, Up = 2, Down = 3 }
    MoveModeEnum { Stop = 0, Up = 1, Down = 3 }
    StepModeEnum { Up = 1, Down = 3 }
    ColorLoopActionEnum {
        Deactivate = 0,
        ActivateFromColorLoopStartEnhancedHue = 1,
        ActivateFromEnhancedCurrentHue = 2,
    }
    ColorLoopDirectionEnum { Decrement = 0, Increment = 1 }
    ColorModeEnum {
        CurrentHueAndCurrentSaturation = 0,
        CurrentXAndCurrentY = 1,
        ColorTemperatureMireds = 2,
    }
    EnhancedColorModeEnum {
        CurrentHueAndCurrentSaturation = 0,
        CurrentXAndCurrentY = 1,
        ColorTemperatureMireds = 2,
        EnhancedCurrentHueAndCurrentSaturation = 3,
    }
}

macro_rules! bitmaps {
    ($($name:ident: $t:ty { $($flag:ident = $bits:literal),* $(,)? })*) => { $(
        #[derive(Clone, Copy, Debug, PartialEq, Eq, Hash)]
        pub struct $name($t);

        impl $name {
            $(pub const $flag: Self = $name($bits);)*

            pub const fn empty() -> Self {
                $name(0)
            }
            pub const fn bits(&self) -> $t {
                self.0
            }
            pub const fn from_bits_truncate(bits: $t) -> Self {
                $name(bits & (0 $(| $bits)*))
            }
            pub const fn from_bits_retain(bits: $t) -> Self {
                $name(bits)
            }
            pub const fn contains(&self, other: Self) -> bool {
                self.0 & other.0 == other.0
            }
        }
    )* };
}

bitmaps! {
    OptionsBitmap: u8 { EXECUTE_IF_OFF = 1 }
    UpdateFlagsBitmap: u8 {
        UPDATE_ACTION = 1,
        UPDATE_DIRECTION = 2,
        UPDATE_TIME = 4,
        UPDATE_START_HUE = 8,
    }
    Feature: u32 {
        HUE_AND_SATURATION = 1,
        ENHANCED_HUE = 2,
        COLOR_LOOP = 4,
        XY = 8,
        COLOR_TEMPERATURE = 16,
    }
    ColorCapabilitiesBitmap: u16 {
        HUE_SATURATION = 1,
        ENHANCED_HUE = 2,
        COLOR_LOOP = 4,
        XY = 8,
        COLOR_TEMPERATURE = 16,
    }
}

#[derive(Clone, Copy, Debug, PartialEq, Eq)]
#[repr(u32)]
pub enum AttributeId {
    CurrentHue = 0x0000,
    CurrentSaturation = 0x0001,
    RemainingTime = 0x0002,
    CurrentX = 0x0003,
    CurrentY = 0x0004,
    ColorTemperatureMireds = 0x0007,
    ColorMode = 0x0008,
    Options = 0x000F,
    NumberOfPrimaries = 0x0010,
    EnhancedCurrentHue = 0x4000,
    EnhancedColorMode = 0x4001,
    ColorLoopActive = 0x4002,
    ColorLoopDirection = 0x4003,
    ColorLoopTime = 0x4004,
    ColorLoopStartEnhancedHue = 0x4005,
    ColorLoopStoredEnhancedHue = 0x4006,
    ColorCapabilities = 0x400A,
    ColorTempPhysicalMinMireds = 0x400B,
    ColorTempPhysicalMaxMireds = 0x400C,
    CoupleColorTempToLevelMinMireds = 0x400D,
    StartUpColorTemperatureMireds = 0x4010,
}

#[derive(Clone, Copy, Debug, PartialEq, Eq)]
#[repr(u32)]
pub enum CommandId {
    MoveToHue = 0x00,
    MoveHue = 0x01,
    StepHue = 0x02,
    MoveToSaturation = 0x03,
    MoveSaturation = 0x04,
    StepSaturation = 0x05,
    MoveToHueAndSaturation = 0x06,
    MoveToColor = 0x07,
    MoveColor = 0x08,
    StepColor = 0x09,
    MoveToColorTemperature = 0x0A,
    EnhancedMoveToHue = 0x40,
    EnhancedMoveHue = 0x41,
    EnhancedStepHue = 0x42,
    EnhancedMoveToHueAndSaturation = 0x43,
    ColorLoopSet = 0x44,
    StopMoveStep = 0x47,
    MoveColorTemperature = 0x4B,
    StepColorTemperature = 0x4C,
}

// The wrappers above the functions that are compared: of the right shape, never run.

pub struct HandlerAdaptor<T>(pub T);

macro_rules! requests {
    ($($name:ident { $($field:ident: $t:ty),* $(,)? })*) => { $(
        pub struct $name<'a>(PhantomData<&'a ()>);

        impl $name<'_> {
            $(pub fn $field(&self) -> Result<$t, Error> {
                Err(Error(ErrorCode::Failure))
            })*
            pub fn options_mask(&self) -> Result<OptionsBitmap, Error> {
                Err(Error(ErrorCode::Failure))
            }
            pub fn options_override(&self) -> Result<OptionsBitmap, Error> {
                Err(Error(ErrorCode::Failure))
            }
        }
    )* };
}

requests! {
    MoveToHueRequest { hue: u8, direction: DirectionEnum, transition_time: u16 }
    MoveHueRequest { move_mode: MoveModeEnum, rate: u8 }
    StepHueRequest { step_mode: StepModeEnum, step_size: u8, transition_time: u8 }
    MoveToSaturationRequest { saturation: u8, transition_time: u16 }
    MoveSaturationRequest { move_mode: MoveModeEnum, rate: u8 }
    StepSaturationRequest { step_mode: StepModeEnum, step_size: u8, transition_time: u8 }
    MoveToHueAndSaturationRequest { hue: u8, saturation: u8, transition_time: u16 }
    MoveToColorRequest { color_x: u16, color_y: u16, transition_time: u16 }
    MoveColorRequest { rate_x: i16, rate_y: i16 }
    StepColorRequest { step_x: i16, step_y: i16, transition_time: u16 }
    MoveToColorTemperatureRequest { color_temperature_mireds: u16, transition_time: u16 }
    EnhancedMoveToHueRequest { enhanced_hue: u16, direction: DirectionEnum, transition_time: u16 }
    EnhancedMoveHueRequest { move_mode: MoveModeEnum, rate: u16 }
    EnhancedStepHueRequest { step_mode: StepModeEnum, step_size: u16, transition_time: u16 }
    EnhancedMoveToHueAndSaturationRequest {
        enhanced_hue: u16,
        saturation: u8,
        transition_time: u16,
    }
    ColorLoopSetRequest {
        update_flags: UpdateFlagsBitmap,
        action: ColorLoopActionEnum,
        direction: ColorLoopDirectionEnum,
        time: u16,
        start_hue: u16,
    }
    StopMoveStepRequest {}
    MoveColorTemperatureRequest {
        move_mode: MoveModeEnum,
        rate: u16,
        color_temperature_minimum_mireds: u16,
        color_temperature_maximum_mireds: u16,
    }
    StepColorTemperatureRequest {
        step_mode: StepModeEnum,
        step_size: u16,
        transition_time: u16,
        color_temperature_minimum_mireds: u16,
        color_temperature_maximum_mireds: u16,
    }
}

macro_rules! cluster_handler {
    (reads { $($read:ident: $t:ty),* $(,)? } commands { $($cmd:ident: $req:ident),* $(,)? }) => {
        pub trait ClusterHandler {
            const CLUSTER: Cluster<'static>;

            fn lifecycle(&self, ctx: impl HandlerContext, op: LifecycleOp) -> Result<(), Error>;
            async fn run(&self, ctx: impl HandlerContext) -> Result<(), Error>;
            fn dataver(&self) -> u32;
            fn dataver_changed(&self);
            fn set_options(&self, ctx: impl WriteContext, value: OptionsBitmap)
                -> Result<(), Error>;
            fn set_start_up_color_temperature_mireds(
                &self,
                ctx: impl WriteContext,
                value: Nullable<u16>,
            ) -> Result<(), Error>;
            $(fn $read(&self, ctx: impl ReadContext) -> Result<$t, Error>;)*
            $(fn $cmd(&self, ctx: impl InvokeContext, request: $req<'_>) -> Result<(), Error>;)*
        }
    };
}

cluster_handler! {
    reads {
        current_hue: u8,
        current_saturation: u8,
        remaining_time: u16,
        current_x: u16,
        current_y: u16,
        color_temperature_mireds: u16,
        color_mode: ColorModeEnum,
        options: OptionsBitmap,
        number_of_primaries: Nullable<u8>,
        enhanced_current_hue: u16,
        enhanced_color_mode: EnhancedColorModeEnum,
        color_loop_active: u8,
        color_loop_direction: u8,
        color_loop_time: u16,
        color_loop_start_enhanced_hue: u16,
        color_loop_stored_enhanced_hue: u16,
        color_capabilities: ColorCapabilitiesBitmap,
        color_temp_physical_min_mireds: u16,
        color_temp_physical_max_mireds: u16,
        couple_color_temp_to_level_min_mireds: u16,
        start_up_color_temperature_mireds: Nullable<u16>,
    }
    commands {
        handle_move_to_hue: MoveToHueRequest,
        handle_move_hue: MoveHueRequest,
        handle_step_hue: StepHueRequest,
        handle_move_to_saturation: MoveToSaturationRequest,
        handle_move_saturation: MoveSaturationRequest,
        handle_step_saturation: StepSaturationRequest,
        handle_move_to_hue_and_saturation: MoveToHueAndSaturationRequest,
        handle_move_to_color: MoveToColorRequest,
        handle_move_color: MoveColorRequest,
        handle_step_color: StepColorRequest,
        handle_move_to_color_temperature: MoveToColorTemperatureRequest,
        handle_enhanced_move_to_hue: EnhancedMoveToHueRequest,
        handle_enhanced_move_hue: EnhancedMoveHueRequest,
        handle_enhanced_step_hue: EnhancedStepHueRequest,
        handle_enhanced_move_to_hue_and_saturation: EnhancedMoveToHueAndSaturationRequest,
        handle_color_loop_set: ColorLoopSetRequest,
        handle_stop_move_step: StopMoveStepRequest,
        handle_move_color_temperature: MoveColorTemperatureRequest,
        handle_step_color_temperature: StepColorTemperatureRequest,
    }
}
