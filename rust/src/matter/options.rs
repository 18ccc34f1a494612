// Made by rust/make from crates/matter/src/options.rt: not to be edited.
//! The cluster's bitmaps (OptionsBitmap, UpdateFlagsBitmap, Feature) and what is decided by them.
//!
//! Carried over from project-chip/rs-matter, commit 43f61585a4 (Apache-2.0, see NOTICE), and changed.

use crate::matter::enums::EnhancedColorModeEnum;
use crate::matter::enums::OnOff;

/// The bits of the cluster's bitmaps: OptionsBitmap, UpdateFlagsBitmap, Feature. Numbers, since a command and a lamp carry any.
pub const EXECUTE_IF_OFF: u32 = 1;

pub const UPDATE_ACTION: u32 = 1;

pub const UPDATE_DIRECTION: u32 = 2;

pub const UPDATE_TIME: u32 = 4;

pub const UPDATE_START_HUE: u32 = 8;

pub const HUE_AND_SATURATION: u32 = 1;

pub const ENHANCED_HUE: u32 = 2;

pub const COLOR_LOOP: u32 = 4;

pub const XY: u32 = 8;

pub const COLOR_TEMPERATURE: u32 = 16;

/// Whether a bitmap has a flag, which is a power of two. No bitmap has the flag 0.
pub fn contains(bits: u32, flag: u32) -> bool {
    if flag == 0 {
        return false;
    }
    bits / flag % 2 == 1
}

/// Whether a command may execute: without an on/off cluster, or on, always. Off: ExecuteIfOff of the override where the mask has it,
/// else of the lamp's own options. The name and the parameters are the source's.
pub fn should_continue(on_off: OnOff, options: u8, options_mask: u8, options_override: u8) -> bool {
    match on_off {
        OnOff::NoHandler | OnOff::On => true,
        OnOff::Off => {
            if contains(options_mask as u32, EXECUTE_IF_OFF) {
                contains(options_override as u32, EXECUTE_IF_OFF)
            } else {
                contains(options as u32, EXECUTE_IF_OFF)
            }
        }
    }
}

/// The first colour mode that the features have, in the order XY, hue and saturation, mireds; XY where they have none.
pub fn default_color_mode(feature_map: u32) -> EnhancedColorModeEnum {
    if contains(feature_map, XY) {
        return EnhancedColorModeEnum::CurrentXAndCurrentY;
    }
    if contains(feature_map, HUE_AND_SATURATION) {
        return EnhancedColorModeEnum::CurrentHueAndCurrentSaturation;
    }
    if contains(feature_map, COLOR_TEMPERATURE) {
        return EnhancedColorModeEnum::ColorTemperatureMireds;
    }
    EnhancedColorModeEnum::CurrentXAndCurrentY
}
