// Made by rust/make from crates/matter/src/lib.rt: not to be edited.
//! The vocabulary of the Color Control cluster: enums, bitmaps, commands, limits, and the causes of a refusal.

mod commands;
mod enums;
mod limits;
mod options;
mod refusals;

pub use commands::Command;
pub use commands::CommandOptions;
pub use commands::Request;
pub use enums::ColorLoopActionEnum;
pub use enums::ColorLoopDirectionEnum;
pub use enums::ColorModeEnum;
pub use enums::DirectionEnum;
pub use enums::EnhancedColorModeEnum;
pub use enums::MoveModeEnum;
pub use enums::Numbered;
pub use enums::OnOff;
pub use enums::Reserved;
pub use enums::StepModeEnum;
pub use enums::color_mode_of;
pub use limits::Bounds;
pub use limits::CLOCK_LIMIT;
pub use options::COLOR_LOOP;
pub use options::COLOR_TEMPERATURE;
pub use options::ENHANCED_HUE;
pub use options::EXECUTE_IF_OFF;
pub use options::HUE_AND_SATURATION;
pub use options::UPDATE_ACTION;
pub use options::UPDATE_DIRECTION;
pub use options::UPDATE_START_HUE;
pub use options::UPDATE_TIME;
pub use options::XY;
pub use options::contains;
pub use options::default_color_mode;
pub use options::should_continue;
pub use refusals::Refusal;
pub use refusals::number_of;
