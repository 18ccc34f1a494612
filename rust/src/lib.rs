//! A Matter colour lamp: hue, saturation, mireds and the colour loop of the Color Control cluster.
//!
//! The modules [`arc`] to [`tasks`] are proved source with its contracts taken away; `rust/make` writes them. The items
//! at the root are a layer by hand over them. What that leaves unproved, and how it is tested, is in the README.
//!
//! A lamp is a value. Each call takes it with the clock and gives an [`Answer`]: the lamp after the call, the
//! [`Notice`]s, the task given and the time to wait. The caller keeps the clock, starts the task that a command gives,
//! and steps while the lamp runs.
//!
//! # A fade
//!
//! From red to cyan in two tenths of a second, at clock 5000. Both ways round are equally long, which
//! the answer reports ([`Notice::HueTie`]); Shortest then goes up.
//!
//! ```
//! use yemkruos::{ALL_FEATURES, Bounds, Command, DirectionEnum, NewLamp, Notice, OnOff, Refusal};
//!
//! # fn main() -> Result<(), Refusal> {
//! let lamp = NewLamp {
//!     bounds: Bounds { min: 153, max: 500 },
//!     features: ALL_FEATURES,
//!     options: 0,
//!     clock: 5000,
//! }
//! .make()?;
//!
//! let command = Command::move_to_hue(128, DirectionEnum::Shortest, 2);
//! let answer = lamp.command(command, OnOff::On, 5000)?;
//! assert!(answer.notices.iter().eq([Notice::TaskGiven, Notice::HueTie]));
//! let task = answer.given_task().unwrap();
//!
//! // The start writes the device and asks for a step in 100 ms.
//! let answer = answer.lamp.start(task, 5000).result()?;
//! assert!(answer.notices.iter().eq([Notice::DeviceHueSaturation]));
//! assert_eq!((answer.lamp.color.hue, answer.lamp.remaining.tenths, answer.wait), (0, 2, 100));
//!
//! // Half-way.
//! let answer = answer.lamp.step(5100).result()?;
//! let step = [
//!     Notice::MarkedDirty,
//!     Notice::CurrentHue,
//!     Notice::ColorMode,
//!     Notice::EnhancedColorMode,
//!     Notice::ScenesNotified,
//!     Notice::DeviceHueSaturation,
//! ];
//! assert!(answer.notices.iter().eq(step));
//! assert_eq!((answer.lamp.color.hue, answer.lamp.remaining.tenths, answer.wait), (16_384, 1, 100));
//!
//! // At the end the remaining time is 0, which is reported, and nothing runs any more.
//! let answer = answer.lamp.step(5200).result()?;
//! assert!(answer.notices.iter().eq(step.into_iter().chain([Notice::RemainingTime])));
//! assert_eq!((answer.lamp.color.hue, answer.lamp.remaining.tenths, answer.wait), (32_768, 0, 0));
//! assert!(!answer.is_running());
//!
//! assert_eq!(answer.lamp.step(5300).result(), Err(Refusal::StepWhileIdle));
//! # Ok(())
//! # }
//! ```
//!
//! # Limits that cross
//!
//! A step of the mireds whose minimum is above its maximum, as some remotes send it, is answered as if both were 0.
//!
//! ```
//! use yemkruos::{ALL_FEATURES, Bounds, Command, NewLamp, OnOff, Refusal, StepModeEnum};
//!
//! # fn main() -> Result<(), Refusal> {
//! let bounds = Bounds { min: 153, max: 500 };
//! let lamp = NewLamp { bounds, features: ALL_FEATURES, options: 0, clock: 5000 }.make()?;
//! let step = |min, max| Command::step_color_temperature(StepModeEnum::Up, 100, 0, min, max);
//! let crossed = lamp.command(step(400, 300), OnOff::On, 5000)?;
//! let free = lamp.command(step(0, 0), OnOff::On, 5000)?;
//! assert_eq!(crossed, free);
//! # Ok(())
//! # }
//! ```
//!
//! # Bounds set at service
//!
//! New physical bounds take the mireds along where those lie outside, and are refused while a task moves them.
//!
//! ```
//! use yemkruos::{ALL_FEATURES, Bounds, NewLamp, Notice, Refusal};
//!
//! # fn main() -> Result<(), Refusal> {
//! let bounds = Bounds { min: 153, max: 500 };
//! let lamp = NewLamp { bounds, features: ALL_FEATURES, options: 0, clock: 5000 }.make()?;
//! assert_eq!(lamp.color.mireds, 250);
//! let answer = lamp.set_bounds(Bounds { min: 300, max: 400 }, 5000).result()?;
//! assert!(answer.notices.iter().eq([Notice::ColorTemperatureMireds]));
//! assert_eq!(answer.lamp.color.mireds, 300);
//! # Ok(())
//! # }
//! ```
//!
//! # A row
//!
//! A [`Row`] has up to 32 lamps. One call steps those that run, at one clock; any other call goes to a place.
//!
//! ```
//! use yemkruos::{ALL_FEATURES, Bounds, Call, Command, DirectionEnum, NewLamp, Notice, OnOff, Refusal, Row, notices_at};
//!
//! # fn main() -> Result<(), Refusal> {
//! let bounds = Bounds { min: 153, max: 500 };
//! let lamp = NewLamp { bounds, features: ALL_FEATURES, options: 0, clock: 5000 }.make()?;
//! let mut row = Row::new(2, [lamp; 32]);
//!
//! // The second lamp turns to cyan, down and past no green.
//! let command = Command::move_to_hue(128, DirectionEnum::Down, 2);
//! let answer = row.command_at(1, command, OnOff::On, 5000)?;
//! row = answer.row.start_at(1, answer.given_task().unwrap(), 5000)?.row;
//!
//! // Sixteen bytes a place: the notices of the lamps that run.
//! let mut bytes = [0; 32];
//! let stepped = row.step(&mut bytes, 5100).result()?;
//! assert_eq!((stepped.row.lamps[0].color.hue, stepped.row.lamps[1].color.hue), (0, 49_152));
//! assert_eq!(stepped.wait, 100);
//! assert_eq!(notices_at(&bytes, 0).next(), None);
//! assert_eq!(notices_at(&bytes, 1).next(), Some(Notice::MarkedDirty));
//!
//! // A refusal changes nothing, the bytes neither.
//! assert_eq!(stepped.row.step(&mut bytes[..31], 5200).result(), Err(Refusal::ShortSlice));
//! assert_eq!(stepped.row.call_at(2, Call::Halt { clock: 5200 }).result(), Err(Refusal::NoPlace));
//! # Ok(())
//! # }
//! ```
//!
//! # Which lamps run
//!
//! Bit k of [`Row::running_mask`] is set exactly where lamp k runs. Every call keeps it so. Count and lowest place are read
//! off it, without a look at the lamps:
//!
//! ```
//! use yemkruos::{
//!     ALL_FEATURES, Bounds, Command, DirectionEnum, NewLamp, OnOff, Refusal, Row, lowest_running, running_count,
//! };
//!
//! # fn main() -> Result<(), Refusal> {
//! let bounds = Bounds { min: 153, max: 500 };
//! let lamp = NewLamp { bounds, features: ALL_FEATURES, options: 0, clock: 5000 }.make()?;
//! let mut row = Row::new(2, [lamp; 32]);
//! assert_eq!((running_count(row.running_mask), lowest_running(row.running_mask)), (0, None));
//!
//! // The command gives a task; the lamp runs once that is started.
//! let command = Command::move_to_hue(128, DirectionEnum::Down, 2);
//! let answer = row.command_at(1, command, OnOff::On, 5000)?;
//! assert_eq!(answer.row.running_mask, 0);
//! row = answer.row.start_at(1, answer.given_task().unwrap(), 5000)?.row;
//! assert_eq!(row.running_mask, 0b10);
//! assert_eq!((running_count(row.running_mask), lowest_running(row.running_mask)), (1, Some(1)));
//!
//! // Done.
//! row = row.step(&mut [0; 32], 5200).result()?.row;
//! assert_eq!((running_count(row.running_mask), lowest_running(row.running_mask)), (0, None));
//!
//! // A mask that does not say what the lamps do makes the row invalid.
//! row.running_mask = 0b10;
//! assert_eq!(row.step(&mut [0; 32], 5200).result(), Err(Refusal::InvalidLamp));
//! # Ok(())
//! # }
//! ```

#![no_std]
#![forbid(unsafe_code)]
// Clippy on the form of the made modules, which is the proved source's: it names its fields, and has no methods of
// numbers and ranges.
#![allow(
    clippy::collapsible_if,
    clippy::implicit_saturating_sub,
    clippy::manual_abs_diff,
    clippy::manual_is_multiple_of,
    clippy::manual_range_contains,
    clippy::new_ret_no_self,
    clippy::new_without_default,
    clippy::nonminimal_bool,
    clippy::redundant_field_names,
    clippy::too_many_arguments
)]

pub mod arc;
pub mod color;
pub mod commands;
pub mod hue;
pub mod lamp;
pub mod matter;
pub mod notices;
pub mod progress;
pub mod remaining_time;
pub mod rows;
pub mod tasks;

mod api;

pub use api::{ALL_FEATURES, NewLamp, NoticeIter, notices_at};
pub use arc::{Band, passes_through, plain_passes_through};
pub use lamp::{Answer, Call, Lamp, NumberedAnswer};
pub use matter::{
    Bounds, ColorLoopActionEnum, ColorLoopDirectionEnum, ColorModeEnum, Command, CommandOptions,
    DirectionEnum, EnhancedColorModeEnum, MoveModeEnum, OnOff, Refusal, Request, Reserved,
    StepModeEnum,
};
pub use notices::Notice;
pub use rows::{Row, RowAnswer, RowStepped, lowest_running, running_count};
pub use tasks::Task;

// The README's example is a test.
#[cfg(doctest)]
#[doc = include_str!("../README.md")]
struct Readme;
