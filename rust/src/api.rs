//! On top of the made modules, by hand: results, iterators over notices, constructors with names. Nothing here
//! decides anything, and nothing here is proved.

use core::cmp::Ordering;
use core::error::Error;
use core::fmt;
use core::hash::{Hash, Hasher};

use crate::commands;
use crate::hue;
use crate::lamp::{Answer, Call, Lamp, NumberedAnswer};
use crate::matter::{
    self, Bounds, ColorLoopActionEnum, ColorLoopDirectionEnum, Command, CommandOptions,
    DirectionEnum, MoveModeEnum, OnOff, Refusal, Request, StepModeEnum,
};
use crate::notices::{Notice, Notices};
use crate::rows::{Row, RowAnswer, RowStepped};
use crate::tasks::Task;

/// What an enum of the proved source lacks for users of the crate: all of its cases, a case of a number, and a text for each.
macro_rules! numbered {
    ($name:ident { $($case:ident = $number:literal: $text:literal,)* }) => {
        impl $name {
            /// All of them, by their numbers.
            pub const ALL: &'static [Self] = &[$(Self::$case),*];

            /// The number of documents 01 and 02.
            pub const fn number(self) -> u8 {
                match self {
                    $(Self::$case => $number,)*
                }
            }

            /// What has this number, if anything has.
            pub const fn of_number(number: u8) -> Option<Self> {
                match number {
                    $($number => Some(Self::$case),)*
                    _ => None,
                }
            }
        }

        impl PartialOrd for $name {
            fn partial_cmp(&self, other: &Self) -> Option<Ordering> {
                Some(self.cmp(other))
            }
        }

        impl Ord for $name {
            fn cmp(&self, other: &Self) -> Ordering {
                self.number().cmp(&other.number())
            }
        }

        impl Hash for $name {
            fn hash<H: Hasher>(&self, state: &mut H) {
                self.number().hash(state);
            }
        }

        impl fmt::Display for $name {
            fn fmt(&self, f: &mut fmt::Formatter<'_>) -> fmt::Result {
                f.pad(match self {
                    $(Self::$case => $text,)*
                })
            }
        }
    };
}

numbered! {
    Refusal {
        ConstraintError = 1: "hue or saturation above 254, or mireds 0",
        InvalidCommand = 2: "a rate or a step of 0",
        Clock = 4: "a clock earlier than the lamp's, or above the limit",
        CrossedBounds = 5: "a physical minimum above the maximum",
        InvalidTask = 6: "an invalid task",
        StepWhileIdle = 7: "a step while nothing runs",
        InvalidLamp = 8: "an invalid lamp, a row of more than 32, or a wrong running mask",
        ShortSlice = 9: "a slice shorter than sixteen bytes a lamp of the row",
        NoPlace = 10: "a place that the row does not have",
        MiredTaskRuns = 18: "new bounds while a mired task runs",
    }
}

impl Error for Refusal {}

numbered! {
    Notice {
        RemainingTime = 1: "RemainingTime is reported",
        CurrentHue = 2: "CurrentHue is reported",
        EnhancedCurrentHue = 3: "EnhancedCurrentHue is reported",
        CurrentSaturation = 4: "CurrentSaturation is reported",
        ColorTemperatureMireds = 5: "ColorTemperatureMireds is reported",
        ColorMode = 6: "ColorMode is reported",
        EnhancedColorMode = 7: "EnhancedColorMode is reported",
        ColorLoopActive = 8: "ColorLoopActive is reported",
        ColorLoopDirection = 9: "ColorLoopDirection is reported",
        ColorLoopTime = 10: "ColorLoopTime is reported",
        ColorLoopStartEnhancedHue = 11: "ColorLoopStartEnhancedHue is reported",
        ColorLoopStoredEnhancedHue = 12: "ColorLoopStoredEnhancedHue is reported",
        MarkedDirty = 13: "the state is marked dirty: it is to be stored",
        ScenesNotified = 14: "the scenes are notified",
        DeviceHueSaturation = 15: "the device is written: hue and saturation",
        DeviceMireds = 16: "the device is written: mireds",
        TaskGiven = 17: "a task is given",
        HueTie = 18: "the hue of the task given goes half the circle, and the other way round is as long",
    }
}

/// The longest list of notices.
const PLACES: usize = 16;

/// The number at a place of a list, 0 past its end. What depends on how a list is kept stands here alone.
fn number_at(list: &Notices, place: usize) -> u8 {
    list.places[place]
}

/// The notices of an answer, in their order.
#[derive(Clone, Debug)]
pub struct NoticeIter {
    list: Notices,
    at: usize,
}

impl Iterator for NoticeIter {
    type Item = Notice;

    #[inline]
    fn next(&mut self) -> Option<Notice> {
        if self.at == PLACES {
            return None;
        }
        let notice = Notice::of_number(number_at(&self.list, self.at))?;
        self.at += 1;
        Some(notice)
    }
}

impl Notices {
    /// The notices in their order.
    #[inline]
    pub const fn iter(&self) -> NoticeIter {
        NoticeIter { list: *self, at: 0 }
    }
}

impl IntoIterator for Notices {
    type Item = Notice;
    type IntoIter = NoticeIter;

    fn into_iter(self) -> NoticeIter {
        self.iter()
    }
}

impl Default for Notices {
    fn default() -> Self {
        Notices::new()
    }
}

/// What all answers have in common.
macro_rules! results {
    ($($answer:ident)*) => {
        $(impl $answer {
            /// The answer of an accepted call, or why it was refused.
            #[inline]
            pub fn result(self) -> Result<$answer, Refusal> {
                self.verdict.map(|()| self)
            }
        })*
    };
}

/// What the answers to a single call have in common.
macro_rules! given_tasks {
    ($($answer:ident)*) => {
        $(impl $answer {
            /// The task that the caller is to start; for [`Task::Stop`], to halt.
            pub fn given_task(&self) -> Option<Task> {
                self.task
            }
        })*
    };
}

results! { Answer RowStepped RowAnswer }
given_tasks! { Answer NumberedAnswer RowAnswer }

/// The notices of a place in the bytes that an accepted row call wrote, in their order. A refused one writes none: the bytes
/// are then what they were before.
pub fn notices_at(bytes: &[u8], place: u8) -> impl Iterator<Item = Notice> + '_ {
    let places = bytes.iter().skip(PLACES * usize::from(place)).take(PLACES);
    places.map_while(|number| Notice::of_number(*number))
}

impl Answer {
    /// Whether there is something to step, after [`Answer::wait`] milliseconds.
    pub fn is_running(&self) -> bool {
        self.lamp.running.is_running()
    }
}

impl NumberedAnswer {
    /// Whether there is something to step, after [`NumberedAnswer::wait`] milliseconds.
    pub fn is_running(&self) -> bool {
        self.lamp.running.is_running()
    }
}

/// Every feature of the cluster.
pub const ALL_FEATURES: u32 = matter::HUE_AND_SATURATION
    | matter::ENHANCED_HUE
    | matter::COLOR_LOOP
    | matter::XY
    | matter::COLOR_TEMPERATURE;

/// What a lamp is made with.
#[derive(Clone, Copy, Debug, PartialEq, Eq)]
pub struct NewLamp {
    /// The physical bounds of the mireds.
    pub bounds: Bounds,
    /// The FeatureMap: [`ALL_FEATURES`], or some of its bits.
    pub features: u32,
    /// The Options attribute, of which [`matter::EXECUTE_IF_OFF`] counts.
    pub options: u8,
    /// The clock now, in milliseconds.
    pub clock: u64,
}

impl NewLamp {
    /// The lamp, unless the clock is above the limit or the bounds are crossed.
    pub fn make(self) -> Result<Lamp, Refusal> {
        Lamp::new(self.bounds, self.features, self.options, self.clock)
    }
}

impl Lamp {
    /// Sends any call: a command, a start, a step, a halt or new bounds.
    #[inline]
    pub fn call(self, call: Call) -> Result<Answer, Refusal> {
        commands::call(self, call).result()
    }

    /// Sends a command. A [`Command`] by itself comes with neither option bit.
    #[inline]
    pub fn command(
        self,
        request: impl Into<Request>,
        on_off: OnOff,
        clock: u64,
    ) -> Result<Answer, Refusal> {
        commands::invoke(self, request.into(), on_off, clock).result()
    }

    /// CurrentHue, the one byte that a hub reads: the upper byte of the stored hue, at most 254.
    ///
    /// ```
    /// use yemkruos::{ALL_FEATURES, Band, Bounds, NewLamp};
    ///
    /// let bounds = Bounds { min: 153, max: 500 };
    /// let mut lamp = NewLamp { bounds, features: ALL_FEATURES, options: 0, clock: 0 }.make()?;
    /// for (stored, shown) in [(65_023, 253), (65_279, 254), (65_280, 254), (65_535, 254)] {
    ///     lamp.color.hue = stored;
    ///     assert_eq!(lamp.current_hue(), shown);
    /// }
    /// // The stored hues that are shown as 254.
    /// assert_eq!(Band::of_current_hue(254, 254), Band { low: 65_024, high: 65_535 });
    /// # Ok::<(), yemkruos::Refusal>(())
    /// ```
    #[inline]
    pub fn current_hue(&self) -> u8 {
        hue::current_hue(self.color.hue)
    }
}

impl Row {
    /// Sends a command to the lamp at a place, as [`Lamp::command`] does to a lamp alone.
    #[inline]
    pub fn command_at(
        self,
        place: u8,
        request: impl Into<Request>,
        on_off: OnOff,
        clock: u64,
    ) -> Result<RowAnswer, Refusal> {
        let call = Call::Command {
            request: request.into(),
            on_off,
            clock,
        };
        self.call_at(place, call).result()
    }

    /// Starts a task on the lamp at a place. [`Task::Stop`] is no task to start: [`Row::halt_at`] is what it asks for.
    #[inline]
    pub fn start_at(self, place: u8, task: Task, clock: u64) -> Result<RowAnswer, Refusal> {
        self.call_at(place, Call::Start { task, clock }).result()
    }

    /// Halts the lamp at a place.
    #[inline]
    pub fn halt_at(self, place: u8, clock: u64) -> Result<RowAnswer, Refusal> {
        self.call_at(place, Call::Halt { clock }).result()
    }

    /// Sets the physical bounds of the lamp at a place, as [`Lamp::set_bounds`] does to a lamp alone.
    #[inline]
    pub fn set_bounds_at(
        self,
        place: u8,
        bounds: Bounds,
        clock: u64,
    ) -> Result<RowAnswer, Refusal> {
        self.call_at(place, Call::SetBounds { bounds, clock })
            .result()
    }
}

impl From<Command> for Request {
    fn from(command: Command) -> Request {
        command.with_options(0, 0)
    }
}

/// A constructor for each command, by its name.
macro_rules! constructors {
    ($($name:ident, $case:ident { $($field:ident: $type:ty),* };)*) => {
        impl Command {
            $(
                #[doc = concat!("[`Command::", stringify!($case), "`].")]
                pub const fn $name($($field: $type),*) -> Command {
                    Command::$case { $($field),* }
                }
            )*
        }
    };
}

constructors! {
    move_to_hue, MoveToHue { hue: u8, direction: DirectionEnum, time: u16 };
    move_hue, MoveHue { mode: MoveModeEnum, rate: u8, enhanced: bool };
    step_hue, StepHue { mode: StepModeEnum, size: u8, time: u16 };
    move_to_saturation, MoveToSaturation { saturation: u8, time: u16 };
    move_saturation, MoveSaturation { mode: MoveModeEnum, rate: u8 };
    step_saturation, StepSaturation { mode: StepModeEnum, size: u8, time: u16 };
    move_to_hue_and_saturation, MoveToHueAndSaturation {
        hue: u8, saturation: u8, time: u16, enhanced: bool, enhanced_hue: u16
    };
    enhanced_move_to_hue, EnhancedMoveToHue { hue: u16, direction: DirectionEnum, time: u16 };
    enhanced_move_hue, EnhancedMoveHue { mode: MoveModeEnum, rate: u16 };
    enhanced_step_hue, EnhancedStepHue { mode: StepModeEnum, size: u16, time: u16 };
    move_to_color_temperature, MoveToColorTemperature { mireds: u16, time: u16 };
    move_color_temperature, MoveColorTemperature { mode: MoveModeEnum, rate: u16, min: u16, max: u16 };
    step_color_temperature, StepColorTemperature {
        mode: StepModeEnum, size: u16, time: u16, min: u16, max: u16
    };
    color_loop_set, ColorLoopSet {
        flags: u8,
        action: ColorLoopActionEnum,
        direction: ColorLoopDirectionEnum,
        time: u16,
        start_hue: u16
    };
    stop_move_step, StopMoveStep {};
}

impl Command {
    /// The command with its OptionsMask and OptionsOverride.
    pub const fn with_options(self, mask: u8, overrides: u8) -> Request {
        let options = CommandOptions { mask, overrides };
        Request {
            options,
            command: self,
        }
    }
}
