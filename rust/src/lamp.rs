// Made by rust/make from crates/lamp/src/lib.rt: not to be edited.
//! The lamp: its state, its making and its validity, and the answer that a call gives. Document 01, leaf 4 and "Why a call is
//! refused".
//!
//! Carried over from project-chip/rs-matter, commit 43f61585a4 (Apache-2.0, see NOTICE), and changed.

mod calls;
mod passes;
mod valid;

use crate::color::Color;
use crate::matter::Bounds;
use crate::matter::CLOCK_LIMIT;
use crate::matter::ColorLoopDirectionEnum;
use crate::matter::OnOff;
use crate::matter::Refusal;
use crate::matter::Request;
use crate::matter::number_of;
use crate::notices::Notices;
use crate::remaining_time::RemainingTime;
use crate::tasks::Running;
use crate::tasks::Task;
pub use valid::ValidLamp;

/// ColorLoopActive, ColorLoopDirection, ColorLoopTime, ColorLoopStartEnhancedHue, ColorLoopStoredEnhancedHue.
#[derive(Clone, Copy, Debug, PartialEq, Eq)]
pub struct LoopSettings {
    pub active: bool,
    pub direction: ColorLoopDirectionEnum,
    pub time: u16,
    pub start: u16,
    pub stored: u16,
}

/// The clock is the last accepted call's; `options` is the lamp's own option byte. The order of the fields leaves no gap.
#[derive(Clone, Copy, Debug, PartialEq, Eq)]
pub struct Lamp {
    pub clock: u64,
    pub bounds: Bounds,
    pub remaining: RemainingTime,
    pub options: u8,
    pub color: Color,
    pub looping: LoopSettings,
    pub running: Running,
}

/// What a call gives: that it is accepted or why it is refused, the lamp after it, what it reports, the task it gives where it
/// gives one, and how long to wait for the next step, in milliseconds: 0 where nothing runs (document 01, "wait 0").
#[derive(Clone, Copy, Debug, PartialEq, Eq)]
pub struct Answer {
    pub verdict: Result<(), Refusal>,
    pub lamp: Lamp,
    pub notices: Notices,
    pub task: Option<Task>,
    pub wait: u64,
}

/// An answer with a number in place of its verdict: 0 where it is accepted, a refusal's number, or a number of the caller's own,
/// as C has 100 for words that are no call.
#[derive(Clone, Copy, Debug, PartialEq, Eq)]
pub struct NumberedAnswer {
    pub number: u8,
    pub lamp: Lamp,
    pub notices: Notices,
    pub task: Option<Task>,
    pub wait: u64,
}

/// A call of a lamp, with its clock. A command comes with what the on/off cluster says; new bounds are set at service.
#[derive(Clone, Copy, Debug, PartialEq, Eq)]
pub enum Call {
    Command {
        request: Request,
        on_off: OnOff,
        clock: u64,
    },
    Start {
        task: Task,
        clock: u64,
    },
    Step {
        clock: u64,
    },
    Halt {
        clock: u64,
    },
    SetBounds {
        bounds: Bounds,
        clock: u64,
    },
}

/// A lamp as it is made, with these bounds, features, options and clock.
fn fresh(bounds: Bounds, feature_map: u32, options: u8, clock: u64) -> Lamp {
    Lamp {
        clock,
        bounds,
        color: Color::new(feature_map, bounds),
        looping: LoopSettings {
            active: false,
            direction: ColorLoopDirectionEnum::Increment,
            time: 25,
            start: 8960,
            stored: 0,
        },
        remaining: RemainingTime { tenths: 0 },
        options,
        running: Running::Idle,
    }
}

impl Lamp {
    /// A fresh lamp, unless the clock is above the limit or the bounds are crossed.
    pub fn new(bounds: Bounds, feature_map: u32, options: u8, clock: u64) -> Result<Lamp, Refusal> {
        if CLOCK_LIMIT < clock {
            return Err(Refusal::Clock);
        }
        if bounds.are_crossed() {
            return Err(Refusal::CrossedBounds);
        }
        Ok(fresh(bounds, feature_map, options, clock))
    }

    pub fn is_valid(self) -> bool {
        (self.clock <= CLOCK_LIMIT)
            & self.color.is_valid(self.bounds, self.clock)
            & self.running.is_valid(self.bounds, self.clock)
    }

    /// The same lamp at another clock.
    pub fn at_clock(self, now: u64) -> Lamp {
        Lamp { clock: now, ..self }
    }

    /// The two causes that every call but a step checks first: an invalid lamp, and the clock.
    pub fn first_cause(self, clock: u64) -> Result<(), Refusal> {
        if !self.is_valid() {
            return Err(Refusal::InvalidLamp);
        }
        self.clock_cause(clock)
    }

    /// A clock earlier than the lamp's, or above the limit.
    pub fn clock_cause(self, clock: u64) -> Result<(), Refusal> {
        if (clock < self.clock) | (CLOCK_LIMIT < clock) {
            return Err(Refusal::Clock);
        }
        Ok(())
    }

    /// The lamp as it was, with this verdict: an empty list, no task, wait 0.
    pub fn unchanged(self, verdict: Result<(), Refusal>) -> Answer {
        Answer {
            verdict,
            lamp: self,
            notices: Notices::new(),
            task: None,
            wait: 0,
        }
    }

    /// A refusal.
    pub fn refused(self, cause: Refusal) -> Answer {
        self.unchanged(Err(cause))
    }

    /// The lamp as it was, with this number, whichever byte it is: an empty list, no task, wait 0.
    pub fn numbered(self, number: u8) -> NumberedAnswer {
        NumberedAnswer {
            number,
            ..self.unchanged(Ok(())).numbered()
        }
    }
}

impl Answer {
    /// The same answer by its number.
    pub fn numbered(self) -> NumberedAnswer {
        NumberedAnswer {
            number: number_of(self.verdict),
            lamp: self.lamp,
            notices: self.notices,
            task: self.task,
            wait: self.wait,
        }
    }
}
