// Made by rust/make from crates/commands/src/outcomes.rt: not to be edited.
//! What a command comes to, before the answer is built from it.

use crate::color::Color;
use crate::lamp::Lamp;
use crate::lamp::LoopSettings;
use crate::notices::Notice;
use crate::notices::Numeral;
use crate::tasks::Task;

/// All of the lamp that an accepted command can change but its clock, what it reports, and its task.
#[derive(Clone, Copy, Debug, PartialEq, Eq)]
pub struct Outcome {
    pub color: Color,
    pub looping: LoopSettings,
    pub reported: Numeral,
    pub task: Option<Task>,
}

/// A task given, and its tie reported where there is one.
pub(in crate::commands) fn given_with(lamp: Lamp, task: Task, is_tie: bool) -> Outcome {
    Outcome {
        color: lamp.color,
        looping: lamp.looping,
        reported: Numeral::new()
            .note_if(is_tie, Notice::HueTie)
            .note(Notice::TaskGiven),
        task: Some(task),
    }
}

/// A task given.
pub(in crate::commands) fn given(lamp: Lamp, task: Task) -> Outcome {
    given_with(lamp, task, false)
}

/// Nothing done: a refusal, or a command that may not execute (document 01's pass-over).
pub(in crate::commands) fn nothing(lamp: Lamp) -> Outcome {
    Outcome {
        color: lamp.color,
        looping: lamp.looping,
        reported: Numeral::new(),
        task: None,
    }
}
