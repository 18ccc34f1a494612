// Made by rust/make from crates/matter/src/refusals.rt: not to be edited.
//! Why a call is refused: document 01's table, and document 02's additions. Each cause has a number; 3, which was crossed
//! limits of a mired step, is free.

#[derive(Clone, Copy, Debug, PartialEq, Eq)]
pub enum Refusal {
    /// Hue or saturation above 254, mireds 0.
    ConstraintError = 1,
    /// Rate or step 0.
    InvalidCommand = 2,
    /// A clock earlier than the lamp's, or above the limit.
    Clock = 4,
    /// The physical minimum above the maximum, at making or as new bounds.
    CrossedBounds = 5,
    InvalidTask = 6,
    StepWhileIdle = 7,
    /// An invalid lamp, a row of more than 32, or a wrong running mask.
    InvalidLamp = 8,
    /// A slice shorter than sixteen bytes a lamp of the row.
    ShortSlice = 9,
    /// A place that the row does not have.
    NoPlace = 10,
    /// New bounds while a mired task runs.
    MiredTaskRuns = 18,
}

impl From<Refusal> for u8 {
    fn from(refusal: Refusal) -> u8 {
        refusal as u8
    }
}

/// The number of an answer: 0 of an accepted call, or that of the refusal.
pub fn number_of(verdict: Result<(), Refusal>) -> u8 {
    match verdict {
        Ok(()) => 0,
        Err(refusal) => u8::from(refusal),
    }
}
