// Made by rust/make from crates/matter/src/limits.rt: not to be edited.
//! The limits that document 01 sets, and the physical bounds of a lamp.

/// The largest clock, in milliseconds: a call with a later one is refused.
pub const CLOCK_LIMIT: u64 = 1_099_511_627_776;

/// The physical bounds of the mireds.
#[derive(Clone, Copy, Debug, PartialEq, Eq)]
pub struct Bounds {
    pub min: u16,
    pub max: u16,
}

impl Bounds {
    /// The minimum above the maximum.
    pub fn are_crossed(self) -> bool {
        self.max < self.min
    }

    /// The larger minimum of a mired move or step: the limit, or the physical one.
    pub fn lower_limit(self, limit: u16) -> u16 {
        limit.max(self.min)
    }

    /// The smaller maximum.
    pub fn upper_limit(self, limit: u16) -> u16 {
        limit.min(self.max)
    }
}
