// Made by rust/make from crates/remaining_time/src/lib.rt: not to be edited.
//! RemainingTime, and when a change of it is reported: document 01, leaf 2.
//!
//! Carried over from project-chip/rs-matter, commit 43f61585a4 (Apache-2.0, see NOTICE), and changed.

use crate::progress::tenths;

/// The attribute, in tenths of a second.
#[derive(Clone, Copy, Debug, PartialEq, Eq)]
pub struct RemainingTime {
    pub tenths: u16,
}

/// The attribute after a write, and whether the change is reported; there is an attribute either way.
#[derive(Clone, Copy, Debug, PartialEq, Eq)]
pub struct Written {
    pub reported: bool,
    pub remaining: RemainingTime,
}

/// Whether a change from `prev` to `new_ds` is reported: to 0, from 0 to more than a second, or, at a transition's start,
/// by more than a second.
fn is_reported(prev: u16, new_ds: u16, is_start_of_transition: bool) -> bool {
    let changed_to_zero = (new_ds == 0) & (prev != 0);
    let changed_from_zero_gt_10 = (prev == 0) & (10 < new_ds);
    let changed_by_gt_10 = (10 < new_ds.abs_diff(prev)) & is_start_of_transition;
    changed_to_zero | changed_from_zero_gt_10 | changed_by_gt_10
}

impl RemainingTime {
    /// The rule, by value: the time that remains, rounded up to tenths and wrapped at sixteen bits, and whether the change is reported.
    fn written_quietly(self, remaining_ms: u64, is_start_of_transition: bool) -> Written {
        let new_ds = (tenths(remaining_ms) % 65536) as u16;
        let prev = self.tenths;
        Written {
            reported: is_reported(prev, new_ds, is_start_of_transition),
            remaining: RemainingTime { tenths: new_ds },
        }
    }

    /// The record is lent and changed in place, as in the source: the time that remains is stored, and whether it is reported is answered.
    pub fn write_quietly(&mut self, remaining_ms: u64, is_start_of_transition: bool) -> bool {
        let written = (*self).written_quietly(remaining_ms, is_start_of_transition);
        *self = written.remaining;
        written.reported
    }

    /// The record in and out by value: it is lent for the write. Starts and passes use this one.
    pub fn write_remaining_time_quietly(
        self,
        remaining_ms: u64,
        is_start_of_transition: bool,
    ) -> Written {
        let mut remaining = self;
        let reported = remaining.write_quietly(remaining_ms, is_start_of_transition);
        Written {
            reported,
            remaining,
        }
    }
}
