// Made by rust/make from crates/lamp/src/valid.rt: not to be edited.
//! A lamp that was found valid: what a call goes on with, once that is checked. It has no other source than the check, so that a
//! program whose calls all come by one door has the check in its code once (docs/SPEED.md).

use crate::lamp::Lamp;

#[derive(Clone, Copy, Debug, PartialEq, Eq)]
pub struct ValidLamp {
    lamp: Lamp,
}

impl ValidLamp {
    pub fn lamp(self) -> Lamp {
        self.lamp
    }
}

impl Lamp {
    /// The lamp as a valid one, where it is that.
    pub fn validated(self) -> Option<ValidLamp> {
        if self.is_valid() {
            Some(ValidLamp { lamp: self })
        } else {
            None
        }
    }
}
