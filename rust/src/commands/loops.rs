// Made by rust/make from crates/commands/src/loops.rt: not to be edited.
//! The colour loop's command. `cmd_`: the source's names and parameters.
//!
//! Carried over from project-chip/rs-matter, commit 43f61585a4 (Apache-2.0, see NOTICE), and changed.

use crate::commands::outcomes::Outcome;
use crate::commands::outcomes::nothing;
use crate::commands::with_options;
use crate::color::cons_change;
use crate::lamp::Answer;
use crate::lamp::Lamp;
use crate::lamp::LoopSettings;
use crate::matter::ColorLoopActionEnum;
use crate::matter::ColorLoopDirectionEnum;
use crate::matter::Command;
use crate::matter::OnOff;
use crate::matter::UPDATE_ACTION;
use crate::matter::UPDATE_DIRECTION;
use crate::matter::UPDATE_START_HUE;
use crate::matter::UPDATE_TIME;
use crate::matter::contains;
use crate::notices::Notice;
use crate::notices::Numeral;
use crate::tasks::ColorLoop;
use crate::tasks::Task;

/// The one or the other.
fn choice<T: Copy>(test: bool, new: T, old: T) -> T {
    if test { new } else { old }
}

/// The settings after the update by flags.
fn updated_settings(
    s: LoopSettings,
    flags: u8,
    direction: ColorLoopDirectionEnum,
    time: u16,
    start_hue: u16,
) -> LoopSettings {
    let bits = flags as u32;
    LoopSettings {
        direction: choice(contains(bits, UPDATE_DIRECTION), direction, s.direction),
        time: choice(contains(bits, UPDATE_TIME), time, s.time),
        start: choice(contains(bits, UPDATE_START_HUE), start_hue, s.start),
        ..s
    }
}

/// The update's notices in front of a list.
fn cons_updated(list: Numeral, flags: u8) -> Numeral {
    let bits = flags as u32;
    list.note(Notice::MarkedDirty)
        .note_if(
            contains(bits, UPDATE_START_HUE),
            Notice::ColorLoopStartEnhancedHue,
        )
        .note_if(contains(bits, UPDATE_TIME), Notice::ColorLoopTime)
        .note_if(contains(bits, UPDATE_DIRECTION), Notice::ColorLoopDirection)
}

/// Off: where the loop is active, the stored hue comes back and the Stop task is given.
fn deactivate(lamp: Lamp) -> Outcome {
    if !lamp.looping.active {
        return nothing(lamp);
    }
    let set = lamp
        .color
        .set_hue(lamp.looping.stored, true, true, lamp.clock);
    let device = Numeral::new().note(Notice::DeviceHueSaturation);
    Outcome {
        color: set.color,
        looping: LoopSettings {
            active: false,
            ..lamp.looping
        },
        reported: cons_change(set.change, device, false)
            .note(Notice::ColorLoopActive)
            .note(Notice::TaskGiven),
        task: Some(Task::Stop),
    }
}

/// On: the hue is stored, unless the loop is active already, the first hue is set, and the loop's task is given.
fn activate(lamp: Lamp, seed: u16) -> Outcome {
    let old = lamp.looping;
    let active = old.active;
    let set = lamp.color.set_hue(seed, true, true, lamp.clock);
    let given = Numeral::new()
        .note(Notice::TaskGiven)
        .note(Notice::DeviceHueSaturation);
    Outcome {
        color: set.color,
        looping: LoopSettings {
            active: true,
            stored: choice(active, old.stored, lamp.color.hue),
            ..old
        },
        reported: cons_change(set.change, given, true)
            .note_if(!active, Notice::ColorLoopActive)
            .note_if(!active, Notice::ColorLoopStoredEnhancedHue),
        task: Some(Task::ColorLoop(ColorLoop {
            direction: old.direction,
            seconds: old.time,
        })),
    }
}

/// The action, where the update has one.
fn act(lamp: Lamp, acts: bool, action: ColorLoopActionEnum) -> Outcome {
    if !acts {
        return nothing(lamp);
    }
    match action {
        ColorLoopActionEnum::Deactivate => deactivate(lamp),
        ColorLoopActionEnum::ActivateFromColorLoopStartEnhancedHue => {
            activate(lamp, lamp.looping.start)
        }
        ColorLoopActionEnum::ActivateFromEnhancedCurrentHue => activate(lamp, lamp.color.hue),
    }
}

/// What the command does at its clock.
pub(in crate::commands) fn set_loop(
    lamp: Lamp,
    clock: u64,
    flags: u8,
    action: ColorLoopActionEnum,
    direction: ColorLoopDirectionEnum,
    time: u16,
    start_hue: u16,
) -> Outcome {
    let changed = Lamp {
        clock,
        looping: updated_settings(lamp.looping, flags, direction, time, start_hue),
        ..lamp
    };
    let done = act(changed, contains(flags as u32, UPDATE_ACTION), action);
    Outcome {
        reported: cons_updated(done.reported, flags),
        ..done
    }
}

/// ColorLoopSet.
pub fn cmd_color_loop_set(
    lamp: Lamp,
    update_flags: u8,
    action: ColorLoopActionEnum,
    direction: ColorLoopDirectionEnum,
    time: u16,
    start_hue: u16,
    options_mask: u8,
    options_override: u8,
    on_off: OnOff,
    clock: u64,
) -> Answer {
    let command = Command::ColorLoopSet {
        flags: update_flags,
        action,
        direction,
        time,
        start_hue,
    };
    with_options(lamp, command, options_mask, options_override, on_off, clock)
}
