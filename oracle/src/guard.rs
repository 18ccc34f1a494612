//! What the Rust has not, written by hand: the causes 4 to 8, from document 01's table, looked
//! at before the Rust is run (1 and 2 are the Rust's own errors); and, of document 02, the tie,
//! which is put behind the Rust's answer, CurrentHue from 65,280 on, and new bounds.

use crate::data::*;

pub const LIMIT: u64 = 1_099_511_627_776;

/// A clock earlier than the lamp's, or above the limit.
pub fn clock_refused(lamp: &Fields, clock: u64) -> bool {
    clock < lamp.clock || clock > LIMIT
}

/// The notice of a tie.
pub const TIE: u8 = 18;

/// A.6: Shortest or Longest was asked, and both distances are 32,768.
pub fn is_tie(current: u16, target: u16, direction: DirectionEnum) -> bool {
    let up = target.wrapping_sub(current);
    let down = current.wrapping_sub(target);
    let chooses = matches!(direction, DirectionEnum::Shortest | DirectionEnum::Longest);
    chooses && up == 32_768 && down == 32_768
}

/// Whether a command is a move to a hue that is a tie. With saturation the Rust asks Shortest.
pub fn command_ties(current: u16, command: &Command) -> bool {
    match *command {
        Command::MoveToHue(hue, direction, _) => is_tie(current, u16::from(hue) << 8, direction),
        Command::EnhancedMoveToHue(hue, direction, _) => is_tie(current, hue, direction),
        Command::MoveToHueAndSaturation(_, _, _, true, hue) => {
            is_tie(current, hue, DirectionEnum::Shortest)
        }
        Command::MoveToHueAndSaturation(hue, _, _, false, _) => {
            is_tie(current, u16::from(hue) << 8, DirectionEnum::Shortest)
        }
        _ => false,
    }
}

/// A.4: a stored hue of 65,280 or above is shown as 254, every other as the Rust's attribute.
pub fn shown(stored: u16, attribute: u8) -> u8 {
    if stored >= 65_280 {
        254
    } else {
        attribute
    }
}

fn time_in_form(ms: u32) -> bool {
    ms % 100 == 0 && ms <= 6_553_500
}

pub fn task_in_form(task: &Task) -> bool {
    match *task {
        Task::MoveTo { way, sat, ms, .. } => {
            time_in_form(ms)
                && way.map_or(true, |w| (-65_535..=65_535).contains(&w))
                && sat.map_or(true, |s| s <= 254)
                && (way.is_some() || sat.is_some())
        }
        Task::HueMove { mode, rate, .. } => {
            rate != 0 && rate <= 65_535 && mode != MoveModeEnum::Stop
        }
        Task::SatMove { mode, rate } => rate != 0 && rate <= 255 && mode != MoveModeEnum::Stop,
        Task::CtTo { ms, .. } => time_in_form(ms),
        Task::CtMove { rate, .. } => rate != 0 && (-65_535..=65_535).contains(&rate),
        Task::Loop { .. } => true,
        Task::Stop => false,
    }
}

/// The numbers and modes of a lamp, its record aside.
pub fn fields_in_form(f: &Fields) -> bool {
    let agree = match f.emode {
        EnhancedColorModeEnum::CurrentXAndCurrentY => f.mode == ColorModeEnum::CurrentXAndCurrentY,
        EnhancedColorModeEnum::ColorTemperatureMireds => {
            f.mode == ColorModeEnum::ColorTemperatureMireds
        }
        _ => f.mode == ColorModeEnum::CurrentHueAndCurrentSaturation,
    };
    f.sat <= 254
        && f.min <= f.max
        && within(f, f.mireds)
        && agree
        && f.stamp_hue <= f.clock
        && f.stamp_sat <= f.clock
        && f.stamp_mireds <= f.clock
        && f.clock <= LIMIT
}

fn within(f: &Fields, mireds: u16) -> bool {
    f.min <= mireds && mireds <= f.max
}

pub fn record_in_form(f: &Fields, r: &Record) -> bool {
    task_in_form(&r.task)
        && r.clock <= f.clock
        && match r.task {
            Task::MoveTo { ms, .. } => ms != 0 && r.sat <= 254,
            Task::HueMove { .. } => true,
            Task::SatMove { .. } => r.sat <= 254,
            Task::CtTo { target, ms } => ms != 0 && within(f, r.mireds) && within(f, target),
            Task::CtMove {
                min: lo, max: hi, ..
            } => within(f, r.mireds) && lo < hi && within(f, lo) && within(f, hi),
            Task::Loop { .. } => true,
            Task::Stop => false,
        }
}

pub fn lamp_in_form(f: &Fields, r: Option<&Record>) -> bool {
    fields_in_form(f) && r.map_or(true, |r| record_in_form(f, r))
}

/// The notice of mireds that moved.
pub const MIREDS: u8 = 5;

/// A.9: the lamp after new bounds, and whether its mireds moved; or why they are refused. The record stays.
pub fn new_bounds(
    f: &Fields,
    runs: Option<&Record>,
    (min, max): (u16, u16),
    clock: u64,
) -> Result<(Fields, bool), u8> {
    let mired = |r: &Record| matches!(r.task, Task::CtTo { .. } | Task::CtMove { .. });
    // In the order of the numbers' looks: the first that is so is the cause.
    let looks = [
        (8, !lamp_in_form(f, runs)),
        (4, clock_refused(f, clock)),
        (5, max < min),
        (18, runs.is_some_and(mired)),
    ];
    if let Some((cause, _)) = looks.into_iter().find(|(_, is_so)| *is_so) {
        return Err(cause);
    }
    let mut after = Fields {
        min,
        max,
        clock,
        ..*f
    };
    let moves = !(min..=max).contains(&f.mireds);
    if moves {
        let is_min_nearer = f.mireds.abs_diff(min) < f.mireds.abs_diff(max);
        after.mireds = if is_min_nearer { min } else { max };
        after.stamp_mireds = clock;
    }
    Ok((after, moves))
}
