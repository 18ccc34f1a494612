//! What is measured: for each row a lamp and a list of calls, all of which are accepted.

use oracle_lib::data::*;
use oracle_lib::driver;
use oracle_lib::random::Random;

use crate::words::{Call, Timed};

pub struct Row {
    pub name: &'static str,
    pub lamp: Fields,
    pub calls: Vec<Timed>,
}

const CALLS: u64 = 1000;
const BEGIN: u64 = 5000;

fn lamp() -> Fields {
    driver::fresh(153, 500, 31, 0, BEGIN)
}

/// Calls at clocks that go up by `gap`.
fn list(name: &'static str, count: u64, gap: u64, mut call: impl FnMut(u64) -> Call) -> Row {
    Row {
        name,
        lamp: lamp(),
        calls: (0..count)
            .map(|i| Timed {
                call: call(i),
                clock: BEGIN + gap * i,
            })
            .collect(),
    }
}

fn command(name: &'static str, mut make: impl FnMut(&mut Random) -> Command) -> Row {
    let mut random = Random::new(1);
    list(name, CALLS, 70, |_| {
        Call::Command(make(&mut random), OnOff::On, 0, 0)
    })
}

fn start(name: &'static str, mut make: impl FnMut(&mut Random) -> Task) -> Row {
    let mut random = Random::new(2);
    list(name, CALLS, 70, |_| Call::Start(make(&mut random)))
}

/// A start, then steps a tick apart; again from the start where the row is long.
fn steps(name: &'static str, run: u64, mut make: impl FnMut(u64) -> Task) -> Row {
    list(name, CALLS, 100, |i| {
        if i % run == 0 {
            Call::Start(make(i / run))
        } else {
            Call::Step
        }
    })
}

fn pick<T: Copy>(random: &mut Random, xs: &[T]) -> T {
    xs[random.below(xs.len() as u64) as usize]
}

pub fn all() -> Vec<Row> {
    use ColorLoopActionEnum::*;
    use ColorLoopDirectionEnum::*;
    let directions = [
        DirectionEnum::Shortest,
        DirectionEnum::Longest,
        DirectionEnum::Up,
        DirectionEnum::Down,
    ];
    let moves = [MoveModeEnum::Up, MoveModeEnum::Down];
    let turns = [StepModeEnum::Up, StepModeEnum::Down];
    let byte = |r: &mut Random| r.below(254) as u8 + 1;
    let word = |r: &mut Random| r.below(65_535) as u16 + 1;
    // A target half-way round from hue 0 is a tie, which the Rust does not report.
    let plain_hue = |r: &mut Random| match byte(r) {
        128 => 127,
        hue => hue,
    };
    let enhanced_hue = |r: &mut Random| match word(r) {
        32_768 => 32_767,
        hue => hue,
    };
    let mireds = |r: &mut Random| 153 + r.below(348) as u16;
    vec![
        list("harness alone", CALLS, 70, |_| Call::Nothing),
        command("move_to_hue", |r| {
            Command::MoveToHue(plain_hue(r), pick(r, &directions), word(r))
        }),
        command("move_hue", |r| {
            Command::MoveHue(pick(r, &moves), byte(r), r.below(2) == 1)
        }),
        command("step_hue", |r| {
            Command::StepHue(pick(r, &turns), byte(r), word(r))
        }),
        command("move_to_saturation", |r| {
            Command::MoveToSaturation(byte(r), word(r))
        }),
        command("move_saturation", |r| {
            Command::MoveSaturation(pick(r, &moves), byte(r))
        }),
        command("step_saturation", |r| {
            Command::StepSaturation(pick(r, &turns), byte(r), word(r))
        }),
        command("move_to_hue_and_saturation", |r| {
            Command::MoveToHueAndSaturation(
                plain_hue(r),
                byte(r),
                word(r),
                r.below(2) == 1,
                enhanced_hue(r),
            )
        }),
        command("enhanced_move_to_hue", |r| {
            Command::EnhancedMoveToHue(enhanced_hue(r), pick(r, &directions), word(r))
        }),
        command("enhanced_move_hue", |r| {
            Command::EnhancedMoveHue(pick(r, &moves), word(r))
        }),
        command("enhanced_step_hue", |r| {
            Command::EnhancedStepHue(pick(r, &turns), word(r), word(r))
        }),
        command("move_to_color_temperature", |r| {
            Command::MoveToColorTemperature(word(r), word(r))
        }),
        command("move_color_temperature", |r| {
            Command::MoveColorTemperature(pick(r, &moves), word(r), mireds(r), 0)
        }),
        command("step_color_temperature", |r| {
            Command::StepColorTemperature(pick(r, &turns), word(r), word(r), 0, 0)
        }),
        command("color_loop_set", |r| {
            Command::ColorLoopSet(
                15,
                pick(
                    r,
                    &[
                        Deactivate,
                        ActivateFromColorLoopStartEnhancedHue,
                        ActivateFromEnhancedCurrentHue,
                    ],
                ),
                pick(r, &[Decrement, Increment]),
                word(r),
                word(r),
            )
        }),
        command("stop_move_step", |_| Command::StopMoveStep),
        start("start move_to", |r| Task::MoveTo {
            way: Some(r.below(65_536) as i64 - 32_768),
            sat: Some(byte(r)),
            ms: (r.below(65_535) as u32 + 1) * 100,
            enhanced: r.below(2) == 1,
        }),
        start("start hue_move", |r| Task::HueMove {
            mode: pick(r, &moves),
            rate: word(r).into(),
            enhanced: r.below(2) == 1,
        }),
        start("start sat_move", |r| Task::SatMove {
            mode: pick(r, &moves),
            rate: byte(r).into(),
        }),
        start("start ct_to", |r| Task::CtTo {
            target: word(r),
            ms: (r.below(65_535) as u32 + 1) * 100,
        }),
        start("start ct_move", |r| Task::CtMove {
            rate: r.below(1000) as i64 - 1001,
            min: 153,
            max: 500,
        }),
        start("start loop", |r| Task::Loop {
            dir: pick(r, &[Decrement, Increment]),
            seconds: word(r),
        }),
        steps("step move_to", CALLS, |_| Task::MoveTo {
            way: Some(-30_000),
            sat: Some(200),
            ms: 200_000,
            enhanced: true,
        }),
        steps("step hue_move", CALLS, |_| Task::HueMove {
            mode: MoveModeEnum::Up,
            rate: 5000,
            enhanced: true,
        }),
        steps("step sat_move", 250, |i| Task::SatMove {
            mode: moves[i as usize % 2],
            rate: 10,
        }),
        steps("step ct_to", CALLS, |_| Task::CtTo {
            target: 500,
            ms: 200_000,
        }),
        steps("step ct_move", 250, |i| Task::CtMove {
            rate: [10, -10][i as usize % 2],
            min: 153,
            max: 500,
        }),
        steps("step loop", CALLS, |_| Task::Loop {
            dir: Increment,
            seconds: 25,
        }),
        list("halt", CALLS, 70, |_| Call::Halt),
        list("a fade of 65,535 tenths", 65_536, 100, |i| {
            if i == 0 {
                Call::Start(Task::MoveTo {
                    way: Some(32_768),
                    sat: None,
                    ms: 6_553_500,
                    enhanced: false,
                })
            } else {
                Call::Step
            }
        }),
    ]
}
