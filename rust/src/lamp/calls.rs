// Made by rust/make from crates/lamp/src/calls.rt: not to be edited.
//! Starts, steps and halts: document 01, leaf 6, and halt; new bounds: document 02, A.9. Each takes the lamp and hands it back inside
//! its answer.
//!
//! Carried over from project-chip/rs-matter, commit 43f61585a4 (Apache-2.0, see NOTICE), and changed.

use crate::lamp::passes::Found;
use crate::lamp::passes::Left;
use crate::lamp::passes::left_by;
use crate::lamp::Answer;
use crate::lamp::Lamp;
use crate::lamp::ValidLamp;
use crate::color::cons_change;
use crate::matter::Bounds;
use crate::matter::Refusal;
use crate::notices::Notice;
use crate::notices::Notices;
use crate::notices::Numeral;
use crate::progress::clamped_sum;
use crate::progress::elapsed;
use crate::progress::permille;
use crate::remaining_time::RemainingTime;
use crate::tasks::ColorLoop;
use crate::tasks::ColorLoopRun;
use crate::tasks::ColorTemperatureMove;
use crate::tasks::ColorTemperatureMoveTo;
use crate::tasks::ColorTemperatureRun;
use crate::tasks::ColorTemperatureToRun;
use crate::tasks::HueRun;
use crate::tasks::HueSaturationMoveTo;
use crate::tasks::HueSaturationRun;
use crate::tasks::Running;
use crate::tasks::SaturationRun;
use crate::tasks::Task;

fn no_hue_delta(delta: Option<i64>) -> bool {
    delta.is_none_or(|way| way == 0)
}

fn no_saturation_delta(target: Option<u8>, start: u8) -> bool {
    target.is_none_or(|saturation| saturation == start)
}

/// Permille at a start: the end at once where there is no time or no way.
fn start_permille(ms: u32, no_delta: bool) -> u16 {
    if (ms == 0) | no_delta { 1000 } else { 0 }
}

impl Lamp {
    /// What a pass at this clock is given of the lamp, with this remaining time.
    fn found(self, remaining: RemainingTime, clock: u64) -> Found {
        Found {
            clock,
            bounds: self.bounds,
            remaining,
            color: self.color,
        }
    }

    /// The two move-to starts write the full time first; then comes the first pass.
    fn start_hue_saturation(self, task: HueSaturationMoveTo, clock: u64) -> Left {
        let w = self
            .remaining
            .write_remaining_time_quietly(task.ms as u64, true);
        let no_delta = no_hue_delta(task.delta)
            & no_saturation_delta(task.saturation, self.color.saturation);
        let permille = start_permille(task.ms, no_delta);
        let run = HueSaturationRun {
            start: clock,
            hue: self.color.hue,
            saturation: self.color.saturation,
            task,
        };
        let found = self.found(w.remaining, clock);
        let moved = found.move_to_hue_saturation_transition(run, permille);
        let passed = found.timed(moved, clock, task.ms, permille);
        left_by(w.reported, passed, Running::HueSaturationMoveTo(run))
    }

    fn start_color_temperature_to(self, task: ColorTemperatureMoveTo, clock: u64) -> Left {
        let w = self
            .remaining
            .write_remaining_time_quietly(task.ms as u64, true);
        let target = clamped_sum(self.bounds.min, self.bounds.max, task.target, 0);
        let permille = start_permille(task.ms, target == self.color.mireds);
        let run = ColorTemperatureToRun {
            start: clock,
            mireds: self.color.mireds,
            task: ColorTemperatureMoveTo {
                target,
                ms: task.ms,
            },
        };
        let found = self.found(w.remaining, clock);
        let moved = found.move_to_color_temperature_transition(run, permille);
        let passed = found.timed(moved, clock, task.ms, permille);
        left_by(w.reported, passed, Running::ColorTemperatureMoveTo(run))
    }

    fn start_color_temperature(self, task: ColorTemperatureMove, clock: u64) -> Left {
        let bounds = self.bounds;
        let found = self.found(self.remaining, clock);
        let lo = bounds.lower_limit(task.min);
        let hi = bounds.upper_limit(task.max);
        if hi <= lo {
            return left_by(false, found.no_transition(), Running::Idle);
        }
        let run = ColorTemperatureRun {
            start: clock,
            mireds: self.color.mireds,
            lo,
            hi,
            rate: task.rate,
        };
        let passed = found.color_temperature_move_transition(run);
        left_by(false, passed, Running::ColorTemperatureMove(run))
    }

    /// A start of a valid task: its record, and the first pass.
    fn begin(self, task: Task, clock: u64) -> Left {
        let found = self.found(self.remaining, clock);
        match task {
            Task::HueSaturationMoveTo(t) => self.start_hue_saturation(t, clock),
            Task::HueMove(t) => {
                let run = HueRun {
                    start: clock,
                    hue: self.color.hue,
                    task: t,
                };
                left_by(false, found.hue_move_transition(run), Running::HueMove(run))
            }
            Task::SaturationMove(t) => {
                let run = SaturationRun {
                    start: clock,
                    saturation: self.color.saturation,
                    task: t,
                };
                let passed = found.saturation_move_transition(run);
                left_by(false, passed, Running::SaturationMove(run))
            }
            Task::ColorTemperatureMoveTo(t) => self.start_color_temperature_to(t, clock),
            Task::ColorTemperatureMove(t) => self.start_color_temperature(t, clock),
            Task::ColorLoop(t) => {
                let run = ColorLoopRun {
                    start: clock,
                    hue: self.color.hue,
                    task: t,
                };
                left_by(false, found.color_loop_transition(run), Running::from(run))
            }
            Task::Stop => left_by(false, found.no_transition(), Running::Idle),
        }
    }

    /// A pass of what runs.
    fn pass(self, running: Running, clock: u64) -> Left {
        let found = self.found(self.remaining, clock);
        match running {
            Running::Idle => left_by(false, found.no_transition(), Running::Idle),
            Running::HueSaturationMoveTo(run) => {
                let task = run.task;
                let p = permille(elapsed(run.start, clock), task.ms);
                let moved = found.move_to_hue_saturation_transition(run, p);
                let passed = found.timed(moved, run.start, task.ms, p);
                left_by(false, passed, Running::HueSaturationMoveTo(run))
            }
            Running::HueMove(run) => {
                left_by(false, found.hue_move_transition(run), Running::HueMove(run))
            }
            Running::SaturationMove(run) => {
                let passed = found.saturation_move_transition(run);
                left_by(false, passed, Running::SaturationMove(run))
            }
            Running::ColorTemperatureMoveTo(run) => {
                let task = run.task;
                let p = permille(elapsed(run.start, clock), task.ms);
                let moved = found.move_to_color_temperature_transition(run, p);
                let passed = found.timed(moved, run.start, task.ms, p);
                left_by(false, passed, Running::ColorTemperatureMoveTo(run))
            }
            Running::ColorTemperatureMove(run) => {
                let passed = found.color_temperature_move_transition(run);
                left_by(false, passed, Running::ColorTemperatureMove(run))
            }
            Running::ColorLoop {
                direction,
                hue,
                seconds,
                start,
            } => {
                let run = ColorLoopRun {
                    start,
                    hue,
                    task: ColorLoop { direction, seconds },
                };
                left_by(false, found.color_loop_transition(run), Running::from(run))
            }
        }
    }

    /// The answer of an accepted start or step: the lamp as it is left, and what is reported.
    fn accepted(self, left: Left, list: Numeral, clock: u64) -> Answer {
        let passed = left.passed;
        Answer {
            verdict: Ok(()),
            lamp: Lamp {
                clock,
                remaining: passed.remaining,
                color: passed.color,
                running: left.running,
                ..self
            },
            notices: list.note_if(left.full, Notice::RemainingTime).notices(),
            task: None,
            wait: passed.wait,
        }
    }
}

impl ValidLamp {
    /// Starts a task, in place of what runs.
    pub fn start(self, task: Task, clock: u64) -> Answer {
        let lamp = self.lamp();
        if let Err(refusal) = lamp.clock_cause(clock) {
            return lamp.refused(refusal);
        }
        if !task.is_valid() {
            return lamp.refused(Refusal::InvalidTask);
        }
        let left = lamp.begin(task, clock);
        let active = lamp.looping.active;
        let list = cons_change(left.passed.first, left.passed.behind(active), active);
        lamp.accepted(left, list, clock)
    }

    /// One step of what runs.
    pub fn step(self, clock: u64) -> Answer {
        let lamp = self.lamp();
        let running = lamp.running;
        if !running.is_running() {
            return lamp.refused(Refusal::StepWhileIdle);
        }
        if let Err(cause) = lamp.clock_cause(clock) {
            return lamp.refused(cause);
        }
        let left = lamp.pass(running, clock);
        let active = lamp.looping.active;
        let list = cons_change(left.passed.first, left.passed.behind(active), active);
        lamp.accepted(left, list, clock)
    }

    /// Makes the lamp idle, and nothing else.
    pub fn halt(self, clock: u64) -> Answer {
        let lamp = self.lamp();
        if let Err(bad_clock) = lamp.clock_cause(clock) {
            return lamp.refused(bad_clock);
        }
        Answer {
            verdict: Ok(()),
            lamp: Lamp {
                clock,
                running: Running::Idle,
                ..lamp
            },
            notices: Notices::new(),
            task: None,
            wait: 0,
        }
    }

    /// Why new bounds are refused: 4, crossed bounds, a mired task that runs.
    fn bounds_cause(self, bounds: Bounds, clock: u64) -> Result<(), Refusal> {
        let lamp = self.lamp();
        lamp.clock_cause(clock)?;
        if bounds.are_crossed() {
            return Err(Refusal::CrossedBounds);
        }
        if lamp.running.moves_mireds() {
            return Err(Refusal::MiredTaskRuns);
        }
        Ok(())
    }

    /// New physical bounds. Mireds outside go to the nearer one and are reported; nothing is stored, and the device is not written.
    pub fn set_bounds(self, bounds: Bounds, clock: u64) -> Answer {
        let lamp = self.lamp();
        if let Err(cause) = self.bounds_cause(bounds, clock) {
            return lamp.refused(cause);
        }
        let color = lamp.color.bounded(bounds, clock);
        let is_moved = color.mireds != lamp.color.mireds;
        Answer {
            verdict: Ok(()),
            lamp: Lamp {
                clock,
                bounds,
                color,
                ..lamp
            },
            notices: Numeral::new()
                .note_if(is_moved, Notice::ColorTemperatureMireds)
                .notices(),
            task: None,
            wait: 0,
        }
    }
}

/// The same of any lamp: an invalid one is refused with 8, before all else.
impl Lamp {
    pub fn start(self, task: Task, clock: u64) -> Answer {
        match self.validated() {
            Some(valid) => valid.start(task, clock),
            None => self.refused(Refusal::InvalidLamp),
        }
    }

    pub fn step(self, clock: u64) -> Answer {
        match self.validated() {
            Some(valid) => valid.step(clock),
            None => self.refused(Refusal::InvalidLamp),
        }
    }

    pub fn halt(self, clock: u64) -> Answer {
        match self.validated() {
            Some(valid) => valid.halt(clock),
            None => self.refused(Refusal::InvalidLamp),
        }
    }

    pub fn set_bounds(self, bounds: Bounds, clock: u64) -> Answer {
        match self.validated() {
            Some(valid) => valid.set_bounds(bounds, clock),
            None => self.refused(Refusal::InvalidLamp),
        }
    }
}
