//! Scripts with lamps. They run the Rust beside what they write, so as to aim at ends, snaps and whole turns, and to leave
//! out the calls that cannot be compared.

use std::io::Write;

use crate::aimed;
use crate::data::*;
use crate::driver::PAIRS;
use crate::guard::{self, LIMIT};
use crate::protocol::{write_fields, write_record, write_task, Player, LONGEST};
use crate::random::Random;
use crate::recorder;

/// How a line was answered.
pub enum Said {
    /// The Rust cannot be asked: the line is no part of the script.
    Uncomparable,
    Accepted,
    /// Refused, or not read.
    Other,
}

/// Where the lines of a script go. It holds the Rust that answers them.
pub trait Stage {
    fn say(&mut self, line: &[u8]) -> Said;
    /// Whether the last line, a command, was answered with a task.
    fn gave(&self) -> bool;
    /// How many lines the script has.
    fn lines(&self) -> u64;
    fn player(&self) -> &Player;
}

pub const HUES: [u16; 29] = [
    0, 1, 2, 3, 127, 128, 254, 255, 256, 257, 384, 385, 8960, 16384, 32512, 32766, 32767, 32768,
    32769, 32770, 49152, 65024, 65151, 65152, 65279, 65280, 65281, 65534, 65535,
];

/// Calls that can be read. The first `GOOD_SET` are of the kinds that the script `set` has.
const GOOD: [&str; 39] = [
    "lamp 153 500 5000 0 0 0 0 0 0 0 250 1 1 0 1 25 8960 0",
    "poke 153 500 5000 0 0 0 0 0 0 0 250 1 1 0 1 25 8960 0",
    "new 153 500 31 0 5000",
    "set hue 1 0 0 5000",
    "set sat 1 0 5000",
    "set ct 250 0 5000",
    "show",
    "record idle",
    "record move_to 4000 100 20 -50 - 2000 1",
    "record hue_move 4000 100 1 5 0",
    "record sat_move 4000 100 1 5",
    "record ct_to 4000 250 300 1000",
    "record ct_move 4000 250 -7 200 300",
    "record loop 4000 0 1 25",
    "leaf delta 1 2 3",
    "leaf remaining 1 2 1",
    "leaf leave none 1 2 3",
    "leaf mode_of 3",
    "leaf shown 65280",
    "halt 5000",
    "step 5000",
    "startlast 5000",
    "start stop 5000",
    "start move_to 5 - 100 0 5000",
    "start loop 1 25 5000",
    "cmd stop_move_step off 0 0 5000",
    "cmd move_to_hue off 1 2 3 0 0 5000",
    "cmd enhanced_move_to_hue off 1 2 3 0 0 5000",
    "cmd move_hue off 1 2 0 0 0 5000",
    "cmd enhanced_move_hue off 1 2 0 0 5000",
    "cmd move_saturation off 1 2 0 0 5000",
    "cmd step_hue off 1 2 3 0 0 5000",
    "cmd enhanced_step_hue off 1 2 3 0 0 5000",
    "cmd step_saturation off 1 2 3 0 0 5000",
    "cmd move_to_saturation off 1 2 0 0 5000",
    "cmd move_to_hue_and_saturation off 1 2 3 0 5 0 0 5000",
    "cmd move_to_color_temperature off 1 2 0 0 5000",
    "cmd move_color_temperature off 1 2 3 4 0 0 5000",
    "cmd color_loop_set off 15 1 1 25 100 0 0 5000",
];
const GOOD_SET: usize = 19;

pub fn hue(r: &mut Random) -> u16 {
    match r.below(5) {
        0 | 1 => r.pick(&HUES),
        2 => (r.below(256) << 8) as u16,
        _ => r.next() as u16,
    }
}

pub fn pair_of_hues(r: &mut Random) -> (u16, u16) {
    let current = hue(r);
    let target = match r.below(8) {
        0 => current,
        1 => current.wrapping_add(32768),
        2 => current.wrapping_add(r.pick(&[32766, 32767, 32769, 32770])),
        3 => current.wrapping_add(r.pick(&[1, 2, 65534, 65535])),
        _ => hue(r),
    };
    (current, target)
}

pub const REMAININGS: [u16; 18] = [
    0, 1, 2, 9, 10, 11, 12, 40, 50, 60, 61, 100, 32768, 65524, 65525, 65526, 65534, 65535,
];

/// A remaining time and milliseconds, often close to each other or to a rule's edge.
pub fn old_and_ms(r: &mut Random) -> (u16, u64) {
    let old = match r.below(3) {
        0 => r.pick(&REMAININGS),
        1 => r.below(200) as u16,
        _ => r.next() as u16,
    };
    let near = |r: &mut Random, tenths: i64| {
        (tenths * 100 + r.pick(&[-99i64, -1, 0, 0, 1, 50])).max(0) as u64
    };
    let ms = match r.below(6) {
        0 => {
            let tenths = old as i64 + r.pick(&[-12i64, -11, -10, -9, -1, 0, 1, 9, 10, 11, 12]);
            near(r, tenths)
        }
        1 => {
            let tenths = r.below(30) as i64;
            near(r, tenths)
        }
        2 => {
            let tenths = 65536 * r.between(1, 4) as i64 + r.below(24) as i64 - 12;
            near(r, tenths)
        }
        3 => r.below(6_600_000),
        _ => r.next() >> r.below(64),
    };
    (old, ms)
}

pub struct Maker<S> {
    pub stage: S,
    r: Random,
    line: Vec<u8>,
}

macro_rules! say {
    ($self:ident, $($x:tt)*) => {{
        $self.line.clear();
        write!($self.line, $($x)*).unwrap();
        $self.emit()
    }};
}

impl<S: Stage> Maker<S> {
    pub fn new(stage: S, r: Random) -> Self {
        Maker {
            stage,
            r,
            line: Vec::new(),
        }
    }

    /// Says the line. Answers whether the call was accepted.
    fn emit(&mut self) -> bool {
        matches!(self.stage.say(&self.line), Said::Accepted)
    }

    // -- numbers --

    fn bit(&mut self) -> u64 {
        self.r.below(2)
    }

    fn byte(&mut self) -> u8 {
        match self.r.below(3) {
            0 => self.r.pick(&[0, 1, 2, 3, 254, 255]),
            1 => self.r.below(2) as u8,
            _ => self.r.next() as u8,
        }
    }

    fn sat(&mut self) -> u8 {
        match self.r.below(3) {
            0 => self.r.pick(&[0, 1, 2, 127, 252, 253, 254]),
            _ => self.r.below(255) as u8,
        }
    }

    fn within(&mut self, min: u16, max: u16) -> u16 {
        match self.r.below(5) {
            0 => min,
            1 => max,
            2 => (min as u64 + self.r.below(3)).min(max as u64) as u16,
            3 => (max as u64).saturating_sub(self.r.below(3)).max(min as u64) as u16,
            _ => self.r.between(min.into(), max.into()) as u16,
        }
    }

    /// Mireds outside the bounds, where there are any.
    fn outside(&mut self, min: u16, max: u16) -> Option<u16> {
        let below = min.checked_sub(1);
        let above = max.checked_add(1);
        let x = match (below, above) {
            (None, None) => return None,
            (Some(x), None) => (x, 0, x),
            (None, Some(x)) => (x, x, 65535),
            (Some(x), Some(_)) if self.r.one_in(2) => (x, 0, x),
            (Some(_), Some(x)) => (x, x, 65535),
        };
        Some(match self.r.below(3) {
            0 => self.r.between(x.1.into(), x.2.into()) as u16,
            _ => x.0,
        })
    }

    fn start_clock(&mut self) -> u64 {
        match self.r.below(10) {
            0 => self.r.pick(&[0, 1, 999, 1000, 1001]),
            1 | 2 => 5000,
            3 => LIMIT - self.r.pick(&[0, 1, 100, 999, 1000, 5000]),
            4 => self.r.between(0, LIMIT),
            _ => self.r.below(10_000_000),
        }
    }

    fn stamp(&mut self, clock: u64) -> u64 {
        let before = match self.r.below(4) {
            0 => return 0,
            1 => self.r.below(3000),
            2 => self.r.between(0, clock),
            _ => self.r.pick(&[0, 1, 998, 999, 1000, 1001, 2000]),
        };
        clock.saturating_sub(before)
    }

    fn modes(&mut self) -> (ColorModeEnum, EnhancedColorModeEnum) {
        let e = EnhancedColorModeEnum::from_number(self.r.below(4)).unwrap();
        (ColorModeEnum::from_number(e as u64 % 3).unwrap(), e)
    }

    fn loop_dir(&mut self) -> ColorLoopDirectionEnum {
        ColorLoopDirectionEnum::from_number(self.bit()).unwrap()
    }

    fn seconds(&mut self) -> u16 {
        match self.r.below(3) {
            0 => self.r.pick(&[0, 1, 2, 25, 26, 65535]),
            1 => self.r.between(1, 40) as u16,
            _ => self.r.next() as u16,
        }
    }

    fn pair(&mut self) -> (u16, u16) {
        match self.r.below(3) {
            0 => (153, 500),
            _ => self.r.pick(PAIRS),
        }
    }

    fn fields(&mut self) -> Fields {
        let (min, max) = self.pair();
        let clock = self.start_clock();
        let (mode, emode) = self.modes();
        Fields {
            min,
            max,
            clock,
            options: self.byte(),
            remaining: match self.r.below(3) {
                0 => self.r.pick(&REMAININGS),
                1 => 0,
                _ => self.r.next() as u16,
            },
            stamp_hue: self.stamp(clock),
            stamp_sat: self.stamp(clock),
            stamp_mireds: self.stamp(clock),
            hue: hue(&mut self.r),
            sat: self.sat(),
            mireds: self.within(min, max),
            mode,
            emode,
            loop_active: self.r.one_in(3),
            loop_dir: self.loop_dir(),
            loop_time: self.seconds(),
            loop_start: hue(&mut self.r),
            loop_stored: hue(&mut self.r),
        }
    }

    fn past(&mut self, x: u64) -> u64 {
        match self.r.below(4) {
            0 => u64::MAX,
            1 => x + 1 + self.r.below(100_000),
            _ => x + 1,
        }
    }

    /// A lamp in form, put out of form in one way.
    fn broken_fields(&mut self, mut f: Fields) -> Fields {
        match self.r.below(9) {
            0 => f.sat = 255,
            1 => match self.outside(f.min, f.max) {
                Some(x) => f.mireds = x,
                None => f.sat = 255,
            },
            2 => {
                // Crossed bounds: by one, or swapped, or far.
                let (a, b) = match self.r.below(3) {
                    0 => (f.mireds.max(1), f.mireds.max(1) - 1),
                    1 if f.min < f.max => (f.max, f.min),
                    _ => (65535, 0),
                };
                (f.min, f.max) = (a, b);
            }
            3 | 4 => loop {
                f.mode = ColorModeEnum::from_number(self.r.below(3)).unwrap();
                f.emode = EnhancedColorModeEnum::from_number(self.r.below(4)).unwrap();
                if f.mode as u64 != f.emode as u64 % 3 {
                    break;
                }
            },
            5 => f.stamp_hue = self.past(f.clock),
            6 => f.stamp_sat = self.past(f.clock),
            7 => f.stamp_mireds = self.past(f.clock),
            _ => f.clock = self.past(LIMIT),
        }
        f
    }

    fn say_lamp(&mut self, word: &str, f: &Fields) -> bool {
        self.line.clear();
        self.line.extend_from_slice(word.as_bytes());
        self.line.push(b' ');
        write_fields(&mut self.line, f);
        self.emit()
    }

    fn say_record(&mut self, record: Option<&Record>) -> bool {
        self.line.clear();
        self.line.extend_from_slice(b"record ");
        write_record(&mut self.line, record);
        self.emit()
    }

    fn ms(&mut self) -> u32 {
        100 * match self.r.below(5) {
            0 => self.r.pick(&[0, 1, 2, 9, 10, 11, 12, 100, 65534, 65535]),
            1 => self.r.below(65536) as u32,
            _ => self.r.below(80) as u32,
        }
    }

    fn way(&mut self) -> i64 {
        let size = match self.r.below(4) {
            0 => self
                .r
                .pick(&[0, 1, 2, 999, 1000, 1001, 32768, 65280, 65534, 65535]),
            _ => self.r.below(65536) as i64,
        };
        if self.bit() == 0 {
            size
        } else {
            -size
        }
    }

    fn mode(&mut self) -> MoveModeEnum {
        match self.bit() {
            0 => MoveModeEnum::Up,
            _ => MoveModeEnum::Down,
        }
    }

    fn rate(&mut self, most: u64) -> u64 {
        match self.r.below(4) {
            0 => self.r.pick(&[1, 2, 9, 10, 100, most - 1, most]),
            1 => self.r.between(1, 300.min(most)),
            _ => self.r.between(1, most),
        }
    }

    /// A task in form, for a lamp with these bounds.
    fn task(&mut self, min: u16, max: u16) -> Task {
        match self.r.below(7) {
            0 | 1 => {
                let which = self.r.below(4);
                Task::MoveTo {
                    way: (which != 0).then(|| self.way()),
                    sat: (which < 2).then(|| self.sat()),
                    ms: self.ms(),
                    enhanced: self.bit() == 1,
                }
            }
            2 => Task::HueMove {
                mode: self.mode(),
                rate: self.rate(65535) as u32,
                enhanced: self.bit() == 1,
            },
            3 => Task::SatMove {
                mode: self.mode(),
                rate: self.rate(255) as u32,
            },
            4 => Task::CtTo {
                target: match self.r.below(4) {
                    0 => self.r.next() as u16,
                    1 => self.r.pick(&[0, 1, 65535]),
                    _ => self.within(min, max),
                },
                ms: self.ms(),
            },
            5 => {
                let rate = self.rate(65535) as i64;
                Task::CtMove {
                    rate: if self.bit() == 0 { rate } else { -rate },
                    min: match self.r.below(4) {
                        0 => self.r.pick(&[0, 1, 65535]),
                        1 => self.within(min, max),
                        _ => min,
                    },
                    max: match self.r.below(4) {
                        0 => self.r.pick(&[0, 1, 65535]),
                        1 => self.within(min, max),
                        _ => max,
                    },
                }
            }
            _ => Task::Loop {
                dir: self.loop_dir(),
                seconds: self.seconds(),
            },
        }
    }

    /// A task that is in form, put out of form in one way; Stop where it has no such way.
    fn broken_task(&mut self, task: Task) -> Task {
        let bad_ms = |r: &mut Random, ms: u32| match r.below(4) {
            0 => 6_553_600,
            1 => u32::MAX / 100 * 100,
            2 => ms + r.pick(&[1, 50, 99]),
            _ => r.next() as u32 | 1,
        };
        let far = |r: &mut Random| {
            r.pick(&[
                65_536,
                -65_536,
                65_537,
                i64::MAX,
                i64::MIN,
                1 << 32,
                -(1 << 32),
                1 << 31,
            ])
        };
        match task {
            Task::MoveTo {
                way,
                sat,
                ms,
                enhanced,
            } => match self.r.below(4) {
                0 => Task::MoveTo {
                    way,
                    sat,
                    ms: bad_ms(&mut self.r, ms),
                    enhanced,
                },
                1 => Task::MoveTo {
                    way: Some(far(&mut self.r)),
                    sat,
                    ms,
                    enhanced,
                },
                2 => Task::MoveTo {
                    way,
                    sat: Some(255),
                    ms,
                    enhanced,
                },
                _ => Task::MoveTo {
                    way: None,
                    sat: None,
                    ms,
                    enhanced,
                },
            },
            Task::HueMove {
                mode,
                rate,
                enhanced,
            } => match self.r.below(3) {
                0 => Task::HueMove {
                    mode,
                    rate: 0,
                    enhanced,
                },
                1 => Task::HueMove {
                    mode,
                    rate: self.r.pick(&[65_536, 65_537, u32::MAX]),
                    enhanced,
                },
                _ => Task::HueMove {
                    mode: MoveModeEnum::Stop,
                    rate,
                    enhanced,
                },
            },
            Task::SatMove { mode, rate } => match self.r.below(3) {
                0 => Task::SatMove { mode, rate: 0 },
                1 => Task::SatMove {
                    mode,
                    rate: self.r.pick(&[256, 257, 65_536, u32::MAX]),
                },
                _ => Task::SatMove {
                    mode: MoveModeEnum::Stop,
                    rate,
                },
            },
            Task::CtTo { target, ms } => Task::CtTo {
                target,
                ms: bad_ms(&mut self.r, ms),
            },
            Task::CtMove { min, max, .. } => match self.bit() {
                0 => Task::CtMove { rate: 0, min, max },
                _ => Task::CtMove {
                    rate: far(&mut self.r),
                    min,
                    max,
                },
            },
            Task::Loop { .. } | Task::Stop => Task::Stop,
        }
    }

    /// A record in form for this lamp.
    fn record(&mut self, f: &Fields) -> Record {
        let clock = f.clock
            - match self.r.below(6) {
                0 => 0,
                1 => self.r.between(0, f.clock),
                2 => f.clock,
                3 => f
                    .clock
                    .min(self.r.pick(&[1, 99, 100, 101, 999, 1000, 5000])),
                _ => f.clock.min(self.r.below(8000)),
            };
        let task = match self.task(f.min, f.max) {
            Task::MoveTo {
                way,
                sat,
                ms,
                enhanced,
            } => Task::MoveTo {
                way,
                sat,
                ms: ms.max(100),
                enhanced,
            },
            Task::CtTo { ms, .. } => Task::CtTo {
                target: self.within(f.min, f.max),
                ms: ms.max(100),
            },
            Task::CtMove { rate, .. } if f.min < f.max => {
                let lo = self.within(f.min, f.max - 1);
                let hi = self.within(lo + 1, f.max);
                Task::CtMove {
                    rate,
                    min: lo,
                    max: hi,
                }
            }
            Task::CtMove { .. } => Task::CtTo {
                target: f.min,
                ms: 100,
            },
            task => task,
        };
        Record {
            clock,
            hue: hue(&mut self.r),
            sat: self.sat(),
            mireds: self.within(f.min, f.max),
            task,
        }
    }

    /// A record put out of form in one way.
    fn broken_record(&mut self, f: &Fields) -> Record {
        loop {
            let mut record = self.record(f);
            match self.r.below(4) {
                0 => record.clock = self.past(f.clock),
                1 => {
                    record.task = self.broken_task(record.task);
                    if record.task == Task::Stop {
                        continue;
                    }
                }
                _ => match &mut record.task {
                    Task::MoveTo { ms, .. } => match self.r.below(2) {
                        0 => *ms = 0,
                        _ => record.sat = 255,
                    },
                    Task::SatMove { .. } => record.sat = 255,
                    Task::CtTo { target, ms } => match self.r.below(3) {
                        0 => *ms = 0,
                        1 => match self.outside(f.min, f.max) {
                            Some(x) => record.mireds = x,
                            None => continue,
                        },
                        _ => match self.outside(f.min, f.max) {
                            Some(x) => *target = x,
                            None => continue,
                        },
                    },
                    Task::CtMove {
                        min: lo, max: hi, ..
                    } => match self.r.below(5) {
                        0 => *lo = *hi,
                        1 => std::mem::swap(lo, hi),
                        2 => match self.outside(f.min, f.max) {
                            Some(x) => record.mireds = x,
                            None => continue,
                        },
                        3 => match f.min.checked_sub(1) {
                            Some(x) => *lo = x,
                            None => continue,
                        },
                        _ => match f.max.checked_add(1) {
                            Some(x) => *hi = x,
                            None => continue,
                        },
                    },
                    _ => continue,
                },
            }
            return record;
        }
    }

    // -- calls --

    /// A clock for a setter: mostly accepted, and aimed at a stamp.
    fn set_clock(&mut self, stamp: u64) -> u64 {
        let now = self.stage.player().fields().map_or(0, |f| f.clock);
        match self.r.below(16) {
            0 | 1 | 2 | 3 => now,
            4 => now.saturating_add(1),
            5 => now.saturating_add(self.r.below(3000)),
            6 | 7 | 8 | 9 | 10 => {
                let late = self.r.pick(&[0, 1, 998, 999, 1000, 1001, 2000]);
                stamp.saturating_add(late).max(now)
            }
            11 => now.saturating_sub(1),
            12 => self.r.between(0, now),
            13 => self.r.pick(&[LIMIT + 1, u64::MAX]),
            14 if self.r.one_in(4) => LIMIT,
            _ => now.saturating_add(self.r.below(20)),
        }
    }

    fn say_set(&mut self) -> bool {
        let Some(f) = self.stage.player().fields().copied() else {
            return say!(self, "set hue 0 0 0 0");
        };
        let end = self.r.one_in(3) as u8;
        match self.r.below(3) {
            0 => {
                let new = match self.r.below(3) {
                    0 => f.hue,
                    1 => f.hue.wrapping_add(self.r.pick(&[1, 65535, 256])),
                    _ => hue(&mut self.r),
                };
                let clock = self.set_clock(f.stamp_hue);
                let enhanced = self.bit();
                say!(self, "set hue {new} {end} {enhanced} {clock}")
            }
            1 => {
                let new = match self.r.below(12) {
                    0 if self.r.one_in(4) => 255,
                    0..=3 => f.sat,
                    4 | 5 => f.sat.saturating_add(1).min(254),
                    _ => self.sat(),
                };
                let clock = self.set_clock(f.stamp_sat);
                say!(self, "set sat {new} {end} {clock}")
            }
            _ => {
                let new = match self.r.below(12) {
                    0 if self.r.one_in(4) => self.r.next() as u16,
                    0..=3 => f.mireds,
                    _ if f.min > f.max => self.r.next() as u16,
                    _ => self.within(f.min, f.max),
                };
                let clock = self.set_clock(f.stamp_mireds);
                say!(self, "set ct {new} {end} {clock}")
            }
        }
    }

    fn say_new(&mut self) -> bool {
        let (mut min, mut max) = self.pair();
        let features = match self.r.below(4) {
            0 => 31,
            1 => self.r.next() as u32,
            _ => self.r.below(32) as u32,
        };
        let mut clock = self.start_clock();
        match self.r.below(9) {
            0 => clock = self.past(LIMIT),
            1 => (min, max) = (max.max(1), max.max(1) - 1),
            2 => (min, max) = (65535, self.r.pick(&[0, 1, 500, 65533])),
            3 => {
                clock = self.past(LIMIT);
                (min, max) = (65535, 0);
            }
            _ => {}
        }
        let options = self.byte();
        say!(self, "new {min} {max} {features} {options} {clock}")
    }

    /// A line that can hardly be read, made of one of the first `good` calls. Where it can,
    /// both sides read it.
    fn say_unreadable(&mut self, good: usize) {
        const WORDS: [&str; 42] = [
            "",
            "-",
            "--1",
            "+1",
            "+0",
            "-1",
            "-0",
            "1-",
            "0x10",
            "1.0",
            "1e3",
            "1_000",
            "٣",
            "é",
            "a",
            "ON",
            "On",
            "LAMP",
            "idle",
            "stop",
            "xy",
            "256",
            "255",
            "65535",
            "65536",
            "4294967295",
            "4294967296",
            "9223372036854775807",
            "9223372036854775808",
            "18446744073709551615",
            "18446744073709551616",
            "-9223372036854775808",
            "-9223372036854775809",
            "340282366920938463463374607431768211456",
            "000",
            "0005",
            "2",
            "3",
            "4",
            "99999999999999999999999999999999999999999999999",
            "-00",
            "1,",
        ];
        let good = self.r.pick(&GOOD[..good]);
        let mut words: Vec<Vec<u8>> = good.split(' ').map(|w| w.as_bytes().to_vec()).collect();
        let at = self.r.below(words.len() as u64) as usize;
        let mut line: Vec<u8>;
        let join = |words: &[Vec<u8>]| words.join(&b' ');
        match self.r.below(14) {
            0 => {
                words.remove(at);
                line = join(&words);
            }
            1 => {
                let word = self.r.pick(&WORDS);
                words.insert(at, word.as_bytes().to_vec());
                line = join(&words);
            }
            2 => {
                words.push(b"0".to_vec());
                line = join(&words);
            }
            3 | 4 | 5 => {
                words[at] = self.r.pick(&WORDS).as_bytes().to_vec();
                line = join(&words);
            }
            6 => {
                // A blank too many: before, behind or inside.
                line = join(&words);
                let blanks: Vec<usize> = (0..line.len()).filter(|i| line[*i] == b' ').collect();
                let end = line.len();
                let place = match self.r.below(3) {
                    0 => 0,
                    1 => end,
                    _ if blanks.is_empty() => end,
                    _ => self.r.pick(&blanks),
                };
                line.insert(place, b' ');
            }
            7 => {
                // A blank that is none.
                line = join(&words);
                let other = self.r.pick(b"\t\r\x0b\x0c\x00_,;");
                match line.iter().position(|b| *b == b' ') {
                    Some(i) => line[i] = other,
                    None => line.push(other),
                }
            }
            8 => {
                line = join(&words);
                let other = self.r.pick(b"\r\t\x00\x7f\x80\xff#|");
                let place = self.r.below(line.len() as u64 + 1) as usize;
                // A line that begins with # gets no answer on either side.
                line.insert(place, other);
            }
            9 => {
                line = join(&words);
                let place = self.r.below(line.len() as u64) as usize;
                line[place] = self.r.next() as u8;
                if line[place] == b'\n' {
                    line[place] = b'\r';
                }
            }
            10 => {
                line = join(&words);
                let keep = self.r.below(line.len() as u64) as usize;
                line.truncate(keep.max(1));
            }
            11 if self.r.one_in(16) => {
                // Leading zeros are taken, as far as a line goes: at and past the longest.
                let long = LONGEST + self.r.below(4) as usize - 2;
                line = b"leaf remaining ".to_vec();
                let tail: &[u8] = b"7 250 1";
                line.resize(long - tail.len(), b'0');
                line.extend_from_slice(tail);
            }
            11 => {
                // Leading zeros, short: to be read.
                words[at].splice(
                    0..0,
                    std::iter::repeat(b'0').take(self.r.between(1, 30) as usize),
                );
                line = join(&words);
            }
            12 => {
                line = match self.r.below(6) {
                    0 => b" ".to_vec(),
                    1 => b"\r".to_vec(),
                    2 => b"\t".to_vec(),
                    3 => b"\0".to_vec(),
                    4 => vec![b' '; self.r.between(2, 40) as usize],
                    _ => (0..self.r.between(1, 60))
                        .map(|_| self.r.next() as u8)
                        .map(|b| if b == b'\n' || b == b'#' { b'?' } else { b })
                        .collect(),
                };
            }
            _ => {
                // No answer at all.
                line = match self.r.below(3) {
                    0 => Vec::new(),
                    1 => b"#".to_vec(),
                    _ => b"# lamp 1 2 3".to_vec(),
                };
            }
        }
        self.line = line;
        self.emit();
    }

    /// Lamps and setters, records that are kept, pokes, makings, unreadable lines.
    /// Lamps, setters and makings, until the script has so many lines.
    pub fn sets(&mut self, count: u64) {
        // Before any lamp.
        say!(self, "show");
        say!(self, "set sat 1 0 5000");
        for features in 0..40 {
            say!(self, "new 153 500 {features} 0 5000");
        }
        for &(min, max) in PAIRS {
            say!(self, "new {min} {max} 31 0 5000");
            say!(self, "set ct {max} 0 5000");
        }
        while self.stage.lines() < count {
            match self.r.below(12) {
                0 | 1 => {
                    self.say_new();
                }
                2 => {
                    let good = self.fields();
                    let f = self.broken_fields(good);
                    self.say_lamp("lamp", &f);
                }
                _ => {
                    let f = self.fields();
                    self.say_lamp("lamp", &f);
                }
            };
            for _ in 0..self.r.between(1, 12) {
                let f = self.stage.player().fields().copied();
                match (self.r.below(24), f) {
                    (0, Some(f)) if guard::fields_in_form(&f) => {
                        let record = self.record(&f);
                        self.say_record(Some(&record));
                    }
                    (1, Some(f)) if guard::fields_in_form(&f) => {
                        let record = self.broken_record(&f);
                        self.say_record(Some(&record));
                        self.say_set();
                        if self.bit() == 0 {
                            self.say_record(None);
                        }
                    }
                    (2, _) => {
                        self.say_record(None);
                    }
                    (3, _) => {
                        let mut f = self.fields();
                        if self.r.one_in(3) {
                            f = self.broken_fields(f);
                        }
                        self.say_lamp("poke", &f);
                    }
                    (4, _) => {
                        say!(self, "show");
                    }
                    (5, _) => self.say_unreadable(GOOD_SET),
                    (6, _) if self.r.one_in(3) => {
                        self.say_new();
                    }
                    _ => {
                        self.say_set();
                    }
                }
            }
        }
    }

    // -- everything --

    /// A clock aimed at what the lamp is doing.
    fn clock(&mut self) -> u64 {
        let Some(f) = self.stage.player().fields().copied() else {
            return 5000;
        };
        let now = f.clock;
        let aim = match self.r.below(20) {
            0 | 1 => self.r.pick(&[0, 1, 99, 100, 101, 999, 1000, 1001]) + now.min(LIMIT),
            2 | 3 | 4 | 5 => now.saturating_add(100),
            6 => now,
            7 => now.saturating_add(self.r.below(300)),
            8 => now.saturating_add(self.r.below(20_000)),
            9 => {
                let stamp = self.r.pick(&[f.stamp_hue, f.stamp_sat, f.stamp_mireds]);
                stamp.saturating_add(self.r.pick(&[998, 999, 1000, 1001]))
            }
            10 if self.r.one_in(2) => return now.saturating_sub(self.r.pick(&[1, 2, 100, 5000])),
            11 if self.r.one_in(4) => return self.r.pick(&[LIMIT, LIMIT + 1, u64::MAX, LIMIT - 1]),
            12 if self.r.one_in(4) => now.saturating_add(self.r.next() >> self.r.between(24, 50)),
            _ => match self.stage.player().record().copied() {
                Some(record) => self.aim(&f, &record),
                None => now.saturating_add(self.r.below(200)),
            },
        };
        if aim < now || aim > LIMIT {
            // Seldom a refusal by accident.
            return if self.r.one_in(10) { aim } else { now };
        }
        aim
    }

    fn aim(&mut self, f: &Fields, record: &Record) -> u64 {
        let near = self.r.pick(&[-1i64, 0, 0, 1]);
        let elapsed = match record.task {
            Task::MoveTo { ms, .. } | Task::CtTo { ms, .. } => match self.r.below(3) {
                // The end, or where a permille begins.
                0 => ms as u64,
                1 => ms as u64 * self.r.between(0, 1000) / 1000,
                _ => self.r.between(0, ms as u64 + 200),
            },
            Task::HueMove { rate, .. } => match self.bit() {
                0 => self.r.between(1, 70_000) * 1000 / rate.max(1) as u64,
                _ => self.r.below(10_000),
            },
            Task::SatMove { mode, rate } => {
                let far = match mode {
                    MoveModeEnum::Up => 254u64.saturating_sub(record.sat.into()),
                    _ => record.sat as u64,
                };
                (far * 1000).div_ceil(rate.max(1) as u64)
            }
            Task::CtMove { rate, min, max } => {
                let far = match rate > 0 {
                    true => max.saturating_sub(record.mireds),
                    false => record.mireds.saturating_sub(min),
                };
                (far as u64 * 1000).div_ceil(rate.unsigned_abs().max(1))
            }
            Task::Loop { seconds, .. } => {
                let total = 1000 * if seconds == 0 { 25 } else { seconds as u64 };
                let gone = f.clock.saturating_sub(record.clock).min(LIMIT);
                let turn = (gone / total + self.r.pick(&[0, 1, 1, 1, 2])) * total;
                match self.r.below(4) {
                    0 => turn,
                    // 384 units before or after a whole turn, and their neighbours.
                    1 => turn + (total * self.r.pick(&[383, 384, 385])).div_ceil(65_536),
                    2 => {
                        let part = self.r.pick(&[65_150, 65_151, 65_152, 65_153]);
                        turn.saturating_sub(total) + (total * part).div_ceil(65_536)
                    }
                    _ => turn + self.r.below(total),
                }
            }
            Task::Stop => 0,
        };
        record
            .clock
            .saturating_add(elapsed)
            .saturating_add_signed(near)
    }

    fn on_off(&mut self) -> &'static str {
        self.r.pick(&["on", "on", "on", "off", "none"])
    }

    fn rate8(&mut self) -> u8 {
        match self.r.below(3) {
            0 => self.r.pick(&[0, 1, 2, 100, 254, 255]),
            _ => self.r.between(1, 255) as u8,
        }
    }

    fn rate16(&mut self) -> u16 {
        match self.r.below(4) {
            0 => self.r.pick(&[0, 1, 255, 256, 1000, 32768, 65534, 65535]),
            1 => self.r.between(1, 500) as u16,
            _ => self.r.between(1, 65535) as u16,
        }
    }

    fn tenths(&mut self) -> u16 {
        match self.r.below(5) {
            0 => self.r.pick(&[0, 1, 2, 9, 10, 11, 12, 100, 65534, 65535]),
            1 => self.r.next() as u16,
            _ => self.r.below(60) as u16,
        }
    }

    fn sat8(&mut self) -> u8 {
        match self.r.below(8) {
            0 => 255,
            _ => self.sat(),
        }
    }

    fn move_mode(&mut self) -> u8 {
        self.r.pick(&[0, 1, 1, 1, 3, 3, 3])
    }

    fn limit(&mut self, f: &Fields) -> u16 {
        match self.r.below(6) {
            0 | 1 => 0,
            2 => self.r.pick(&[f.min, f.max, f.mireds]),
            3 => self.r.pick(&[1, 250, 300, 400, 65535]),
            _ if f.min > f.max => self.r.next() as u16,
            4 => self.within(f.min, f.max),
            _ => self.outside(f.min, f.max).unwrap_or(7),
        }
    }

    fn say_command(&mut self) -> bool {
        let Some(f) = self.stage.player().fields().copied() else {
            return say!(self, "cmd stop_move_step on 0 0 5000");
        };
        let on = self.on_off();
        let (mask, over) = match self.r.below(3) {
            0 => (0, 0),
            1 => (self.bit() as u8, self.bit() as u8),
            _ => (self.byte(), self.byte()),
        };
        let clock = self.clock();
        let tail = format!("{mask} {over} {clock}");
        let direction = self.r.below(4);
        let tenths = self.tenths();
        let step = self.r.pick(&[1, 3]);
        match self.r.below(16) {
            0 | 1 => {
                let hue8 = match self.r.below(5) {
                    0 => (f.hue >> 8) as u8,
                    1 => (f.hue >> 8) as u8 ^ 128,
                    2 => self.r.pick(&[0, 1, 127, 128, 253, 254, 254, 255]),
                    _ => self.r.below(255) as u8,
                };
                say!(
                    self,
                    "cmd move_to_hue {on} {hue8} {direction} {tenths} {tail}"
                )
            }
            2 => {
                let target = match self.r.below(4) {
                    0 => f.hue,
                    1 => f
                        .hue
                        .wrapping_add(self.r.pick(&[32767, 32768, 32769, 1, 65535])),
                    _ => hue(&mut self.r),
                };
                say!(
                    self,
                    "cmd enhanced_move_to_hue {on} {target} {direction} {tenths} {tail}"
                )
            }
            3 => {
                let (mode, rate, enhanced) = (self.move_mode(), self.rate8(), self.bit());
                say!(self, "cmd move_hue {on} {mode} {rate} {enhanced} {tail}")
            }
            4 => {
                let (mode, rate) = (self.move_mode(), self.rate16());
                say!(self, "cmd enhanced_move_hue {on} {mode} {rate} {tail}")
            }
            5 => {
                let (mode, rate) = (self.move_mode(), self.rate8());
                say!(self, "cmd move_saturation {on} {mode} {rate} {tail}")
            }
            6 => {
                let size = self.rate8();
                say!(self, "cmd step_hue {on} {step} {size} {tenths} {tail}")
            }
            7 => {
                let size = self.rate16();
                say!(
                    self,
                    "cmd enhanced_step_hue {on} {step} {size} {tenths} {tail}"
                )
            }
            8 => {
                let size = self.rate8();
                say!(
                    self,
                    "cmd step_saturation {on} {step} {size} {tenths} {tail}"
                )
            }
            9 => {
                let sat = match self.r.below(5) {
                    0 => f.sat,
                    _ => self.sat8(),
                };
                say!(self, "cmd move_to_saturation {on} {sat} {tenths} {tail}")
            }
            10 => {
                let hue8 = match self.r.below(6) {
                    0 => (f.hue >> 8) as u8,
                    1 => (f.hue >> 8) as u8 ^ 128,
                    2 => 255,
                    _ => self.byte(),
                };
                let sat = match self.r.below(5) {
                    0 => f.sat,
                    _ => self.sat8(),
                };
                let enhanced = self.bit();
                let hue16 = match self.r.below(4) {
                    0 => f.hue,
                    1 => f.hue.wrapping_add(self.r.pick(&[32767, 32768, 32769])),
                    _ => hue(&mut self.r),
                };
                say!(
                    self,
                    "cmd move_to_hue_and_saturation {on} {hue8} {sat} {tenths} {enhanced} {hue16} {tail}"
                )
            }
            11 => say!(self, "cmd stop_move_step {on} {tail}"),
            12 => {
                let mireds = match self.r.below(3) {
                    0 => self.r.next() as u16,
                    _ => self.limit(&f),
                };
                say!(
                    self,
                    "cmd move_to_color_temperature {on} {mireds} {tenths} {tail}"
                )
            }
            13 => {
                let (mode, rate) = (self.move_mode(), self.rate16());
                let (lo, hi) = (self.limit(&f), self.limit(&f));
                say!(
                    self,
                    "cmd move_color_temperature {on} {mode} {rate} {lo} {hi} {tail}"
                )
            }
            14 => {
                let size = self.rate16();
                let (lo, hi) = (self.limit(&f), self.limit(&f));
                say!(
                    self,
                    "cmd step_color_temperature {on} {step} {size} {tenths} {lo} {hi} {tail}"
                )
            }
            _ => {
                let flags = match self.r.below(3) {
                    0 => self.byte(),
                    1 => 15,
                    _ => self.r.below(16) as u8,
                };
                let (action, direction) = (self.r.below(3), self.bit());
                let (seconds, start) = (self.seconds(), hue(&mut self.r));
                say!(
                    self,
                    "cmd color_loop_set {on} {flags} {action} {direction} {seconds} {start} {tail}"
                )
            }
        }
    }

    fn say_start(&mut self) -> bool {
        let (min, max) = self
            .stage
            .player()
            .fields()
            .map_or((153, 500), |f| (f.min, f.max));
        let mut task = match min <= max {
            true => self.task(min, max),
            false => self.task(153, 500),
        };
        if let Task::MoveTo { ms, .. } | Task::CtTo { ms, .. } = &mut task {
            // About ten tenths from the remaining time.
            if self.r.one_in(6) {
                let old = self.stage.player().fields().map_or(0, |f| f.remaining);
                let near = old as i64 + self.r.pick(&[-12, -11, -10, -9, 0, 9, 10, 11, 12]);
                *ms = 100 * near.clamp(0, 65535) as u32;
            }
        }
        if self.r.one_in(8) {
            task = self.broken_task(task);
        }
        let clock = self.clock();
        self.line.clear();
        self.line.extend_from_slice(b"start ");
        write_task(&mut self.line, &task);
        write!(self.line, " {clock}").unwrap();
        self.emit()
    }

    fn say_step(&mut self) -> bool {
        let clock = self.clock();
        say!(self, "step {clock}")
    }

    /// Each corner at least once.
    /// The corners.
    pub fn aimed(&mut self) {
        for line in aimed::lines() {
            self.line = line;
            let lines = self.stage.lines();
            self.emit();
            let shown = self.line.escape_ascii();
            assert!(self.stage.lines() > lines, "not comparable: {shown}");
        }
    }

    fn say_show_or_leaf(&mut self) {
        match self.r.below(6) {
            0 => {
                let (current, target) = pair_of_hues(&mut self.r);
                let direction = self.r.below(4);
                say!(self, "leaf delta {current} {target} {direction}");
            }
            1 => {
                let (old, ms) = old_and_ms(&mut self.r);
                let start = self.bit();
                say!(self, "leaf remaining {old} {ms} {start}");
            }
            2 => {
                let on = self.on_off();
                let (options, mask, over) = (self.byte(), self.byte(), self.byte());
                say!(self, "leaf leave {on} {options} {mask} {over}");
            }
            3 => {
                let stored = hue(&mut self.r);
                say!(self, "leaf shown {stored}");
            }
            _ => {
                say!(self, "show");
            }
        }
    }

    /// Everything, until the script has so many lines.
    pub fn random(&mut self, count: u64) {
        for &(min, max) in PAIRS {
            say!(self, "new {min} {max} 31 0 5000");
            for task in [
                "ct_to 0 100",
                "ct_to 65535 100",
                "ct_move 1 0 65535",
                "ct_move -1 0 65535",
            ] {
                say!(self, "start {task} 5000");
                say!(self, "step 5100");
                say!(self, "halt 5100");
                say!(self, "new {min} {max} 31 0 5000");
            }
        }
        while self.stage.lines() < count {
            match self.r.below(20) {
                0 | 1 => {
                    self.say_new();
                }
                2 => {
                    let good = self.fields();
                    let f = self.broken_fields(good);
                    self.say_lamp("lamp", &f);
                }
                _ => {
                    let f = self.fields();
                    self.say_lamp("lamp", &f);
                }
            };
            let form = self
                .stage
                .player()
                .fields()
                .map_or(false, |f| guard::fields_in_form(f));
            let calls = if form {
                self.r.between(5, 60)
            } else {
                self.r.between(1, 8)
            };
            for _ in 0..calls {
                let f = self.stage.player().fields().copied();
                let runs = self.stage.player().record().is_some();
                match self.r.below(100) {
                    0..=24 => {
                        self.say_command();
                        if self.stage.gave() && self.r.below(5) != 0 {
                            let clock = self.clock();
                            say!(self, "startlast {clock}");
                        }
                    }
                    25..=32 => {
                        self.say_start();
                    }
                    33 | 34 => {
                        let clock = self.clock();
                        say!(self, "startlast {clock}");
                    }
                    35 | 36 => {
                        let clock = self.clock();
                        say!(self, "halt {clock}");
                    }
                    37 | 38 => {
                        self.say_set();
                    }
                    39 => self.say_show_or_leaf(),
                    40 | 41 => {
                        if let Some(f) = f.filter(|f| guard::fields_in_form(f)) {
                            let record = self.record(&f);
                            self.say_record(Some(&record));
                        }
                    }
                    42 => {
                        if let Some(f) = f.filter(|f| guard::fields_in_form(f)) {
                            let record = self.broken_record(&f);
                            self.say_record(Some(&record));
                            match self.r.below(5) {
                                0 => self.say_set(),
                                1 => self.say_command(),
                                2 => self.say_start(),
                                3 => {
                                    let clock = self.clock();
                                    say!(self, "halt {clock}")
                                }
                                _ => self.say_step(),
                            };
                            if self.r.below(4) != 0 {
                                self.say_record(None);
                            }
                        }
                    }
                    43 => {
                        // A lamp out of form for a moment, its record kept.
                        if let Some(f) = f.filter(|f| guard::fields_in_form(f)) {
                            let broken = self.broken_fields(f);
                            self.say_lamp("poke", &broken);
                            match self.r.below(5) {
                                0 => self.say_set(),
                                1 => self.say_command(),
                                2 => self.say_start(),
                                3 => {
                                    let clock = self.clock();
                                    say!(self, "halt {clock}")
                                }
                                _ => self.say_step(),
                            };
                            self.say_lamp("poke", &f);
                        }
                    }
                    44 => {
                        let f = self.fields();
                        self.say_lamp("poke", &f);
                    }
                    45 => self.say_unreadable(GOOD.len()),
                    46 if self.r.one_in(3) => {
                        self.say_new();
                    }
                    47 if runs && self.r.one_in(3) => {
                        // The waits kept to the letter, to the end or for a while.
                        for _ in 0..self.r.between(1, 30) {
                            if self.stage.player().record().is_none() {
                                break;
                            }
                            let now = self.stage.player().fields().unwrap().clock;
                            let clock = now.wrapping_add(recorder::wait().max(1));
                            if !say!(self, "step {clock}") {
                                break;
                            }
                        }
                    }
                    _ if runs => {
                        self.say_step();
                    }
                    48..=70 => {
                        self.say_start();
                    }
                    71..=73 => {
                        self.say_step();
                    }
                    _ => {
                        self.say_command();
                        if self.stage.player().last().is_some() {
                            let clock = self.clock();
                            say!(self, "startlast {clock}");
                        }
                    }
                }
            }
        }
    }

    // -- new bounds --

    /// A pair of bounds for a lamp: of those that the Rust has, close to the mireds, or crossed.
    fn new_pair(&mut self, f: &Fields) -> (u16, u16) {
        let m = f.mireds;
        match self.r.below(16) {
            0 => (f.min, f.max),
            1 => (m.max(1), m.max(1) - 1),
            2 if f.min < f.max => (f.max, f.min),
            2 | 3 => self
                .r
                .pick(&[(1, 0), (65535, 0), (65535, 65534), (501, 500)]),
            4 => (m, m),
            5 => (m.saturating_add(1), 65535),
            6 => (0, m.saturating_sub(1)),
            7 => {
                let (a, b) = (self.r.next() as u16, self.r.next() as u16);
                (a.min(b), a.max(b))
            }
            _ => self.r.pick(PAIRS),
        }
    }

    fn say_bounds(&mut self) -> bool {
        let Some(f) = self.stage.player().fields().copied() else {
            return say!(self, "bounds 153 500 5000");
        };
        let (min, max) = self.new_pair(&f);
        let clock = self.clock();
        let accepted = say!(self, "bounds {min} {max} {clock}");
        if accepted && !PAIRS.contains(&(min, max)) {
            // The Rust of these bounds is not there: what needs none, then back.
            match self.r.below(4) {
                0 => say!(self, "show"),
                1 => say!(self, "halt {clock}"),
                2 => say!(self, "bounds {max} {min} {clock}"),
                _ => false,
            };
            let (min, max) = self.r.pick(PAIRS);
            let clock = self.clock();
            say!(self, "bounds {min} {max} {clock}");
        }
        accepted
    }

    /// A call, mostly of new bounds, on a lamp that is out of form or has a record that is.
    fn say_bounds_out_of_form(&mut self) {
        let Some(f) = self.stage.player().fields().copied() else {
            return;
        };
        if !guard::fields_in_form(&f) {
            return;
        }
        match self.bit() {
            0 => {
                let broken = self.broken_fields(f);
                self.say_lamp("poke", &broken);
                self.say_bounds();
                self.say_lamp("poke", &f);
            }
            _ => {
                let record = self.broken_record(&f);
                self.say_record(Some(&record));
                self.say_bounds();
                self.say_record(None);
            }
        }
    }

    /// New bounds, and commands, starts, steps and halts between them, until the script has so many lines.
    pub fn bounds(&mut self, count: u64) {
        // Before any lamp.
        self.say_bounds();
        while self.stage.lines() < count {
            let f = self.fields();
            self.say_lamp("lamp", &f);
            for _ in 0..self.r.between(5, 60) {
                let runs = self.stage.player().record().is_some();
                match self.r.below(24) {
                    0..=7 => {
                        self.say_bounds();
                    }
                    8..=10 => {
                        self.say_command();
                        if self.stage.gave() && self.bit() == 0 {
                            let clock = self.clock();
                            say!(self, "startlast {clock}");
                        }
                    }
                    11 => {
                        let clock = self.clock();
                        say!(self, "startlast {clock}");
                    }
                    12..=16 if runs || self.r.one_in(8) => {
                        self.say_step();
                    }
                    12..=18 => {
                        self.say_start();
                    }
                    19 => {
                        let clock = self.clock();
                        say!(self, "halt {clock}");
                    }
                    20 => {
                        self.say_set();
                    }
                    21 => self.say_bounds_out_of_form(),
                    22 => {
                        let f = self.stage.player().fields().copied();
                        if let Some(f) = f.filter(guard::fields_in_form) {
                            let record = self.record(&f);
                            self.say_record(Some(&record));
                        }
                    }
                    _ => {
                        const LINES: [&str; 8] = [
                            "bounds",
                            "bounds 153 500",
                            "bounds 153 500 5000 0",
                            "bounds 65536 500 5000",
                            "bounds 153 65536 5000",
                            "bounds - 500 5000",
                            "bounds 00153 000500 18446744073709551616",
                            "bound 153 500 5000",
                        ];
                        self.line = self.r.pick(&LINES).as_bytes().to_vec();
                        self.emit();
                    }
                }
            }
        }
    }
}
