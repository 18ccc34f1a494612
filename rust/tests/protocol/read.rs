//! A line as what it asks for.

use yemkruos::color::{Color, Stamps};
use yemkruos::lamp::{Call, Lamp, LoopSettings};
use yemkruos::matter::*;
use yemkruos::remaining_time::RemainingTime;
use yemkruos::tasks::*;

use super::rows::RowLine;
use super::{Line, Setter};

/// The longest slice that a line can lend.
const LONGEST_SLICE: usize = 1024;

struct Words<'a>(std::slice::Split<'a, u8, fn(&u8) -> bool>);

/// Reads an enum by its number; a reserved number cannot be read.
fn known<E: TryFrom<u8>>(words: &mut Words) -> Option<E> {
    words.u8()?.try_into().ok()
}

pub fn line(line: &[u8]) -> Option<Line> {
    let is_blank: fn(&u8) -> bool = |b| *b == b' ';
    let mut words = Words(line.split(is_blank));
    let read = words.line()?;
    words.0.next().is_none().then_some(read)
}

/// Digits alone, at least one.
fn magnitude(word: &[u8]) -> Option<u64> {
    if word.is_empty() {
        return None;
    }
    word.iter().try_fold(0u64, |n, b| {
        let digit = b.is_ascii_digit().then(|| u64::from(b - b'0'))?;
        n.checked_mul(10)?.checked_add(digit)
    })
}

fn signed(word: &[u8]) -> Option<i64> {
    match word.strip_prefix(b"-") {
        Some(digits) => 0i64.checked_sub_unsigned(magnitude(digits)?),
        None => magnitude(word)?.try_into().ok(),
    }
}

impl Words<'_> {
    fn u64(&mut self) -> Option<u64> {
        magnitude(self.0.next()?)
    }

    fn u32(&mut self) -> Option<u32> {
        self.u64()?.try_into().ok()
    }

    fn u16(&mut self) -> Option<u16> {
        self.u64()?.try_into().ok()
    }

    fn u8(&mut self) -> Option<u8> {
        self.u64()?.try_into().ok()
    }

    fn bit(&mut self) -> Option<bool> {
        match self.u64()? {
            0 => Some(false),
            1 => Some(true),
            _ => None,
        }
    }

    fn bounds(&mut self) -> Option<Bounds> {
        Some(Bounds {
            min: self.u16()?,
            max: self.u16()?,
        })
    }

    fn direction(&mut self) -> Option<DirectionEnum> {
        known(self)
    }

    fn mode(&mut self) -> Option<MoveModeEnum> {
        known(self)
    }

    fn step_mode(&mut self) -> Option<StepModeEnum> {
        known(self)
    }

    fn loop_direction(&mut self) -> Option<ColorLoopDirectionEnum> {
        known(self)
    }

    fn enhanced_mode(&mut self) -> Option<EnhancedColorModeEnum> {
        known(self)
    }

    fn on_off(&mut self) -> Option<OnOff> {
        match self.0.next()? {
            b"on" => Some(OnOff::On),
            b"off" => Some(OnOff::Off),
            b"none" => Some(OnOff::NoHandler),
            _ => None,
        }
    }

    /// An idle lamp, of its fields in their order.
    fn lamp(&mut self) -> Option<Lamp> {
        let bounds = self.bounds()?;
        let (clock, options, tenths) = (self.u64()?, self.u8()?, self.u16()?);
        let stamps = Stamps {
            hue: self.u64()?,
            saturation: self.u64()?,
            mireds: self.u64()?,
        };
        let color = Color {
            hue: self.u16()?,
            saturation: self.u8()?,
            mireds: self.u16()?,
            mode: known(self)?,
            emode: self.enhanced_mode()?,
            stamps,
        };
        let looping = LoopSettings {
            active: self.bit()?,
            direction: self.loop_direction()?,
            time: self.u16()?,
            start: self.u16()?,
            stored: self.u16()?,
        };
        Some(Lamp {
            clock,
            bounds,
            color,
            looping,
            remaining: RemainingTime { tenths },
            options,
            running: Running::Idle,
        })
    }

    fn move_to(&mut self) -> Option<HueSaturationMoveTo> {
        Some(HueSaturationMoveTo {
            delta: match self.0.next()? {
                b"-" => None,
                word => Some(signed(word)?),
            },
            saturation: match self.0.next()? {
                b"-" => None,
                word => Some(magnitude(word)?.try_into().ok()?),
            },
            ms: self.u32()?,
            enhanced: self.bit()?,
        })
    }

    fn hue_move(&mut self) -> Option<HueMove> {
        Some(HueMove {
            direction: self.mode()?,
            rate: self.u32()?,
            enhanced: self.bit()?,
        })
    }

    fn saturation_move(&mut self) -> Option<SaturationMove> {
        Some(SaturationMove {
            direction: self.mode()?,
            rate: self.u32()?,
        })
    }

    fn mireds_to(&mut self) -> Option<ColorTemperatureMoveTo> {
        Some(ColorTemperatureMoveTo {
            target: self.u16()?,
            ms: self.u32()?,
        })
    }

    fn color_loop(&mut self) -> Option<ColorLoop> {
        Some(ColorLoop {
            direction: self.loop_direction()?,
            seconds: self.u16()?,
        })
    }

    fn task(&mut self) -> Option<Task> {
        Some(match self.0.next()? {
            b"move_to" => Task::HueSaturationMoveTo(self.move_to()?),
            b"hue_move" => Task::HueMove(self.hue_move()?),
            b"sat_move" => Task::SaturationMove(self.saturation_move()?),
            b"ct_to" => Task::ColorTemperatureMoveTo(self.mireds_to()?),
            b"ct_move" => Task::ColorTemperatureMove(ColorTemperatureMove {
                rate: signed(self.0.next()?)?,
                min: self.u16()?,
                max: self.u16()?,
            }),
            b"loop" => Task::ColorLoop(self.color_loop()?),
            b"stop" => Task::Stop,
            _ => return None,
        })
    }

    fn record(&mut self) -> Option<Running> {
        let name = self.0.next()?;
        if name == b"idle" {
            return Some(Running::Idle);
        }
        let start = self.u64()?;
        Some(match name {
            b"move_to" => Running::HueSaturationMoveTo(HueSaturationRun {
                start,
                hue: self.u16()?,
                saturation: self.u8()?,
                task: self.move_to()?,
            }),
            b"hue_move" => Running::HueMove(HueRun {
                start,
                hue: self.u16()?,
                task: self.hue_move()?,
            }),
            b"sat_move" => Running::SaturationMove(SaturationRun {
                start,
                saturation: self.u8()?,
                task: self.saturation_move()?,
            }),
            b"ct_to" => Running::ColorTemperatureMoveTo(ColorTemperatureToRun {
                start,
                mireds: self.u16()?,
                task: self.mireds_to()?,
            }),
            b"ct_move" => Running::ColorTemperatureMove(ColorTemperatureRun {
                start,
                mireds: self.u16()?,
                rate: signed(self.0.next()?)?,
                lo: self.u16()?,
                hi: self.u16()?,
            }),
            b"loop" => {
                let hue = self.u16()?;
                let ColorLoop { direction, seconds } = self.color_loop()?;
                Running::ColorLoop {
                    direction,
                    hue,
                    seconds,
                    start,
                }
            }
            _ => return None,
        })
    }

    fn command(&mut self, name: &[u8]) -> Option<Command> {
        Some(match name {
            b"move_to_hue" => Command::move_to_hue(self.u8()?, self.direction()?, self.u16()?),
            b"enhanced_move_to_hue" => {
                Command::enhanced_move_to_hue(self.u16()?, self.direction()?, self.u16()?)
            }
            b"move_hue" => Command::move_hue(self.mode()?, self.u8()?, self.bit()?),
            b"enhanced_move_hue" => Command::enhanced_move_hue(self.mode()?, self.u16()?),
            b"move_saturation" => Command::move_saturation(self.mode()?, self.u8()?),
            b"step_hue" => Command::step_hue(self.step_mode()?, self.u8()?, self.u16()?),
            b"enhanced_step_hue" => {
                Command::enhanced_step_hue(self.step_mode()?, self.u16()?, self.u16()?)
            }
            b"step_saturation" => {
                Command::step_saturation(self.step_mode()?, self.u8()?, self.u16()?)
            }
            b"move_to_saturation" => Command::move_to_saturation(self.u8()?, self.u16()?),
            b"move_to_hue_and_saturation" => Command::move_to_hue_and_saturation(
                self.u8()?,
                self.u8()?,
                self.u16()?,
                self.bit()?,
                self.u16()?,
            ),
            b"stop_move_step" => Command::stop_move_step(),
            b"move_to_color_temperature" => {
                Command::move_to_color_temperature(self.u16()?, self.u16()?)
            }
            b"move_color_temperature" => {
                Command::move_color_temperature(self.mode()?, self.u16()?, self.u16()?, self.u16()?)
            }
            b"step_color_temperature" => Command::step_color_temperature(
                self.step_mode()?,
                self.u16()?,
                self.u16()?,
                self.u16()?,
                self.u16()?,
            ),
            b"color_loop_set" => Command::color_loop_set(
                self.u8()?,
                known(self)?,
                self.loop_direction()?,
                self.u16()?,
                self.u16()?,
            ),
            _ => return None,
        })
    }

    fn call(&mut self) -> Option<Call> {
        let name = self.0.next()?;
        let on_off = self.on_off()?;
        let command = self.command(name)?;
        Some(Call::Command {
            request: command.with_options(self.u8()?, self.u8()?),
            on_off,
            clock: self.u64()?,
        })
    }

    fn setter(&mut self) -> Option<Line> {
        Some(match self.0.next()? {
            b"hue" => {
                let (hue, is_end, enhanced) = (self.u16()?, self.bit()?, self.bit()?);
                Line::Set(Setter::Hue { hue, enhanced }, is_end, self.u64()?)
            }
            b"sat" => Line::Set(Setter::Saturation(self.u8()?), self.bit()?, self.u64()?),
            b"ct" => Line::Set(Setter::Mireds(self.u16()?), self.bit()?, self.u64()?),
            _ => return None,
        })
    }

    fn leaf(&mut self) -> Option<Line> {
        Some(match self.0.next()? {
            b"delta" => Line::Delta(self.u16()?, self.u16()?, self.direction()?),
            b"remaining" => Line::Remaining(self.u16()?, self.u64()?, self.bit()?),
            b"leave" => Line::Leave(self.on_off()?, self.u8()?, self.u8()?, self.u8()?),
            b"mode_of" => Line::ModeOf(self.enhanced_mode()?),
            b"shown" => Line::Shown(self.u16()?),
            b"running" => Line::Running(self.u32()?),
            _ => return None,
        })
    }

    fn row_step(&mut self) -> Option<RowLine> {
        let size = usize::from(self.u16()?);
        let (fill, clock) = (self.u8()?, self.u64()?);
        (size <= LONGEST_SLICE).then_some(RowLine::Step { size, fill, clock })
    }

    fn line(&mut self) -> Option<Line> {
        Some(match self.0.next()? {
            b"row" => Line::Row(RowLine::Make(self.u8()?)),
            b"rowcount" => Line::Row(RowLine::Count(self.u8()?)),
            b"rowword" => Line::Row(RowLine::Mask(self.u32()?)),
            b"rowshow" => Line::Row(RowLine::Show),
            b"rowstep" => Line::Row(self.row_step()?),
            b"turning" => Line::Row(RowLine::Turning),
            b"at" => Line::Row(RowLine::At(self.u8()?, Box::new(self.line()?))),
            b"lamp" => Line::Lamp(self.lamp()?),
            b"new" => Line::New(self.bounds()?, self.u32()?, self.u8()?, self.u64()?),
            b"poke" => Line::Poke(self.lamp()?),
            b"record" => Line::Record(self.record()?),
            b"cmd" => Line::Call(self.call()?),
            b"start" => Line::Call(Call::Start {
                task: self.task()?,
                clock: self.u64()?,
            }),
            b"startlast" => Line::StartLast(self.u64()?),
            b"step" => Line::Call(Call::Step { clock: self.u64()? }),
            b"halt" => Line::Call(Call::Halt { clock: self.u64()? }),
            b"bounds" => Line::Call(Call::SetBounds {
                bounds: self.bounds()?,
                clock: self.u64()?,
            }),
            b"set" => self.setter()?,
            b"show" => Line::Show,
            b"leaf" => self.leaf()?,
            _ => return None,
        })
    }
}
