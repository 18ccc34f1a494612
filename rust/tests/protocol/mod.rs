//! The replay protocol (docs/PROTOCOL.md) over the crate: a call's line in, its answer's line out.

mod read;
mod rows;
mod setters;
mod write;

use yemkruos::commands;
use yemkruos::hue::{current_hue, hue_path_delta};
use yemkruos::lamp::{Answer, Call, Lamp};
use yemkruos::matter::{Bounds, DirectionEnum, EnhancedColorModeEnum, OnOff};
use yemkruos::matter::{color_mode_of, should_continue};
use yemkruos::remaining_time::RemainingTime;
use yemkruos::rows::Row;
use yemkruos::tasks::{Running, Task};

use rows::RowLine;
use setters::{Setter, set};

/// The longest line that is read.
const LONGEST: usize = 4095;

/// What a line asks for.
pub enum Line {
    Lamp(Lamp),
    New(Bounds, u32, u8, u64),
    Poke(Lamp),
    Record(Running),
    Call(Call),
    StartLast(u64),
    Set(Setter, bool, u64),
    Show,
    Delta(u16, u16, DirectionEnum),
    Remaining(u16, u64, bool),
    Leave(OnOff, u8, u8, u8),
    ModeOf(EnhancedColorModeEnum),
    Shown(u16),
    Running(u32),
    Row(RowLine),
}

#[derive(Default)]
pub struct Player {
    lamp: Option<Lamp>,
    last: Option<Task>,
    row: Option<Row>,
}

impl Player {
    /// The answer to a line, if it gets one.
    pub fn answer(&mut self, line: &[u8]) -> Option<String> {
        if line.is_empty() || line[0] == b'#' {
            return None;
        }
        let read = if line.len() > LONGEST {
            None
        } else {
            read::line(line)
        };
        let answer = read.and_then(|line| self.play(line));
        Some(answer.unwrap_or("error".to_string()))
    }

    fn play(&mut self, line: Line) -> Option<String> {
        Some(match line {
            Line::Delta(current, target, direction) => {
                let path = hue_path_delta(current, target, direction);
                format!("{} {}", path.delta, path.is_tie as u8)
            }
            Line::Remaining(old, ms, is_start) => {
                let mut remaining = RemainingTime { tenths: old };
                let reported = remaining.write_quietly(ms, is_start);
                format!("{} {}", reported as u8, remaining.tenths)
            }
            Line::Leave(on_off, options, mask, overrides) => {
                (should_continue(on_off, options, mask, overrides) as u8).to_string()
            }
            Line::ModeOf(mode) => u8::from(color_mode_of(mode)).to_string(),
            Line::Shown(stored) => current_hue(stored).to_string(),
            Line::Running(mask) => rows::turning(mask),
            Line::New(bounds, features, options, clock) => {
                match Lamp::new(bounds, features, options, clock) {
                    Ok(lamp) => self.put(lamp),
                    Err(refusal) => format!("refused {}", refusal.number()),
                }
            }
            Line::Lamp(lamp) => self.put(lamp),
            Line::Row(line) => rows::play(self, line)?,
            line => {
                let lamp = self.lamp?;
                let answer = on_lamp(lamp, self.last, line)?;
                self.lamp = Some(answer.lamp);
                if let Some(task) = answer.task {
                    self.last = Some(task);
                }
                write::answer(&answer)
            }
        })
    }

    fn put(&mut self, lamp: Lamp) -> String {
        self.lamp = Some(lamp);
        self.last = None;
        write::answer(&lamp.unchanged(Ok(())))
    }
}

/// The answer where nothing but the lamp is changed, and nothing reported.
fn quiet(lamp: Lamp) -> Answer {
    lamp.unchanged(Ok(()))
}

fn on_lamp(lamp: Lamp, last: Option<Task>, line: Line) -> Option<Answer> {
    Some(match line {
        Line::Show => quiet(lamp),
        Line::Poke(fields) => quiet(Lamp {
            running: lamp.running,
            ..fields
        }),
        Line::Record(running) => quiet(Lamp { running, ..lamp }),
        Line::Call(call) => commands::call(lamp, call),
        Line::StartLast(clock) => lamp.start(last?, clock),
        Line::Set(setter, is_end, clock) => set(lamp, setter, is_end, clock),
        _ => unreachable!("no call of a lamp"),
    })
}
