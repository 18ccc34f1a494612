//! The protocol: reads a line, asks the guard, runs the Rust, writes the answer.

use std::collections::HashMap;
use std::panic::{catch_unwind, AssertUnwindSafe};
use std::task::{Context, Poll, Waker};

use crate::color_control_decl::{
    ColorLoopActionEnum, ColorLoopDirectionEnum, ColorModeEnum, DirectionEnum,
    EnhancedColorModeEnum, MoveModeEnum, StepModeEnum,
};
use crate::data::*;
use crate::driver::{self, Handler, Running};
use crate::error::ErrorCode;
use crate::rows::{self, Row};
use crate::{guard, recorder};

/// The longest line that is read, its newline not counted.
pub const LONGEST: usize = 4095;

/// Said where the Rust cannot be asked: bounds that are not in the list, or a step of a
/// record that the Rust would have ended at its start. Nothing changes.
pub const UNCOMPARABLE: &str = "uncomparable";

pub struct Player {
    handlers: Vec<&'static dyn Handler>,
    places: HashMap<(u16, u16), usize>,
    pub(crate) lamp: Option<Lamp>,
    pub(crate) last: Option<Task>,
    pub(crate) row: Option<Row>,
    /// The place whose lamp is looked at: without one the lamp alone is.
    focus: Option<usize>,
}

pub struct Lamp {
    pub(crate) fields: Fields,
    pub(crate) record: Option<Record>,
    /// The place of the handler for these bounds.
    place: Option<usize>,
    /// The record's transition, and the place of its handler: made when it is first needed.
    running: Option<(usize, Running)>,
}

#[derive(Clone, Copy)]
pub enum Call {
    Lamp(Fields),
    New(u16, u16, u32, u8, u64),
    Poke(Fields),
    Record(Option<Record>),
    Command(OnOff, Command, u8, u8, u64),
    Start(Task, u64),
    StartLast(u64),
    Step(u64),
    Halt(u64),
    /// New physical bounds, and the clock.
    Bounds(u16, u16, u64),
    SetHue(u16, bool, bool, u64),
    SetSat(u8, bool, u64),
    SetCt(u16, bool, u64),
    Show,
    Delta(u16, u16, DirectionEnum),
    Remaining(u16, u64, bool),
    Leave(OnOff, u8, u8, u8),
    ModeOf(EnhancedColorModeEnum),
    Shown(u16),
}

/// What a call is answered with.
pub enum Reply {
    /// The Rust's way, and the tie, which is not the Rust's.
    Delta(i32, bool),
    Remaining(bool, u16),
    Leave(bool),
    ModeOf(ColorModeEnum),
    Shown(u8),
    /// A making that is refused.
    NotMade(u8),
    /// Too early: there is no lamp, or no task was given.
    Error,
    OnLamp(End),
}

/// How a call on a lamp ended.
pub enum End {
    Done {
        given: Option<Task>,
        wait: u64,
        noticed: bool,
    },
    Refused(u8),
    Uncomparable,
    /// The Rust panicked where it was not expected to, or refused and changed something.
    Broken,
}

const QUIET: End = End::Done {
    given: None,
    wait: 0,
    noticed: false,
};

impl Player {
    pub fn new() -> Self {
        // Silent for the Rust's panics, which are caught; not for those of the oracle itself.
        let aloud = std::panic::take_hook();
        std::panic::set_hook(Box::new(move |info| {
            if !recorder::inside() {
                aloud(info)
            }
        }));
        let places = driver::PAIRS
            .iter()
            .chain(driver::BESIDES)
            .enumerate()
            .map(|(i, p)| (*p, i))
            .collect();
        Player {
            handlers: driver::handlers(),
            places,
            lamp: None,
            last: None,
            row: None,
            focus: None,
        }
    }

    pub fn look_at(&mut self, place: usize) {
        self.focus = Some(place);
    }

    fn looked_at(&self) -> Option<&Lamp> {
        match self.focus {
            Some(place) => self.row.as_ref()?.lamps[place].as_ref(),
            None => self.lamp.as_ref(),
        }
    }

    pub fn fields(&self) -> Option<&Fields> {
        self.looked_at().map(|l| &l.fields)
    }

    pub fn record(&self) -> Option<&Record> {
        self.looked_at().and_then(|l| l.record.as_ref())
    }

    pub fn row(&self) -> Option<&Row> {
        self.row.as_ref()
    }

    pub fn last(&self) -> Option<&Task> {
        self.last.as_ref()
    }

    /// Answers one line (without its newline), if it gets an answer.
    pub fn line(&mut self, line: &[u8], out: &mut Vec<u8>) {
        if line.is_empty() || line[0] == b'#' {
            return;
        }
        if line.len() > LONGEST {
            out.extend_from_slice(b"error\n");
            return;
        }
        match (rows::read(line), read(line)) {
            (Some(call), _) => self.row_line(call, out),
            (None, Some(call)) => {
                let reply = self.play(call);
                self.write(reply, out)
            }
            (None, None) => out.extend_from_slice(b"error"),
        }
        out.push(b'\n');
    }

    pub(crate) fn write(&self, reply: Reply, out: &mut Vec<u8>) {
        match reply {
            Reply::Delta(delta, is_tie) => {
                signed(out, delta.into());
                out.push(b' ');
                number(out, is_tie as u64);
            }
            Reply::Remaining(told, new) => {
                number(out, told as u64);
                out.push(b' ');
                number(out, new.into());
            }
            Reply::Leave(leave) => number(out, leave as u64),
            Reply::ModeOf(mode) => number(out, mode as u64),
            Reply::Shown(hue) => number(out, hue.into()),
            Reply::NotMade(cause) => {
                out.extend_from_slice(b"refused ");
                number(out, cause.into());
            }
            Reply::Error => out.extend_from_slice(b"error"),
            Reply::OnLamp(end) => self.answer(end, out),
        }
    }

    /// Answers one call.
    pub fn play(&mut self, call: Call) -> Reply {
        match call {
            Call::Delta(current, target, direction) => {
                let delta = driver::leaf_delta(current, target, direction);
                Reply::Delta(delta, guard::is_tie(current, target, direction))
            }
            Call::Remaining(old, ms, start) => {
                let (told, new) = driver::leaf_remaining(old, ms, start);
                Reply::Remaining(told, new)
            }
            Call::Leave(on_off, options, mask, over) => {
                Reply::Leave(self.handlers[0].should_continue(on_off, options, mask, over))
            }
            Call::ModeOf(emode) => Reply::ModeOf(driver::leaf_mode_of(emode)),
            Call::Shown(stored) => {
                Reply::Shown(guard::shown(stored, self.handlers[0].current_hue(stored)))
            }
            Call::New(min, max, features, options, clock) => {
                if clock > guard::LIMIT {
                    Reply::NotMade(4)
                } else if min > max {
                    Reply::NotMade(5)
                } else {
                    self.put(driver::fresh(min, max, features, options, clock));
                    Reply::OnLamp(QUIET)
                }
            }
            Call::Lamp(fields) => {
                self.put(fields);
                Reply::OnLamp(QUIET)
            }
            call => {
                if self.lamp.is_none() {
                    return Reply::Error;
                }
                let call = match call {
                    Call::StartLast(clock) => match self.last {
                        Some(task) => Call::Start(task, clock),
                        None => return Reply::Error,
                    },
                    call => call,
                };
                Reply::OnLamp(self.on_lamp(call))
            }
        }
    }

    fn put(&mut self, fields: Fields) {
        self.last = None;
        self.lamp = Some(self.lamp_of(fields));
    }

    pub(crate) fn lamp_of(&self, fields: Fields) -> Lamp {
        Lamp {
            fields,
            record: None,
            place: self.places.get(&(fields.min, fields.max)).copied(),
            running: None,
        }
    }

    /// Whether the Rust can be asked for a step of a lamp that runs.
    pub(crate) fn comparable(&self, lamp: &mut Lamp) -> bool {
        let Some(place) = lamp.place else {
            return false;
        };
        lamp.bring_about(place, self.handlers[place]) != Ok(false)
    }

    fn on_lamp(&mut self, call: Call) -> End {
        let lamp = self.lamp.as_mut().unwrap();
        match call {
            Call::Show => return QUIET,
            Call::Poke(fields) => {
                lamp.place = self.places.get(&(fields.min, fields.max)).copied();
                lamp.fields = fields;
                return QUIET;
            }
            Call::Record(record) => {
                lamp.record = record;
                lamp.running = None;
                return QUIET;
            }
            // Added by document 02, A.9: no Rust has it. What comes after is the Rust's of the new bounds; a
            // record that runs is brought about anew there.
            Call::Bounds(min, max, clock) => {
                let after =
                    guard::new_bounds(&lamp.fields, lamp.record.as_ref(), (min, max), clock);
                let (fields, moved) = match after {
                    Ok(after) => after,
                    Err(cause) => return End::Refused(cause),
                };
                lamp.place = self.places.get(&(min, max)).copied();
                lamp.fields = fields;
                recorder::begin(clock);
                if moved {
                    recorder::notice(guard::MIREDS);
                }
                return End::Done {
                    given: None,
                    wait: 0,
                    noticed: true,
                };
            }
            _ => {}
        }

        // The guard.
        if !guard::lamp_in_form(&lamp.fields, lamp.record.as_ref()) {
            return End::Refused(8);
        }
        let clock = match call {
            Call::Command(.., clock)
            | Call::Start(_, clock)
            | Call::Step(clock)
            | Call::Halt(clock)
            | Call::SetHue(.., clock)
            | Call::SetSat(.., clock)
            | Call::SetCt(.., clock) => clock,
            _ => unreachable!(),
        };
        if matches!(call, Call::Step(_)) && lamp.record.is_none() {
            return End::Refused(7);
        }
        if guard::clock_refused(&lamp.fields, clock) {
            return End::Refused(4);
        }
        if let Call::Start(task, _) = &call {
            if !guard::task_in_form(task) {
                return End::Refused(6);
            }
        }

        // A halt only makes the lamp idle: added by design, no Rust.
        if let Call::Halt(_) = call {
            lamp.fields.clock = clock;
            lamp.record = None;
            lamp.running = None;
            return QUIET;
        }

        // The Rust.
        let Some(place) = lamp.place else {
            return End::Uncomparable;
        };
        let handler = self.handlers[place];
        if let Call::Step(_) = call {
            match lamp.bring_about(place, handler) {
                Ok(true) => {}
                Ok(false) => return End::Uncomparable,
                Err(()) => return End::Broken,
            }
        }
        recorder::begin(clock);
        handler.load(&lamp.fields);
        match call {
            Call::Command(on_off, command, mask, over, _) => {
                let mut ran = caught(|| handler.command(on_off, &command, mask, over));
                // Document 02, A.12: where the Rust's `clamp` panics at crossed limits, the step is
                // given to it again with limits 0 and 0.
                if let (Err(panic), Command::StepColorTemperature(mode, size, time, ..)) =
                    (&ran, command)
                {
                    if of_clamp(&**panic) {
                        recorder::begin(clock);
                        handler.load(&lamp.fields);
                        let again = Command::StepColorTemperature(mode, size, time, 0, 0);
                        ran = caught(|| handler.command(on_off, &again, mask, over));
                    }
                }
                let Ok((result, given)) = ran else {
                    return End::Broken;
                };
                let mut after = lamp.fields;
                handler.store(&mut after);
                if let Err(error) = result {
                    let quiet = recorder::with_notices(|n| n.is_empty());
                    if after != lamp.fields || !quiet || given.is_some() {
                        return End::Broken;
                    }
                    return match error.0 {
                        ErrorCode::ConstraintError => End::Refused(1),
                        ErrorCode::InvalidCommand => End::Refused(2),
                        _ => End::Broken,
                    };
                }
                // Document 02, A.6: 18 behind the Rust's 17.
                if given.is_some() && guard::command_ties(lamp.fields.hue, &command) {
                    recorder::notice(guard::TIE);
                }
                after.clock = clock;
                lamp.fields = after;
                if given.is_some() {
                    self.last = given;
                }
                End::Done {
                    given,
                    wait: 0,
                    noticed: true,
                }
            }
            Call::Start(task, _) => {
                let before = lamp.fields;
                let ran = caught(|| {
                    let mut running = handler.transition(&task);
                    let pending = poll(&mut running);
                    (running, pending)
                });
                let Ok((running, pending)) = ran else {
                    return End::Broken;
                };
                handler.store(&mut lamp.fields);
                lamp.fields.clock = clock;
                if pending {
                    lamp.record = Some(record_of(&before, task, clock));
                    lamp.running = Some((place, running));
                } else {
                    lamp.record = None;
                    lamp.running = None;
                }
                End::Done {
                    given: None,
                    wait: if pending { recorder::wait() } else { 0 },
                    noticed: true,
                }
            }
            Call::Step(_) => {
                let running = &mut lamp.running.as_mut().unwrap().1;
                let Ok(pending) = caught(|| poll(running)) else {
                    lamp.running = None;
                    return End::Broken;
                };
                handler.store(&mut lamp.fields);
                lamp.fields.clock = clock;
                if !pending {
                    lamp.record = None;
                    lamp.running = None;
                }
                End::Done {
                    given: None,
                    wait: if pending { recorder::wait() } else { 0 },
                    noticed: true,
                }
            }
            Call::SetHue(..) | Call::SetSat(..) | Call::SetCt(..) => {
                let ran = caught(|| match call {
                    Call::SetHue(new, end, enhanced, _) => handler.set_hue(new, end, enhanced),
                    Call::SetSat(new, end, _) => handler.set_saturation(new, end),
                    Call::SetCt(new, end, _) => handler.set_color_temperature(new, end),
                    _ => unreachable!(),
                });
                if ran.is_err() {
                    return End::Broken;
                }
                handler.store(&mut lamp.fields);
                lamp.fields.clock = clock;
                End::Done {
                    given: None,
                    wait: 0,
                    noticed: true,
                }
            }
            _ => unreachable!(),
        }
    }

    fn answer(&self, end: End, out: &mut Vec<u8>) {
        let (given, wait, noticed) = match end {
            End::Done {
                given,
                wait,
                noticed,
            } => {
                out.extend_from_slice(b"ok | ");
                (given, wait, noticed)
            }
            End::Refused(cause) => {
                out.extend_from_slice(b"refused ");
                number(out, cause.into());
                out.extend_from_slice(b" | ");
                (None, 0, false)
            }
            End::Uncomparable => return out.extend_from_slice(UNCOMPARABLE.as_bytes()),
            End::Broken => return out.extend_from_slice(b"broken"),
        };
        let lamp = self.lamp.as_ref().unwrap();
        write_fields(out, &lamp.fields);
        out.extend_from_slice(b" | ");
        let mut any = false;
        if noticed {
            recorder::with_notices(|notices| {
                for n in notices {
                    if any {
                        out.push(b' ');
                    }
                    any = true;
                    number(out, n.get().into());
                }
            });
        }
        if !any {
            out.push(b'-');
        }
        out.extend_from_slice(b" | ");
        match given {
            Some(task) => write_task(out, &task),
            None => out.push(b'-'),
        }
        out.extend_from_slice(b" | ");
        number(out, wait);
        out.extend_from_slice(match lamp.record {
            Some(_) => b" | running",
            None => b" | idle",
        });
    }
}

impl Lamp {
    pub fn clock(&self) -> u64 {
        self.fields.clock
    }

    /// Starts the record's task at its start numbers, if its transition isn't there yet.
    /// The lamp's fields are loaded again before the step. Answers whether it runs.
    fn bring_about(&mut self, place: usize, handler: &'static dyn Handler) -> Result<bool, ()> {
        if matches!(&self.running, Some((p, _)) if *p == place) {
            return Ok(true);
        }
        let record = self.record.unwrap();
        let at_start = Fields {
            hue: record.hue,
            sat: record.sat,
            mireds: record.mireds,
            stamp_hue: 0,
            stamp_sat: 0,
            stamp_mireds: 0,
            ..self.fields
        };
        recorder::begin(record.clock);
        handler.load(&at_start);
        let ran = caught(|| {
            let mut running = handler.transition(&record.task);
            let pending = poll(&mut running);
            (running, pending)
        });
        let Ok((running, pending)) = ran else {
            return Err(());
        };
        if pending {
            self.running = Some((place, running));
        }
        Ok(pending)
    }
}

/// Runs the Rust.
fn caught<R>(f: impl FnOnce() -> R) -> std::thread::Result<R> {
    recorder::set_inside(true);
    let result = catch_unwind(AssertUnwindSafe(f));
    recorder::set_inside(false);
    result
}

/// One poll. Answers whether the transition goes on.
fn poll(running: &mut Running) -> bool {
    let mut context = Context::from_waker(Waker::noop());
    matches!(running.as_mut().poll(&mut context), Poll::Pending)
}

fn of_clamp(panic: &(dyn std::any::Any + Send)) -> bool {
    let text = match (panic.downcast_ref::<&str>(), panic.downcast_ref::<String>()) {
        (Some(text), _) => text,
        (_, Some(text)) => text.as_str(),
        _ => return false,
    };
    // Worded by the standard library, and not the same in each version.
    text.starts_with("min > max") || text.contains("min <= max")
}

/// What a start leaves in the lamp, for the form test alone: the Rust keeps it in its future.
pub fn record_of(before: &Fields, task: Task, clock: u64) -> Record {
    let task = match task {
        Task::CtTo { target, ms } => Task::CtTo {
            target: target.clamp(before.min, before.max),
            ms,
        },
        Task::CtMove { rate, min, max } => Task::CtMove {
            rate,
            min: min.max(before.min),
            max: max.min(before.max),
        },
        task => task,
    };
    Record {
        clock,
        hue: before.hue,
        sat: before.sat,
        mireds: before.mireds,
        task,
    }
}

// ---- writing ----

pub fn number(out: &mut Vec<u8>, mut x: u64) {
    let mut digits = [0u8; 20];
    let mut at = digits.len();
    loop {
        at -= 1;
        digits[at] = b'0' + (x % 10) as u8;
        x /= 10;
        if x == 0 {
            break;
        }
    }
    out.extend_from_slice(&digits[at..]);
}

pub fn signed(out: &mut Vec<u8>, x: i64) {
    if x < 0 {
        out.push(b'-');
    }
    number(out, x.unsigned_abs());
}

fn numbers(out: &mut Vec<u8>, xs: &[u64]) {
    for (i, x) in xs.iter().enumerate() {
        if i > 0 {
            out.push(b' ');
        }
        number(out, *x);
    }
}

pub fn write_fields(out: &mut Vec<u8>, f: &Fields) {
    numbers(
        out,
        &[
            f.min as u64,
            f.max as u64,
            f.clock,
            f.options as u64,
            f.remaining as u64,
            f.stamp_hue,
            f.stamp_sat,
            f.stamp_mireds,
            f.hue as u64,
            f.sat as u64,
            f.mireds as u64,
            f.mode as u64,
            f.emode as u64,
            f.loop_active as u64,
            f.loop_dir as u64,
            f.loop_time as u64,
            f.loop_start as u64,
            f.loop_stored as u64,
        ],
    )
}

fn way_and_sat(out: &mut Vec<u8>, way: Option<i64>, sat: Option<u8>) {
    match way {
        Some(way) => signed(out, way),
        None => out.push(b'-'),
    }
    out.push(b' ');
    match sat {
        Some(sat) => number(out, sat.into()),
        None => out.push(b'-'),
    }
    out.push(b' ');
}

pub fn write_task(out: &mut Vec<u8>, task: &Task) {
    write_running(out, task, &[])
}

pub fn write_record(out: &mut Vec<u8>, record: Option<&Record>) {
    let Some(r) = record else {
        return out.extend_from_slice(b"idle");
    };
    match r.task {
        Task::MoveTo { .. } => write_running(out, &r.task, &[r.clock, r.hue.into(), r.sat.into()]),
        Task::HueMove { .. } | Task::Loop { .. } => {
            write_running(out, &r.task, &[r.clock, r.hue.into()])
        }
        Task::SatMove { .. } => write_running(out, &r.task, &[r.clock, r.sat.into()]),
        Task::CtTo { .. } | Task::CtMove { .. } => {
            write_running(out, &r.task, &[r.clock, r.mireds.into()])
        }
        Task::Stop => unreachable!(),
    }
}

fn write_running(out: &mut Vec<u8>, task: &Task, saved: &[u64]) {
    out.extend_from_slice(match task {
        Task::MoveTo { .. } => b"move_to ".as_slice(),
        Task::HueMove { .. } => b"hue_move ",
        Task::SatMove { .. } => b"sat_move ",
        Task::CtTo { .. } => b"ct_to ",
        Task::CtMove { .. } => b"ct_move ",
        Task::Loop { .. } => b"loop ",
        Task::Stop => return out.extend_from_slice(b"stop"),
    });
    for x in saved {
        number(out, *x);
        out.push(b' ');
    }
    match *task {
        Task::MoveTo {
            way,
            sat,
            ms,
            enhanced,
        } => {
            way_and_sat(out, way, sat);
            numbers(out, &[ms.into(), enhanced.into()]);
        }
        Task::HueMove {
            mode,
            rate,
            enhanced,
        } => numbers(out, &[mode as u64, rate.into(), enhanced.into()]),
        Task::SatMove { mode, rate } => numbers(out, &[mode as u64, rate.into()]),
        Task::CtTo { target, ms } => numbers(out, &[target.into(), ms.into()]),
        Task::CtMove { rate, min, max } => {
            signed(out, rate);
            out.push(b' ');
            numbers(out, &[min.into(), max.into()]);
        }
        Task::Loop { dir, seconds } => numbers(out, &[dir as u64, seconds.into()]),
        Task::Stop => {}
    }
}

// ---- reading ----

const MOST_WORDS: usize = 24;

pub(crate) struct Words<'a> {
    words: [&'a [u8]; MOST_WORDS],
    count: usize,
    at: usize,
}

impl<'a> Words<'a> {
    pub(crate) fn of(line: &'a [u8]) -> Option<Self> {
        let mut words = [&line[..0]; MOST_WORDS];
        let mut count = 0;
        for word in line.split(|b| *b == b' ') {
            if count == MOST_WORDS {
                return None;
            }
            words[count] = word;
            count += 1;
        }
        Some(Words {
            words,
            count,
            at: 0,
        })
    }

    pub(crate) fn is_at_end(&self) -> bool {
        self.at == self.count
    }

    pub(crate) fn next(&mut self) -> Option<&'a [u8]> {
        if self.at == self.count {
            return None;
        }
        self.at += 1;
        Some(self.words[self.at - 1])
    }

    pub(crate) fn unsigned(&mut self, most: u64) -> Option<u64> {
        let x = magnitude(self.next()?)?;
        (x <= most as u128).then_some(x as u64)
    }

    pub(crate) fn u64(&mut self) -> Option<u64> {
        self.unsigned(u64::MAX)
    }

    pub(crate) fn u32(&mut self) -> Option<u32> {
        self.unsigned(u32::MAX.into()).map(|x| x as u32)
    }

    fn u16(&mut self) -> Option<u16> {
        self.unsigned(u16::MAX.into()).map(|x| x as u16)
    }

    pub(crate) fn u8(&mut self) -> Option<u8> {
        self.unsigned(u8::MAX.into()).map(|x| x as u8)
    }

    fn bit(&mut self) -> Option<bool> {
        self.unsigned(1).map(|x| x == 1)
    }

    fn i64(&mut self) -> Option<i64> {
        integer(self.next()?)
    }

    fn way(&mut self) -> Option<Option<i64>> {
        match self.next()? {
            b"-" => Some(None),
            word => integer(word).map(Some),
        }
    }

    fn sat(&mut self) -> Option<Option<u8>> {
        if self.at < self.count && self.words[self.at] == b"-" {
            self.at += 1;
            return Some(None);
        }
        self.u8().map(Some)
    }

    fn direction(&mut self) -> Option<DirectionEnum> {
        DirectionEnum::from_number(self.u64()?)
    }

    fn mode(&mut self) -> Option<MoveModeEnum> {
        MoveModeEnum::from_number(self.u64()?)
    }

    fn step(&mut self) -> Option<StepModeEnum> {
        StepModeEnum::from_number(self.u64()?)
    }

    fn loop_dir(&mut self) -> Option<ColorLoopDirectionEnum> {
        ColorLoopDirectionEnum::from_number(self.u64()?)
    }

    fn emode(&mut self) -> Option<EnhancedColorModeEnum> {
        EnhancedColorModeEnum::from_number(self.u64()?)
    }

    fn on_off(&mut self) -> Option<OnOff> {
        match self.next()? {
            b"on" => Some(OnOff::On),
            b"off" => Some(OnOff::Off),
            b"none" => Some(OnOff::None),
            _ => None,
        }
    }

    fn fields(&mut self) -> Option<Fields> {
        Some(Fields {
            min: self.u16()?,
            max: self.u16()?,
            clock: self.u64()?,
            options: self.u8()?,
            remaining: self.u16()?,
            stamp_hue: self.u64()?,
            stamp_sat: self.u64()?,
            stamp_mireds: self.u64()?,
            hue: self.u16()?,
            sat: self.u8()?,
            mireds: self.u16()?,
            mode: ColorModeEnum::from_number(self.u64()?)?,
            emode: self.emode()?,
            loop_active: self.bit()?,
            loop_dir: self.loop_dir()?,
            loop_time: self.u16()?,
            loop_start: self.u16()?,
            loop_stored: self.u16()?,
        })
    }

    /// What follows a task's name, after the saved numbers in a record.
    fn task(&mut self, name: &[u8]) -> Option<Task> {
        Some(match name {
            b"move_to" => Task::MoveTo {
                way: self.way()?,
                sat: self.sat()?,
                ms: self.u32()?,
                enhanced: self.bit()?,
            },
            b"hue_move" => Task::HueMove {
                mode: self.mode()?,
                rate: self.u32()?,
                enhanced: self.bit()?,
            },
            b"sat_move" => Task::SatMove {
                mode: self.mode()?,
                rate: self.u32()?,
            },
            b"ct_to" => Task::CtTo {
                target: self.u16()?,
                ms: self.u32()?,
            },
            b"ct_move" => Task::CtMove {
                rate: self.i64()?,
                min: self.u16()?,
                max: self.u16()?,
            },
            b"loop" => Task::Loop {
                dir: self.loop_dir()?,
                seconds: self.u16()?,
            },
            b"stop" => Task::Stop,
            _ => return None,
        })
    }

    fn record(&mut self) -> Option<Option<Record>> {
        let name = self.next()?;
        if name == b"idle" {
            return Some(None);
        }
        if name == b"stop" {
            return None;
        }
        let clock = self.u64()?;
        let (mut hue, mut sat, mut mireds) = (0, 0, 0);
        match name {
            b"move_to" => {
                hue = self.u16()?;
                sat = self.u8()?;
            }
            b"hue_move" | b"loop" => hue = self.u16()?,
            b"sat_move" => sat = self.u8()?,
            b"ct_to" | b"ct_move" => mireds = self.u16()?,
            _ => return None,
        }
        Some(Some(Record {
            clock,
            hue,
            sat,
            mireds,
            task: self.task(name)?,
        }))
    }

    fn command(&mut self, name: &[u8]) -> Option<Command> {
        Some(match name {
            b"move_to_hue" => Command::MoveToHue(self.u8()?, self.direction()?, self.u16()?),
            b"enhanced_move_to_hue" => {
                Command::EnhancedMoveToHue(self.u16()?, self.direction()?, self.u16()?)
            }
            b"move_hue" => Command::MoveHue(self.mode()?, self.u8()?, self.bit()?),
            b"enhanced_move_hue" => Command::EnhancedMoveHue(self.mode()?, self.u16()?),
            b"move_saturation" => Command::MoveSaturation(self.mode()?, self.u8()?),
            b"step_hue" => Command::StepHue(self.step()?, self.u8()?, self.u16()?),
            b"enhanced_step_hue" => {
                Command::EnhancedStepHue(self.step()?, self.u16()?, self.u16()?)
            }
            b"step_saturation" => Command::StepSaturation(self.step()?, self.u8()?, self.u16()?),
            b"move_to_saturation" => Command::MoveToSaturation(self.u8()?, self.u16()?),
            b"move_to_hue_and_saturation" => Command::MoveToHueAndSaturation(
                self.u8()?,
                self.u8()?,
                self.u16()?,
                self.bit()?,
                self.u16()?,
            ),
            b"stop_move_step" => Command::StopMoveStep,
            b"move_to_color_temperature" => {
                Command::MoveToColorTemperature(self.u16()?, self.u16()?)
            }
            b"move_color_temperature" => {
                Command::MoveColorTemperature(self.mode()?, self.u16()?, self.u16()?, self.u16()?)
            }
            b"step_color_temperature" => Command::StepColorTemperature(
                self.step()?,
                self.u16()?,
                self.u16()?,
                self.u16()?,
                self.u16()?,
            ),
            b"color_loop_set" => Command::ColorLoopSet(
                self.u8()?,
                ColorLoopActionEnum::from_number(self.u64()?)?,
                self.loop_dir()?,
                self.u16()?,
                self.u16()?,
            ),
            _ => return None,
        })
    }

    pub(crate) fn call(&mut self) -> Option<Call> {
        Some(match self.next()? {
            b"lamp" => Call::Lamp(self.fields()?),
            b"new" => Call::New(
                self.u16()?,
                self.u16()?,
                self.u32()?,
                self.u8()?,
                self.u64()?,
            ),
            b"poke" => Call::Poke(self.fields()?),
            b"record" => Call::Record(self.record()?),
            b"cmd" => {
                let name = self.next()?;
                let on_off = self.on_off()?;
                let command = self.command(name)?;
                Call::Command(on_off, command, self.u8()?, self.u8()?, self.u64()?)
            }
            b"start" => {
                let name = self.next()?;
                Call::Start(self.task(name)?, self.u64()?)
            }
            b"startlast" => Call::StartLast(self.u64()?),
            b"step" => Call::Step(self.u64()?),
            b"halt" => Call::Halt(self.u64()?),
            b"bounds" => Call::Bounds(self.u16()?, self.u16()?, self.u64()?),
            b"set" => match self.next()? {
                b"hue" => Call::SetHue(self.u16()?, self.bit()?, self.bit()?, self.u64()?),
                b"sat" => Call::SetSat(self.u8()?, self.bit()?, self.u64()?),
                b"ct" => Call::SetCt(self.u16()?, self.bit()?, self.u64()?),
                _ => return None,
            },
            b"show" => Call::Show,
            b"leaf" => match self.next()? {
                b"delta" => Call::Delta(self.u16()?, self.u16()?, self.direction()?),
                b"remaining" => Call::Remaining(self.u16()?, self.u64()?, self.bit()?),
                b"leave" => Call::Leave(self.on_off()?, self.u8()?, self.u8()?, self.u8()?),
                b"mode_of" => Call::ModeOf(self.emode()?),
                b"shown" => Call::Shown(self.u16()?),
                _ => return None,
            },
            _ => return None,
        })
    }
}

/// A call, of a line that is not too long.
pub fn read(line: &[u8]) -> Option<Call> {
    let mut words = Words::of(line)?;
    let call = words.call()?;
    words.is_at_end().then_some(call)
}

/// Digits alone, at least one; what is past 64 bits is cut to a number past them.
fn magnitude(word: &[u8]) -> Option<u128> {
    if word.is_empty() {
        return None;
    }
    let past = u64::MAX as u128 + 1;
    let mut x = 0u128;
    for b in word {
        if !b.is_ascii_digit() {
            return None;
        }
        x = (x * 10 + (b - b'0') as u128).min(past);
    }
    Some(x)
}

fn integer(word: &[u8]) -> Option<i64> {
    let (negative, digits) = match word {
        [b'-', digits @ ..] => (true, digits),
        digits => (false, digits),
    };
    let x = magnitude(digits)?;
    let x = if negative { -(x as i128) } else { x as i128 };
    i64::try_from(x).ok()
}
