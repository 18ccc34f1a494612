//! Counts the corners that a comparison met. A corner is told from the call, the lamp before
//! it and the answer that both sides gave; where the answer can bear it out, it must.
//!
//! The lamp is followed through the answers, its running record through the calls. No Rust is
//! run here.

use std::collections::HashMap;

use crate::data::*;
use crate::guard::{self, LIMIT};
use crate::protocol::{read, record_of, Call, LONGEST};

pub struct Corners {
    rows: Vec<(&'static str, String, u64)>,
    places: HashMap<String, usize>,
    lamp: Option<Lamp>,
    /// The task given last, and the hue that its command found.
    last: Option<(Task, u16)>,
}

#[derive(Clone, Copy)]
struct Lamp {
    fields: Fields,
    record: Option<Record>,
}

struct Answer {
    /// 0 where accepted.
    cause: u8,
    fields: Option<Fields>,
    silent: bool,
    /// How often 1 is among the notices.
    told: usize,
    /// Whether the list ends with 17 and 18.
    tied: bool,
    task: Option<Task>,
    running: bool,
}

const TASKS: [&str; 6] = [
    "move_to", "hue_move", "sat_move", "ct_to", "ct_move", "loop",
];
const KINDS: [&str; 6] = ["new", "cmd", "start", "step", "halt", "set"];
const DIRECTIONS: [&str; 4] = ["Shortest", "Longest", "Up", "Down"];
const COMMANDS: [&str; 15] = [
    "move_to_hue",
    "enhanced_move_to_hue",
    "move_hue",
    "enhanced_move_hue",
    "move_saturation",
    "step_hue",
    "enhanced_step_hue",
    "step_saturation",
    "move_to_saturation",
    "move_to_hue_and_saturation",
    "stop_move_step",
    "move_to_color_temperature",
    "move_color_temperature",
    "step_color_temperature",
    "color_loop_set",
];

/// The single ways of a lamp's numbers out of form.
const FIELD_WAYS: [&str; 16] = [
    "saturation 255",
    "mireds below the minimum",
    "mireds above the maximum",
    "bounds crossed",
    "stamp of hue after the clock",
    "stamp of saturation after the clock",
    "stamp of mireds after the clock",
    "clock above the limit",
    "modes 0 and 1",
    "modes 0 and 2",
    "modes 1 and 0",
    "modes 1 and 2",
    "modes 1 and 3",
    "modes 2 and 0",
    "modes 2 and 1",
    "modes 2 and 3",
];

/// The single ways of a task out of form.
const TASK_WAYS: [&str; 17] = [
    "move_to, time not in tenths",
    "move_to, time above 6,553,500",
    "move_to, way above 65,535",
    "move_to, way below -65,535",
    "move_to, saturation 255",
    "move_to, neither hue nor saturation",
    "hue_move, rate 0",
    "hue_move, rate above 65,535",
    "hue_move, Stop",
    "sat_move, rate 0",
    "sat_move, rate above 255",
    "sat_move, Stop",
    "ct_to, time not in tenths",
    "ct_to, time above 6,553,500",
    "ct_move, rate 0",
    "ct_move, rate above 65,535",
    "ct_move, rate below -65,535",
];

/// The single ways of a record out of form, its task's aside.
const RECORD_WAYS: [&str; 20] = [
    "move_to, time 0",
    "move_to, saved saturation 255",
    "sat_move, saved saturation 255",
    "ct_to, time 0",
    "ct_to, saved mireds below the minimum",
    "ct_to, saved mireds above the maximum",
    "ct_to, target below the minimum",
    "ct_to, target above the maximum",
    "ct_move, saved mireds below the minimum",
    "ct_move, saved mireds above the maximum",
    "ct_move, lo = hi",
    "ct_move, lo above hi",
    "ct_move, lo below the minimum",
    "ct_move, hi above the maximum",
    "move_to, clock after the lamp's",
    "hue_move, clock after the lamp's",
    "sat_move, clock after the lamp's",
    "ct_to, clock after the lamp's",
    "ct_move, clock after the lamp's",
    "loop, clock after the lamp's",
];

const ENDS: &str = "ends";
const LOOPS: &str = "snaps and whole turns";
const TIES: &str = "half-way and equal hues";
const SHOWN: &str = "CurrentHue";
const CROSSED: &str = "crossed bounds";
const CLAMPS: &str = "clamps of commands and starts";
const MAKINGS: &str = "makings";
const CLOCKS: &str = "limit clocks";
const OFF: &str = "lamp off";
const LAMPS: &str = "lamps out of form, refused with 8";
const RECORDS: &str = "records out of form, refused with 8";
const STARTS: &str = "tasks out of form, refused with 6";
const EDGES: &str = "starts accepted at the edge of form";
const ORDER: &str = "two causes, the first wins";
const SETTERS: &str = "setters";
const REMAINING: &str = "remaining time";
const SUMS: &str = "sums";
const LOOP_SET: &str = "colour-loop command";
const LISTS: &str = "between calls";
const LINES: &str = "lines";

/// Stored hues, and CurrentHue of each.
const SHOWN_AT: [(u16, &str, &str); 6] = [
    (65_023, "65,023 as 253", "253"),
    (65_024, "65,024 as 254", "254"),
    (65_279, "65,279 as 254", "254"),
    (65_280, "65,280 as 254", "254"),
    (65_535, "65,535 as 254", "254"),
    (0, "0 as 0", "0"),
];

/// Every corner, met or not.
fn all() -> Vec<(&'static str, String)> {
    let mut rows: Vec<(&'static str, String)> = Vec::new();
    let mut add = |group, name: String| rows.push((group, name));

    for task in [
        "move_to",
        "sat_move up",
        "sat_move down",
        "ct_to",
        "ct_move up",
        "ct_move down",
    ] {
        for when in ["1 ms before", "at", "1 ms after", "later than"] {
            add(ENDS, format!("step of {task} {when} its end"));
        }
    }
    for task in ["move_to", "ct_to"] {
        add(ENDS, format!("start of {task}, time 0"));
        add(ENDS, format!("start of {task}, no way"));
    }
    for name in [
        "start of sat_move at its bound",
        "start of ct_move at its bound",
        "start of ct_move from beyond its bound",
        "start of ct_move from before its other bound",
        "start of ct_move, lo = hi",
        "start of ct_move, lo above hi",
    ] {
        add(ENDS, name.into());
    }
    for dir in ["up", "down"] {
        for name in [
            "one whole turn exactly",
            "several whole turns exactly",
            "384 past a turn",
            "385 past a turn",
            "65,151 of a turn",
            "65,152 of a turn",
            "in the snap before a turn",
            "in the snap after a turn",
            "1 to 384 of the first turn, no snap",
            "wait cut by the next turn",
            "0 seconds read as 25",
        ] {
            add(LOOPS, format!("loop {dir}, {name}"));
        }
    }
    for direction in DIRECTIONS {
        for name in ["half-way", "equal", "32,767 up", "32,769 up"] {
            add(TIES, format!("delta, {direction}, {name}"));
        }
    }
    for command in ["move_to_hue", "enhanced_move_to_hue"] {
        for direction in DIRECTIONS {
            for name in ["half-way", "equal"] {
                add(TIES, format!("{command}, {direction}, {name}"));
            }
        }
    }
    for name in ["half-way", "equal"] {
        add(TIES, format!("move_to_hue_and_saturation, plain, {name}"));
        add(
            TIES,
            format!("move_to_hue_and_saturation, enhanced, {name}"),
        );
    }
    for (_, name, _) in SHOWN_AT {
        add(SHOWN, name.into());
    }
    for name in [
        "new, crossed by one",
        "new, crossed further",
        "new, equal",
        "step_color_temperature, lo above hi by one",
        "step_color_temperature, lo above hi further",
        "step_color_temperature, lo = hi",
        "step_color_temperature, lo above hi, off: passed over",
        "step_color_temperature, lo above hi, step 0",
        "move_color_temperature, lo above hi",
        "move_color_temperature, lo = hi",
    ] {
        add(CROSSED, name.into());
    }
    for name in [
        "step_saturation stops at 0",
        "step_saturation stops at 254",
        "move_to_color_temperature below the minimum",
        "move_to_color_temperature above the maximum",
        "step_color_temperature stops at the physical bound",
        "step_color_temperature stops at the caller's limit",
        "step_color_temperature, a limit outside the physical bounds",
        "move_color_temperature, a limit outside the physical bounds",
        "start of ct_to, target below the minimum",
        "start of ct_to, target above the maximum",
    ] {
        add(CLAMPS, name.into());
    }
    for name in [
        "250 below the minimum",
        "250 above the maximum",
        "features with XY",
        "features with hue and no XY",
        "features with mireds alone",
        "features with no colour",
    ] {
        add(MAKINGS, name.into());
    }
    for kind in KINDS {
        add(CLOCKS, format!("{kind} at the limit"));
        add(CLOCKS, format!("{kind} one past the limit"));
        add(CLOCKS, format!("{kind} at 2^64 - 1"));
        if kind != "new" {
            add(CLOCKS, format!("{kind} at the lamp's clock"));
            add(CLOCKS, format!("{kind} one before the lamp's clock"));
        }
    }
    for task in TASKS {
        add(CLOCKS, format!("step of {task}, from 0 to the limit"));
    }
    for command in COMMANDS {
        add(OFF, format!("{command} passed over"));
    }
    for bits in 0..8 {
        let (mask, over, option) = (bits >> 2, bits >> 1 & 1, bits & 1);
        add(
            OFF,
            format!("mask {mask}, override {over}, option {option}"),
        );
    }
    for command in [
        "move_hue",
        "enhanced_move_hue",
        "move_saturation",
        "move_color_temperature",
    ] {
        add(OFF, format!("{command}, Stop while off"));
        add(OFF, format!("{command}, Stop with rate 0"));
    }
    for way in FIELD_WAYS {
        add(LAMPS, way.into());
    }
    add(LAMPS, "several ways at once".into());
    for way in TASK_WAYS.iter().chain(&RECORD_WAYS) {
        add(RECORDS, way.to_string());
    }
    add(RECORDS, "several ways at once".into());
    for way in TASK_WAYS {
        add(STARTS, way.into());
    }
    add(STARTS, "the Stop task".into());
    add(STARTS, "several ways at once".into());
    for name in [
        "move_to, way 65,535",
        "move_to, way -65,535",
        "move_to, saturation 254",
        "move_to, time 6,553,500",
        "hue_move, rate 65,535",
        "sat_move, rate 255",
        "ct_to, time 6,553,500",
        "ct_move, rate 65,535",
        "ct_move, rate -65,535",
        "ct_move, minimum 0",
        "ct_move, maximum 0",
    ] {
        add(EDGES, name.into());
    }
    for name in [
        "new, 4 before 5",
        "cmd, 8 before 4",
        "cmd, 8 before 1",
        "cmd, 8 before 2",
        "cmd, 4 before 1",
        "cmd, 4 before 2",
        "start, 8 before 4",
        "start, 8 before 6",
        "start, 4 before 6",
        "step, 8 before 7",
        "step, 8 before 4",
        "step, 7 before 4",
        "halt, 8 before 4",
        "set, 8 before 4",
    ] {
        add(ORDER, name.into());
    }
    for which in ["hue", "sat", "ct"] {
        for name in [
            "equal",
            "equal, at an end",
            "999 ms after its last notice",
            "1000 ms after its last notice",
            "0 ms after its last notice, at an end",
            "while the loop is active",
        ] {
            add(SETTERS, format!("{which}, {name}"));
        }
    }
    for name in [
        "sat, the enhanced mode kept",
        "sat, another mode left",
        "sat 255",
        "ct outside the bounds",
    ] {
        add(SETTERS, name.into());
    }
    for name in [
        "0 to 10 tenths",
        "0 to 11 tenths",
        "changed to 0",
        "0 to 0",
        "10 more at a start",
        "11 more at a start",
        "10 less at a start",
        "11 less at a start",
        "11 more, not at a start",
        "one ms past a tenth",
        "wrapped at sixteen bits",
        "start, 10 tenths apart",
        "start, 11 tenths apart",
        "start, told twice",
    ] {
        add(REMAINING, name.into());
    }
    for task in TASKS {
        add(
            SUMS,
            format!("step of {task}, a negative part with a fraction"),
        );
    }
    let name = "step of move_to, a negative part of saturation with a fraction";
    add(SUMS, name.into());
    for task in ["move_to", "hue_move", "loop"] {
        add(SUMS, format!("step of {task}, past 65,535"));
        add(SUMS, format!("step of {task}, below 0"));
    }
    for action in ["off", "from the start hue", "from the current hue"] {
        for active in ["inactive", "active"] {
            add(LOOP_SET, format!("{action}, {active} before"));
        }
    }
    for flags in ["0", "2", "4", "8"] {
        add(LOOP_SET, format!("flags {flags}"));
    }
    add(LOOP_SET, "flags past 15".into());
    add(LOOP_SET, "a loop of 0 seconds given".into());
    add(LOOP_SET, "while a task runs".into());
    for name in [
        "start while a task runs",
        "the hue moved between a command and its start",
        "halt while a task runs",
        "poke while a task runs",
    ] {
        add(LISTS, name.into());
    }
    for name in [
        "a call before any lamp",
        "startlast with no task",
        "longer than 4,095 bytes",
        "a byte that is no printable one",
        "a blank too many",
        "an unknown first word",
        "a wrong word, number or count",
        "4,095 bytes, read",
        "leading zeros, read",
    ] {
        add(LINES, name.into());
    }
    rows
}

fn name_of(task: &Task) -> &'static str {
    match task {
        Task::MoveTo { .. } => "move_to",
        Task::HueMove { .. } => "hue_move",
        Task::SatMove { .. } => "sat_move",
        Task::CtTo { .. } => "ct_to",
        Task::CtMove { .. } => "ct_move",
        Task::Loop { .. } => "loop",
        Task::Stop => "stop",
    }
}

fn command_name(command: &Command) -> &'static str {
    COMMANDS[match command {
        Command::MoveToHue(..) => 0,
        Command::EnhancedMoveToHue(..) => 1,
        Command::MoveHue(..) => 2,
        Command::EnhancedMoveHue(..) => 3,
        Command::MoveSaturation(..) => 4,
        Command::StepHue(..) => 5,
        Command::EnhancedStepHue(..) => 6,
        Command::StepSaturation(..) => 7,
        Command::MoveToSaturation(..) => 8,
        Command::MoveToHueAndSaturation(..) => 9,
        Command::StopMoveStep => 10,
        Command::MoveToColorTemperature(..) => 11,
        Command::MoveColorTemperature(..) => 12,
        Command::StepColorTemperature(..) => 13,
        Command::ColorLoopSet(..) => 14,
    }]
}

// ---- form, way by way ----

fn field_ways(f: &Fields) -> Vec<&'static str> {
    let mut ways = Vec::new();
    let mut test = |broken: bool, way: &'static str| {
        if broken {
            ways.push(way)
        }
    };
    test(f.sat > 254, FIELD_WAYS[0]);
    // Where the bounds are crossed, any mireds are outside.
    test(f.min <= f.max && f.mireds < f.min, FIELD_WAYS[1]);
    test(f.min <= f.max && f.mireds > f.max, FIELD_WAYS[2]);
    test(f.min > f.max, FIELD_WAYS[3]);
    test(f.stamp_hue > f.clock, FIELD_WAYS[4]);
    test(f.stamp_sat > f.clock, FIELD_WAYS[5]);
    test(f.stamp_mireds > f.clock, FIELD_WAYS[6]);
    test(f.clock > LIMIT, FIELD_WAYS[7]);
    let pair = (f.mode as u64, f.emode as u64);
    let disagree = [
        (0, 1),
        (0, 2),
        (1, 0),
        (1, 2),
        (1, 3),
        (2, 0),
        (2, 1),
        (2, 3),
    ];
    if let Some(at) = disagree.iter().position(|p| *p == pair) {
        ways.push(FIELD_WAYS[8 + at]);
    }
    ways
}

fn task_ways(task: &Task) -> Vec<&'static str> {
    let mut ways = Vec::new();
    let mut test = |broken: bool, at: usize| {
        if broken {
            ways.push(TASK_WAYS[at])
        }
    };
    match *task {
        Task::MoveTo { way, sat, ms, .. } => {
            test(ms % 100 != 0, 0);
            test(ms > 6_553_500, 1);
            test(way.is_some_and(|w| w > 65_535), 2);
            test(way.is_some_and(|w| w < -65_535), 3);
            test(sat == Some(255), 4);
            test(way.is_none() && sat.is_none(), 5);
        }
        Task::HueMove { mode, rate, .. } => {
            test(rate == 0, 6);
            test(rate > 65_535, 7);
            test(mode == MoveModeEnum::Stop, 8);
        }
        Task::SatMove { mode, rate } => {
            test(rate == 0, 9);
            test(rate > 255, 10);
            test(mode == MoveModeEnum::Stop, 11);
        }
        Task::CtTo { ms, .. } => {
            test(ms % 100 != 0, 12);
            test(ms > 6_553_500, 13);
        }
        Task::CtMove { rate, .. } => {
            test(rate == 0, 14);
            test(rate > 65_535, 15);
            test(rate < -65_535, 16);
        }
        Task::Loop { .. } => {}
        Task::Stop => ways.push("the Stop task"),
    }
    ways
}

fn record_ways(f: &Fields, r: &Record) -> Vec<&'static str> {
    let mut ways = task_ways(&r.task);
    let mut test = |broken: bool, at: usize| {
        if broken {
            ways.push(RECORD_WAYS[at])
        }
    };
    match r.task {
        Task::MoveTo { ms, .. } => {
            test(ms == 0, 0);
            test(r.sat > 254, 1);
        }
        Task::SatMove { .. } => test(r.sat > 254, 2),
        Task::CtTo { target, ms } => {
            test(ms == 0, 3);
            test(r.mireds < f.min, 4);
            test(r.mireds > f.max, 5);
            test(target < f.min, 6);
            test(target > f.max, 7);
        }
        Task::CtMove {
            min: lo, max: hi, ..
        } => {
            test(r.mireds < f.min, 8);
            test(r.mireds > f.max, 9);
            test(lo == hi, 10);
            test(lo > hi, 11);
            test(lo < f.min || lo > f.max, 12);
            test(hi < f.min || hi > f.max, 13);
        }
        _ => {}
    }
    let at = TASKS.iter().position(|t| *t == name_of(&r.task));
    test(r.clock > f.clock, 14 + at.unwrap());
    ways
}

/// The one way, or several.
fn single<'a>(ways: &[&'a str]) -> &'a str {
    match ways {
        [way] => way,
        _ => "several ways at once",
    }
}

/// A caller's limits, 0 read as the physical one, brought within the physical ones.
fn lo_and_hi(f: &Fields, min: u16, max: u16) -> (u16, u16) {
    let min = if min == 0 { f.min } else { min };
    let max = if max == 0 { f.max } else { max };
    (min.max(f.min), max.min(f.max))
}

/// The elapsed time at which a transition is done; none where it has no end.
fn end_of(r: &Record) -> Option<u64> {
    let far = |way: u64, rate: u64| (way * 1000).div_ceil(rate);
    match r.task {
        Task::MoveTo { ms, .. } | Task::CtTo { ms, .. } => Some(ms.into()),
        Task::SatMove { mode, rate } => Some(match mode {
            MoveModeEnum::Up => far(254 - r.sat as u64, rate.into()),
            _ => far(r.sat.into(), rate.into()),
        }),
        Task::CtMove {
            rate,
            min: lo,
            max: hi,
        } => Some(match rate > 0 {
            true => far(hi.saturating_sub(r.mireds).into(), rate as u64),
            false => far(r.mireds.saturating_sub(lo).into(), rate.unsigned_abs()),
        }),
        _ => None,
    }
}

/// The way of a transition at this elapsed time, in hue, saturation or mireds, before it is
/// rounded: the part of a thousand, or of a loop's time.
fn raw(r: &Record, elapsed: u64) -> (i128, i128) {
    let e = elapsed as i128;
    let signed = |mode, rate: u32| match mode {
        MoveModeEnum::Up => rate as i128,
        _ => -(rate as i128),
    };
    match r.task {
        Task::MoveTo { way, sat, ms, .. } => {
            let way = match (way, sat) {
                (Some(way), _) => way as i128,
                (None, sat) => sat.unwrap_or(0) as i128 - r.sat as i128,
            };
            (way * (e * 1000 / ms as i128).min(1000), 1000)
        }
        Task::CtTo { target, ms } => {
            let way = target as i128 - r.mireds as i128;
            (way * (e * 1000 / ms as i128).min(1000), 1000)
        }
        Task::HueMove { mode, rate, .. } => (signed(mode, rate) * e, 1000),
        Task::SatMove { mode, rate } => (signed(mode, rate) * e, 1000),
        Task::CtMove { rate, .. } => (rate as i128 * e, 1000),
        Task::Loop { dir, .. } => {
            let turn = match dir {
                ColorLoopDirectionEnum::Increment => 65_536,
                ColorLoopDirectionEnum::Decrement => -65_536,
            };
            (turn * e, turn_of(r) as i128)
        }
        Task::Stop => (0, 1),
    }
}

/// The same for the saturation of a move-to.
fn saturation_part(r: &Record, elapsed: u64) -> (i128, i128) {
    let mut alone = *r;
    if let Task::MoveTo { way, .. } = &mut alone.task {
        *way = None;
    }
    raw(&alone, elapsed)
}

/// The milliseconds of a loop's turn.
fn turn_of(r: &Record) -> u64 {
    match r.task {
        Task::Loop { seconds: 0, .. } => 25_000,
        Task::Loop { seconds, .. } => seconds as u64 * 1000,
        _ => 1,
    }
}

// ---- counting ----

impl Corners {
    pub fn new() -> Self {
        let mut places = HashMap::new();
        let mut rows = Vec::new();
        for (group, name) in all() {
            let old = places.insert(format!("{group}: {name}"), rows.len());
            assert!(old.is_none(), "{group}: {name} is there twice");
            rows.push((group, name, 0));
        }
        Corners {
            rows,
            places,
            lamp: None,
            last: None,
        }
    }

    /// Group, name and count of every corner, in order.
    pub fn rows(&self) -> &[(&'static str, String, u64)] {
        &self.rows
    }

    fn met(&mut self, group: &str, name: &str) {
        let key = format!("{group}: {name}");
        match self.places.get(&key) {
            Some(at) => self.rows[*at].2 += 1,
            None => panic!("no such corner: {key}"),
        }
    }

    fn met_if(&mut self, yes: bool, group: &str, name: &str) {
        if yes {
            self.met(group, name)
        }
    }

    /// One call and the answer that both sides gave.
    pub fn see(&mut self, line: &[u8], answer: &str) {
        let call = match line.len() <= LONGEST {
            true => read(line),
            false => None,
        };
        if answer == "error" {
            return self.error(line, call.as_ref());
        }
        let call = call.expect("an answer to a line that cannot be read");
        self.met_if(line.len() == LONGEST, LINES, "4,095 bytes, read");
        let zeros = |w: &[u8]| w.len() > 1 && w[0] == b'0';
        let led = line.split(|b| *b == b' ').any(zeros);
        self.met_if(led, LINES, "leading zeros, read");
        match call {
            Call::Delta(current, target, direction) => {
                let up = target.wrapping_sub(current);
                let name = match up {
                    0 => "equal",
                    32_767 => "32,767 up",
                    32_768 => "half-way",
                    32_769 => "32,769 up",
                    _ => return,
                };
                let tied = name == "half-way" && (direction as usize) < 2;
                assert_eq!(answer.ends_with(" 1"), tied);
                let direction = DIRECTIONS[direction as usize];
                self.met(TIES, &format!("delta, {direction}, {name}"));
            }
            Call::Remaining(old, ms, start) => self.remaining(old, ms, start, answer),
            Call::Leave(..) | Call::ModeOf(..) => {}
            Call::Shown(stored) => {
                if let Some((_, name, shown)) = SHOWN_AT.iter().find(|x| x.0 == stored) {
                    assert_eq!(answer, *shown);
                    self.met(SHOWN, name);
                }
            }
            call => self.on_lamp(call, answer),
        }
    }

    fn error(&mut self, line: &[u8], call: Option<&Call>) {
        let name = match call {
            Some(Call::StartLast(_)) if self.lamp.is_some() => "startlast with no task",
            Some(_) => "a call before any lamp",
            None if line.len() > LONGEST => "longer than 4,095 bytes",
            None if line.iter().any(|b| !(b' '..=b'~').contains(b)) => {
                "a byte that is no printable one"
            }
            None if line.split(|b| *b == b' ').any(|w| w.is_empty()) => "a blank too many",
            None => {
                const WORDS: [&[u8]; 12] = [
                    b"lamp",
                    b"new",
                    b"poke",
                    b"record",
                    b"cmd",
                    b"start",
                    b"startlast",
                    b"step",
                    b"halt",
                    b"set",
                    b"show",
                    b"leaf",
                ];
                let first = line.split(|b| *b == b' ').next().unwrap();
                match WORDS.contains(&first) {
                    true => "a wrong word, number or count",
                    false => "an unknown first word",
                }
            }
        };
        self.met(LINES, name);
    }

    fn remaining(&mut self, old: u16, ms: u64, start: bool, answer: &str) {
        let told = answer.starts_with('1');
        let tenths = ms.div_ceil(100);
        let new = tenths as u16;
        let mut is = |yes: bool, name: &str, tells: bool| {
            if yes {
                assert_eq!(told, tells, "{name}: {answer}");
                self.met(REMAINING, name);
            }
        };
        is(old == 0 && new == 10, "0 to 10 tenths", false);
        is(old == 0 && new == 11, "0 to 11 tenths", true);
        is(old != 0 && new == 0, "changed to 0", true);
        is(old == 0 && new == 0, "0 to 0", false);
        let both = old != 0 && new != 0;
        let more = new as i64 - old as i64;
        is(both && start && more == 10, "10 more at a start", false);
        is(both && start && more == 11, "11 more at a start", true);
        is(both && start && more == -10, "10 less at a start", false);
        is(both && start && more == -11, "11 less at a start", true);
        let quiet = both && !start;
        is(quiet && more == 11, "11 more, not at a start", false);
        is(ms % 100 == 1, "one ms past a tenth", told);
        is(tenths > 65_535, "wrapped at sixteen bits", told);
    }

    fn on_lamp(&mut self, call: Call, text: &str) {
        let answer = answer_of(text);
        if let Call::New(min, max, features, _, clock) = call {
            if answer.cause == 0 {
                self.met_if(250 < min, MAKINGS, "250 below the minimum");
                self.met_if(250 > max, MAKINGS, "250 above the maximum");
                // Bit 0 hue and saturation, bit 3 XY, bit 4 mireds.
                let name = match (features >> 3 & 1, features & 1, features >> 4 & 1) {
                    (1, _, _) => "features with XY",
                    (0, 1, _) => "features with hue and no XY",
                    (0, 0, 1) => "features with mireds alone",
                    _ => "features with no colour",
                };
                self.met(MAKINGS, name);
            }
            self.clock("new", None, clock, &answer);
            let crossed = match answer.cause {
                0 if min == max => "new, equal",
                5 if min == max + 1 => "new, crossed by one",
                5 => "new, crossed further",
                _ => "",
            };
            self.met_if(!crossed.is_empty(), CROSSED, crossed);
            let both = clock > LIMIT && min > max;
            self.met_if(both && answer.cause == 4, ORDER, "new, 4 before 5");
        }
        let (Call::Lamp(_) | Call::New(..)) = call else {
            let lamp = self.lamp.expect("an answer without a lamp");
            let call = match call {
                Call::StartLast(clock) => {
                    let (task, hue) = self.last.expect("a start of no task");
                    let moved = hue != lamp.fields.hue && answer.cause == 0;
                    let fade = matches!(task, Task::MoveTo { way: Some(_), .. });
                    let name = "the hue moved between a command and its start";
                    self.met_if(moved && fade, LISTS, name);
                    Call::Start(task, clock)
                }
                call => call,
            };
            self.called(&lamp, &call, &answer);
            self.follow(lamp, &call, &answer);
            return;
        };
        if let Some(fields) = answer.fields {
            self.last = None;
            self.lamp = Some(Lamp {
                fields,
                record: None,
            });
        }
    }

    /// The lamp after a call.
    fn follow(&mut self, before: Lamp, call: &Call, answer: &Answer) {
        let mut lamp = Lamp {
            fields: answer.fields.expect("an answer without fields"),
            record: before.record,
        };
        if answer.cause == 0 {
            lamp.record = match *call {
                Call::Record(record) => record,
                Call::Start(task, clock) if answer.running => {
                    Some(record_of(&before.fields, task, clock))
                }
                Call::Start(..) | Call::Halt(_) => None,
                Call::Step(_) if !answer.running => None,
                _ => before.record,
            };
        }
        assert_eq!(lamp.record.is_some(), answer.running, "the record is lost");
        if let Some(task) = answer.task {
            self.last = Some((task, before.fields.hue));
        }
        self.lamp = Some(lamp);
    }

    fn called(&mut self, lamp: &Lamp, call: &Call, answer: &Answer) {
        let (kind, clock) = match *call {
            Call::Command(.., clock) => ("cmd", clock),
            Call::Start(_, clock) => ("start", clock),
            Call::Step(clock) => ("step", clock),
            Call::Halt(clock) => ("halt", clock),
            Call::SetHue(.., clock) | Call::SetSat(.., clock) | Call::SetCt(.., clock) => {
                ("set", clock)
            }
            Call::Poke(_) => {
                let name = "poke while a task runs";
                return self.met_if(lamp.record.is_some(), LISTS, name);
            }
            _ => return,
        };
        let out_of_form = self.form(lamp, answer);
        self.clock(kind, Some(&lamp.fields), clock, answer);
        self.order(lamp, call, kind, clock, out_of_form, answer);
        let f = &lamp.fields;
        match *call {
            Call::Command(on_off, ref command, mask, over, _) => {
                self.off(f, on_off, command, mask & 1, over & 1, answer);
                self.command(lamp, command, answer);
            }
            Call::Start(ref task, _) => self.start(lamp, task, answer),
            Call::Step(clock) if answer.cause == 0 => {
                self.step(lamp.record.as_ref().unwrap(), clock, answer)
            }
            Call::Halt(_) if answer.cause == 0 => {
                self.met_if(lamp.record.is_some(), LISTS, "halt while a task runs")
            }
            Call::SetHue(new, end, _, clock) if answer.cause == 0 => {
                self.set("hue", f, f.hue == new, end, f.stamp_hue, clock, answer)
            }
            Call::SetSat(new, end, clock) if answer.cause == 0 => {
                self.set("sat", f, f.sat == new, end, f.stamp_sat, clock, answer);
                let changes = f.sat != new || end;
                let kept = matches!(f.emode as u64, 3);
                let left = matches!(f.emode as u64, 1 | 2);
                self.met_if(changes && kept, SETTERS, "sat, the enhanced mode kept");
                self.met_if(changes && left, SETTERS, "sat, another mode left");
                self.met_if(new == 255, SETTERS, "sat 255");
            }
            Call::SetCt(new, end, clock) if answer.cause == 0 => {
                let equal = f.mireds == new;
                self.set("ct", f, equal, end, f.stamp_mireds, clock, answer);
                let outside = new < f.min || new > f.max;
                self.met_if(outside, SETTERS, "ct outside the bounds");
            }
            _ => {}
        }
    }

    /// Answers whether the lamp is out of form.
    fn form(&mut self, lamp: &Lamp, answer: &Answer) -> bool {
        let mut ways = field_ways(&lamp.fields);
        let of_fields = ways.len();
        if let Some(record) = &lamp.record {
            ways.extend(record_ways(&lamp.fields, record));
        }
        let out = !guard::lamp_in_form(&lamp.fields, lamp.record.as_ref());
        assert!(out != ways.is_empty() && out == (answer.cause == 8));
        if of_fields > 0 {
            self.met(LAMPS, single(&ways));
        } else if out {
            self.met(RECORDS, single(&ways));
        }
        out
    }

    fn clock(&mut self, kind: &str, f: Option<&Fields>, clock: u64, answer: &Answer) {
        if answer.cause == 0 {
            self.met_if(clock == LIMIT, CLOCKS, &format!("{kind} at the limit"));
            let same = f.is_some_and(|f| f.clock == clock);
            self.met_if(same, CLOCKS, &format!("{kind} at the lamp's clock"));
        }
        if answer.cause == 4 {
            let past = format!("{kind} one past the limit");
            self.met_if(clock == LIMIT + 1, CLOCKS, &past);
            self.met_if(clock == u64::MAX, CLOCKS, &format!("{kind} at 2^64 - 1"));
            let before = f.is_some_and(|f| clock.checked_add(1) == Some(f.clock));
            let name = format!("{kind} one before the lamp's clock");
            self.met_if(before, CLOCKS, &name);
        }
    }

    fn order(
        &mut self,
        lamp: &Lamp,
        call: &Call,
        kind: &str,
        clock: u64,
        out_of_form: bool,
        answer: &Answer,
    ) {
        let f = &lamp.fields;
        let mut causes = Vec::new();
        if out_of_form {
            causes.push(8);
        }
        if kind == "step" && lamp.record.is_none() {
            causes.push(7);
        }
        if guard::clock_refused(f, clock) {
            causes.push(4);
        }
        match call {
            Call::Start(task, _) if !guard::task_in_form(task) => causes.push(6),
            Call::Command(_, command, ..) => {
                if constraint(command) {
                    causes.push(1);
                }
                if zero(command) {
                    causes.push(2);
                }
            }
            _ => {}
        }
        let [first, second, ..] = causes[..] else {
            return;
        };
        assert_eq!(answer.cause, first);
        self.met(ORDER, &format!("{kind}, {first} before {second}"));
    }

    fn off(
        &mut self,
        f: &Fields,
        on_off: OnOff,
        command: &Command,
        mask: u8,
        over: u8,
        answer: &Answer,
    ) {
        if answer.cause != 0 {
            return;
        }
        let name = command_name(command);
        let stop = match *command {
            Command::MoveHue(mode, rate, _) => Some((mode, rate == 0)),
            Command::MoveSaturation(mode, rate) => Some((mode, rate == 0)),
            Command::EnhancedMoveHue(mode, rate) => Some((mode, rate == 0)),
            Command::MoveColorTemperature(mode, rate, ..) => Some((mode, rate == 0)),
            _ => None,
        };
        let off = on_off == OnOff::Off;
        if let Some((MoveModeEnum::Stop, zero)) = stop {
            assert_eq!(answer.task, Some(Task::Stop));
            self.met_if(zero, OFF, &format!("{name}, Stop with rate 0"));
            self.met_if(off, OFF, &format!("{name}, Stop while off"));
            return;
        }
        if !off {
            return;
        }
        let option = f.options & 1;
        let leave = if mask == 1 { over } else { option } == 1;
        let looped = matches!(command, Command::ColorLoopSet(..));
        assert!(looped || answer.task.is_some() == leave);
        assert!(leave || answer.silent);
        let bits = format!("mask {mask}, override {over}, option {option}");
        self.met(OFF, &bits);
        self.met_if(!leave, OFF, &format!("{name} passed over"));
        let name = "step_color_temperature, lo above hi, off: passed over";
        self.met_if(!leave && crossed(f, command), CROSSED, name);
    }

    fn command(&mut self, lamp: &Lamp, command: &Command, answer: &Answer) {
        let f = &lamp.fields;
        let name = command_name(command);
        match *command {
            Command::MoveToHue(hue, direction, _) => {
                let direction = DIRECTIONS[direction as usize];
                self.tie(
                    f,
                    (hue as u16) << 8,
                    &format!("{name}, {direction}"),
                    answer,
                );
            }
            Command::EnhancedMoveToHue(hue, direction, _) => {
                let direction = DIRECTIONS[direction as usize];
                self.tie(f, hue, &format!("{name}, {direction}"), answer);
            }
            Command::MoveToHueAndSaturation(hue, _, _, enhanced, enhanced_hue) => match enhanced {
                true => self.tie(f, enhanced_hue, &format!("{name}, enhanced"), answer),
                false => self.tie(f, (hue as u16) << 8, &format!("{name}, plain"), answer),
            },
            Command::StepSaturation(_, size, _) if answer.task.is_some() => {
                let Some(Task::MoveTo { sat: Some(to), .. }) = answer.task else {
                    panic!("a saturation step without a saturation")
                };
                let cut = (to.abs_diff(f.sat)) < size;
                let stops = format!("{name} stops at {to}");
                self.met_if(cut, CLAMPS, &stops);
            }
            Command::MoveToColorTemperature(mireds, _) if answer.task.is_some() => {
                self.met_if(mireds < f.min, CLAMPS, &format!("{name} below the minimum"));
                self.met_if(mireds > f.max, CLAMPS, &format!("{name} above the maximum"));
            }
            Command::StepColorTemperature(_, size, _, min, max) => {
                let (lo, hi) = lo_and_hi(f, min, max);
                if let Some(Task::CtTo { target, .. }) = answer.task {
                    let cut = target.abs_diff(f.mireds) != size;
                    let physical = target == f.min || target == f.max;
                    let at = match physical {
                        true => "the physical bound",
                        false => "the caller's limit",
                    };
                    self.met_if(cut, CLAMPS, &format!("{name} stops at {at}"));
                    self.outside(f, name, min, max);
                }
                let by_one = lo as u32 == hi as u32 + 1;
                let given = answer.task.is_some();
                self.met_if(given && lo == hi, CROSSED, &format!("{name}, lo = hi"));
                let which = if by_one { "by one" } else { "further" };
                let key = format!("{name}, lo above hi {which}");
                self.met_if(given && lo > hi, CROSSED, &key);
                let zero = size == 0 && lo > hi && answer.cause == 2;
                self.met_if(zero, CROSSED, &format!("{name}, lo above hi, step 0"));
            }
            Command::MoveColorTemperature(.., min, max) => {
                let (lo, hi) = lo_and_hi(f, min, max);
                let given = matches!(answer.task, Some(Task::CtMove { .. }));
                if given {
                    self.outside(f, name, min, max);
                }
                self.met_if(given && lo > hi, CROSSED, &format!("{name}, lo above hi"));
                self.met_if(given && lo == hi, CROSSED, &format!("{name}, lo = hi"));
            }
            Command::ColorLoopSet(flags, action, ..) if answer.cause == 0 && !answer.silent => {
                let runs = lamp.record.is_some();
                self.met_if(runs, LOOP_SET, "while a task runs");
                let zero = matches!(answer.task, Some(Task::Loop { seconds: 0, .. }));
                self.met_if(zero, LOOP_SET, "a loop of 0 seconds given");
                self.met_if(flags > 15, LOOP_SET, "flags past 15");
                let alone = matches!(flags, 0 | 2 | 4 | 8);
                self.met_if(alone, LOOP_SET, &format!("flags {flags}"));
                if flags & 1 == 1 {
                    let active = if f.loop_active { "active" } else { "inactive" };
                    let action = match action as u64 {
                        0 => "off",
                        1 => "from the start hue",
                        _ => "from the current hue",
                    };
                    self.met(LOOP_SET, &format!("{action}, {active} before"));
                }
            }
            _ => {}
        }
    }

    /// A caller's limit that the physical one takes the place of.
    fn outside(&mut self, f: &Fields, name: &str, min: u16, max: u16) {
        let outside = min != 0 && min < f.min || max > f.max;
        let key = format!("{name}, a limit outside the physical bounds");
        self.met_if(outside, CLAMPS, &key);
    }

    fn tie(&mut self, f: &Fields, target: u16, name: &str, answer: &Answer) {
        let Some(Task::MoveTo { way: Some(way), .. }) = answer.task else {
            return;
        };
        let which = match target.wrapping_sub(f.hue) {
            0 => "equal",
            32_768 => "half-way",
            _ => return,
        };
        assert_eq!(way.abs(), if which == "equal" { 0 } else { 32_768 });
        let chooses = !name.ends_with("Up") && !name.ends_with("Down");
        assert_eq!(answer.tied, which == "half-way" && chooses);
        self.met(TIES, &format!("{name}, {which}"));
    }

    fn start(&mut self, lamp: &Lamp, task: &Task, answer: &Answer) {
        if answer.cause == 6 {
            return self.met(STARTS, single(&task_ways(task)));
        }
        if answer.cause != 0 {
            return;
        }
        self.met_if(lamp.record.is_some(), LISTS, "start while a task runs");
        let f = &lamp.fields;
        if let Task::MoveTo { ms, .. } | Task::CtTo { ms, .. } = *task {
            let apart = (ms / 100).abs_diff(f.remaining.into());
            self.met_if(apart == 10, REMAINING, "start, 10 tenths apart");
            self.met_if(apart == 11, REMAINING, "start, 11 tenths apart");
            self.met_if(answer.told == 2, REMAINING, "start, told twice");
        }
        let done = |me: &mut Self, yes: bool, name: &str| {
            assert!(!yes || !answer.running, "{name}");
            me.met_if(yes, ENDS, name);
        };
        match *task {
            Task::MoveTo { way, sat, ms, .. } => {
                let none = way.unwrap_or(0) == 0 && sat.map_or(true, |s| s == f.sat);
                done(self, ms == 0, "start of move_to, time 0");
                done(self, none, "start of move_to, no way");
                self.met_if(way == Some(65_535), EDGES, "move_to, way 65,535");
                self.met_if(way == Some(-65_535), EDGES, "move_to, way -65,535");
                self.met_if(sat == Some(254), EDGES, "move_to, saturation 254");
                self.met_if(ms == 6_553_500, EDGES, "move_to, time 6,553,500");
            }
            Task::HueMove { rate, .. } => {
                self.met_if(rate == 65_535, EDGES, "hue_move, rate 65,535")
            }
            Task::SatMove { mode, rate } => {
                let bound = if mode == MoveModeEnum::Up { 254 } else { 0 };
                done(self, f.sat == bound, "start of sat_move at its bound");
                self.met_if(rate == 255, EDGES, "sat_move, rate 255");
            }
            Task::CtTo { target, ms } => {
                let none = target.clamp(f.min, f.max) == f.mireds;
                done(self, ms == 0, "start of ct_to, time 0");
                done(self, none, "start of ct_to, no way");
                self.met_if(ms == 6_553_500, EDGES, "ct_to, time 6,553,500");
                let name = "start of ct_to, target below the minimum";
                self.met_if(target < f.min, CLAMPS, name);
                let name = "start of ct_to, target above the maximum";
                self.met_if(target > f.max, CLAMPS, name);
            }
            Task::CtMove { rate, min, max } => {
                self.met_if(rate == 65_535, EDGES, "ct_move, rate 65,535");
                self.met_if(rate == -65_535, EDGES, "ct_move, rate -65,535");
                self.met_if(min == 0, EDGES, "ct_move, minimum 0");
                self.met_if(max == 0, EDGES, "ct_move, maximum 0");
                let (lo, hi) = (min.max(f.min), max.min(f.max));
                done(self, lo == hi, "start of ct_move, lo = hi");
                done(self, lo > hi, "start of ct_move, lo above hi");
                if lo < hi {
                    let (at, far) = if rate > 0 { (hi, lo) } else { (lo, hi) };
                    let ahead = |x: u16, y: u16| if rate > 0 { x > y } else { x < y };
                    done(self, f.mireds == at, "start of ct_move at its bound");
                    let beyond = ahead(f.mireds, at);
                    done(self, beyond, "start of ct_move from beyond its bound");
                    let jump = ahead(far, f.mireds);
                    assert!(!jump || answer.running);
                    let name = "start of ct_move from before its other bound";
                    self.met_if(jump, ENDS, name);
                }
            }
            _ => {}
        }
    }

    /// An accepted step.
    fn step(&mut self, r: &Record, clock: u64, answer: &Answer) {
        let name = name_of(&r.task);
        let elapsed = clock - r.clock;
        let whole = r.clock == 0 && clock == LIMIT;
        let key = format!("step of {name}, from 0 to the limit");
        self.met_if(whole, CLOCKS, &key);
        if let Some(end) = end_of(r) {
            assert_eq!(elapsed < end, answer.running, "{name}");
            let when = match elapsed {
                e if e + 1 == end => "1 ms before",
                e if e == end => "at",
                e if e == end + 1 => "1 ms after",
                e if e > end => "later than",
                _ => "",
            };
            let heads = match r.task {
                Task::SatMove { mode, .. } if mode == MoveModeEnum::Up => " up",
                Task::CtMove { rate, .. } if rate > 0 => " up",
                Task::SatMove { .. } | Task::CtMove { .. } => " down",
                _ => "",
            };
            let key = format!("step of {name}{heads} {when} its end");
            self.met_if(!when.is_empty(), ENDS, &key);
        }
        let (top, bottom) = raw(r, elapsed);
        let rounded = top < 0 && top % bottom != 0;
        let key = format!("step of {name}, a negative part with a fraction");
        self.met_if(rounded, SUMS, &key);
        if let Task::MoveTo { sat: Some(_), .. } = r.task {
            let (top, bottom) = saturation_part(r, elapsed);
            let rounded = top < 0 && top % bottom != 0;
            let key = "step of move_to, a negative part of saturation with a fraction";
            self.met_if(rounded, SUMS, key);
        }
        let hue = r.hue as i128 + top / bottom;
        let fade = matches!(r.task, Task::MoveTo { way: Some(_), .. });
        if fade || matches!(r.task, Task::HueMove { .. } | Task::Loop { .. }) {
            let past = format!("step of {name}, past 65,535");
            self.met_if(hue > 65_535, SUMS, &past);
            self.met_if(hue < 0, SUMS, &format!("step of {name}, below 0"));
        }
        if let Task::Loop { dir, seconds } = r.task {
            self.turn(r, dir, seconds, elapsed, answer);
        }
    }

    fn turn(
        &mut self,
        r: &Record,
        dir: ColorLoopDirectionEnum,
        seconds: u16,
        elapsed: u64,
        answer: &Answer,
    ) {
        let turn = turn_of(r);
        let gone = elapsed as u128 * 65_536 / turn as u128;
        let rem = (gone % 65_536) as u16;
        let dir = match dir {
            ColorLoopDirectionEnum::Increment => "up",
            ColorLoopDirectionEnum::Decrement => "down",
        };
        let later = gone >= 65_536;
        let shown = answer.fields.unwrap().hue;
        let snapped = rem >= 65_152 || rem <= 384 && later;
        let moved = if dir == "up" { rem } else { rem.wrapping_neg() };
        let hue = r.hue.wrapping_add(if snapped { 0 } else { moved });
        assert_eq!(shown, hue, "loop {dir}, {rem} of a turn");
        let mut is = |yes: bool, name: &str| {
            if yes {
                self.met(LOOPS, &format!("loop {dir}, {name}"))
            }
        };
        is(elapsed == turn, "one whole turn exactly");
        let exact = elapsed % turn == 0;
        is(exact && elapsed > turn, "several whole turns exactly");
        is(rem == 384 && later, "384 past a turn");
        is(rem == 385 && later, "385 past a turn");
        is(rem == 65_151, "65,151 of a turn");
        is(rem == 65_152, "65,152 of a turn");
        is(rem >= 65_152, "in the snap before a turn");
        is(rem <= 384 && later && !exact, "in the snap after a turn");
        let first = rem > 0 && rem <= 384 && !later;
        is(first, "1 to 384 of the first turn, no snap");
        is(turn - elapsed % turn < 100, "wait cut by the next turn");
        is(seconds == 0, "0 seconds read as 25");
    }

    #[allow(clippy::too_many_arguments)]
    fn set(
        &mut self,
        which: &str,
        f: &Fields,
        equal: bool,
        end: bool,
        stamp: u64,
        clock: u64,
        answer: &Answer,
    ) {
        let mut is = |yes: bool, name: &str| {
            if yes {
                self.met(SETTERS, &format!("{which}, {name}"))
            }
        };
        let (same, late) = (equal && !end, clock - stamp);
        assert_eq!(same, answer.silent);
        is(same, "equal");
        is(equal && end, "equal, at an end");
        let moves = !equal && !end;
        is(moves && late == 999, "999 ms after its last notice");
        is(moves && late == 1000, "1000 ms after its last notice");
        is(end && late == 0, "0 ms after its last notice, at an end");
        is(!same && f.loop_active, "while the loop is active");
    }
}

/// Cause 1, by a command's numbers alone.
fn constraint(command: &Command) -> bool {
    match *command {
        Command::MoveToHue(hue, ..) => hue > 254,
        Command::MoveToSaturation(sat, _) => sat > 254,
        Command::MoveToHueAndSaturation(hue, sat, _, enhanced, _) => {
            !enhanced && hue > 254 || sat > 254
        }
        Command::MoveToColorTemperature(mireds, _) => mireds == 0,
        _ => false,
    }
}

/// Cause 2, by a command's numbers alone.
fn zero(command: &Command) -> bool {
    let moves = |mode, rate: u16| mode != MoveModeEnum::Stop && rate == 0;
    match *command {
        Command::MoveHue(mode, rate, _) => moves(mode, rate.into()),
        Command::EnhancedMoveHue(mode, rate) => moves(mode, rate),
        Command::MoveSaturation(mode, rate) => moves(mode, rate.into()),
        Command::MoveColorTemperature(mode, rate, ..) => moves(mode, rate),
        Command::StepHue(_, size, _) | Command::StepSaturation(_, size, _) => size == 0,
        Command::EnhancedStepHue(_, size, _) => size == 0,
        Command::StepColorTemperature(_, size, ..) => size == 0,
        _ => false,
    }
}

/// A mired step whose limits cross.
fn crossed(f: &Fields, command: &Command) -> bool {
    match *command {
        Command::StepColorTemperature(.., min, max) => {
            let (lo, hi) = lo_and_hi(f, min, max);
            lo > hi
        }
        _ => false,
    }
}

fn answer_of(text: &str) -> Answer {
    let mut parts = text.split(" | ");
    let status = parts.next().unwrap();
    let cause = match status.strip_prefix("refused ") {
        Some(cause) => cause.parse().expect("a cause"),
        None => 0,
    };
    let fields = parts
        .next()
        .map(|fields| match read(format!("lamp {fields}").as_bytes()) {
            Some(Call::Lamp(fields)) => fields,
            _ => panic!("no fields: {fields}"),
        });
    let notices = parts.next().unwrap_or("-");
    let told = notices.split(' ').filter(|n| *n == "1").count();
    let tied = notices.ends_with("17 18");
    let task = parts.next().filter(|task| *task != "-").map(|task| {
        match read(format!("start {task} 0").as_bytes()) {
            Some(Call::Start(task, _)) => task,
            _ => panic!("no task: {task}"),
        }
    });
    Answer {
        cause,
        fields,
        silent: notices == "-",
        told,
        tied,
        task,
        running: parts.nth(1) == Some("running"),
    }
}
