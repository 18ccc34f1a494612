//! `generate KIND SEED COUNT [few]` writes a script to standard output, the same for the
//! same arguments. The kinds are in the README.

use std::io::{self, Write};

use oracle_lib::maker::{old_and_ms, pair_of_hues, Maker, Said, Stage, HUES, REMAININGS};
use oracle_lib::protocol::{number, read, write_fields, Call, Player, UNCOMPARABLE};
use oracle_lib::random::Random;
use oracle_lib::rows::MOST;
use oracle_lib::{driver, guard};

fn main() {
    let args: Vec<String> = std::env::args().skip(1).collect();
    let usage =
        "generate delta|leave|mode_of|remaining|shown|set|corners|random|all|rows|bounds|row_bounds SEED COUNT [few]";
    let (Some(kind), Some(seed), Some(count)) = (
        args.first(),
        args.get(1).and_then(|x| x.parse().ok()),
        args.get(2).and_then(|x| x.parse().ok()),
    ) else {
        eprintln!("{usage}");
        std::process::exit(2);
    };
    let few = args.get(3).is_some_and(|x| x == "few");
    let mut out = Out {
        text: Vec::with_capacity(FULL + 8192),
        stdout: io::stdout().lock(),
        lines: 0,
        last: match kind.as_str() {
            "delta" => "leaf delta 0 32768 0",
            "leave" => "leaf leave on 0 0 0",
            "mode_of" => "leaf mode_of 3",
            "remaining" => "leaf remaining 0 1100 0",
            "shown" => "leaf shown 65280",
            "rows" | "row_bounds" => "rowshow",
            _ => "show",
        },
    };
    let r = Random::new(seed);
    match kind.as_str() {
        "delta" => delta(&mut out, r, count),
        "leave" => leave(&mut out, few),
        "mode_of" => mode_of(&mut out),
        "remaining" => remaining(&mut out, r, count),
        "shown" => shown(&mut out),
        "set" => Maker::new(Text::new(out), r).sets(count),
        "corners" => Maker::new(Text::new(out), r).aimed(),
        "random" => Maker::new(Text::new(out), r).random(count),
        "all" => {
            let mut maker = Maker::new(Text::new(out), r);
            maker.aimed();
            maker.random(count)
        }
        "rows" => Maker::new(Places::new(Text::new(out), seed), r).random(count),
        "bounds" => Maker::new(Text::new(out), r).bounds(count),
        "row_bounds" => Maker::new(Places::new(Text::new(out), seed), r).bounds(count),
        _ => {
            eprintln!("{usage}");
            std::process::exit(2);
        }
    }
}

const FULL: usize = 1 << 16;

/// Standard output. Where the reader has gone, the work is done.
struct Out {
    text: Vec<u8>,
    stdout: io::StdoutLock<'static>,
    lines: u64,
    last: &'static str,
}

impl Out {
    fn end_line(&mut self) {
        self.text.push(b'\n');
        self.lines += 1;
        if self.text.len() >= FULL {
            self.flush();
        }
    }

    fn flush(&mut self) {
        if self.stdout.write_all(&self.text).is_err() {
            std::process::exit(0);
        }
        self.text.clear();
    }
}

impl Drop for Out {
    /// A script that is whole says so; its last line has no newline.
    fn drop(&mut self) {
        if !std::thread::panicking() {
            write!(self.text, "# end\n{}", self.last).unwrap();
        }
        self.flush();
        let _ = self.stdout.flush();
    }
}

/// A script with lamps as text, with the Rust's answers.
struct Text {
    out: Out,
    player: Player,
    answer: Vec<u8>,
}

impl Text {
    fn new(out: Out) -> Self {
        Text {
            out,
            player: Player::new(),
            answer: Vec::new(),
        }
    }
}

impl Stage for Text {
    fn say(&mut self, line: &[u8]) -> Said {
        self.answer.clear();
        self.player.line(line, &mut self.answer);
        if self.answer.starts_with(UNCOMPARABLE.as_bytes()) {
            return Said::Uncomparable;
        }
        self.out.text.extend_from_slice(line);
        self.out.end_line();
        match self.answer.starts_with(b"ok") {
            true => Said::Accepted,
            false => Said::Other,
        }
    }

    fn gave(&self) -> bool {
        self.answer.windows(3).any(|w| w == b"17 ")
    }

    fn lines(&self) -> u64 {
        self.out.lines
    }

    fn player(&self) -> &Player {
        &self.player
    }
}

/// A script of a row: what is said of a lamp goes to a place, with row calls between.
struct Places {
    text: Text,
    r: Random,
    place: usize,
    gave: bool,
    line: Vec<u8>,
}

macro_rules! row_line {
    ($self:ident, $($x:tt)*) => {{
        $self.line.clear();
        write!($self.line, $($x)*).unwrap();
        $self.text.say(&$self.line)
    }};
}

impl Places {
    fn new(text: Text, seed: u64) -> Self {
        let mut places = Places {
            text,
            r: Random::new(!seed),
            place: 0,
            gave: false,
            line: Vec::new(),
        };
        // Before there is a row.
        row_line!(places, "rowshow");
        row_line!(places, "at 0 show");
        row_line!(places, "rowword 0");
        row_line!(places, "turning");
        row_line!(places, "leaf running 6");
        row_line!(places, "row 3");
        places.look_at(0);
        places
    }

    fn look_at(&mut self, place: usize) {
        self.place = place;
        self.text.player.look_at(place);
    }

    fn count(&self) -> u64 {
        self.text.player.row().map_or(0, |row| row.count.into())
    }

    /// A count: of few lamps as a rule.
    fn some_count(&mut self) -> u64 {
        match self.r.below(20) {
            0 => self.r.pick(&[0, 31, 32, 33, 255]),
            1 => self.r.below(34),
            _ => self.r.between(1, 5),
        }
    }

    /// A lamp of the row, so that what is said next is of one that is there.
    fn look_elsewhere(&mut self) {
        let most = self.count().clamp(1, MOST as u64);
        let place = self.r.below(most) as usize;
        self.look_at(place);
    }

    /// At the lamps' latest clock or soon after it; seldom before, or past the limit.
    fn row_clock(&mut self) -> u64 {
        let row = self.text.player.row();
        let latest = row.and_then(|row| row.placed().map(|l| l.clock()).max());
        let now = latest.unwrap_or(0);
        match self.r.below(24) {
            0 => now.saturating_sub(self.r.pick(&[1, 2, 50, 100])),
            1 => self.r.pick(&[guard::LIMIT, guard::LIMIT + 1, u64::MAX]),
            2 | 3 => now.saturating_add(self.r.below(20_000)),
            4..=6 => now,
            7..=12 => now.saturating_add(100),
            13 => now.saturating_add(self.r.pick(&[999, 1000, 1001])),
            _ => now.saturating_add(self.r.below(300)),
        }
    }

    fn word(&self) -> u32 {
        self.text.player.row().map_or(0, |row| row.word)
    }

    fn true_word(&self) -> u32 {
        self.text.player.row().map_or(0, |row| row.true_word())
    }

    /// The row's word with a bit wrong: of the lamp that is looked at, of another, at the count, past it; or any word.
    fn spoil(&mut self) {
        let (word, count) = (self.word(), self.count().min(32));
        let one = |place: u64| 1u32.checked_shl(place as u32).unwrap_or(0);
        let another = one(self.r.below(count.max(1)));
        let past = one(self.r.between(count.min(31), 31));
        let any = self.r.next() as u32;
        let word = match self.r.below(9) {
            0 | 1 => word ^ one(self.place as u64),
            2 | 3 => word ^ another,
            4 => word ^ one(count),
            5 => word ^ past,
            6 => any,
            7 => self.r.pick(&[0, 1, 1 << 31, u32::MAX, another | past]),
            _ => self.true_word(),
        };
        row_line!(self, "rowword {word}");
        // With other causes, or with none.
        let (count, place) = (self.count(), self.place);
        let now = self.row_clock();
        for _ in 0..self.r.below(4) {
            let elsewhere = self.r.below(count.max(1));
            match self.r.below(8) {
                0 => row_line!(self, "rowstep {} 3 {now}", (16 * count).saturating_sub(1)),
                1 => row_line!(self, "rowstep {} 3 0", 16 * count),
                2 => row_line!(self, "at {count} halt {now}"),
                3 => row_line!(self, "at {place} step 0"),
                4 => row_line!(self, "at {elsewhere} halt {now}"),
                5 => row_line!(self, "at {elsewhere} show"),
                6 => row_line!(self, "turning"),
                _ => row_line!(self, "rowshow"),
            };
        }
    }

    /// A word of few bits, of many, or at an edge.
    fn some_word(&mut self) -> u32 {
        let (any, other) = (self.r.next() as u32, self.r.next() as u32);
        let bit = 1u32 << self.r.below(32);
        match self.r.below(6) {
            0 => self.r.pick(&[0, 1, 1 << 31, u32::MAX, u32::MAX - 1]),
            1 => bit,
            2 => any & other,
            3 => any & other & 0x1111_8421,
            4 => any.wrapping_mul(bit),
            _ => any,
        }
    }

    fn row_step(&mut self) {
        let whole = 16 * self.count();
        let size = match self.r.below(16) {
            0 => whole.saturating_sub(1),
            1 => self.r.below(1026),
            2 => self.r.pick(&[0, 1024, 1025]),
            3 | 4 => whole + self.r.below(20),
            _ => whole,
        };
        let fill = self.r.below(256);
        let clock = self.row_clock();
        row_line!(self, "rowstep {size} {fill} {clock}");
    }

    /// A row of many lamps, most of them running, and row calls until some have ended.
    fn full_row(&mut self) {
        let some = self.r.between(6, 32);
        let count = self.r.pick(&[10, 31, 32, 32, some]);
        row_line!(self, "row {count}");
        let clock = self.r.below(2000);
        for place in 0..count {
            let late = clock + self.r.pick(&[0, 0, 0, 50, 99]);
            let way = self.r.between(0, 131_070) as i64 - 65_535;
            let ms = 100 * self.r.between(1, 12);
            let rate = self.r.between(1, 300);
            match self.r.below(8) {
                0 => row_line!(
                    self,
                    "at {place} start loop 1 {} {late}",
                    self.r.between(1, 3)
                ),
                1 => row_line!(self, "at {place} start hue_move 3 {rate} 1 {late}"),
                2 => row_line!(self, "at {place} start sat_move 1 {} {late}", rate.min(255)),
                3 => row_line!(self, "at {place} start ct_to {} {ms} {late}", 100 + rate),
                4 => row_line!(self, "at {place} halt {late}"),
                _ => row_line!(self, "at {place} start move_to {way} - {ms} 0 {late}"),
            };
        }
        for _ in 0..self.r.between(4, 16) {
            self.row_step();
            if self.r.one_in(3) {
                row_line!(self, "turning");
            }
        }
        self.look_elsewhere();
    }

    /// What comes between two lines of a lamp.
    fn between(&mut self) {
        if self.r.one_in(300) {
            self.full_row();
        }
        // A wrong word is made true before long: all else would be refused.
        if self.r.one_in(3) && self.word() != self.true_word() {
            let word = self.true_word();
            row_line!(self, "rowword {word}");
        }
        match self.r.below(40) {
            0..=21 => self.row_step(),
            22..=25 => self.look_elsewhere(),
            26 => {
                row_line!(self, "rowshow");
            }
            27 => {
                let count = self.some_count();
                row_line!(self, "rowcount {count}");
                self.look_elsewhere();
            }
            28 if self.r.one_in(4) => {
                let count = self.some_count();
                row_line!(self, "row {count}");
                self.look_elsewhere();
            }
            29 => {
                // A place at the edges, or past them.
                let count = self.count();
                let place = self.r.pick(&[count.saturating_sub(1), count, 31, 32, 255]);
                let what =
                    self.r
                        .pick(&["show", "halt 0", "step 5000", "startlast 0", "record idle"]);
                row_line!(self, "at {} {what}", place.min(255));
            }
            30 => {
                row_line!(self, "turning");
            }
            31 => {
                let word = self.some_word();
                row_line!(self, "leaf running {word}");
            }
            32 => self.spoil(),
            33 if self.r.one_in(8) => {
                let unreadable = self.r.pick(&[
                    "rowword",
                    "rowword 4294967296",
                    "rowword -",
                    "turning 0",
                    "leaf running",
                    "leaf running 4294967296",
                    "leaf running 1 1",
                    "at 0 turning",
                    "at 0 rowword 0",
                    "at 0 leaf running 1",
                ]);
                row_line!(self, "{unreadable}");
            }
            _ => {}
        }
    }
}

impl Stage for Places {
    fn say(&mut self, line: &[u8]) -> Said {
        let fresh = fresh_line(line);
        let line = fresh.as_deref().unwrap_or(line);
        let said = match line.starts_with(b"leaf ") {
            true => self.text.say(line),
            false => {
                let mut there = format!("at {} ", self.place).into_bytes();
                there.extend_from_slice(line);
                self.text.say(&there)
            }
        };
        self.gave = self.text.gave();
        self.between();
        said
    }

    fn gave(&self) -> bool {
        self.gave
    }

    fn lines(&self) -> u64 {
        self.text.lines()
    }

    fn player(&self) -> &Player {
        self.text.player()
    }
}

/// No lamp is made at a place: in the place of a making that is accepted, its lamp is put there.
fn fresh_line(line: &[u8]) -> Option<Vec<u8>> {
    let Some(Call::New(min, max, features, options, clock)) = read(line) else {
        return None;
    };
    if clock > guard::LIMIT || min > max {
        return None;
    }
    let mut text = b"lamp ".to_vec();
    let fields = driver::fresh(min, max, features, options, clock);
    write_fields(&mut text, &fields);
    Some(text)
}

// ---- leaves ----

fn delta(out: &mut Out, mut r: Random, count: u64) {
    let one = |out: &mut Out, current: u16, target: u16, direction: u64| {
        out.text.extend_from_slice(b"leaf delta ");
        number(&mut out.text, current.into());
        out.text.push(b' ');
        number(&mut out.text, target.into());
        out.text.push(b' ');
        number(&mut out.text, direction);
        out.end_line();
    };
    for current in HUES {
        for target in HUES {
            for direction in 0..4 {
                one(out, current, target, direction);
            }
        }
    }
    for _ in 0..count {
        let (current, target) = pair_of_hues(&mut r);
        one(out, current, target, r.below(4));
    }
}

fn leave(out: &mut Out, few: bool) {
    let bytes: Vec<u64> = match few {
        true => vec![0, 1, 2, 3, 254, 255],
        false => (0..256).collect(),
    };
    for on_off in ["on", "off", "none"] {
        for &options in &bytes {
            for &mask in &bytes {
                for &over in &bytes {
                    out.text.extend_from_slice(b"leaf leave ");
                    out.text.extend_from_slice(on_off.as_bytes());
                    for x in [options, mask, over] {
                        out.text.push(b' ');
                        number(&mut out.text, x);
                    }
                    out.end_line();
                }
            }
        }
    }
}

fn mode_of(out: &mut Out) {
    for emode in 0..300u64 {
        out.text.extend_from_slice(b"leaf mode_of ");
        number(&mut out.text, emode);
        out.end_line();
    }
}

fn shown(out: &mut Out) {
    for stored in 0..=u16::MAX {
        out.text.extend_from_slice(b"leaf shown ");
        number(&mut out.text, stored.into());
        out.end_line();
    }
}

fn remaining(out: &mut Out, mut r: Random, count: u64) {
    let one = |out: &mut Out, old: u16, ms: u64, start: u64| {
        out.text.extend_from_slice(b"leaf remaining ");
        number(&mut out.text, old.into());
        out.text.push(b' ');
        number(&mut out.text, ms);
        out.text.push(b' ');
        number(&mut out.text, start);
        out.end_line();
    };
    let mut times: Vec<u64> = Vec::new();
    for base in [
        0u64, 1000, 1100, 3900, 5000, 6000, 6100, 6_553_500, 6_553_600, 13_107_200,
    ] {
        for hundreds in -3i64..=3 {
            for units in [-99i64, -50, -2, -1, 0, 1, 2, 50] {
                if let Some(ms) = base.checked_add_signed(hundreds * 100 + units) {
                    times.push(ms);
                }
            }
        }
    }
    for k in 0..110 {
        for less in [0, 1] {
            times.push((u64::MAX - k).saturating_sub(less * (1 << 63)));
        }
    }
    for shift in 17..64 {
        times.extend([(1u64 << shift) - 1, 1 << shift, (1 << shift) + 1]);
    }
    for old in REMAININGS {
        for &ms in &times {
            for start in 0..2 {
                one(out, old, ms, start);
            }
        }
    }
    for _ in 0..count {
        let (old, ms) = old_and_ms(&mut r);
        let start = r.below(2);
        one(out, old, ms, start);
    }
}
