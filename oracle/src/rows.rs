//! Rows: lamps of the Rust beside one another, each alone at its place. What is compared of a row is so what these lamps
//! answer: a call at a place is a call of its lamp, an accepted row call a step of each lamp that runs. The count, the
//! slice, the place, the word and their order are written by hand, from document 02, A.1 and A.3. After each accepted call
//! the word is worked out anew, by a look at every lamp.

use std::mem::swap;

use crate::driver;
use crate::guard;
use crate::protocol::{number, write_fields, Call, End, Lamp, Player, Reply, Words, UNCOMPARABLE};
use crate::recorder;

/// Places of a row.
pub const MOST: usize = 32;
/// The longest slice that a line can lend.
const LONGEST_SLICE: u64 = 1024;

pub enum RowCall {
    Make(u8),
    Count(u8),
    Word(u32),
    Show,
    Turning,
    /// Of any word: it needs no row.
    Running(u32),
    /// The length of the lent slice, the number that it is filled from, and the clock.
    Step(usize, u8, u64),
    At(u8, Call),
}

pub struct Row {
    pub count: u8,
    /// True or not.
    pub word: u32,
    /// Always 32 of them.
    pub lamps: Vec<Option<Lamp>>,
}

impl Row {
    /// The lamps that stand in the row.
    pub fn placed(&self) -> impl Iterator<Item = &Lamp> {
        self.lamps.iter().flatten().take(self.count.into())
    }

    fn has(&self, place: usize) -> bool {
        place < MOST && place < self.count.into()
    }

    /// Of each lamp in the row, from place 0 on, whether it runs.
    fn runs(&self) -> impl Iterator<Item = bool> + '_ {
        self.placed().map(|lamp| lamp.record.is_some())
    }

    /// The word that the lamps ask for.
    pub fn true_word(&self) -> u32 {
        let powers = (0..MOST).map(|place| 1u32 << place);
        let set = powers.zip(self.runs()).filter(|(_, runs)| *runs);
        set.map(|(power, _)| power).sum()
    }

    fn is_word_true(&self) -> bool {
        self.word == self.true_word()
    }

    /// The bit of a place follows its lamp. The others stay, true or not.
    fn follow(&mut self, place: usize) {
        let runs = self.lamps[place]
            .as_ref()
            .is_some_and(|l| l.record.is_some());
        let rest = self.word & !(1 << place);
        self.word = rest | u32::from(runs) << place;
    }

    /// How many run, and the lowest place: of a row whose word is true from a look at every lamp.
    fn write_turning(&self, out: &mut Vec<u8>) {
        match self.is_word_true() {
            true => write_turning(self.runs(), out),
            false => write_turning(bits(self.word), out),
        }
    }

    /// Stands for all lamps of the row.
    fn sum(&self) -> u32 {
        let mut text = Vec::new();
        for lamp in self.placed() {
            write_fields(&mut text, &lamp.fields);
            text.extend_from_slice(match lamp.record {
                Some(_) => b" running\n",
                None => b" idle\n",
            });
        }
        let next = |h: u32, b: &u8| h.wrapping_mul(31).wrapping_add((*b).into());
        text.iter().fold(0, next)
    }

    fn write(&self, out: &mut Vec<u8>) {
        out.extend_from_slice(b" | ");
        number(out, self.count.into());
        out.push(b' ');
        number(out, self.word.into());
        out.push(b' ');
        number(out, self.sum().into());
    }

    /// Why a row call is refused.
    fn cause(&self, size: usize, clock: u64) -> u8 {
        let in_form = |l: &Lamp| guard::lamp_in_form(&l.fields, l.record.as_ref());
        if usize::from(self.count) > MOST {
            8
        } else if size < 16 * usize::from(self.count) {
            9
        } else if !self.is_word_true() || !self.placed().all(in_form) {
            8
        } else if clock > guard::LIMIT || self.placed().any(|l| clock < l.fields.clock) {
            4
        } else {
            0
        }
    }

    /// Why a call at a place is refused before its lamp is looked at.
    fn place_cause(&self, place: usize) -> u8 {
        if usize::from(self.count) > MOST {
            8
        } else if usize::from(self.count) <= place {
            10
        } else if !self.is_word_true() {
            8
        } else {
            0
        }
    }

    /// Whether an answer can show the lamp that a call was for.
    fn shows(&self, place: usize) -> bool {
        usize::from(self.count) <= MOST && self.has(place)
    }
}

/// The bits of a word, from the lowest on.
fn bits(word: u32) -> impl Iterator<Item = bool> {
    (0..MOST).map(move |place| word / (1 << place) % 2 == 1)
}

fn write_turning(runs: impl Iterator<Item = bool>, out: &mut Vec<u8>) {
    let (mut count, mut lowest) = (0, None);
    for (place, runs) in runs.enumerate() {
        if runs {
            count += 1;
            lowest = lowest.or(Some(place as u64));
        }
    }
    number(out, count);
    out.push(b' ');
    match lowest {
        Some(place) => number(out, place),
        None => out.push(b'-'),
    }
}

impl Player {
    /// Answers a line of a row.
    pub fn row_line(&mut self, call: RowCall, out: &mut Vec<u8>) {
        if let RowCall::Running(word) = call {
            return write_turning(bits(word), out);
        }
        if let RowCall::Make(count) = call {
            self.last = None;
            let lamp = || Some(self.lamp_of(driver::fresh(153, 500, 31, 0, 0)));
            let lamps = (0..MOST).map(|_| lamp()).collect();
            let word = 0;
            self.row = Some(Row { count, word, lamps });
        }
        let Some(mut row) = self.row.take() else {
            return out.extend_from_slice(b"error");
        };
        match call {
            RowCall::Step(size, fill, clock) => self.row_step(&mut row, size, fill, clock, out),
            RowCall::At(place, call) => self.at(&mut row, place.into(), call, out),
            RowCall::Turning => row.write_turning(out),
            call => {
                match call {
                    RowCall::Count(count) => row.count = count,
                    RowCall::Word(word) => row.word = word,
                    _ => {}
                }
                out.extend_from_slice(b"ok");
                row.write(out);
            }
        }
        self.row = Some(row);
    }

    /// A line of the lamp at a place.
    fn at(&mut self, row: &mut Row, place: usize, call: Call, out: &mut Vec<u8>) {
        let call = match (call, self.last) {
            (Call::StartLast(clock), Some(task)) => Call::Start(task, clock),
            (call, _) => call,
        };
        let mut cause = 0;
        let mut is_edit = false;
        match call {
            Call::Lamp(_) | Call::Poke(_) | Call::Record(_) | Call::Show => {
                if !row.has(place) {
                    return out.extend_from_slice(b"error");
                }
                is_edit = true;
            }
            Call::Command(..)
            | Call::Start(..)
            | Call::Step(_)
            | Call::Halt(_)
            | Call::Bounds(..) => {
                cause = row.place_cause(place);
                if !row.shows(place) {
                    out.extend_from_slice(b"refused ");
                    number(out, cause.into());
                    out.extend_from_slice(b" | - | - | - | 0 | -");
                    return row.write(out);
                }
            }
            _ => return out.extend_from_slice(b"error"),
        }
        swap(&mut self.lamp, &mut row.lamps[place]);
        let last = self.last;
        let reply = match cause {
            0 => self.play(call),
            cause => Reply::OnLamp(End::Refused(cause)),
        };
        if let Call::Lamp(_) = call {
            self.last = last;
        }
        let silent = matches!(reply, Reply::OnLamp(End::Uncomparable | End::Broken));
        self.write(reply, out);
        swap(&mut self.lamp, &mut row.lamps[place]);
        if is_edit {
            row.follow(place);
        } else if cause == 0 {
            row.word = row.true_word();
        }
        if !silent {
            row.write(out);
        }
    }

    fn row_step(&mut self, row: &mut Row, size: usize, fill: u8, clock: u64, out: &mut Vec<u8>) {
        let lent: Vec<u8> = (0..size).map(|i| fill.wrapping_add(i as u8)).collect();
        let mut slice = lent.clone();
        let cause = row.cause(size, clock);
        let mut wait = 0;
        if cause == 0 {
            match self.step_each(row, clock, &mut slice) {
                Ok(least) => wait = least,
                Err(why) => return out.extend_from_slice(why.as_bytes()),
            }
            row.word = row.true_word();
            out.extend_from_slice(b"ok");
        } else {
            out.extend_from_slice(b"refused ");
            number(out, cause.into());
        }
        row.write(out);
        out.extend_from_slice(b" | ");
        number(out, wait);
        out.extend_from_slice(b" | ");
        for b in &slice {
            out.extend_from_slice(format!("{b:02x}").as_bytes());
        }
        if slice.is_empty() {
            out.push(b'-');
        }
        let kept = slice == lent;
        out.extend_from_slice(if kept { b" | kept" } else { b" | written" });
    }

    /// A step of each lamp that runs: its notices into its sixteen bytes. Answers the least wait.
    fn step_each(
        &mut self,
        row: &mut Row,
        clock: u64,
        slice: &mut [u8],
    ) -> Result<u64, &'static str> {
        for lamp in row.lamps.iter_mut().flatten().take(row.count.into()) {
            if lamp.record.is_some() && !self.comparable(lamp) {
                return Err(UNCOMPARABLE);
            }
        }
        let mut least = 0;
        for place in 0..row.count.into() {
            let bytes = &mut slice[16 * place..16 * place + 16];
            bytes.fill(0);
            if row.lamps[place].as_ref().unwrap().record.is_none() {
                continue;
            }
            swap(&mut self.lamp, &mut row.lamps[place]);
            let reply = self.play(Call::Step(clock));
            swap(&mut self.lamp, &mut row.lamps[place]);
            let Reply::OnLamp(End::Done { wait, .. }) = reply else {
                return Err("broken");
            };
            recorder::with_notices(|notices| {
                for (b, n) in bytes.iter_mut().zip(notices) {
                    *b = n.get();
                }
            });
            if row.lamps[place].as_ref().unwrap().record.is_some() && (least == 0 || wait < least) {
                least = wait;
            }
        }
        Ok(least)
    }
}

impl Words<'_> {
    fn row_call(&mut self) -> Option<RowCall> {
        Some(match self.next()? {
            b"row" => RowCall::Make(self.u8()?),
            b"rowcount" => RowCall::Count(self.u8()?),
            b"rowword" => RowCall::Word(self.u32()?),
            b"rowshow" => RowCall::Show,
            b"turning" => RowCall::Turning,
            b"leaf" if self.next()? == b"running" => RowCall::Running(self.u32()?),
            b"rowstep" => {
                let size = self.unsigned(LONGEST_SLICE)?;
                RowCall::Step(size as usize, self.u8()?, self.u64()?)
            }
            b"at" => RowCall::At(self.u8()?, self.call()?),
            _ => return None,
        })
    }
}

/// A line of a row, of a line that is not too long.
pub fn read(line: &[u8]) -> Option<RowCall> {
    let mut words = Words::of(line)?;
    let call = words.row_call()?;
    words.is_at_end().then_some(call)
}
