//! The program `fade` over the unchanged Rust: reads its line on standard input and writes its
//! lines on standard output. Its reader is written anew from document 01, for the comparison.

use std::io::{self, Read, Write};
use std::task::{Context, Poll, Waker};

use oracle_lib::color_control_decl::DirectionEnum;
use oracle_lib::data::{Command, OnOff};
use oracle_lib::driver::{self, Handler};
use oracle_lib::guard;
use oracle_lib::protocol::number;
use oracle_lib::recorder;

const MIN: u16 = 153;
const MAX: u16 = 500;

struct Wanted {
    hue: u8,
    direction: DirectionEnum,
    tenths: u16,
    clock: u64,
}

/// The bytes of a word as a number: digits alone, and within 64 bits.
fn numeral(word: &[u8]) -> Option<u64> {
    if word.is_empty() {
        return None;
    }
    word.iter().try_fold(0u64, |n, b| {
        let digit = b.is_ascii_digit().then(|| u64::from(b - b'0'))?;
        n.checked_mul(10)?.checked_add(digit)
    })
}

fn wanted(input: &[u8]) -> Option<Wanted> {
    let line = input.split(|b| *b == b'\n').next()?;
    let numbers: Option<Vec<u64>> = line.split(|b| *b == b' ').map(numeral).collect();
    let [hue, direction, tenths, clock] = numbers?.try_into().ok()?;
    Some(Wanted {
        hue: hue.try_into().ok()?,
        direction: match direction {
            0 => DirectionEnum::Shortest,
            1 => DirectionEnum::Longest,
            2 => DirectionEnum::Up,
            3 => DirectionEnum::Down,
            _ => return None,
        },
        tenths: tenths.try_into().ok()?,
        clock,
    })
}

fn refused(out: &mut Vec<u8>, cause: u64) {
    out.extend_from_slice(b"refused ");
    number(out, cause);
    out.push(b'\n');
}

fn fade(handler: &'static dyn Handler, wanted: &Wanted, out: &mut Vec<u8>) {
    let mut clock = wanted.clock;
    let mut fields = driver::fresh(MIN, MAX, 31, 0, clock);
    if guard::clock_refused(&fields, clock) {
        return refused(out, 4);
    }
    recorder::begin(clock);
    handler.load(&fields);
    let command = Command::MoveToHue(wanted.hue, wanted.direction, wanted.tenths);
    let (result, given) = handler.command(OnOff::On, &command, 0, 0);
    if result.is_err() {
        return refused(out, 1);
    }
    let task = given.expect("a task is given");
    recorder::begin(clock);
    let mut running = handler.transition(&task);
    let mut context = Context::from_waker(Waker::noop());
    loop {
        let pending = matches!(running.as_mut().poll(&mut context), Poll::Pending);
        let wait = if pending { recorder::wait() } else { 0 };
        handler.store(&mut fields);
        fields.clock = clock;
        for (n, end) in [(clock, b' '), (fields.hue.into(), b' '), (fields.remaining.into(), b' '), (wait, b':')] {
            number(out, n);
            out.push(end);
        }
        recorder::with_notices(|notices| {
            for n in notices {
                out.push(b' ');
                number(out, n.get().into());
            }
        });
        out.push(b'\n');
        if !pending {
            return;
        }
        clock += wait;
        if guard::clock_refused(&fields, clock) {
            return refused(out, 4);
        }
        recorder::begin(clock);
    }
}

fn main() -> io::Result<()> {
    let mut input = Vec::new();
    io::stdin().lock().read_to_end(&mut input)?;
    let mut out = Vec::with_capacity(1 << 22);
    match wanted(&input) {
        None => out.extend_from_slice(b"bad line\n"),
        Some(wanted) => fade(driver::handlers()[0], &wanted, &mut out),
    }
    io::stdout().lock().write_all(&out)
}
