//! All sides in one process, on the same calls: `bench [ROUNDS] [ROW]`, where ROW `row call` is the table of rows of
//! lamps and `readings` that of their masks.
//!
//! A round runs each side once over a row's calls, in an order that turns from round to round.
//! The checksums over every number of every answer must agree. The medians are printed.

#[cfg(feature = "archive")]
mod library;
mod readings;
mod row_calls;
mod rows;
mod rust;
mod sums;
mod typed;
mod words;

use std::hint::black_box;

use oracle_lib::driver;

use rows::Row;
use typed::Typed;

/// The first is the Rust; of the two after it the ratios to the Rust are printed.
#[cfg(feature = "archive")]
const SIDES: [&str; 4] = ["Rust", "crate", "library", "word by word"];
#[cfg(not(feature = "archive"))]
const SIDES: [&str; 2] = ["Rust", "crate"];
const RATIOS: std::ops::RangeInclusive<usize> = 1..=2;

/// The thread's processor time in nanoseconds, of which other programs take no part.
fn now() -> f64 {
    #[repr(C)]
    struct Time {
        seconds: i64,
        nanoseconds: i64,
    }
    extern "C" {
        fn clock_gettime(clock: i32, time: *mut Time) -> i32;
    }
    const THREAD: i32 = 3;
    let mut time = Time {
        seconds: 0,
        nanoseconds: 0,
    };
    // SAFETY: the time is written within the call.
    let failed = unsafe { clock_gettime(THREAD, &mut time) };
    assert_eq!(failed, 0, "no clock of the thread");
    time.seconds as f64 * 1e9 + time.nanoseconds as f64
}

fn median(times: &mut [f64]) -> f64 {
    times.sort_by(f64::total_cmp);
    times[times.len() / 2]
}

/// A row as each side takes it.
struct Ready {
    row: Row,
    typed: Typed,
    #[cfg(feature = "archive")]
    lamp: [u64; words::LAMP],
    #[cfg(feature = "archive")]
    calls: Vec<u64>,
}

impl Ready {
    fn of(row: Row) -> Ready {
        Ready {
            typed: Typed::of(&row),
            #[cfg(feature = "archive")]
            lamp: words::of_lamp(&row.lamp),
            #[cfg(feature = "archive")]
            calls: row.calls.iter().flat_map(words::of_call).collect(),
            row,
        }
    }

    /// The checksum that a side gives.
    fn run(&self, side: usize, handler: &'static impl driver::Handler) -> u64 {
        match side {
            0 => rust::run(handler, black_box(&self.row.lamp), black_box(&self.row.calls)),
            1 => typed::run(black_box(&self.typed)),
            #[cfg(feature = "archive")]
            2 => library::run(black_box(&self.lamp), black_box(&self.calls)),
            #[cfg(feature = "archive")]
            3 => library::one_by_one(black_box(&self.lamp), black_box(&self.calls)),
            _ => unreachable!("no such side"),
        }
    }
}

fn print_head() {
    let mut columns = String::new();
    for (i, side) in SIDES.iter().enumerate() {
        columns += &format!(" {side} ns |");
        if RATIOS.contains(&i) {
            columns += &format!(" {side} / Rust |");
        }
    }
    println!("| row | calls |{columns}");
    println!("|---|---:|{}", "---:|".repeat(columns.matches('|').count()));
}

fn print_row(name: &str, count: usize, medians: &[f64]) {
    let mut columns = String::new();
    for (i, time) in medians.iter().enumerate() {
        columns += &format!(" {time:.1} |");
        if RATIOS.contains(&i) {
            columns += &format!(" {:.2} |", time / medians[0]);
        }
    }
    println!("| {name} | {count} |{columns}");
}

fn main() {
    let mut arguments = std::env::args().skip(1);
    let rounds: usize = arguments
        .next()
        .map_or(1001, |a| a.parse().expect("rounds"));
    let only = arguments.next().unwrap_or_default();
    let handler = driver::direct::<153, 500>();
    print_head();
    for row in rows::all() {
        if !row.name.contains(&only) {
            continue;
        }
        let ready = Ready::of(row);
        let (name, count) = (ready.row.name, ready.row.calls.len());
        let rounds = if count > 10_000 {
            rounds / 16 + 1
        } else {
            rounds
        };
        let mut times = SIDES.map(|_| Vec::with_capacity(rounds));
        for round in 0..rounds {
            let mut answers = SIDES.map(|_| 0);
            for turn in 0..SIDES.len() {
                let side = (round + turn) % SIDES.len();
                let begin = now();
                answers[side] = ready.run(side, handler);
                times[side].push((now() - begin) / count as f64);
            }
            if answers != [answers[0]; SIDES.len()] {
                eprintln!("{name}: the answers differ");
                std::process::exit(1);
            }
        }
        print_row(name, count, &times.map(|mut t| median(&mut t)));
    }
    if "readings".contains(&only) {
        readings::print(rounds);
    }
    if "row call".contains(&only) {
        row_calls::print(rounds);
    }
}
