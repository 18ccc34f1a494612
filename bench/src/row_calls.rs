//! A row call beside the same steps singly: of lamps alone, and of the row's own places. All on the crate.

use std::hint::black_box;

use yemkruos::lamp::{Call, Lamp};
use yemkruos::tasks::{ColorLoop, HueMove, HueSaturationMoveTo, Task};
use yemkruos::{Bounds, ColorLoopDirectionEnum, MoveModeEnum, NewLamp, Row, ALL_FEATURES};

use crate::sums::Sums;

/// How many lamps run.
const COUNTS: [u8; 3] = [1, 10, 32];
/// Row calls in a round, a tenth of a second apart.
const CALLS: u64 = 1000;
pub const START: u64 = 5000;

const SIDES: [&str; 3] = ["lamps alone", "calls at places", "row call"];

/// Tasks that outlast a round.
fn task(place: usize) -> Task {
    let directions = [MoveModeEnum::Up, MoveModeEnum::Down];
    match place % 3 {
        0 => Task::HueSaturationMoveTo(HueSaturationMoveTo {
            delta: Some(-30_000),
            saturation: Some(254),
            ms: 6_553_500,
            enhanced: false,
        }),
        1 => Task::HueMove(HueMove {
            direction: directions[place % 2],
            rate: 1000,
            enhanced: true,
        }),
        _ => Task::ColorLoop(ColorLoop {
            direction: ColorLoopDirectionEnum::Increment,
            seconds: 25,
        }),
    }
}

pub fn running_row(count: u8) -> Row {
    let new = NewLamp {
        bounds: Bounds { min: 153, max: 500 },
        features: ALL_FEATURES,
        options: 0,
        clock: START,
    };
    let lamp = new.make().expect("bounds and clock are good");
    let mut row = Row::new(count, [lamp; 32]);
    for place in 0..count {
        let started = row.start_at(place, task(place.into()), START);
        row = started.expect("an accepted start").row;
    }
    row
}

fn least(a: u64, b: u64) -> u64 {
    match (a, b) {
        (0, wait) | (wait, 0) => wait,
        (a, b) => a.min(b),
    }
}

/// What is compared of a call: its bytes and its wait.
#[inline(always)]
fn fold(sums: &mut Sums, bytes: &[u8], wait: u64) {
    for eight in bytes.chunks_exact(8) {
        sums.add(u64::from_le_bytes(eight.try_into().unwrap()));
    }
    sums.add(wait);
}

/// At the end, of the lamps.
fn fold_lamps(sums: &mut Sums, lamps: &[Lamp]) {
    for lamp in lamps {
        sums.add(lamp.color.hue.into());
        sums.add(lamp.color.saturation.into());
        sums.add(lamp.clock);
    }
}

#[inline(never)]
fn alone(row: &Row, bytes: &mut [u8]) -> u64 {
    let count = usize::from(row.count);
    let mut lamps = row.lamps;
    let mut sums = Sums::default();
    for call in 1..=CALLS {
        let mut wait = 0;
        for place in 0..count {
            let answer = lamps[place].step(START + 100 * call);
            lamps[place] = answer.lamp;
            bytes[16 * place..][..16].copy_from_slice(&answer.notices.places);
            wait = least(wait, answer.wait);
        }
        fold(&mut sums, bytes, wait);
    }
    fold_lamps(&mut sums, &lamps[..count]);
    sums.b
}

#[inline(never)]
fn at_places(row: &Row, bytes: &mut [u8]) -> u64 {
    let mut row = *row;
    let mut sums = Sums::default();
    for call in 1..=CALLS {
        let clock = START + 100 * call;
        let mut wait = 0;
        for place in 0..row.count {
            let answer = row.call_at(place, Call::Step { clock });
            row = answer.row;
            bytes[16 * usize::from(place)..][..16].copy_from_slice(&answer.notices.places);
            wait = least(wait, answer.wait);
        }
        fold(&mut sums, bytes, wait);
    }
    fold_lamps(&mut sums, &row.lamps[..row.count.into()]);
    sums.b
}

#[inline(never)]
fn row_call(row: &Row, bytes: &mut [u8]) -> u64 {
    let mut row = *row;
    let mut sums = Sums::default();
    for call in 1..=CALLS {
        let stepped = row.step(bytes, START + 100 * call);
        row = stepped.row;
        fold(&mut sums, bytes, stepped.wait);
    }
    fold_lamps(&mut sums, &row.lamps[..row.count.into()]);
    sums.b
}

/// The table: nanoseconds for all lamps together, and ratios.
pub fn print(rounds: usize) {
    println!();
    println!("| lamps that run | lamps alone ns | calls at places ns | row call ns | row call / alone | row call / at places | a call at a place / alone |");
    println!("|---:|---:|---:|---:|---:|---:|---:|");
    for count in COUNTS {
        let row = running_row(count);
        let mut bytes = vec![0; 16 * usize::from(count)];
        let mut times = SIDES.map(|_| Vec::with_capacity(rounds));
        for round in 0..rounds {
            let mut answers = SIDES.map(|_| 0);
            for turn in 0..SIDES.len() {
                let side = (round + turn) % SIDES.len();
                let run = [alone, at_places, row_call][side];
                let begin = crate::now();
                answers[side] = run(black_box(&row), black_box(&mut bytes));
                times[side].push((crate::now() - begin) / CALLS as f64);
            }
            if answers != [answers[0]; SIDES.len()] {
                eprintln!("a row of {count}: the answers differ");
                std::process::exit(1);
            }
        }
        let [alone, single, row] = times.map(|mut t| crate::median(&mut t));
        println!(
            "| {count} | {alone:.1} | {single:.1} | {row:.1} | {:.2} | {:.2} | {:.2} |",
            row / alone,
            row / single,
            single / alone
        );
    }
}
