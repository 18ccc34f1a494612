//! How many of 32 lamps run, and the lowest place: by a look at each record, and by the row's running mask alone.
//!
//! At each turn one lamp starts or halts, so that no reading is that of the turn before. The masks after the turns are made
//! beforehand.

use std::hint::black_box;

use oracle_lib::random::Random;
use yemkruos::lamp::Lamp;
use yemkruos::tasks::Running;
use yemkruos::{lowest_running, running_count};

#[cfg(feature = "archive")]
use crate::library;
use crate::row_calls;
use crate::sums::Sums;

const TURNS: usize = 10_000;

#[cfg(feature = "archive")]
const SIDES: [&str; 5] = [
    "crate, records",
    "crate, records twice",
    "crate, mask",
    "library, records",
    "library, mask",
];
#[cfg(not(feature = "archive"))]
const SIDES: [&str; 3] = ["crate, records", "crate, records twice", "crate, mask"];

/// A lamp that runs, its words, the turns (a place starts the lamp there, a place and 32 halts it) and the masks after them.
struct Asked {
    lamp: Lamp,
    #[cfg(feature = "archive")]
    words: [u64; crate::words::LAMP],
    turns: Vec<u64>,
    masks: Vec<u64>,
}

impl Asked {
    fn new() -> Asked {
        let lamp = row_calls::running_row(1).lamps[0];
        let mut random = Random::new(3);
        let turns: Vec<u64> = (0..TURNS).map(|_| random.below(64)).collect();
        let masks = turns.iter().scan(0u32, |mask, turn| {
            let bit = 1 << (turn % 32);
            *mask = if *turn < 32 {
                *mask | bit
            } else {
                *mask & !bit
            };
            Some((*mask).into())
        });
        Asked {
            lamp,
            #[cfg(feature = "archive")]
            words: crate::typed::words_of(&lamp),
            masks: masks.collect(),
            turns,
        }
    }

    fn run(&self, side: usize) -> u64 {
        match side {
            0 => by_records(black_box(&self.lamp), black_box(&self.turns), at_once),
            1 => by_records(black_box(&self.lamp), black_box(&self.turns), in_turn),
            2 => by_masks(black_box(&self.masks)),
            #[cfg(feature = "archive")]
            3 => library::read_records(black_box(&self.words), black_box(&self.turns)),
            #[cfg(feature = "archive")]
            4 => library::read_masks(black_box(&self.masks)),
            _ => unreachable!("no such side"),
        }
    }
}

/// Both in one number; 32 stands for no place.
#[inline(always)]
fn numbered(count: u32, lowest: Option<u8>) -> u64 {
    let lowest = match lowest {
        None => 32,
        Some(place) => place.into(),
    };
    u64::from(count) + 64 * lowest
}

/// Count and lowest place in one loop, as crate `measure` reads them.
#[inline(always)]
fn at_once(lamps: &[Lamp; 32]) -> u64 {
    let (mut count, mut lowest) = (0, None);
    for (place, lamp) in lamps.iter().enumerate().rev() {
        if lamp.running.is_running() {
            count += 1;
            lowest = Some(place as u8);
        }
    }
    numbered(count, lowest)
}

/// The count, and then the lowest place.
#[inline(always)]
fn in_turn(lamps: &[Lamp; 32]) -> u64 {
    let runs = |lamp: &Lamp| lamp.running.is_running();
    let count = lamps.iter().filter(|lamp| runs(lamp)).count();
    let lowest = match lamps.iter().position(runs) {
        None => None,
        Some(place) => Some(place as u8),
    };
    numbered(count as u32, lowest)
}

#[inline(always)]
fn by_records(lamp: &Lamp, turns: &[u64], read: impl Fn(&[Lamp; 32]) -> u64) -> u64 {
    let idle = Lamp {
        running: Running::Idle,
        ..*lamp
    };
    let mut lamps = [idle; 32];
    let mut sums = Sums::default();
    for turn in turns {
        lamps[(turn % 32) as usize] = if *turn < 32 { *lamp } else { idle };
        sums.add(read(&lamps));
    }
    sums.b
}

#[inline(never)]
fn by_masks(masks: &[u64]) -> u64 {
    let mut sums = Sums::default();
    for mask in masks {
        let mask = *mask as u32;
        sums.add(numbered(running_count(mask), lowest_running(mask)));
    }
    sums.b
}

/// The table: nanoseconds a reading.
pub fn print(rounds: usize) {
    let asked = Asked::new();
    let mut times = SIDES.map(|_| Vec::with_capacity(rounds));
    for round in 0..rounds {
        let mut answers = SIDES.map(|_| 0);
        for turn in 0..SIDES.len() {
            let side = (round + turn) % SIDES.len();
            let begin = crate::now();
            answers[side] = asked.run(side);
            times[side].push((crate::now() - begin) / TURNS as f64);
        }
        if answers != [answers[0]; SIDES.len()] {
            eprintln!("readings of 32 lamps: the answers differ");
            std::process::exit(1);
        }
    }
    println!();
    println!("| 32 lamps: how many run, and the lowest | ns | mask / this |");
    println!("|---|---:|---:|");
    let medians = times.map(|mut t| crate::median(&mut t));
    for (side, time) in medians.iter().enumerate() {
        // The crate's mask, or the library's.
        let mask = medians[if side < 3 { 2 } else { 4 }];
        println!("| {} | {time:.2} | {:.3} |", SIDES[side], mask / time);
    }
}
