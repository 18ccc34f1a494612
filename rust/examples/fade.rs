//! `cargo run --example fade -- 128 0 2 5000`: hue, direction, tenths, clock. Writes what the program `fade` writes.

use yemkruos::{ALL_FEATURES, Answer, Bounds, Command, DirectionEnum, NewLamp, OnOff, Refusal};

struct Fade {
    hue: u8,
    direction: DirectionEnum,
    tenths: u16,
    clock: u64,
}

fn read(words: &[String]) -> Option<Fade> {
    let [hue, direction, tenths, clock] = words else {
        return None;
    };
    let direction = DirectionEnum::try_from(direction.parse::<u8>().ok()?).ok()?;
    Some(Fade {
        hue: hue.parse().ok()?,
        direction,
        tenths: tenths.parse().ok()?,
        clock: clock.parse().ok()?,
    })
}

/// Clock, hue, remaining tenths and wait, then the notices.
fn print(answer: &Answer) {
    let lamp = &answer.lamp;
    let (hue, remaining) = (lamp.color.hue, lamp.remaining.tenths);
    print!("{} {hue} {remaining} {}:", lamp.clock, answer.wait);
    for notice in answer.notices {
        print!(" {}", notice.number());
    }
    println!();
}

fn run(fade: Fade) -> Result<(), Refusal> {
    let new = NewLamp {
        bounds: Bounds { min: 153, max: 500 },
        features: ALL_FEATURES,
        options: 0,
        clock: fade.clock,
    };
    let command = Command::move_to_hue(fade.hue, fade.direction, fade.tenths);
    let answer = new.make()?.command(command, OnOff::On, fade.clock)?;
    let task = answer.given_task().expect("MoveToHue gives a task");
    let mut answer = answer.lamp.start(task, fade.clock).result()?;
    print(&answer);
    while answer.is_running() {
        let clock = answer.lamp.clock + answer.wait;
        answer = answer.lamp.step(clock).result()?;
        print(&answer);
    }
    Ok(())
}

fn main() {
    let mut words: Vec<String> = std::env::args().skip(1).collect();
    if words.is_empty() {
        words = ["128", "0", "2", "5000"].map(String::from).into();
    }
    match read(&words) {
        None => println!("bad line"),
        Some(fade) => {
            if let Err(refusal) = run(fade) {
                println!("refused {}", refusal.number());
                eprintln!("{refusal}");
            }
        }
    }
}
