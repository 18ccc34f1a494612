//! `cargo run --example avoid_green`: asks before a fade is sent whether it passes through green, and sends it the way
//! that does not.

use yemkruos::{
    ALL_FEATURES, Band, Bounds, Command, DirectionEnum, NewLamp, OnOff, Refusal,
    plain_passes_through,
};

const CYAN: u8 = 128;

fn main() -> Result<(), Refusal> {
    let green = Band::of_current_hue(64, 106);
    let clock = 5000;
    let lamp = NewLamp {
        bounds: Bounds { min: 153, max: 500 },
        features: ALL_FEATURES,
        options: 0,
        clock,
    }
    .make()?;

    let mut chosen = None;
    for direction in [
        DirectionEnum::Shortest,
        DirectionEnum::Longest,
        DirectionEnum::Up,
        DirectionEnum::Down,
    ] {
        let passes = plain_passes_through(lamp.color.hue, CYAN, direction, green);
        println!("{direction:?}: {passes}");
        if !passes {
            chosen = Some(direction);
        }
    }
    let Some(direction) = chosen else {
        println!("every way passes through green");
        return Ok(());
    };

    let command = Command::move_to_hue(CYAN, direction, 4);
    let answer = lamp.command(command, OnOff::On, clock)?;
    let task = answer.given_task().expect("MoveToHue gives a task");
    let mut answer = answer.lamp.start(task, clock).result()?;
    print!("{direction:?} shows {}", answer.lamp.color.hue);
    while answer.is_running() {
        answer = answer.lamp.step(answer.lamp.clock + answer.wait).result()?;
        let hue = answer.lamp.color.hue;
        assert!(hue < green.low || green.high < hue, "the lamp shows green");
        print!(", {hue}");
    }
    println!();
    Ok(())
}
