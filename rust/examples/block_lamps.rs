//! `cargo run --example block_lamps`: ten lamps on the starting blocks turn together from red to cyan, past no green, by one
//! row call every tenth of a second.

use yemkruos::{
    ALL_FEATURES, Bounds, Command, DirectionEnum, NewLamp, Notice, OnOff, Refusal, Row, Task,
    lowest_running, notices_at, running_count,
};

const BLOCKS: u8 = 10;

/// Sixteen bytes a block.
const BYTES: usize = 16 * BLOCKS as usize;

/// The same command to every block, and the task that each gives, at one clock.
fn turn(mut row: Row, command: Command, clock: u64) -> Result<Row, Refusal> {
    for place in 0..BLOCKS {
        let answer = row.command_at(place, command, OnOff::On, clock)?;
        row = answer.row;
        row = match answer.given_task() {
            None => row,
            Some(Task::Stop) => row.halt_at(place, clock)?.row,
            Some(task) => row.start_at(place, task, clock)?.row,
        };
    }
    Ok(row)
}

fn main() -> Result<(), Refusal> {
    let mut clock = 5000;
    let lamp = NewLamp {
        bounds: Bounds { min: 153, max: 500 },
        features: ALL_FEATURES,
        options: 0,
        clock,
    }
    .make()?;
    let command = Command::move_to_hue(128, DirectionEnum::Down, 4);
    let mut row = turn(Row::new(BLOCKS, [lamp; 32]), command, clock)?;

    // The starts wrote the device; the first step is due in a tenth of a second.
    let mut wait = 100;
    while lowest_running(row.running_mask) != None {
        clock += wait;
        let mut bytes = [0; BYTES];
        let stepped = row.step(&mut bytes, clock).result()?;
        (row, wait) = (stepped.row, stepped.wait);

        let hues: Vec<u16> = row.lamps[..BLOCKS.into()]
            .iter()
            .map(|l| l.color.hue)
            .collect();
        let written = (0..BLOCKS).filter(|place| {
            notices_at(&bytes, *place).any(|notice| notice == Notice::DeviceHueSaturation)
        });
        let running = running_count(row.running_mask);
        println!(
            "{clock}: hues {hues:?}, {} LEDs written, {running} still turn",
            written.count()
        );
        assert!(hues.iter().all(|hue| *hue == hues[0]), "the blocks part");
        assert!(!(16_384..27_392).contains(&hues[0]), "green");
    }
    Ok(())
}
