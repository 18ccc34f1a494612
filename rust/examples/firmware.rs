//! `cargo run --example firmware`: a firmware's loop over one lamp. The board's part (report, store, write the LEDs) is
//! printed; docs/FIRMWARE.md says which function of an rs-matter handler each one is.

use yemkruos::{
    ALL_FEATURES, Answer, Bounds, Command, DirectionEnum, Lamp, NewLamp, Notice, OnOff, Refusal,
    Task,
};

/// The lamp, and the clock of its next step while it runs.
struct Firmware {
    lamp: Lamp,
    due: Option<u64>,
}

impl Firmware {
    /// A command of the hub. The task that it gives is started at once; Stop is a halt.
    fn command(&mut self, command: Command, on_off: OnOff, now: u64) -> Result<(), Refusal> {
        let answer = self.lamp.command(command, on_off, now)?;
        self.act(&answer);
        match answer.given_task() {
            None => {}
            Some(Task::Stop) => self.stop(now)?,
            Some(task) => self.turn(self.lamp.start(task, now).result()?, now),
        }
        Ok(())
    }

    /// Stop: what runs ends, and RemainingTime is 0, as rs-matter's dispatcher has it.
    fn stop(&mut self, now: u64) -> Result<(), Refusal> {
        self.turn(self.lamp.halt(now).result()?, now);
        if self.lamp.remaining.write_quietly(0, false) {
            println!("  report RemainingTime");
        }
        Ok(())
    }

    /// The timer: a step, where one is due.
    fn tick(&mut self, now: u64) -> Result<(), Refusal> {
        if self.due.is_some_and(|due| due <= now) {
            self.turn(self.lamp.step(now).result()?, now);
        }
        Ok(())
    }

    /// After a start, a step or a halt: the next step is due after the answer's wait, while the lamp runs.
    fn turn(&mut self, answer: Answer, now: u64) {
        self.act(&answer);
        self.due = answer.is_running().then_some(now + answer.wait);
    }

    /// What an answer asks for, in its order.
    fn act(&mut self, answer: &Answer) {
        self.lamp = answer.lamp;
        let color = self.lamp.color;
        for notice in answer.notices {
            match notice {
                Notice::DeviceHueSaturation => {
                    println!("  LEDs: {} {}", color.hue, color.saturation)
                }
                Notice::DeviceMireds => println!("  LEDs: {} mireds", color.mireds),
                Notice::MarkedDirty => println!("  store soon"),
                Notice::ScenesNotified => println!("  scenes: no longer current"),
                Notice::TaskGiven => {}
                Notice::HueTie => println!("  tell the console: the other way is as long"),
                attribute => println!("  report {attribute:?}"),
            }
        }
    }
}

fn main() -> Result<(), Refusal> {
    let bounds = Bounds { min: 153, max: 500 };
    let lamp = NewLamp {
        bounds,
        features: ALL_FEATURES,
        options: 0,
        clock: 5000,
    }
    .make()?;
    let mut firmware = Firmware { lamp, due: None };
    for now in (5000..=5300).step_by(20) {
        if now == 5000 {
            println!("{now} MoveToHue");
            firmware.command(
                Command::move_to_hue(128, DirectionEnum::Down, 2),
                OnOff::On,
                now,
            )?;
        }
        if firmware.due.is_some_and(|due| due <= now) {
            println!("{now} step");
        }
        firmware.tick(now)?;
    }
    assert_eq!((firmware.lamp.color.hue, firmware.due), (32_768, None));

    println!("6000 MoveToHue, then StopMoveStep");
    firmware.command(
        Command::move_to_hue(0, DirectionEnum::Shortest, 20),
        OnOff::On,
        6000,
    )?;
    firmware.command(Command::stop_move_step(), OnOff::On, 6500)?;
    assert_eq!((firmware.lamp.remaining.tenths, firmware.due), (0, None));
    Ok(())
}
