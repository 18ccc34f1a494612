//! An answer as its line.

use yemkruos::lamp::Lamp;
use yemkruos::notices::Notices;
use yemkruos::tasks::Task;
use yemkruos::{Answer, Refusal};

fn fields(lamp: &Lamp) -> String {
    let (color, looping) = (&lamp.color, &lamp.looping);
    let numbers: [u64; 18] = [
        lamp.bounds.min.into(),
        lamp.bounds.max.into(),
        lamp.clock,
        lamp.options.into(),
        lamp.remaining.tenths.into(),
        color.stamps.hue,
        color.stamps.saturation,
        color.stamps.mireds,
        color.hue.into(),
        color.saturation.into(),
        color.mireds.into(),
        u8::from(color.mode).into(),
        u8::from(color.emode).into(),
        looping.active.into(),
        u8::from(looping.direction).into(),
        looping.time.into(),
        looping.start.into(),
        looping.stored.into(),
    ];
    numbers.map(|n| n.to_string()).join(" ")
}

fn task(task: &Task) -> String {
    match *task {
        Task::HueSaturationMoveTo(t) => {
            let delta = match t.delta {
                None => "-".to_string(),
                Some(delta) => delta.to_string(),
            };
            let saturation = match t.saturation {
                None => "-".to_string(),
                Some(saturation) => saturation.to_string(),
            };
            format!("move_to {delta} {saturation} {} {}", t.ms, t.enhanced as u8)
        }
        Task::HueMove(t) => {
            let mode = u8::from(t.direction);
            format!("hue_move {mode} {} {}", t.rate, t.enhanced as u8)
        }
        Task::SaturationMove(t) => format!("sat_move {} {}", u8::from(t.direction), t.rate),
        Task::ColorTemperatureMoveTo(t) => format!("ct_to {} {}", t.target, t.ms),
        Task::ColorTemperatureMove(t) => format!("ct_move {} {} {}", t.rate, t.min, t.max),
        Task::ColorLoop(t) => format!("loop {} {}", u8::from(t.direction), t.seconds),
        Task::Stop => "stop".to_string(),
    }
}

pub fn or_none(text: String) -> String {
    if text.is_empty() {
        "-".to_string()
    } else {
        text
    }
}

pub fn status(verdict: Result<(), Refusal>) -> String {
    match verdict {
        Ok(()) => "ok".to_string(),
        Err(refusal) => format!("refused {}", refusal.number()),
    }
}

fn running(lamp: &Lamp) -> &'static str {
    match lamp.running.is_running() {
        true => "running",
        false => "idle",
    }
}

/// A lamp as a row sums it up.
pub fn lamp_line(lamp: &Lamp) -> String {
    format!("{} {}", fields(lamp), running(lamp))
}

pub fn answer(answer: &Answer) -> String {
    let given = answer.given_task();
    parts(
        answer.verdict,
        &answer.lamp,
        &answer.notices,
        given,
        answer.wait,
    )
}

pub fn parts(
    verdict: Result<(), Refusal>,
    lamp: &Lamp,
    notices: &Notices,
    given: Option<Task>,
    wait: u64,
) -> String {
    let notices: Vec<String> = notices.iter().map(|n| n.number().to_string()).collect();
    let parts = [
        status(verdict),
        fields(lamp),
        or_none(notices.join(" ")),
        or_none(given.as_ref().map_or(String::new(), task)),
        wait.to_string(),
        running(lamp).to_string(),
    ];
    parts.join(" | ")
}
