//! The lines of a row, over the crate's rows.

use yemkruos::lamp::{Call, Lamp};
use yemkruos::matter::Bounds;
use yemkruos::rows::{MOST, Row, lowest_running, running_count};

use super::write;
use super::{Line, Player, on_lamp};

/// What a line of a row asks for.
pub enum RowLine {
    Make(u8),
    Count(u8),
    Mask(u32),
    Show,
    Turning,
    Step { size: usize, fill: u8, clock: u64 },
    At(u8, Box<Line>),
}

/// A row of fresh lamps.
fn fresh(count: u8) -> Row {
    let bounds = Bounds { min: 153, max: 500 };
    let Ok(lamp) = Lamp::new(bounds, 31, 0, 0) else {
        unreachable!("bounds and clock are good");
    };
    Row::new(count, [lamp; 32])
}

/// The row as three numbers; the last stands for all its lamps.
fn text(row: &Row) -> String {
    let lamps = row.lamps.iter().take(row.count.into());
    let lines: String = lamps.map(|lamp| write::lamp_line(lamp) + "\n").collect();
    let sum = lines
        .bytes()
        .fold(0u32, |h, b| h.wrapping_mul(31).wrapping_add(u32::from(b)));
    format!("{} {} {sum}", row.count, row.running_mask)
}

/// How many run, and the lowest place, from the mask alone.
pub fn turning(mask: u32) -> String {
    let lowest = match lowest_running(mask) {
        None => "-".to_string(),
        Some(place) => place.to_string(),
    };
    format!("{} {lowest}", running_count(mask))
}

/// The answer to a row line, where there is a row.
pub fn play(player: &mut Player, line: RowLine) -> Option<String> {
    if let RowLine::Make(count) = line {
        player.row = Some(fresh(count));
        player.last = None;
    }
    let row = player.row?;
    match line {
        RowLine::Make(_) | RowLine::Show => {}
        RowLine::Count(count) => player.row = Some(Row { count, ..row }),
        RowLine::Mask(running_mask) => {
            player.row = Some(Row {
                running_mask,
                ..row
            })
        }
        RowLine::Turning => return Some(turning(row.running_mask)),
        RowLine::Step { size, fill, clock } => return Some(step(player, row, size, fill, clock)),
        RowLine::At(place, line) => return at(player, row, place, *line),
    }
    Some(format!("ok | {}", text(&player.row?)))
}

fn step(player: &mut Player, row: Row, size: usize, fill: u8, clock: u64) -> String {
    let lent: Vec<u8> = (0..size).map(|i| fill.wrapping_add(i as u8)).collect();
    let mut bytes = lent.clone();
    let stepped = row.step(&mut bytes, clock);
    player.row = Some(stepped.row);
    let slice: String = bytes.iter().map(|b| format!("{b:02x}")).collect();
    let parts = [
        write::status(stepped.verdict),
        text(&stepped.row),
        stepped.wait.to_string(),
        write::or_none(slice),
        if bytes == lent { "kept" } else { "written" }.to_string(),
    ];
    parts.join(" | ")
}

fn at(player: &mut Player, row: Row, place: u8, line: Line) -> Option<String> {
    let answer = match line {
        Line::Call(call) => called(player, row, place, call),
        Line::StartLast(clock) => {
            let task = player.last?;
            called(player, row, place, Call::Start { task, clock })
        }
        Line::Lamp(_) | Line::Poke(_) | Line::Record(_) | Line::Show => {
            if row.count <= place || MOST <= place {
                return None;
            }
            let lamp = row.lamps[usize::from(place)];
            let answer = match line {
                Line::Lamp(lamp) => lamp.unchanged(Ok(())),
                line => on_lamp(lamp, None, line)?,
            };
            player.row = Some(row.with_lamp(place, answer.lamp));
            write::answer(&answer)
        }
        _ => return None,
    };
    Some(format!("{answer} | {}", text(&player.row?)))
}

/// A single call, answered as its lamp alone.
fn called(player: &mut Player, row: Row, place: u8, call: Call) -> String {
    let answer = row.call_at(place, call);
    player.row = Some(answer.row);
    if let Some(task) = answer.given_task() {
        player.last = Some(task);
    }
    if MOST < row.count || row.count <= place {
        return format!("{} | - | - | - | 0 | -", write::status(answer.verdict));
    }
    write::parts(
        answer.verdict,
        &answer.row.lamps[usize::from(place)],
        &answer.notices,
        answer.given_task(),
        answer.wait,
    )
}
