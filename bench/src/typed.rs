//! The crate `yemkruos`, by its types and not by words. In its time are: the call with its check that the lamp is valid,
//! the answer's numbers read, the checksum.

use crate_side::{Ours, Theirs};
use yemkruos::lamp::{Answer, Call, Lamp};
use yemkruos::matter::number_of;
use yemkruos::tasks::Running;

use crate::rows::Row;
use crate::sums::Sums;
use crate::words::{self, IDLE, NO_TASK, UNREADABLE};

/// A row for the crate, made beforehand. `None` is a call of nothing.
pub struct Typed {
    lamp: Lamp,
    calls: Vec<Option<Call>>,
}

impl Typed {
    pub fn of(row: &Row) -> Typed {
        Typed {
            lamp: crate_side::lamp(&row.lamp, Running::Idle),
            calls: row.calls.iter().map(call).collect(),
        }
    }
}

fn call(timed: &words::Timed) -> Option<Call> {
    let clock = timed.clock;
    Some(match timed.call {
        words::Call::Command(command, on_off, mask, over) => Call::Command {
            request: command.ours().with_options(mask, over),
            on_off: on_off.ours(),
            clock,
        },
        words::Call::Start(task) => Call::Start {
            task: task.ours(),
            clock,
        },
        words::Call::Step => Call::Step { clock },
        words::Call::Halt => Call::Halt { clock },
        words::Call::Nothing => return None,
    })
}

#[inline(always)]
fn fold(sums: &mut Sums, answer: &Answer, number: u8) {
    sums.add_all(&words::of_fields(&crate_side::fields(&answer.lamp)));
    let record = crate_side::record(&answer.lamp.running);
    sums.add_all(&record.map_or(IDLE, |r| words::of_record(&r)));
    sums.add(number.into());
    let mut places = [0u8; 16];
    for (place, notice) in places.iter_mut().zip(answer.notices) {
        *place = notice.number();
    }
    for place in places {
        sums.add(place.into());
    }
    let task = answer.given_task();
    sums.add_all(&task.map_or(NO_TASK, |t| words::of_task(&t.theirs())));
    sums.add(answer.wait);
}

/// A lamp with its record as words.
#[cfg(feature = "archive")]
pub fn words_of(lamp: &Lamp) -> [u64; words::LAMP] {
    let mut w = words::of_lamp(&crate_side::fields(lamp));
    if let Some(record) = crate_side::record(&lamp.running) {
        w[18..].copy_from_slice(&words::of_record(&record));
    }
    w
}

/// The checksum of the answers to the calls.
#[inline(never)]
pub fn run(row: &Typed) -> u64 {
    let mut lamp = row.lamp;
    let mut sums = Sums::default();
    for call in &row.calls {
        let answer = match call {
            Some(call) => yemkruos::commands::call(lamp, *call),
            None => lamp.unchanged(Ok(())),
        };
        // Apart from the answer: beside it in one pair, the compiler takes the whole answer apart, 10 ns a call.
        let number = call.map_or(UNREADABLE, |_| number_of(answer.verdict));
        fold(&mut sums, &answer, number);
        lamp = answer.lamp;
    }
    sums.b
}
