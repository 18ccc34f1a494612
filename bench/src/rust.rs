//! The unchanged Rust, run on calls that are read already. In its time are: the clock set by
//! hand, the call, the state read and the checksum. There is no form check, no allocation and
//! no catching of panics, and the handler is called by its own type.

use std::hint::black_box;
use std::task::Poll;

use oracle_lib::data::{Fields, Task};
use oracle_lib::driver::Handler;
use oracle_lib::protocol::record_of;
use oracle_lib::recorder;

use crate::sums::Sums;
use crate::words::{self, Call, Timed, IDLE, NO_TASK, UNREADABLE};

struct Side<'a, H: 'static> {
    handler: &'static H,
    fields: Fields,
    record: [u64; 10],
    sums: Sums,
    calls: &'a [Timed],
    at: usize,
}

impl<H: Handler + 'static> Side<'_, H> {
    /// Folds the answer of the call that was just made.
    #[inline(always)]
    fn fold(&mut self, number: u64, clock: u64, noticed: bool, task: [u64; 7], wait: u64) {
        self.handler.store(&mut self.fields);
        self.fields.clock = clock;
        let sums = &mut self.sums;
        sums.add_all(&words::of_fields(&self.fields));
        sums.add_all(&self.record);
        sums.add(number);
        let mut places = [0u8; 16];
        if noticed {
            recorder::with_notices(|notices| {
                for (place, notice) in places.iter_mut().zip(notices) {
                    *place = notice.get();
                }
            });
        }
        for place in places {
            sums.add(place.into());
        }
        sums.add_all(&task);
        sums.add(wait);
    }

    /// A start, and the steps right after it.
    #[inline(always)]
    fn transition(&mut self, task: &Task, clock: u64) {
        recorder::begin(clock);
        let record = words::of_record(&record_of(&self.fields, *task, clock));
        let handler = self.handler;
        let mut clock = clock;
        handler.run(task, |polled| {
            let running = polled == Poll::Pending;
            self.record = if running { record } else { IDLE };
            let wait = if running { recorder::wait() } else { 0 };
            self.fold(0, clock, true, NO_TASK, wait);
            self.at += 1;
            match self.calls.get(self.at) {
                Some(Timed {
                    call: Call::Step,
                    clock: next,
                }) if running => {
                    clock = *next;
                    recorder::begin(clock);
                    true
                }
                _ => false,
            }
        });
    }
}

/// The checksum of the answers to the calls. Each must be one that is accepted.
#[inline(never)]
pub fn run<H: Handler + 'static>(handler: &'static H, lamp: &Fields, calls: &[Timed]) -> u64 {
    handler.load(lamp);
    let mut side = Side {
        handler,
        fields: *lamp,
        record: IDLE,
        sums: Sums::default(),
        calls,
        at: 0,
    };
    while let Some(Timed { call, clock }) = calls.get(side.at) {
        match call {
            Call::Command(command, on_off, mask, over) => {
                recorder::begin(*clock);
                let (result, given) = handler.command(*on_off, command, *mask, *over);
                let number = if result.is_ok() { 0 } else { u64::MAX };
                let task = given.map_or(NO_TASK, |t| words::of_task(&t));
                side.fold(number, *clock, true, task, 0);
                side.at += 1;
            }
            Call::Start(task) => side.transition(task, *clock),
            Call::Step => unreachable!("a step of an idle lamp"),
            Call::Halt => {
                side.record = IDLE;
                side.fold(0, *clock, false, NO_TASK, 0);
                side.at += 1;
            }
            Call::Nothing => {
                recorder::begin(*clock);
                // As in a command: what it gives is not known beforehand.
                let given: Option<Task> = black_box(None);
                let task = given.map_or(NO_TASK, |t| words::of_task(&t));
                let before = side.fields.clock;
                side.fold(UNREADABLE.into(), before, true, task, 0);
                side.at += 1;
            }
        }
    }
    side.sums.b
}
