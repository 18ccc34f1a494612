//! The layer by hand.

use yemkruos::color::cons_attribute;
use yemkruos::hue;
use yemkruos::matter::{self, CLOCK_LIMIT};
use yemkruos::notices::{Notices, Numeral};
use yemkruos::tasks::{ColorTemperatureMoveTo, HueSaturationMoveTo};
use yemkruos::{
    ALL_FEATURES, Band, Bounds, Call, Command, DirectionEnum, Lamp, NewLamp, Notice, OnOff,
    Refusal, Row, Task, lowest_running, notices_at, passes_through, plain_passes_through,
    running_count,
};

const NEW: NewLamp = NewLamp {
    bounds: Bounds { min: 153, max: 500 },
    features: ALL_FEATURES,
    options: 0,
    clock: 5000,
};

#[test]
fn numbers_and_names_agree() {
    let refusals = Refusal::ALL.iter().map(|r| (r.number(), *r));
    // 3 is free, and 11 to 17 are not the lamp's.
    assert!(
        refusals
            .clone()
            .map(|(n, _)| n)
            .eq([1, 2, 4, 5, 6, 7, 8, 9, 10, 18])
    );
    assert!(
        refusals
            .into_iter()
            .all(|(n, r)| Refusal::of_number(n) == Some(r) && n == u8::from(r))
    );
    let notices = Notice::ALL.iter().map(|n| (n.number(), *n));
    assert!(notices.clone().map(|(n, _)| n).eq(1..=18));
    assert!(
        notices
            .into_iter()
            .all(|(n, r)| Notice::of_number(n) == Some(r) && n == u8::from(r))
    );
    assert_eq!(matter::number_of(Ok(())), 0);
    assert_eq!(Refusal::of_number(0), None);
    assert_eq!(Notice::of_number(0), None);
}

#[test]
fn refusals_have_their_causes() {
    let late = NewLamp {
        clock: CLOCK_LIMIT + 1,
        ..NEW
    };
    assert_eq!(late.make(), Err(Refusal::Clock));
    let crossed = NewLamp {
        bounds: Bounds { min: 2, max: 1 },
        ..NEW
    };
    assert_eq!(crossed.make(), Err(Refusal::CrossedBounds));

    let lamp = NEW.make().unwrap();
    let send = |command: Command| lamp.command(command, OnOff::On, 5000).map(|_| ());
    let hue = |hue| Command::move_to_hue(hue, DirectionEnum::Up, 2);
    assert_eq!(send(hue(255)), Err(Refusal::ConstraintError));
    assert_eq!(
        send(Command::move_saturation(matter::MoveModeEnum::Up, 0)),
        Err(Refusal::InvalidCommand)
    );
    let step = |size, min, max| {
        Command::step_color_temperature(matter::StepModeEnum::Up, size, 0, min, max)
    };
    assert_eq!(send(step(0, 400, 300)), Err(Refusal::InvalidCommand));
    let given = |command| lamp.command(command, OnOff::On, 5000).unwrap().given_task();
    assert_eq!(given(step(1, 400, 300)), given(step(1, 0, 0)));
    assert_eq!(lamp.step(5000).result(), Err(Refusal::StepWhileIdle));
    assert_eq!(lamp.halt(4999).result(), Err(Refusal::Clock));
    let stop = lamp
        .command(Command::stop_move_step(), OnOff::On, 5000)
        .unwrap()
        .given_task();
    assert_eq!(
        lamp.start(stop.unwrap(), 5000).result(),
        Err(Refusal::InvalidTask)
    );
    let mut broken = lamp;
    broken.color.saturation = 255;
    assert_eq!(broken.halt(5000).result(), Err(Refusal::InvalidLamp));
}

/// New bounds at a place: mireds outside move, a mired task stands in their way.
#[test]
fn bounds_are_set_at_a_place() {
    let row = row_of_three();
    let bounds = Bounds { min: 300, max: 400 };
    let answer = row.set_bounds_at(2, bounds, 5000).unwrap();
    assert!(answer.notices.iter().eq([Notice::ColorTemperatureMireds]));
    assert_eq!((answer.wait, answer.given_task()), (0, None));
    let lamp = answer.row.lamps[2];
    assert_eq!(lamp, row.lamps[2].set_bounds(bounds, 5000).lamp);
    assert_eq!((lamp.bounds, lamp.color.mireds), (bounds, 300));
    let task = Task::ColorTemperatureMoveTo(ColorTemperatureMoveTo {
        target: 400,
        ms: 500,
    });
    let warming = answer.row.start_at(2, task, 5000).unwrap().row;
    let refused = |bounds, clock| warming.set_bounds_at(2, bounds, clock).unwrap_err();
    assert_eq!(refused(bounds, 5000), Refusal::MiredTaskRuns);
    let crossed = Bounds { min: 2, max: 1 };
    assert_eq!(refused(crossed, 5000), Refusal::CrossedBounds);
    assert_eq!(refused(crossed, 4999), Refusal::Clock);
}

/// A lamp that is off skips a command, unless ExecuteIfOff is set.
#[test]
fn options_are_heeded() {
    let lamp = NEW.make().unwrap();
    let command = Command::move_to_hue(128, DirectionEnum::Shortest, 2);
    let sent = |request: matter::Request| lamp.command(request, OnOff::Off, 5000).unwrap();
    assert_eq!(sent(command.into()).given_task(), None);
    assert!(sent(command.with_options(1, 1)).given_task().is_some());
}

/// A band of CurrentHue has the stored hues that show it, and no others.
#[test]
fn a_band_of_shown_hues_is_what_shows_them() {
    for (low, high) in [
        (64, 106),
        (0, 0),
        (253, 253),
        (254, 254),
        (240, 254),
        (240, 15),
        (254, 0),
    ] {
        let band = Band::of_current_hue(low, high);
        for stored in 0..=u16::MAX {
            let shown = hue::current_hue(stored);
            let named = if low <= high {
                (low..=high).contains(&shown)
            } else {
                low <= shown || shown <= high
            };
            assert_eq!(
                passes_through(stored, stored, DirectionEnum::Up, band),
                named,
                "{low} to {high}: {stored}"
            );
        }
    }
    for (low, high) in [(255, 255), (255, 254), (254, 255)] {
        assert_eq!(
            Band::of_current_hue(low, high),
            Band::of_current_hue(254, 254)
        );
    }
}

/// A lamp's CurrentHue is the upper byte of its hue, at most 254.
#[test]
fn a_lamp_never_shows_255() {
    let mut lamp = NEW.make().unwrap();
    for stored in 0..=u16::MAX {
        lamp.color.hue = stored;
        let upper = stored.to_be_bytes()[0];
        assert_eq!(lamp.current_hue(), upper.min(254));
    }
}

#[test]
fn only_two_ways_to_cyan_avoid_green() {
    let green = Band::of_current_hue(64, 106);
    assert_eq!((green.low, green.high), (16_384, 27_391));
    for (direction, passes) in [
        (DirectionEnum::Shortest, true),
        (DirectionEnum::Longest, false),
        (DirectionEnum::Up, true),
        (DirectionEnum::Down, false),
    ] {
        assert_eq!(passes_through(0, 32_768, direction, green), passes);
        assert_eq!(plain_passes_through(0, 128, direction, green), passes);
    }
}

/// Three lamps, the first of which turns.
fn row_of_three() -> Row {
    let row = Row::new(3, [NEW.make().unwrap(); 32]);
    let to_cyan = Command::move_to_hue(128, DirectionEnum::Down, 2);
    let answer = row.command_at(0, to_cyan, OnOff::On, 5000).unwrap();
    let task = answer.given_task().unwrap();
    answer.row.start_at(0, task, 5000).unwrap().row
}

/// Why a row call with a slice of this size is refused: nothing is changed then.
fn row_refusal(row: Row, size: usize, clock: u64) -> Option<Refusal> {
    let lent = vec![7; size];
    let mut bytes = lent.clone();
    let stepped = row.step(&mut bytes, clock);
    let refusal = stepped.result().err();
    if refusal.is_some() {
        assert_eq!((stepped.row, stepped.wait, bytes), (row, 0, lent));
    }
    refusal
}

#[test]
fn a_row_call_is_refused_in_its_order() {
    let row = row_of_three();
    let broken = |row: Row| {
        let invalid = Lamp {
            clock: u64::MAX,
            ..row.lamps[2]
        };
        row.with_lamp(2, invalid)
    };
    for count in [33, 255] {
        assert_eq!(
            row_refusal(
                Row {
                    count,
                    ..broken(row)
                },
                0,
                0
            ),
            Some(Refusal::InvalidLamp)
        );
    }
    assert_eq!(row_refusal(broken(row), 47, 0), Some(Refusal::ShortSlice));
    assert_eq!(row_refusal(broken(row), 48, 0), Some(Refusal::InvalidLamp));
    // An idle lamp's clock counts.
    let late = row
        .call_at(2, Call::Halt { clock: 5101 })
        .result()
        .unwrap()
        .row;
    assert_eq!(row_refusal(late, 48, 5100), Some(Refusal::Clock));
    assert_eq!(row_refusal(late, 48, 5101), None);
    let none = Row::new(0, row.lamps);
    assert_eq!(row_refusal(none, 0, CLOCK_LIMIT + 1), Some(Refusal::Clock));
    assert_eq!(row_refusal(none, 0, CLOCK_LIMIT), None);
    assert_eq!(row_refusal(Row::new(32, row.lamps), 512, 5100), None);
}

#[test]
fn a_row_call_leaves_idle_lamps_and_bytes_behind_the_row() {
    let row = row_of_three();
    let mut bytes = [7; 50];
    let stepped = row.step(&mut bytes, 5100).result().unwrap();
    assert_eq!(stepped.row.lamps[1..], row.lamps[1..]);
    assert_eq!(stepped.row.lamps[0], row.lamps[0].step(5100).lamp);
    assert!(notices_at(&bytes, 0).eq(row.lamps[0].step(5100).notices));
    assert_eq!(
        (&bytes[16..48], &bytes[48..]),
        ([0; 32].as_slice(), [7, 7].as_slice())
    );
    // The last step: nothing runs any more.
    assert_eq!(stepped.row.step(&mut bytes, 5200).result().unwrap().wait, 0);
}

#[test]
fn a_place_that_is_not_there_is_refused_or_left() {
    let row = row_of_three();
    for place in [3, 31, 32, 255] {
        let halt = Call::Halt { clock: 5000 };
        let answer = row.call_at(place, halt);
        assert_eq!((answer.result(), answer.row), (Err(Refusal::NoPlace), row));
        let wide = Row { count: 33, ..row };
        assert_eq!(
            wide.call_at(place, halt).result(),
            Err(Refusal::InvalidLamp)
        );
        assert_eq!(row.with_lamp(place, row.lamps[0]), row);
    }
    let wide = Row { count: 255, ..row };
    assert_eq!(wide.with_lamp(31, row.lamps[0]).lamps[31], row.lamps[0]);
    assert_eq!(wide.with_lamp(32, row.lamps[0]), wide);
}

/// What reading each lamp of the row gives: how many run, and the lowest place.
fn read_each(row: &Row) -> (u32, Option<u8>) {
    let runs: Vec<u8> = (0..row.count)
        .filter(|place| row.lamps[usize::from(*place)].running.is_running())
        .collect();
    let lowest = runs.first().map_or(None, |place| Some(*place));
    (runs.len() as u32, lowest)
}

fn readings(mask: u32) -> (u32, Option<u8>) {
    (running_count(mask), lowest_running(mask))
}

/// A fade of so many milliseconds.
fn fade(ms: u32) -> Task {
    Task::HueSaturationMoveTo(HueSaturationMoveTo {
        delta: Some(100),
        saturation: None,
        ms,
        enhanced: true,
    })
}

/// One lamp turns; the wrong bit is its own, another's, that at the count, or one past it.
#[test]
fn a_wrong_mask_is_refused_in_its_order() {
    let row = row_of_three();
    assert_eq!(row.running_mask, 1);
    for bit in [0, 1, 2, 3, 4, 30, 31] {
        let wrong = Row {
            running_mask: row.running_mask ^ (1 << bit),
            ..row
        };
        // After 9, before the clock, and by itself.
        assert_eq!(row_refusal(wrong, 47, 0), Some(Refusal::ShortSlice));
        assert_eq!(row_refusal(wrong, 48, 0), Some(Refusal::InvalidLamp));
        assert_eq!(row_refusal(wrong, 48, 5100), Some(Refusal::InvalidLamp));
        let wide = Row { count: 33, ..wrong };
        assert_eq!(row_refusal(wide, 0, 5100), Some(Refusal::InvalidLamp));

        // After 10, before 4 and 7 and by itself, at whichever place.
        let (now, before) = (Call::Halt { clock: 5000 }, Call::Halt { clock: 4999 });
        let step = Call::Step { clock: 5100 };
        for (place, call, cause) in [
            (3, now, Refusal::NoPlace),
            (31, now, Refusal::NoPlace),
            (0, now, Refusal::InvalidLamp),
            (1, now, Refusal::InvalidLamp),
            (2, now, Refusal::InvalidLamp),
            (2, before, Refusal::InvalidLamp),
            (1, step, Refusal::InvalidLamp),
        ] {
            let answer = wrong.call_at(place, call);
            assert_eq!((answer.result().err(), answer.row), (Some(cause), wrong));
        }
        assert_eq!(
            wide.call_at(40, now).result(),
            Err(Refusal::InvalidLamp),
            "a count above 32 comes before the place"
        );
    }
}

#[test]
fn lamps_past_the_count_have_no_bit() {
    let row = row_of_three();
    let turns = row.start_at(2, fade(500), 5000).unwrap().row;
    assert_eq!(turns.running_mask, 0b101);
    assert_eq!(Row::new(2, turns.lamps).running_mask, 0b001);
    let fewer = Row { count: 2, ..turns };
    assert_eq!(row_refusal(fewer, 32, 5100), Some(Refusal::InvalidLamp));
    for count in [32, 33, 255] {
        let all = Row::new(count, [turns.lamps[0]; 32]);
        assert_eq!(all.running_mask, u32::MAX);
        assert_eq!(readings(all.running_mask), (32, Some(0)));
    }
    assert_eq!(Row::new(0, turns.lamps).running_mask, 0);
}

#[test]
fn readings_are_those_of_reading_each_lamp() {
    let mut row = Row::new(32, [NEW.make().unwrap(); 32]);
    assert_eq!(readings(row.running_mask), (0, None));
    for place in [31, 5, 17, 6] {
        let ms = 100 * u32::from(place);
        row = row.start_at(place, fade(ms), 5000).unwrap().row;
        assert_eq!(readings(row.running_mask), read_each(&row));
    }
    assert_eq!(readings(row.running_mask), (4, Some(5)));
    let mut bytes = [0; 512];
    for (clock, left) in [
        (5400, (4, Some(5))),
        (5500, (3, Some(6))),
        (5600, (2, Some(17))),
        (6700, (1, Some(31))),
        (8100, (0, None)),
    ] {
        row = row.step(&mut bytes, clock).result().unwrap().row;
        assert_eq!(
            (readings(row.running_mask), read_each(&row)),
            (left, left),
            "at {clock}"
        );
    }
}

/// At its own bit, whatever ran there before.
#[test]
fn a_start_that_is_done_at_once_clears_the_bit() {
    let row = row_of_three();
    let turns = row.start_at(1, fade(500), 5000).unwrap().row;
    assert_eq!(turns.running_mask, 0b011);
    let done = turns.start_at(0, fade(0), 5000).unwrap().row;
    assert_eq!((done.running_mask, read_each(&done).0), (0b010, 1));
    let idle = done.start_at(2, fade(0), 5000).unwrap().row;
    assert_eq!(idle.running_mask, 0b010);
    assert_eq!(idle.halt_at(1, 5000).unwrap().row.running_mask, 0);
    // A refused one leaves it.
    let refused = turns.call_at(
        0,
        Call::Start {
            task: fade(50),
            clock: 5000,
        },
    );
    assert_eq!(refused.result().err(), Some(Refusal::InvalidTask));
    assert_eq!(refused.row, turns);
}

#[test]
fn commands_never_change_the_mask() {
    let row = row_of_three();
    for place in 0..3 {
        for command in [
            Command::move_to_hue(128, DirectionEnum::Up, 2),
            Command::move_to_hue(0, DirectionEnum::Shortest, 0),
            Command::move_saturation(matter::MoveModeEnum::Stop, 0),
            Command::stop_move_step(),
        ] {
            for on_off in [OnOff::On, OnOff::Off, OnOff::NoHandler] {
                let answer = row.command_at(place, command, on_off, 5000).unwrap();
                assert_eq!(answer.row.running_mask, row.running_mask);
            }
        }
    }
}

/// The bit of the place follows the lamp; the others stay.
#[test]
fn a_lamp_that_is_put_brings_its_bit() {
    let row = row_of_three();
    let (turns, idle) = (row.lamps[0], row.lamps[1]);
    assert_eq!(row.with_lamp(2, turns).running_mask, 0b101);
    assert_eq!(row.with_lamp(0, idle).running_mask, 0);
    let wrong = Row {
        running_mask: 0b110,
        ..row
    };
    assert_eq!(wrong.with_lamp(2, turns).running_mask, 0b110);
    assert_eq!(wrong.with_lamp(1, idle).running_mask, 0b100);
}

/// Numbers that no cause and no notice has go where they went: into an answer by its number, and in front of a list.
#[test]
fn any_number() {
    let lamp = NEW.make().unwrap();
    for number in 0..=255 {
        let answer = lamp.numbered(number);
        assert_eq!(
            (answer.number, answer.lamp, answer.task, answer.wait),
            (number, lamp, None, 0)
        );
        assert_eq!(answer.notices, Notices::new());
        let list = cons_attribute(Numeral::new(), number, true, false, true).notices();
        assert_eq!(list.places[..4], [number, 6, 7, 14]);
    }
    for cause in Refusal::ALL {
        assert_eq!(
            lamp.refused(*cause).numbered(),
            lamp.numbered(cause.number())
        );
    }
    assert_eq!(lamp.unchanged(Ok(())).numbered(), lamp.numbered(0));
}
