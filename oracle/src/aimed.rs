//! A script, always the same, that meets each corner of `corners.rs` at least once.

use crate::guard::LIMIT;

const FRESH: &str = "new 153 500 31 0 5000";

/// A command of each kind, as `name`, `arguments`.
const COMMANDS: [(&str, &str); 15] = [
    ("move_to_hue", "128 0 20"),
    ("enhanced_move_to_hue", "1000 3 20"),
    ("move_hue", "1 5 0"),
    ("enhanced_move_hue", "3 500"),
    ("move_saturation", "1 5"),
    ("step_hue", "3 5 20"),
    ("enhanced_step_hue", "1 500 20"),
    ("step_saturation", "1 255 20"),
    ("move_to_saturation", "254 20"),
    ("move_to_hue_and_saturation", "200 100 20 0 0"),
    ("stop_move_step", ""),
    ("move_to_color_temperature", "1 20"),
    ("move_color_temperature", "1 5 0 0"),
    ("step_color_temperature", "3 5 20 0 0"),
    ("color_loop_set", "15 1 1 25 100"),
];

/// A task of each kind that runs on the fresh lamp, with its milliseconds where it ends.
const TASKS: [(&str, Option<u64>); 9] = [
    ("move_to 65280 - 7000 0", Some(7000)),
    ("move_to -33333 254 100 1", Some(100)),
    ("move_to - 100 3000 1", Some(3000)),
    ("hue_move 3 12345 1", None),
    ("sat_move 1 100", Some(2540)),
    ("ct_to 153 1000", Some(1000)),
    ("ct_move 100 0 65535", Some(2500)),
    ("ct_move -99 153 500", Some(980)),
    ("loop 1 25", None),
];

/// Tasks out of form, each in one way.
const BAD_TASKS: [&str; 22] = [
    "move_to 5 - 50 0",
    "move_to 5 - 6553600 0",
    "move_to 65536 - 100 0",
    "move_to -65536 - 100 0",
    "move_to 9223372036854775807 - 100 0",
    "move_to -9223372036854775808 - 100 0",
    "move_to 5 255 100 0",
    "move_to - - 100 0",
    "hue_move 1 0 0",
    "hue_move 1 65536 0",
    "hue_move 0 5 0",
    "sat_move 1 0",
    "sat_move 3 256",
    "sat_move 0 5",
    "ct_to 300 101",
    "ct_to 300 6553600",
    "ct_move 0 153 500",
    "ct_move 65536 153 500",
    "ct_move -65536 153 500",
    "ct_move 9223372036854775807 153 500",
    "ct_move -9223372036854775808 153 500",
    "stop",
];

/// Records out of form on the fresh lamp, each in one way.
const BAD_RECORDS: [&str; 37] = [
    "move_to 5000 0 0 5 - 50 0",
    "move_to 5000 0 0 5 - 6553600 0",
    "move_to 5000 0 0 65536 - 100 0",
    "move_to 5000 0 0 -65536 - 100 0",
    "move_to 5000 0 0 5 255 100 0",
    "move_to 5000 0 0 - - 100 0",
    "move_to 5000 0 0 5 - 0 0",
    "move_to 5000 0 255 5 - 100 0",
    "move_to 5001 0 0 5 - 100 0",
    "hue_move 5000 0 1 0 0",
    "hue_move 5000 0 1 65536 0",
    "hue_move 5000 0 0 5 0",
    "hue_move 5001 0 1 5 0",
    "sat_move 5000 0 1 0",
    "sat_move 5000 0 1 256",
    "sat_move 5000 0 0 5",
    "sat_move 5000 255 3 5",
    "sat_move 5001 0 1 5",
    "ct_to 5000 250 300 101",
    "ct_to 5000 250 300 6553600",
    "ct_to 5000 250 300 0",
    "ct_to 5000 152 300 100",
    "ct_to 5000 501 300 100",
    "ct_to 5000 250 152 100",
    "ct_to 5000 250 501 100",
    "ct_to 5001 250 300 100",
    "ct_move 5000 250 0 153 500",
    "ct_move 5000 250 65536 153 500",
    "ct_move 5000 250 -65536 153 500",
    "ct_move 5000 152 5 153 500",
    "ct_move 5000 501 5 153 500",
    "ct_move 5000 250 5 300 300",
    "ct_move 5000 250 5 301 300",
    "ct_move 5000 250 5 152 500",
    "ct_move 5000 250 5 153 501",
    "ct_move 5001 250 5 153 500",
    "loop 5001 0 1 25",
];

/// The fields of the fresh lamp with one of them, or two, out of form.
fn bad_fields() -> Vec<String> {
    let good = "153 500 5000 0 0 0 0 0 0 0 250 1 1 0 1 25 8960 0";
    let with = |changes: &[(usize, u64)]| {
        let mut words: Vec<String> = good.split(' ').map(str::to_string).collect();
        for (at, x) in changes {
            words[*at] = x.to_string();
        }
        words.join(" ")
    };
    let mut all = vec![
        with(&[(9, 255)]),
        with(&[(10, 152)]),
        with(&[(10, 501)]),
        with(&[(0, 251), (1, 250)]),
        with(&[(0, 500), (1, 153)]),
        with(&[(5, 5001)]),
        with(&[(6, 5001)]),
        with(&[(7, 5001)]),
        with(&[(2, LIMIT + 1)]),
        with(&[(2, u64::MAX)]),
        with(&[(9, 255), (10, 152)]),
    ];
    for mode in 0..3 {
        for emode in 0..4 {
            if mode != emode % 3 {
                all.push(with(&[(11, mode), (12, emode)]));
            }
        }
    }
    all
}

#[derive(Default)]
struct Lines(Vec<Vec<u8>>);

macro_rules! say {
    ($self:ident, $($x:tt)*) => {
        $self.0.push(format!($($x)*).into_bytes())
    };
}

pub fn lines() -> Vec<Vec<u8>> {
    let mut all = Lines::default();
    all.early();
    all.leaves();
    all.ends();
    all.loops();
    all.ties();
    all.bounds();
    all.clamps();
    all.clocks();
    all.off();
    all.form();
    all.order();
    all.setters();
    all.loop_command();
    all.between();
    all.targets();
    all.0
}

impl Lines {
    /// A command with empty arguments or not.
    fn command(&mut self, name: &str, on: &str, args: &str, tail: &str) {
        let gap = if args.is_empty() { "" } else { " " };
        say!(self, "cmd {name} {on} {args}{gap}{tail}");
    }

    /// Before any lamp; and what cannot be read, or only just.
    fn early(&mut self) {
        say!(self, "show");
        say!(
            self,
            "poke 153 500 5000 0 0 0 0 0 0 0 250 1 1 0 1 25 8960 0"
        );
        say!(self, "record idle");
        say!(self, "set hue 1 0 0 5000");
        say!(self, "start loop 1 25 5000");
        say!(self, "startlast 5000");
        say!(self, "step 5000");
        say!(self, "halt 5000");
        say!(self, "cmd stop_move_step on 0 0 5000");
        say!(self, "{FRESH}");
        say!(self, "startlast 5000");
        say!(self, "step 5000");
        for line in [
            "halt 5000\r",
            "halt\t5000",
            "halt  5000",
            " halt 5000",
            "halt 5000 ",
            "stop 5000",
            "halt",
            "halt 5000 0",
            "halt -1",
            "halt +5000",
            "halt 18446744073709551616",
            "halt 0005000",
            "set hue 65536 0 0 5000",
            "start move_to 00 -00 100 1 5000",
            "halt 5001",
            "cmd move_to_hue on 0 4 0 0 0 6000",
            "cmd move_hue on 2 1 0 0 0 6000",
            "cmd step_hue on 0 1 0 0 0 6000",
            "cmd color_loop_set on 1 3 0 0 0 0 0 6000",
        ] {
            say!(self, "{line}");
        }
        for long in [4094usize, 4095, 4096] {
            let zeros = "0".repeat(long - "leaf remaining 7 250 1".len());
            say!(self, "leaf remaining {zeros}7 250 1");
        }
    }

    fn leaves(&mut self) {
        for current in [0u16, 12345, 65535] {
            for up in [0, 1, 32767, 32768, 32769, 65535] {
                for direction in 0..4 {
                    let target = current.wrapping_add(up);
                    say!(self, "leaf delta {current} {target} {direction}");
                }
            }
        }
        let times = [
            (0u64, 0u64),
            (0, 1000),
            (0, 1001),
            (0, 1100),
            (5, 0),
            (50, 6000),
            (50, 6001),
            (50, 6100),
            (60, 5000),
            (61, 5000),
            (0, 3999),
            (0, 6_553_500),
            (0, 6_553_501),
            (0, 6_553_600 + 1100),
            (9, u64::MAX),
        ];
        for (old, ms) in times {
            say!(self, "leaf remaining {old} {ms} 0");
            say!(self, "leaf remaining {old} {ms} 1");
        }
        for emode in 0..5 {
            say!(self, "leaf mode_of {emode}");
        }
        for stored in [0, 255, 256, 65023, 65024, 65279, 65280, 65535, 65536] {
            say!(self, "leaf shown {stored}");
        }
        for bits in 0..8 {
            let (option, mask, over) = (bits >> 2, bits >> 1 & 1, bits & 1);
            for on in ["on", "off", "none"] {
                say!(self, "leaf leave {on} {option} {mask} {over}");
            }
        }
    }

    fn ends(&mut self) {
        for (task, end) in TASKS {
            for elapsed in match end {
                Some(end) => vec![
                    vec![1, end / 2, end - 1, end],
                    vec![end + 1],
                    vec![end + 700],
                ],
                None => vec![vec![0, 1, 99, 100, 1000, 5301, 12345]],
            } {
                say!(self, "{FRESH}");
                say!(self, "start {task} 5000");
                for e in elapsed {
                    say!(self, "step {}", 5000 + e);
                }
            }
        }
        // Done at the start: time 0, no way, at or past the bound, lo not below hi.
        for task in [
            "move_to 100 50 0 1",
            "move_to 0 0 1100 1",
            "move_to - 0 100 0",
            "ct_to 400 0",
            "ct_to 250 1100",
            "sat_move 3 5",
            "ct_move 5 153 250",
            "ct_move -5 250 500",
            "ct_move 100 153 200",
            "ct_move -1 300 400",
            "ct_move 5 300 300",
            "ct_move -5 301 300",
            "ct_move 5 500 0",
        ] {
            say!(self, "{FRESH}");
            say!(self, "start {task} 5000");
            say!(self, "step 5100");
        }
        // From before the other bound: a jump, and on.
        for task in ["ct_move 5 300 400", "ct_move -5 200 240"] {
            say!(self, "{FRESH}");
            say!(self, "start {task} 5000");
            say!(self, "step 5100");
        }
        // Down in saturation, and past 65,535.
        for (task, elapsed) in [
            ("sat_move 3 7", [333, 28_428, 28_571, 28_572]),
            ("sat_move 3 7", [333, 28_430, 28_570, 28_573]),
            ("sat_move 3 7", [333, 28_431, 28_500, 28_574]),
            ("move_to 1000 - 1000 0", [333, 900, 999, 1000]),
            ("move_to - 1 700 0", [333, 334, 699, 700]),
        ] {
            let rest = "0 0 0 1 25 8960 0";
            say!(self, "lamp 153 500 5000 0 0 0 0 0 65000 200 250 {rest}");
            say!(self, "start {task} 5000");
            for e in elapsed {
                say!(self, "step {}", 5000 + e);
            }
        }
        // The full time, then 0: told at the start where it is more than 10 apart.
        for remaining in [9, 10, 11, 29, 30, 31] {
            let rest = "0 0 0 0 0 250 1 1 0 1 25 8960 0";
            for task in ["move_to 5 - 2000 0", "ct_to 300 2000", "move_to 0 - 2000 0"] {
                say!(self, "lamp 153 500 5000 0 {remaining} {rest}");
                say!(self, "start {task} 5000");
            }
        }
    }

    fn loops(&mut self) {
        for dir in 0..2 {
            for seconds in [1u64, 0, 66] {
                let turn = 1000 * if seconds == 0 { 25 } else { seconds };
                say!(self, "{FRESH}");
                say!(self, "set hue 300 0 0 5000");
                say!(self, "start loop {dir} {seconds} 5000");
                let mut at = vec![0, 1, 384, 385];
                for turns in [1u64, 2, 7] {
                    at.extend([
                        turns * 65536 - 386,
                        turns * 65536 - 385,
                        turns * 65536 - 384,
                    ]);
                    at.extend([0, 1, 384, 385, 386].map(|x| turns * 65536 + x));
                }
                for gone in at {
                    say!(self, "step {}", 5000 + (gone * turn).div_ceil(65536));
                }
            }
        }
    }

    fn ties(&mut self) {
        for (hue, plain) in [(0u16, 128u8), (77 * 256, 205), (200 * 256, 72)] {
            say!(self, "{FRESH}");
            say!(self, "set hue {hue} 0 0 5000");
            for target in [plain, (hue >> 8) as u8] {
                for direction in 0..4 {
                    say!(self, "cmd move_to_hue on {target} {direction} 2 0 0 5000");
                }
                say!(
                    self,
                    "cmd move_to_hue_and_saturation on {target} 9 2 0 1 0 0 5000"
                );
            }
            for up in [0, 32767, 32768, 32769] {
                let target = hue.wrapping_add(up);
                for direction in 0..4 {
                    say!(
                        self,
                        "cmd enhanced_move_to_hue none {target} {direction} 2 0 0 5000"
                    );
                }
                say!(
                    self,
                    "cmd move_to_hue_and_saturation on 255 9 2 1 {target} 0 0 5000"
                );
            }
        }
    }

    fn bounds(&mut self) {
        for (min, max) in [(251, 250), (1, 0), (65535, 0), (500, 153), (250, 250)] {
            say!(self, "new {min} {max} 31 0 5000");
        }
        say!(self, "{FRESH}");
        for (lo, hi) in [(400, 300), (301, 300), (300, 300), (65535, 0), (0, 152)] {
            let args = format!("1 5 20 {lo} {hi}");
            self.command("step_color_temperature", "on", &args, "0 0 5000");
            self.command("step_color_temperature", "off", &args, "0 0 5000");
            self.command("step_color_temperature", "off", &args, "1 1 5000");
            let args = format!("3 0 20 {lo} {hi}");
            self.command("step_color_temperature", "on", &args, "0 0 5000");
            let args = format!("1 5 {lo} {hi}");
            self.command("move_color_temperature", "on", &args, "0 0 5000");
            say!(self, "startlast 5000");
        }
    }

    fn clamps(&mut self) {
        let rest = "0 0 0 0 777 77 250 1 1 0 1 25 8960 0";
        say!(self, "lamp 153 500 5000 0 {rest}");
        for args in [
            "1 176 20", "1 177 20", "1 178 20", "3 77 20", "3 78 20", "3 255 20",
        ] {
            self.command("step_saturation", "on", args, "0 0 5000");
            say!(self, "startlast 5000");
        }
        for mireds in [1, 152, 153, 500, 501, 65535] {
            let args = format!("{mireds} 20");
            self.command("move_to_color_temperature", "on", &args, "0 0 5000");
            say!(self, "start ct_to {mireds} 2000 5000");
        }
        for limits in ["0 0", "200 300", "152 501", "1 65535"] {
            for step in ["1 1", "3 1", "1 65535", "3 65535"] {
                let args = format!("{step} 20 {limits}");
                self.command("step_color_temperature", "on", &args, "0 0 5000");
                let args = format!("{step} {limits}");
                self.command("move_color_temperature", "on", &args, "0 0 5000");
                say!(self, "startlast 5000");
            }
        }
        for features in 0..32 {
            say!(self, "new 153 500 {features} 0 5000");
        }
        for (min, max) in [(251, 65535), (0, 249), (249, 251), (300, 400), (100, 200)] {
            say!(self, "new {min} {max} 31 0 5000");
        }
    }

    fn clocks(&mut self) {
        for clock in [LIMIT, LIMIT + 1, u64::MAX] {
            say!(self, "new 153 500 31 0 {clock}");
        }
        for call in [
            "cmd move_to_hue on 128 0 20 0 0",
            "start move_to 500 - 2000 0",
            "step",
            "halt",
            "set hue 7 0 1",
        ] {
            say!(self, "{FRESH}");
            say!(self, "start hue_move 1 500 0 5000");
            for clock in [4999, 5000, LIMIT + 1, u64::MAX, LIMIT] {
                say!(self, "{call} {clock}");
            }
        }
        for (task, _) in TASKS {
            say!(self, "new 153 500 31 0 0");
            say!(self, "start {task} 0");
            say!(self, "step {LIMIT}");
        }
    }

    fn off(&mut self) {
        for option in 0..2 {
            say!(self, "new 153 500 31 {option} 5000");
            for (name, args) in COMMANDS {
                for (mask, over) in [(0, 0), (0, 1), (1, 0), (1, 1), (254, 1)] {
                    self.command(name, "off", args, &format!("{mask} {over} 5000"));
                }
                self.command(name, "none", args, "1 0 5000");
            }
        }
        for (name, args) in [
            ("move_hue", "0 0 0"),
            ("enhanced_move_hue", "0 0"),
            ("move_saturation", "0 0"),
            ("move_color_temperature", "0 0 0 0"),
        ] {
            self.command(name, "on", args, "0 0 5000");
            self.command(name, "off", args, "1 0 5000");
        }
    }

    fn form(&mut self) {
        for fields in bad_fields() {
            for call in [
                "cmd stop_move_step on 0 0 6000",
                "start loop 1 25 6000",
                "step 6000",
                "halt 6000",
                "set hue 1 0 0 6000",
            ] {
                say!(self, "{FRESH}");
                say!(self, "start loop 1 25 5000");
                say!(self, "poke {fields}");
                say!(self, "{call}");
            }
        }
        say!(self, "{FRESH}");
        for record in BAD_RECORDS {
            say!(self, "record {record}");
            say!(self, "step 5500");
            say!(self, "halt 5500");
        }
        say!(self, "record ct_to 5001 152 501 101");
        say!(self, "step 6000");
        say!(self, "{FRESH}");
        for task in BAD_TASKS {
            say!(self, "start {task} 5000");
        }
        say!(self, "start move_to 65536 255 50 0 5000");
        for task in [
            "move_to 65535 - 6553500 0",
            "move_to -65535 254 100 1",
            "hue_move 3 65535 0",
            "sat_move 1 255",
            "ct_to 300 6553500",
            "ct_move 65535 0 65535",
            "ct_move -65535 0 65535",
            "ct_move 1 0 0",
        ] {
            say!(self, "start {task} 5000");
            say!(self, "step 5001");
            say!(self, "{FRESH}");
        }
    }

    fn order(&mut self) {
        say!(self, "new 500 153 31 0 {}", LIMIT + 1);
        say!(self, "{FRESH}");
        // 255 and rate 0, also where limits cross, each also with a clock that goes back.
        let refused = [
            ("move_to_hue", "255 0 2"),
            ("move_to_saturation", "255 2"),
            ("move_to_hue_and_saturation", "255 9 2 0 0"),
            ("move_to_hue_and_saturation", "0 255 2 1 0"),
            ("move_to_color_temperature", "0 2"),
            ("move_hue", "1 0 0"),
            ("enhanced_move_hue", "1 0"),
            ("move_saturation", "3 0"),
            ("move_color_temperature", "1 0 0 0"),
            ("step_hue", "1 0 2"),
            ("enhanced_step_hue", "3 0 2"),
            ("step_saturation", "1 0 2"),
            ("step_color_temperature", "1 0 2 400 300"),
            ("step_color_temperature", "1 5 2 400 300"),
        ];
        for (name, args) in refused {
            self.command(name, "on", args, "0 0 5000");
            self.command(name, "off", args, "0 0 5000");
            self.command(name, "on", args, "0 0 4999");
        }
        say!(self, "start stop 4999");
        say!(self, "step 4999");
        say!(self, "lamp {}", bad_fields()[0]);
        for (name, args) in refused {
            self.command(name, "on", args, "0 0 5000");
        }
        for clock in [4999, LIMIT + 1] {
            say!(self, "cmd stop_move_step on 0 0 {clock}");
            say!(self, "start loop 1 25 {clock}");
            say!(self, "start stop {clock}");
            say!(self, "halt {clock}");
            say!(self, "set ct 200 0 {clock}");
            say!(self, "step {clock}");
        }
        say!(self, "start stop 5000");
        say!(self, "record loop 5000 0 1 25");
        say!(self, "step 4999");
    }

    fn setters(&mut self) {
        for active in 0..2 {
            for emode in 0..4 {
                let mode = emode % 3;
                for (name, old, tail) in [("hue", 777, " 1"), ("sat", 77, ""), ("ct", 250, "")] {
                    for (new, end, clock) in [
                        (old, 0, 5000),
                        (old, 1, 5000),
                        (old + 1, 0, 5999),
                        (old + 2, 0, 6000),
                        (old + 3, 0, 6999),
                        (old + 4, 0, 7000),
                        (old + 5, 1, 7000),
                    ] {
                        if new == old && end == 0 {
                            let stamps = "5000 5000 5000 777 77 250";
                            let rest = format!("{mode} {emode} {active} 1 25 8960 0");
                            say!(self, "lamp 153 500 5000 0 0 {stamps} {rest}");
                        }
                        say!(self, "set {name} {new} {end}{tail} {clock}");
                    }
                }
            }
        }
        say!(self, "set ct 501 0 7000");
        say!(self, "{FRESH}");
        say!(self, "set sat 255 0 7000");
    }

    fn loop_command(&mut self) {
        for action in 0..3 {
            for active in 0..2 {
                let rest = format!("1 1 {active} 1 25 8960 400");
                for flags in [15, 1, 0, 2, 4, 8, 14, 255] {
                    say!(self, "lamp 153 500 5000 0 0 0 0 0 777 77 250 {rest}");
                    say!(self, "start hue_move 1 500 0 5000");
                    say!(
                        self,
                        "cmd color_loop_set on {flags} {action} 0 0 100 0 0 5000"
                    );
                    say!(self, "startlast 5000");
                    say!(self, "step 5100");
                }
            }
        }
    }

    fn between(&mut self) {
        say!(self, "{FRESH}");
        say!(self, "cmd move_to_hue on 128 0 2 0 0 5000");
        say!(self, "startlast 5000");
        say!(self, "step 5100");
        say!(self, "startlast 5100");
        say!(
            self,
            "poke 153 500 5100 0 2 0 0 0 9 9 250 0 3 1 1 25 8960 0"
        );
        say!(self, "step 5200");
        say!(self, "halt 5200");
        say!(self, "step 5300");
        say!(self, "show");
    }

    /// A mired target outside the bounds, to its end.
    fn targets(&mut self) {
        for mireds in [1, 65535] {
            say!(self, "{FRESH}");
            say!(self, "start ct_to {mireds} 2000 5000");
            say!(self, "step 6000");
            say!(self, "step 7000");
        }
    }
}
