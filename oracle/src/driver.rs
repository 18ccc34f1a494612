//! A child of the source's module, and so within reach of its private functions and types.
//! It runs them on plain data and decides nothing.

use std::pin::{pin, Pin};
use std::task::{Context as TaskContext, Poll, Waker};

use super::*;
use crate::data::{self, Command, Fields, OnOff};
use crate::recorder;

/// A transition that runs.
pub type Running = Pin<Box<dyn Future<Output = ()>>>;

/// The source's handler for one pair of physical bounds.
pub trait Handler {
    fn load(&self, fields: &Fields);
    fn store(&self, fields: &mut Fields);
    fn command(
        &self,
        on_off: OnOff,
        command: &Command,
        mask: u8,
        over: u8,
    ) -> (Result<(), Error>, Option<data::Task>);
    /// The transition of a task in form, not polled yet.
    fn transition(&'static self, task: &data::Task) -> Running;
    /// Polls a task's transition, at its start and then once a step, as long as `more` says so.
    /// It stands on the stack, as it does in the source's dispatcher. For measurements.
    fn run(&'static self, task: &data::Task, more: impl FnMut(Poll<()>) -> bool)
    where
        Self: Sized;
    fn set_hue(&self, new: u16, end: bool, enhanced: bool);
    fn set_saturation(&self, new: u8, end: bool);
    fn set_color_temperature(&self, new: u16, end: bool);
    fn should_continue(&self, on_off: OnOff, options: u8, mask: u8, over: u8) -> bool;
    /// The attribute as it is read where this hue is stored.
    fn current_hue(&self, stored: u16) -> u8;
}

type Lamp<H> = ColorControlHandler<'static, H, NoOnOff, NoLevelControl>;

const ENDPOINT: EndptId = 1;

struct Context;
static CONTEXT: Context = Context;

impl AttrChangeNotifier for Context {
    fn notify_attr_changed(&self, endpoint: EndptId, cluster: ClusterId, attr: AttrId) {
        assert!(endpoint == ENDPOINT && cluster == FULL_CLUSTER.id);
        // A chain of tests, which the compiler follows where it knows the attribute.
        macro_rules! numbered {
            ($($number:literal $name:ident,)*) => {
                $(if attr == AttributeId::$name as AttrId {
                    return recorder::notice($number);
                })*
            };
        }
        numbered! {
            1 RemainingTime,
            2 CurrentHue,
            3 EnhancedCurrentHue,
            4 CurrentSaturation,
            5 ColorTemperatureMireds,
            6 ColorMode,
            7 EnhancedColorMode,
            8 ColorLoopActive,
            9 ColorLoopDirection,
            10 ColorLoopTime,
            11 ColorLoopStartEnhancedHue,
            12 ColorLoopStoredEnhancedHue,
        }
        panic!("an attribute without a number");
    }

    fn notify_cluster_changed(&self, _: EndptId, _: ClusterId) {
        panic!("the whole cluster changed");
    }
}

impl HandlerContext for Context {
    fn kv(&self) -> impl KvBlobStoreAccess {}
}

impl InvokeContext for Context {}

impl ReadContext for Context {}

struct Scenes;
static SCENES: Scenes = Scenes;

impl SceneInvalidator for Scenes {
    fn scenable_attribute_changed(&self, endpoint: EndptId) {
        assert!(endpoint == ENDPOINT);
        recorder::notice(recorder::SCENES);
    }
}

static ON_OFF: OnOffHandler<'static, NoOnOff, NoLevelControl> = OnOffHandler::new();

struct Device<const MIN: u16, const MAX: u16>;

impl<const MIN: u16, const MAX: u16> ColorControlHooks for Device<MIN, MAX> {
    const CLUSTER: Cluster<'static> = FULL_CLUSTER.with_features(31);
    const COLOR_CAPABILITIES: ColorCapabilitiesBitmap =
        ColorCapabilitiesBitmap::from_bits_truncate(31);
    const COLOR_TEMP_PHYSICAL_MIN_MIREDS: u16 = MIN;
    const COLOR_TEMP_PHYSICAL_MAX_MIREDS: u16 = MAX;

    fn set_device_color(&self, target: SetDeviceColor) -> Result<(), ()> {
        recorder::notice(match target {
            SetDeviceColor::HueSaturation { .. } => recorder::DEVICE_HUE_SATURATION,
            SetDeviceColor::ColorTemperature { .. } => recorder::DEVICE_MIREDS,
            SetDeviceColor::Xy { .. } => panic!("the device was written with XY"),
        });
        Ok(())
    }
}

fn made<const MIN: u16, const MAX: u16>() -> &'static dyn Handler {
    direct::<MIN, MAX>()
}

/// The handler by its own type, so that a call of it goes through no table.
pub fn direct<const MIN: u16, const MAX: u16>() -> &'static impl Handler {
    Box::leak(Box::new(
        Lamp::<Device<MIN, MAX>>::new(Dataver::new(0), ENDPOINT, 0, Device)
            .with_scene_invalidator(&SCENES),
    ))
}

macro_rules! pairs {
    (drawn { $($min:literal $max:literal;)* } besides { $($least:literal $most:literal;)* }) => {
        /// The physical bounds are constants of a trait, so each pair is compiled by itself. Of these the scripts draw.
        pub const PAIRS: &[(u16, u16)] = &[$(($min, $max)),*];

        /// Those of the sample's lines alone.
        pub const BESIDES: &[(u16, u16)] = &[$(($least, $most)),*];

        /// In the order of both lists.
        pub fn handlers() -> Vec<&'static dyn Handler> {
            vec![$(made::<$min, $max>(),)* $(made::<$least, $most>(),)*]
        }
    };
}

pairs! {
    drawn {
        153 500;
        0 0;
        0 65535;
        65535 65535;
        1 1;
        1 65535;
        250 250;
        100 200;
        300 400;
        153 153;
        500 500;
        249 251;
        0 249;
        251 65535;
        0 1;
        0 250;
        250 65535;
        249 249;
        251 251;
        249 250;
        250 251;
        65534 65535;
        1 2;
        1 65279;
        65279 65535;
        154 370;
        100 1000;
        150 600;
        0 500;
        500 65535;
        1 254;
        255 256;
        200 300;
        1000 2000;
        32767 32768;
        0 32767;
        32768 65535;
        245 255;
        2 65534;
        199 201;
    }
    besides {
        100 600;
        153 400;
        600 700;
    }
}

fn options(byte: u8) -> OptionsBitmap {
    OptionsBitmap::from_bits_retain(byte)
}

impl<H: ColorControlHooks + 'static> Lamp<H> {
    fn couple(&self, on_off: OnOff) {
        recorder::set_on(on_off == OnOff::On);
        self.on_off_handler.lock(|h| {
            h.set(match on_off {
                OnOff::None => None,
                OnOff::On | OnOff::Off => Some(&ON_OFF),
            })
        });
    }
}

impl<H: ColorControlHooks + 'static> Handler for Lamp<H> {
    fn load(&self, f: &Fields) {
        self.with_state(|s| {
            s.config.options = options(f.options);
            s.remaining_time = f.remaining;
            s.last_hue_notification = Instant::from_millis(f.stamp_hue);
            s.last_saturation_notification = Instant::from_millis(f.stamp_sat);
            s.last_color_temperature_notification = Instant::from_millis(f.stamp_mireds);
            s.enhanced_current_hue = f.hue;
            s.current_saturation = f.sat;
            s.color_temperature_mireds = f.mireds;
            s.color_mode = f.mode;
            s.enhanced_color_mode = f.emode;
            s.color_loop_active = f.loop_active;
            s.color_loop_direction = f.loop_dir;
            s.color_loop_time = f.loop_time;
            s.color_loop_start_enhanced_hue = f.loop_start;
            s.color_loop_stored_enhanced_hue = f.loop_stored;
        })
    }

    fn store(&self, f: &mut Fields) {
        self.with_state(|s| put(s, f))
    }

    fn command(
        &self,
        on_off: OnOff,
        command: &Command,
        mask: u8,
        over: u8,
    ) -> (Result<(), Error>, Option<data::Task>) {
        self.couple(on_off);
        self.task_signal.take();
        let (m, o) = (options(mask), options(over));
        let result = match *command {
            Command::MoveToHue(hue, direction, tenths) => {
                self.cmd_move_to_hue(hue, direction, tenths, m, o)
            }
            Command::EnhancedMoveToHue(hue, direction, tenths) => {
                self.cmd_enhanced_move_to_hue(hue, direction, tenths, m, o)
            }
            Command::MoveHue(mode, rate, enhanced) => self.cmd_move_hue(mode, rate, m, o, enhanced),
            Command::EnhancedMoveHue(mode, rate) => self.cmd_enhanced_move_hue(mode, rate, m, o),
            Command::MoveSaturation(mode, rate) => self.cmd_move_saturation(mode, rate, m, o),
            Command::StepHue(mode, step, tenths) => self.cmd_step_hue(mode, step, tenths, m, o),
            Command::EnhancedStepHue(mode, step, tenths) => {
                self.cmd_enhanced_step_hue(mode, step, tenths, m, o)
            }
            Command::StepSaturation(mode, step, tenths) => {
                self.cmd_step_saturation(mode, step, tenths, m, o)
            }
            Command::MoveToSaturation(sat, tenths) => self.cmd_move_to_saturation(sat, tenths, m, o),
            Command::MoveToHueAndSaturation(hue, sat, tenths, enhanced, enhanced_hue) => {
                self.cmd_move_to_hue_and_saturation(hue, sat, tenths, m, o, enhanced, enhanced_hue)
            }
            Command::StopMoveStep => self.cmd_stop_move_step(m, o),
            Command::MoveToColorTemperature(mireds, tenths) => {
                self.cmd_move_to_color_temperature(mireds, tenths, m, o)
            }
            Command::MoveColorTemperature(mode, rate, min, max) => {
                self.cmd_move_color_temperature(mode, rate, min, max, m, o)
            }
            Command::StepColorTemperature(mode, step, tenths, min, max) => {
                self.cmd_step_color_temperature(mode, step, tenths, min, max, m, o)
            }
            Command::ColorLoopSet(flags, action, direction, seconds, start_hue) => self
                .cmd_color_loop_set(
                    Context,
                    UpdateFlagsBitmap::from_bits_retain(flags),
                    action,
                    direction,
                    seconds,
                    start_hue,
                    m,
                    o,
                ),
        };
        (result, self.task_signal.take().map(given))
    }

    fn transition(&'static self, task: &data::Task) -> Running {
        Box::pin(self.task_manager(&CONTEXT, taken(task)))
    }

    #[inline(always)]
    fn run(&'static self, task: &data::Task, mut more: impl FnMut(Poll<()>) -> bool) {
        let mut transition = pin!(self.task_manager(&CONTEXT, taken(task)));
        let mut context = TaskContext::from_waker(Waker::noop());
        while more(transition.as_mut().poll(&mut context)) {}
    }

    fn set_hue(&self, new: u16, end: bool, enhanced: bool) {
        Lamp::<H>::set_hue(self, &CONTEXT, new, end, enhanced)
    }

    fn set_saturation(&self, new: u8, end: bool) {
        Lamp::<H>::set_saturation(self, &CONTEXT, new, end)
    }

    fn set_color_temperature(&self, new: u16, end: bool) {
        Lamp::<H>::set_color_temperature(self, &CONTEXT, new, end)
    }

    fn should_continue(&self, on_off: OnOff, byte: u8, mask: u8, over: u8) -> bool {
        self.couple(on_off);
        self.with_state(|s| s.config.options = options(byte));
        Lamp::<H>::should_continue(self, options(mask), options(over))
    }

    fn current_hue(&self, stored: u16) -> u8 {
        self.with_state(|s| s.enhanced_current_hue = stored);
        ClusterHandler::current_hue(self, Context).unwrap()
    }
}

/// The state of the source as fields. The clock and the bounds are not in it.
fn put(s: &ColorControlState, f: &mut Fields) {
    f.options = s.config.options.bits();
    f.remaining = s.remaining_time;
    f.stamp_hue = s.last_hue_notification.as_millis();
    f.stamp_sat = s.last_saturation_notification.as_millis();
    f.stamp_mireds = s.last_color_temperature_notification.as_millis();
    f.hue = s.enhanced_current_hue;
    f.sat = s.current_saturation;
    f.mireds = s.color_temperature_mireds;
    f.mode = s.color_mode;
    f.emode = s.enhanced_color_mode;
    f.loop_active = s.color_loop_active;
    f.loop_dir = s.color_loop_direction;
    f.loop_time = s.color_loop_time;
    f.loop_start = s.color_loop_start_enhanced_hue;
    f.loop_stored = s.color_loop_stored_enhanced_hue;
}

/// The task that the source gave, as data.
fn given(task: Task) -> data::Task {
    match task {
        Task::HueSaturationMoveTo {
            hue_delta,
            target_saturation,
            transition_ms,
            is_enhanced,
        } => data::Task::MoveTo {
            way: hue_delta.map(i64::from),
            sat: target_saturation,
            ms: transition_ms,
            enhanced: is_enhanced,
        },
        Task::HueMove {
            direction,
            rate_enhanced_per_sec,
            is_enhanced,
        } => data::Task::HueMove {
            mode: direction,
            rate: rate_enhanced_per_sec,
            enhanced: is_enhanced,
        },
        Task::SaturationMove {
            direction,
            rate_per_sec,
        } => data::Task::SatMove {
            mode: direction,
            rate: rate_per_sec,
        },
        Task::ColorTemperatureMoveTo {
            target_mireds,
            transition_ms,
        } => data::Task::CtTo {
            target: target_mireds,
            ms: transition_ms,
        },
        Task::ColorTemperatureMove {
            rate_mireds_per_sec,
            min_mireds,
            max_mireds,
        } => data::Task::CtMove {
            rate: rate_mireds_per_sec.into(),
            min: min_mireds,
            max: max_mireds,
        },
        Task::ColorLoop {
            direction,
            time_secs,
        } => data::Task::Loop {
            dir: direction,
            seconds: time_secs,
        },
        Task::Stop => data::Task::Stop,
        Task::XyMoveTo { .. } | Task::XyMove { .. } => panic!("an XY task"),
    }
}

/// A task in form, as the source's.
fn taken(task: &data::Task) -> Task {
    match *task {
        data::Task::MoveTo {
            way,
            sat,
            ms,
            enhanced,
        } => Task::HueSaturationMoveTo {
            hue_delta: way.map(|w| i32::try_from(w).unwrap()),
            target_saturation: sat,
            transition_ms: ms,
            is_enhanced: enhanced,
        },
        data::Task::HueMove {
            mode,
            rate,
            enhanced,
        } => Task::HueMove {
            direction: mode,
            rate_enhanced_per_sec: rate,
            is_enhanced: enhanced,
        },
        data::Task::SatMove { mode, rate } => Task::SaturationMove {
            direction: mode,
            rate_per_sec: rate,
        },
        data::Task::CtTo { target, ms } => Task::ColorTemperatureMoveTo {
            target_mireds: target,
            transition_ms: ms,
        },
        data::Task::CtMove { rate, min, max } => Task::ColorTemperatureMove {
            rate_mireds_per_sec: i32::try_from(rate).unwrap(),
            min_mireds: min,
            max_mireds: max,
        },
        data::Task::Loop { dir, seconds } => Task::ColorLoop {
            direction: dir,
            time_secs: seconds,
        },
        data::Task::Stop => panic!("a start of the Stop task"),
    }
}

/// A fresh lamp.
pub fn fresh(min: u16, max: u16, features: u32, option_byte: u8, clock: u64) -> Fields {
    let state = fresh_state(min, max, features, option_byte);
    let mut f = Fields {
        min,
        max,
        clock,
        options: 0,
        remaining: 0,
        stamp_hue: 0,
        stamp_sat: 0,
        stamp_mireds: 0,
        hue: 0,
        sat: 0,
        mireds: 0,
        mode: state.color_mode,
        emode: state.enhanced_color_mode,
        loop_active: false,
        loop_dir: state.color_loop_direction,
        loop_time: 0,
        loop_start: 0,
        loop_stored: 0,
    };
    put(&state, &mut f);
    f
}

fn fresh_state(min: u16, max: u16, features: u32, option_byte: u8) -> ColorControlState {
    let config = ConfigAttrs {
        options: options(option_byte),
        start_up_color_temperature_mireds: None,
    };
    ColorControlState::new(config, features, min, max)
}

pub fn leaf_delta(current: u16, target: u16, direction: DirectionEnum) -> i32 {
    Lamp::<Device<153, 500>>::hue_path_delta(current, target, direction)
}

pub fn leaf_remaining(old: u16, ms: u64, start: bool) -> (bool, u16) {
    let mut state = fresh_state(153, 500, 31, 0);
    state.remaining_time = old;
    let told = state.write_remaining_time_quietly(Duration::from_millis(ms), start);
    (told, state.remaining_time)
}

pub fn leaf_mode_of(emode: EnhancedColorModeEnum) -> ColorModeEnum {
    color_mode_of(emode)
}
