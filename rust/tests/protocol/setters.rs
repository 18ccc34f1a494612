//! A setter by itself, as the protocol has it.

use yemkruos::color::cons_change;
use yemkruos::lamp::{Answer, Lamp};
use yemkruos::notices::Numeral;

#[derive(Clone, Copy)]
pub enum Setter {
    Hue { hue: u16, enhanced: bool },
    Saturation(u8),
    Mireds(u16),
}

/// It is refused as a halt is, and stores the clock.
pub fn set(lamp: Lamp, setter: Setter, is_end: bool, clock: u64) -> Answer {
    if let Err(cause) = lamp.first_cause(clock) {
        return lamp.refused(cause);
    }
    let old = lamp.color;
    let set = match setter {
        Setter::Hue { hue, enhanced } => old.set_hue(hue, is_end, enhanced, clock),
        Setter::Saturation(saturation) => old.set_saturation(saturation, is_end, clock),
        Setter::Mireds(mireds) => old.set_color_temperature(mireds, is_end, clock),
    };
    let color = set.color;
    let reported = cons_change(set.change, Numeral::new(), lamp.looping.active);
    let after = Lamp {
        color,
        clock,
        ..lamp
    };
    Answer {
        notices: reported.notices(),
        ..after.unchanged(Ok(()))
    }
}
