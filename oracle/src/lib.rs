//! The Rust side of the comparison: the unchanged source of the Color Control
//! handlers, the stubs that it leans on, and the text protocol around it.

#![allow(
    dead_code,
    unused_imports,
    unused_variables,
    unused_macros,
    async_fn_in_trait,
    refining_impl_trait,
    unexpected_cfgs,
    clippy::all
)]

#[macro_use]
mod macros {
    //! Logging changes nothing and is dropped.
    macro_rules! warn {
        ($s:literal $(, $x:expr)* $(,)?) => {{ let _ = ($( & $x ),*); }};
    }
    macro_rules! error {
        ($s:literal $(, $x:expr)* $(,)?) => {{ let _ = ($( & $x ),*); }};
    }
    /// Lists of attributes and commands are not looked at by anything that is run here.
    #[macro_export]
    macro_rules! with {
        ($($x:tt)*) => {
            ()
        };
    }
}

// The stubs, under the names by which the source knows them.
pub mod color_control_decl;
pub mod recorder;
mod stubs;
pub use stubs::{dm, error, persist, tlv, utils};

// The protocol, and the corners of a comparison.
pub mod aimed;
pub mod corners;
pub mod data;
pub mod maker;
pub mod protocol;
pub mod random;
pub mod rows;
include!(concat!(env!("OUT_DIR"), "/guard_mod.rs"));

pub use dm::clusters::app::color_control::driver;
