//! Pictures of Pixel-Planes 4, and its machine clock by clock, by the proved library (docs/LIBRARY.md). Texts are those of
//! docs/SCENES.md, and for [`State`], [`micros`] and [`course`] those of docs/LISTINGS.md too.
//!
//! Proved is the library; this crate hands it buffers of the size that it asks for.
#![warn(missing_docs)]

mod error;
mod machine;
mod pictures;
mod running;

pub use error::{Error, Result};
pub use machine::{course, micros, State};
pub use pictures::{check, colour, face, place, products, render, window, Colours, Cost, Face, FaceKind, Picture};
pub use pxplanes_sys::{Moment, Operation, BITS};
pub use running::run;

/// The version of the library.
pub fn version() -> String {
    error::name(|name, len| unsafe { pxplanes_sys::pxplanes_version(name, len) })
}
