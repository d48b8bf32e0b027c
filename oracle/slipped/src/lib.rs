//! The page with one plausible slip planted, once for each slip of the list. The copies are made
//! when this crate is built.

mod list;

use seat::Subject;

pub use list::{Slip, SLIPS};

include!(concat!(env!("OUT_DIR"), "/voices.rs"));

/// Each slip, with the voice that makes it.
pub fn slips() -> impl Iterator<Item = (&'static Slip, &'static dyn Subject)> {
    SLIPS.iter().zip(VOICES)
}
