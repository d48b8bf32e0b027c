//! Catches the Rust's panics without printing them.

use std::cell::Cell;
use std::panic::{self, AssertUnwindSafe};

/// What a caught panic was about.
#[derive(Debug)]
pub enum Panic {
    /// A call for a draw past the last lent one.
    OutOfDraws,
    /// The message of any other.
    Said(String),
}

thread_local! {
    static CATCHING: Cell<bool> = const { Cell::new(false) };
}

/// Lets panics be printed only where nobody catches them. Called once, at the start.
pub fn install() {
    let loud = panic::take_hook();
    panic::set_hook(Box::new(move |info| {
        if !CATCHING.get() {
            loud(info);
        }
    }));
}

/// Runs the Rust; a panic becomes a value.
pub fn catch<T>(run: impl FnOnce() -> T) -> Result<T, Panic> {
    let before = CATCHING.replace(true);
    let outcome = panic::catch_unwind(AssertUnwindSafe(run));
    CATCHING.set(before);
    outcome.map_err(|payload| {
        if payload.is::<rand::OutOfDraws>() {
            return Panic::OutOfDraws;
        }
        let text = payload.downcast_ref::<&str>().map(|s| s.to_string());
        Panic::Said(text.or_else(|| payload.downcast_ref::<String>().cloned()).unwrap_or_default())
    })
}
