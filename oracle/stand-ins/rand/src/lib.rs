//! Stand-in for `rand`: `thread_rng` hands out lent draws, one after the other, and counts them.
//! Each thread has its own draws.

use std::cell::RefCell;
use std::ops::Range;

/// What a call for a draw past the last lent one panics with.
pub struct OutOfDraws;

/// Where the next draw comes from; none means that the lent ones are used up.
type Source = Box<dyn FnMut() -> Option<f64>>;

struct Tape {
    source: Source,
    used: u64,
}

thread_local! {
    static TAPE: RefCell<Tape> = RefCell::new(Tape { source: Box::new(|| None), used: 0 });
}

/// Lends draws to this thread; counting begins anew.
pub fn lend(source: Source) {
    TAPE.with(|tape| *tape.borrow_mut() = Tape { source, used: 0 });
}

/// Lends this thread a list of draws; counting begins anew.
pub fn lend_list(draws: &[f64]) {
    let mut left = Vec::from(draws).into_iter();
    lend(Box::new(move || left.next()));
}

/// The number of draws used since the last loan.
pub fn used() -> u64 {
    TAPE.with(|tape| tape.borrow().used)
}

/// The next lent draw.
fn draw() -> f64 {
    let next = TAPE.with(|tape| {
        let mut tape = tape.borrow_mut();
        let next = (tape.source)();
        tape.used += next.is_some() as u64;
        next
    });
    next.unwrap_or_else(|| std::panic::panic_any(OutOfDraws))
}

/// A handle without content: the draws belong to the thread.
pub struct ThreadRng;

/// Takes the place of `rand::thread_rng`.
pub fn thread_rng() -> ThreadRng {
    ThreadRng
}

/// Numbers that can be drawn from a range.
pub trait Uniform: Sized {
    fn within(range: Range<Self>, draw: f64) -> Self;
}

impl Uniform for f64 {
    /// The Rust asks for 0.0..1.0 only, where the draw itself is the answer.
    fn within(range: Range<f64>, draw: f64) -> f64 {
        assert!(range == (0.0..1.0));
        draw
    }
}

impl Uniform for usize {
    /// Asked for by `general_kmeans` only, which is outside document 01.
    fn within(range: Range<usize>, draw: f64) -> usize {
        range.start + (draw * (range.end - range.start) as f64) as usize
    }
}

/// Takes the place of `rand::Rng`.
pub trait Rng {
    fn gen_range<T: Uniform>(&mut self, range: Range<T>) -> T;
}

impl Rng for ThreadRng {
    fn gen_range<T: Uniform>(&mut self, range: Range<T>) -> T {
        T::within(range, draw())
    }
}

/// What the Rust imports whole.
pub mod prelude {
    pub use super::{Rng, ThreadRng};
}
