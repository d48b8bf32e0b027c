//! Document 01 read plainly, written from its text and not from the Rust. It is the voice that the
//! comparison sets beside the Rust where no library is linked, the voice of document 01 where the two
//! disagree, and what calls of the library with anything are checked against.
//!
//! Everything is worked on values in the plainest way; nothing here is meant to be fast. A refusal
//! is an early `Err`, and what it leaves in the lent buffers is written in one place for each
//! operation, at its entry point.

mod celled;
mod kmeans;
mod plain;
mod ranges;
mod refusals;
mod search;

use seat::*;

pub use kmeans::distance;
pub use ranges::covered;

/// The voice of document 01.
pub struct Page;

impl Subject for Page {
    fn name(&self) -> &'static str {
        "page"
    }

    fn ranges(&self, d: usize, n_sub: usize) -> Result<Ranges, u32> {
        ranges::ranges(d, n_sub)
    }

    fn kmeans(&self) -> Option<fn(Kmeans) -> Trained> {
        Some(kmeans::alone)
    }

    fn train_plain(&self, task: PlainTraining) -> Trained {
        plain::train(task)
    }

    fn search_plain(&self, task: PlainSearch) -> Searched {
        plain::search(task)
    }

    fn train_celled(&self, task: CelledTraining) -> Trained {
        celled::train(task)
    }

    fn search_celled(&self, task: CelledSearch) -> Searched {
        celled::search(task)
    }

    fn check_celled(&self, task: CelledCheck) -> Checked {
        celled::check(task)
    }
}
