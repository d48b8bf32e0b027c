//! Stand-in for the Rust's `neighbor.rs`: the same names, with the tie rules of document 01 in the
//! order, and a count of the candidates made.
//!
//! Both heaps of the Rust are max-heaps over this order, and the sign bit tells them apart:
//! - A candidate is pushed with its sum, a sum of squares from +0.0, so its sign bit is clear. The
//!   heap drops its greatest, so of equal sums the higher row must be the greater.
//! - A coarse cell is pushed with its distance negated, so its sign bit is set, also where the
//!   distance is 0. The heap gives its greatest first, so of equal distances the lower cell must be
//!   the greater.

use crate::core::node;
use core::cmp::Ordering;
use std::cell::Cell;

/// How many candidates the Rust made, and how many of their sums are not finite.
#[derive(Clone, Copy, Default, Debug, PartialEq)]
pub struct Born {
    pub candidates: u64,
    pub not_finite: u64,
}

thread_local! {
    static BORN: Cell<Born> = Cell::new(Born { candidates: 0, not_finite: 0 });
}

/// What this thread made since the last call; counting begins anew.
pub fn take_born() -> Born {
    BORN.with(Cell::take)
}

/// A candidate or a coarse cell: its number and its distance.
#[derive(Default, Clone, PartialEq, Debug)]
pub struct Neighbor<E: node::FloatElement, T: node::IdxType> {
    pub _idx: T,
    pub _distance: E,
}

impl<E: node::FloatElement, T: node::IdxType> Neighbor<E, T> {
    /// A neighbour; a candidate is counted.
    pub fn new(idx: T, distance: E) -> Neighbor<E, T> {
        if !distance.is_sign_negative() {
            let odd = distance.is_nan() || distance.is_infinite();
            BORN.with(|born| {
                let Born { candidates, not_finite } = born.get();
                born.set(Born { candidates: candidates + 1, not_finite: not_finite + odd as u64 });
            });
        }
        Neighbor { _idx: idx, _distance: distance }
    }

    /// Its number.
    pub fn idx(&self) -> T {
        self._idx.clone()
    }

    /// Its distance, negated for a coarse cell.
    pub fn distance(&self) -> E {
        self._distance
    }
}

impl<E: node::FloatElement, T: node::IdxType> Ord for Neighbor<E, T> {
    fn cmp(&self, other: &Neighbor<E, T>) -> Ordering {
        let by_number = if self._distance.is_sign_negative() {
            other._idx.cmp(&self._idx)
        } else {
            self._idx.cmp(&other._idx)
        };
        self._distance.partial_cmp(&other._distance).unwrap().then(by_number)
    }
}

impl<E: node::FloatElement, T: node::IdxType> PartialOrd for Neighbor<E, T> {
    fn partial_cmp(&self, other: &Neighbor<E, T>) -> Option<Ordering> {
        Some(self.cmp(other))
    }
}

impl<E: node::FloatElement, T: node::IdxType> Eq for Neighbor<E, T> {}
