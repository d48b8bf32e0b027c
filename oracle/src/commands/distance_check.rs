//! The command `distance-check`: is the Rust's distance step 2 of document 01, bit for bit? If it
//! is, the oracle needs no stand-in for it.
//!
//! Every length from 1 to 256 comes up, with coordinates from zeros and subnormal numbers to ones
//! whose squares overflow. The inputs are finite, as all that document 01 hands to a distance is,
//! but for a difference from a residual that overflowed; such inputs are put too.

use std::time::Instant;

use hora::core::metrics::{metric, Metric::Euclidean};

use crate::cases::chance::Chance;
use crate::cases::generate::{point, GRAINS};
use crate::outcome::Outcome;

/// What came out, so that the report shows what was reached.
#[derive(Default)]
struct Reached {
    zero: usize,
    subnormal: usize,
    ordinary: usize,
    overflow: usize,
    infinite_input: usize,
}

/// Puts `inputs` pairs to both; well if all came out the same.
pub fn check(inputs: usize, seed: u64) -> Outcome {
    println!("distance-check: {inputs} inputs, seed {seed}");
    let begun = Instant::now();
    let mut chance = Chance::new(seed);
    let mut reached = Reached::default();
    for at in 0..inputs {
        let length = 1 + at % 256;
        let grains = [chance.pick(&GRAINS), chance.pick(&GRAINS)];
        let mut a = point(&mut chance, grains[0], length);
        let b = if chance.one_in(16) { a.clone() } else { point(&mut chance, grains[1], length) };
        if chance.one_in(256) {
            a[chance.below(length)] = f32::INFINITY;
            reached.infinite_input += 1;
        }
        let rust = metric(&a, &b, Euclidean).expect("equal lengths");
        let right = page::distance(&a, &b);
        if rust.to_bits() != right.to_bits() {
            println!("DIFFERENT: the Rust {rust:e}, step 2 {right:e}\n{a:?}\n{b:?}");
            return Outcome::differences(1, inputs);
        }
        reached.count(rust);
    }
    reached.print();
    println!("seconds {:.1}", begun.elapsed().as_secs_f64());
    Outcome::differences(0, inputs)
}

impl Reached {
    /// Counts a distance by what it is.
    fn count(&mut self, distance: f32) {
        if distance == 0.0 {
            self.zero += 1;
        } else if distance.is_subnormal() {
            self.subnormal += 1;
        } else if distance.is_finite() {
            self.ordinary += 1;
        } else {
            self.overflow += 1;
        }
    }

    /// Prints the counts.
    fn print(&self) {
        println!(
            "distances of 0: {}, subnormal: {}, ordinary: {}, not finite: {} (with an infinite input: {})",
            self.zero, self.subnormal, self.ordinary, self.overflow, self.infinite_input
        );
    }
}
