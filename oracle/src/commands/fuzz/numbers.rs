//! The functions that are lent nothing, on every number that matters: all ranges, the lengths of every
//! D, n_sub and sub_bits, those of every cells and probes, and the defaults, which the Rust has too.

use hora::index::pq_params::{IVFPQParams, PQParams};
use seat::Subject;

use crate::voices::face::*;

use super::call::{Call, Function, Shape};
use super::check::check;
use super::lend::{Lender, Manner};

/// Checks all of them; true if none differs, and then says how many there were.
pub fn every_number() -> bool {
    let (ranges, indexes, cells) = (every_range(), every_index(), every_cell());
    let (Some(ranges), Some(indexes), Some(cells)) = (ranges, indexes, cells) else {
        return false;
    };
    println!("  ranges of {ranges} places agree");
    println!("  lengths of {indexes} indexes, and of {cells} pairs of cells and probes, agree");
    defaults_agree()
}

/// Asks all of these; how many there are, or none if one differs, which is then printed.
fn ask(calls: impl Iterator<Item = Call>) -> Option<usize> {
    let mut lender = Lender::new();
    let mut count = 0;
    for call in calls {
        if let Some(difference) = check(&call, Manner::Heap, &mut lender).difference {
            println!("DIFFERENT: {}: {difference}", call.words());
            return None;
        }
        count += 1;
    }
    Some(count)
}

/// Numbers of a small index.
const SMALL: Shape = Shape { d: 3, n_sub: 2, sub_bits: 1, cells: 5, probes: 2, epochs: 0, n: 7 };

/// Every place of every D and n_sub, and one past each bound.
fn every_range() -> Option<usize> {
    let mut count = 0;
    for (d, n_sub) in (0..=257).flat_map(|d| (0..=65).map(move |n_sub| (d, n_sub))) {
        let list = page::Page.ranges(d, n_sub);
        let number = list.err().unwrap_or(0);
        for i in 0..=65 {
            let [begin, end] = list.ok().and_then(|list| list.get(i).copied()).unwrap_or([0, 0]);
            let heard = unsafe { bergrosk_range(d, n_sub, i) };
            if heard != (RangeAnswer { number, begin, end }) {
                println!("DIFFERENT: bergrosk_range of d {d}, n_sub {n_sub}, i {i}: {heard:?}");
                return None;
            }
            count += 1;
        }
    }
    Some(count)
}

/// Every D, n_sub and sub_bits within bounds, for both indexes, with other numbers at and past theirs.
fn every_index() -> Option<usize> {
    let bits = |d, n_sub| (0..=8).map(move |sub_bits| (d, n_sub, sub_bits));
    let all = (1..=256usize).flat_map(|d| (1..=d.min(64)).flat_map(move |n_sub| bits(d, n_sub)));
    let calls = |(d, n_sub, sub_bits): (usize, usize, usize)| {
        let turn = d + n_sub + sub_bits;
        let n = [0, 1, 1000, 100_001][turn % 4];
        let cells = [1, 2, 256, 1023, 1024][turn % 5];
        let shape = Shape { d, n_sub, sub_bits, cells, probes: 1 + turn % cells, n, ..SMALL };
        let of = move |function| Call::of_numbers(function, shape, 0);
        [Function::PlainLengths, Function::CelledLengths].map(of)
    };
    ask(all.flat_map(calls))
}

/// Every cells and probes, and one past each bound.
fn every_cell() -> Option<usize> {
    let all = (0..=1025).flat_map(|cells| (0..=cells + 1).map(move |probes| (cells, probes)));
    let call = |(cells, probes)| {
        Call::of_numbers(Function::CelledLengths, Shape { cells, probes, ..SMALL }, 0)
    };
    ask(all.map(call))
}

/// The defaults, beside those of the Rust.
fn defaults_agree() -> bool {
    let (plain, celled) = (PQParams::<f32>::default(), IVFPQParams::<f32>::default());
    let right_plain =
        PlainDefaults { n_sub: plain.n_sub, sub_bits: plain.sub_bits, epochs: plain.train_epoch };
    let right_celled = CelledDefaults {
        n_sub: celled.n_sub,
        sub_bits: celled.sub_bits,
        cells: celled.n_kmeans_center,
        probes: celled.search_n_center,
        epochs: celled.train_epoch,
    };
    let heard = unsafe { (bergrosk_plain_defaults(), bergrosk_celled_defaults()) };
    if heard == (right_plain, right_celled) {
        println!("  both defaults agree with the Rust's");
        return true;
    }
    println!(
        "DIFFERENT: defaults: the Rust {right_plain:?}, {right_celled:?}, the library {heard:?}"
    );
    false
}
