//! Document 01, "Bounds" and answer numbers 1 to 7. Each operation calls those that apply to it, in
//! the order of their numbers; the first that fails is the answer, and nothing is changed.

use seat::{CelledParams, PlainParams};

const MOST_ROWS: usize = 100_001;
const MOST_DRAWS: usize = 16_777_216;
const MOST_RESULTS: usize = 4_096;

/// `Ok` if the test holds, else the refusal of that number.
fn refuse_unless(number: u32, holds: bool) -> Result<(), u32> {
    if holds {
        Ok(())
    } else {
        Err(number)
    }
}

/// Test 1 for a plain index.
pub fn plain_bounds(d: usize, n_sub: usize, sub_bits: usize) -> Result<(), u32> {
    let holds = (1..=256).contains(&d) && (1..=64).contains(&n_sub) && n_sub <= d && sub_bits <= 8;
    refuse_unless(1, holds)
}

/// Test 1 for a plain index's parameters.
pub fn plain_params(params: PlainParams) -> Result<(), u32> {
    plain_bounds(params.d, params.n_sub, params.sub_bits)
}

/// Test 1 for a celled index's parameters.
pub fn celled_params(params: CelledParams) -> Result<(), u32> {
    plain_params(params.plain)?;
    let cells = (1..=1024).contains(&params.cells);
    refuse_unless(1, cells && (1..=params.cells).contains(&params.probes))
}

/// Test 1 for the epochs of a training.
pub fn epochs(epochs: usize) -> Result<(), u32> {
    refuse_unless(1, epochs <= 1000)
}

/// Test 2: a training has rows.
pub fn some_rows(n: usize) -> Result<(), u32> {
    refuse_unless(2, n != 0)
}

/// Test 3: not too many rows.
pub fn not_too_many_rows(n: usize) -> Result<(), u32> {
    refuse_unless(3, n <= MOST_ROWS)
}

/// Test 4: each buffer, given by its length, has the length it must have.
pub fn lengths(given_and_right: &[(usize, usize)]) -> Result<(), u32> {
    refuse_unless(4, given_and_right.iter().all(|(given, right)| given == right))
}

/// Test 4: not too many draws.
pub fn not_too_many_draws(draws: &[f64]) -> Result<(), u32> {
    refuse_unless(4, draws.len() <= MOST_DRAWS)
}

/// Test 5: not too many results asked for.
pub fn not_too_many_results(k: usize) -> Result<(), u32> {
    refuse_unless(5, k <= MOST_RESULTS)
}

/// Test 6: every coordinate is finite.
pub fn finite(coordinates: &[f32]) -> Result<(), u32> {
    refuse_unless(6, coordinates.iter().all(|x| x.is_finite()))
}

/// Test 7: every draw is at least 0 and below 1; a NaN is neither.
pub fn draws_in_range(draws: &[f64]) -> Result<(), u32> {
    refuse_unless(7, draws.iter().all(|draw| 0.0 <= *draw && *draw < 1.0))
}
