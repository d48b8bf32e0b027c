//! Document 01 for the plain index: one list of all rows, without residual.

use seat::{PlainParams, PlainSearch, PlainTraining, Refusal, Searched, Stage, Trained};

use super::kmeans::{self, Draws, Points};
use super::ranges::{covered, pairs};
use super::refusals;
use super::search::{conclude, Listed};

/// Training: tests 1 to 7, then the steps; 8 and 9 leave outputs and work zero.
pub fn train(task: PlainTraining) -> Trained {
    tests_of_training(&task).map_err(Refusal::Input)?;
    task.work.fill(0);
    let all: Vec<u32> = (0..task.n as u32).collect();
    let mut draws = Draws::new(task.draws);
    let cell = Cell {
        params: task.params,
        number: 0,
        rows: task.rows,
        members: &all,
        residual: None,
        epochs: task.epochs,
    };
    let trained = cell.train(&mut draws, task.sub_centres, task.codes);
    if trained.is_err() {
        task.sub_centres.fill(0.0);
        task.codes.fill(0);
    }
    trained.map(|()| draws.used as u64)
}

/// Tests 1 to 4, 6 and 7 of training.
fn tests_of_training(task: &PlainTraining) -> Result<(), u32> {
    let PlainParams { d, n_sub, sub_bits } = task.params;
    refusals::plain_params(task.params)?;
    refusals::epochs(task.epochs)?;
    refusals::some_rows(task.n)?;
    refusals::not_too_many_rows(task.n)?;
    refusals::lengths(&[
        (task.rows.len(), task.n * d),
        (task.sub_centres.len(), covered(d, n_sub) << sub_bits),
        (task.codes.len(), task.n * n_sub),
        (task.work.len(), task.n + 1024),
    ])?;
    refusals::not_too_many_draws(task.draws)?;
    refusals::finite(task.rows)?;
    refusals::draws_in_range(task.draws)
}

/// The rows of one cell, and what its sub-spaces are trained with.
pub struct Cell<'a> {
    pub params: PlainParams,
    pub number: usize,
    pub rows: &'a [f32],
    pub members: &'a [u32],
    pub residual: Option<&'a [f32]>,
    pub epochs: usize,
}

impl Cell<'_> {
    /// Sub-spaces rising, each trained into its own stretch; the last assignments are the codes.
    pub fn train(
        &self,
        draws: &mut Draws,
        sub_centres: &mut [f32],
        codes: &mut [u8],
    ) -> Result<(), Refusal> {
        let PlainParams { d, n_sub, sub_bits } = self.params;
        let k = 1 << sub_bits;
        for (sub_space, [begin, end]) in pairs(d, n_sub).into_iter().enumerate() {
            let points = Points {
                d,
                rows: self.rows,
                members: self.members,
                begin,
                end,
                residual: self.residual,
            };
            let stage = Stage::Sub { cell: self.number, sub_space };
            let stretch = &mut sub_centres[k * begin..k * end];
            let assigned = kmeans::train(&points, stage, self.epochs, draws, stretch, k)?;
            for (&row, centre) in self.members.iter().zip(assigned) {
                codes[row as usize * n_sub + sub_space] = centre as u8;
            }
        }
        Ok(())
    }
}

/// Search: tests 1 and 3 to 6, then steps 3 to 5 over the one list.
pub fn search(task: PlainSearch) -> Searched {
    tests_of_search(&task)?;
    let all: Vec<u32> = (0..task.n as u32).collect();
    let listed = Listed {
        params: task.params,
        members: &all,
        mask: task.mask,
        codes: task.codes,
        sub_centres: task.sub_centres,
    };
    let mut candidates = Vec::new();
    let outcome = listed
        .undamaged(task.n)
        .and_then(|()| listed.score(task.query, task.table, &mut candidates));
    conclude(outcome.map(|()| candidates), task.table, task.rows, task.sums)
}

/// Tests 1 and 3 to 6 of search.
fn tests_of_search(task: &PlainSearch) -> Result<(), u32> {
    let PlainParams { d, n_sub, sub_bits } = task.params;
    refusals::plain_params(task.params)?;
    refusals::not_too_many_rows(task.n)?;
    refusals::lengths(&[
        (task.sub_centres.len(), covered(d, n_sub) << sub_bits),
        (task.codes.len(), task.n * n_sub),
        (task.mask.len(), task.n),
        (task.query.len(), d),
        (task.table.len(), n_sub << sub_bits),
        (task.sums.len(), task.rows.len()),
    ])?;
    refusals::not_too_many_results(task.rows.len())?;
    refusals::finite(task.query)
}
