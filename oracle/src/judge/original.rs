//! The Rust's answer to a case. The Rust trains and searches by its own code; this file hands it the
//! input, and lays out what it holds afterwards as document 01 lays out the lent buffers.
//!
//! Where document 01 refuses, the Rust goes on. Whether it does refuse is told from the Rust too: by
//! stepping its own k-means and looking at the centres between the steps, and by looking at its own
//! distances.

use hora::core::ann_index::ANNIndex;
use hora::core::kmeans::Kmeans;
use hora::core::metrics::Metric::Euclidean;
use hora::core::neighbor::take_born;
use hora::core::node::Node;
use hora::index::pq_idx::{reach, IVFPQIndex, PQIndex};
use hora::index::pq_params::{IVFPQParams, PQParams};
use seat::{CelledParams, PlainParams, Ranges, Stage, Step, BLANK_ROW};

use crate::cases::case::*;
use crate::judge::quiet::{catch, Panic};

/// What the Rust says to a case.
pub enum Verdict {
    /// It trained.
    Trained(Training),
    /// Its own steps met what document 01 refuses with 8 or 9.
    Refused(Refused),
    /// The case is outside the differential domain: a cell is empty, and epochs are not 1.
    Outside,
}

/// A refusal of document 01, as far as the Rust's steps show its place. Inside a split they do not
/// show which centre was being filled.
#[derive(Clone, Copy, Debug)]
pub struct Refused {
    pub number: u32,
    pub stage: Stage,
    pub epoch: usize,
    pub centre: Option<usize>,
    pub step: Option<Step>,
}

/// Coordinates up to this size cannot make a centre that is not finite: a mean stays below 2e30
/// with the residual taken off, splitting multiplies by less than 3, and a sum of 100,001 such
/// values stays below 1e36.
const SAFE: f32 = 1e30;

/// The Rust's answer to a case.
pub fn judge(case: &Case) -> Verdict {
    match case {
        Case::Kmeans(case) => judge_kmeans(case),
        Case::Plain(case) => judge_plain(case),
        Case::Celled(case) => judge_celled(case),
    }
}

/// The rows as the Rust's k-means takes them.
fn vectors(rows: &[f32], d: usize) -> Vec<Vec<f32>> {
    rows.chunks_exact(d).map(<[f32]>::to_vec).collect()
}

/// Whether the steps have to be looked at one by one.
fn may_overflow(rows: &[f32]) -> bool {
    rows.iter().any(|x| x.abs() > SAFE)
}

/// What a run of the Rust that may panic comes to; `step` finds the place where draws ran out.
fn verdict(run: Result<Training, Panic>, step: impl FnOnce() -> Result<(), Verdict>) -> Verdict {
    match run {
        Ok(training) => Verdict::Trained(training),
        Err(Panic::OutOfDraws) => step().expect_err("the same steps use the same draws"),
        Err(Panic::Said(text)) if text.contains("None to assigned") => Verdict::Outside,
        Err(Panic::Said(text)) => panic!("the Rust panicked: {text}"),
    }
}

/// A named buffer of f32.
fn buffer_f32(name: &'static str, words: Vec<f32>) -> Buffer {
    Buffer { name, words: Words::F32(words) }
}

/// A named buffer of u32.
fn buffer_u32(name: &'static str, words: Vec<u32>) -> Buffer {
    Buffer { name, words: Words::U32(words) }
}

/// One k-means of the Rust, ready to be trained, and its rows.
struct Kmean {
    kmeans: Kmeans<f32>,
    rows: Vec<Vec<f32>>,
    epochs: usize,
}

impl Kmean {
    /// A k-means over one range of the rows.
    fn new(
        rows: Vec<Vec<f32>>,
        range: [usize; 2],
        residual: Option<&[f32]>,
        n_center: usize,
        epochs: usize,
    ) -> Kmean {
        let mut kmeans = Kmeans::new(range[1] - range[0], n_center, Euclidean);
        kmeans.set_range(range[0], range[1]);
        if let Some(residual) = residual {
            kmeans.set_residual(residual.to_vec());
        }
        Kmean { kmeans, rows, epochs }
    }

    /// The last assignment.
    fn assigned(&mut self) -> Vec<usize> {
        let mut assigned = Vec::new();
        self.kmeans.search_data(self.rows.len(), &self.rows, &mut assigned);
        assigned
    }

    /// The test for 9: the lowest centre that is not finite.
    fn test(&self, stage: Stage, epoch: usize, step: Step) -> Result<(), Refused> {
        let odd = |centre: &Vec<f32>| centre.iter().any(|c| !c.is_finite());
        let Some(lowest) = self.kmeans.centers().iter().position(odd) else {
            return Ok(());
        };
        let centre = (step != Step::Splitting).then_some(lowest);
        Err(Refused { number: 9, stage, epoch, centre, step: Some(step) })
    }

    /// The Rust's steps, with the centres looked at between them: the last assignment, or what
    /// document 01 refuses.
    fn stepped(&mut self, stage: Stage) -> Result<Vec<usize>, Refused> {
        let n = self.rows.len();
        self.kmeans.init_center(n, &self.rows);
        self.test(stage, 0, Step::Start)?;
        for epoch in 1..=self.epochs {
            let assigned = self.assigned();
            let mut counts = self.kmeans.update_center(n, &self.rows, &assigned);
            self.test(stage, epoch, Step::Averaging)?;
            if epoch < self.epochs {
                let split = catch(|| self.kmeans.split_center(n, &mut counts));
                self.test(stage, epoch, Step::Splitting)?;
                let no_draw = Refused { number: 8, stage, epoch, centre: None, step: None };
                split.map_err(|_| no_draw)?.expect("there are rows");
            }
        }
        Ok(self.assigned())
    }
}

/// One k-means by itself.
fn judge_kmeans(case: &KmeansCase) -> Verdict {
    let ready = || {
        let all = vectors(&case.rows, case.d);
        let rows = case.members.iter().map(|&row| all[row as usize].clone()).collect();
        let residual = case.residual.as_deref();
        Kmean::new(rows, [case.begin, case.end], residual, case.n_center, case.epochs)
    };
    let step = || {
        rand::lend_list(&case.draws);
        ready().stepped(Stage::Coarse).map(drop).map_err(Verdict::Refused)
    };
    if may_overflow(&case.rows) || may_overflow(case.residual.as_deref().unwrap_or(&[])) {
        if let Err(verdict) = step() {
            return verdict;
        }
    }
    rand::lend_list(&case.draws);
    let run = catch(|| {
        let mut ready = ready();
        ready.kmeans.train(ready.rows.len(), &ready.rows, ready.epochs);
        let assigned = ready.assigned().into_iter().map(|centre| centre as u32).collect();
        let centres = ready.kmeans.centers().concat();
        Training {
            draws_used: rand::used(),
            buffers: vec![buffer_f32("centres", centres), buffer_u32("assignment", assigned)],
            results: Vec::new(),
        }
    });
    verdict(run, step)
}

/// An empty plain index of the Rust.
pub fn plain_index(params: PlainParams, epochs: usize) -> PQIndex<f32, usize> {
    let PlainParams { d, n_sub, sub_bits } = params;
    let params = PQParams::default().n_sub(n_sub).sub_bits(sub_bits).train_epoch(epochs);
    PQIndex::new(d, &params)
}

/// An empty celled index of the Rust.
pub fn celled_index(params: CelledParams, epochs: usize) -> IVFPQIndex<f32, usize> {
    let PlainParams { d, n_sub, sub_bits } = params.plain;
    let params = IVFPQParams::default()
        .n_sub(n_sub)
        .sub_bits(sub_bits)
        .n_kmeans_center(params.cells)
        .search_n_center(params.probes)
        .train_epoch(epochs);
    IVFPQIndex::new(d, &params)
}

/// The Rust's ranges, as document 01's fixed list.
pub fn ranges(d: usize, n_sub: usize) -> Ranges {
    let index = plain_index(PlainParams { d, n_sub, sub_bits: 0 }, 0);
    let mut list = [[0, 0]; 64];
    for (place, range) in list.iter_mut().zip(reach::ranges(&index)) {
        *place = [range[0], range[1]];
    }
    list
}

/// Adds the rows under their numbers, and trains.
pub fn fill(index: &mut impl ANNIndex<f32, usize>, rows: &[f32]) {
    for (number, row) in rows.chunks_exact(index.dimension()).enumerate() {
        index.add(row, number).expect("not too many rows");
    }
    index.build(Euclidean).expect("training answers no error");
}

/// The first refusal of one cell's k-means, stepped over its rows; draws continue.
fn step_cell(
    params: PlainParams,
    epochs: usize,
    cell: usize,
    rows: &[Vec<f32>],
    residual: Option<&[f32]>,
) -> Result<(), Verdict> {
    let index = plain_index(params, epochs);
    for (sub_space, range) in reach::ranges(&index).iter().enumerate() {
        let range = [range[0], range[1]];
        let mut ready = Kmean::new(rows.to_vec(), range, residual, 1 << params.sub_bits, epochs);
        ready.stepped(Stage::Sub { cell, sub_space }).map_err(Verdict::Refused)?;
    }
    Ok(())
}

/// Sub-centres in the order of document 01: sub-space, centre, coordinate.
fn flat_sub_centres(index: &PQIndex<f32, usize>) -> Vec<f32> {
    reach::sub_centres(index).iter().flatten().flatten().copied().collect()
}

/// Writes the codes of an index's rows, each under its row number.
fn place_codes(index: &PQIndex<f32, usize>, members: &[usize], codes: &mut [u8]) {
    let n_sub = reach::codes(index).len();
    for (sub, centres) in reach::codes(index).iter().enumerate() {
        for (&row, &centre) in members.iter().zip(centres) {
            codes[row * n_sub + sub] = centre as u8;
        }
    }
}

/// A plain index: training and searches.
fn judge_plain(case: &PlainCase) -> Verdict {
    let step = || {
        rand::lend_list(&case.draws);
        step_cell(case.params, case.epochs, 0, &vectors(&case.rows, case.params.d), None)
    };
    if may_overflow(&case.rows) {
        if let Err(verdict) = step() {
            return verdict;
        }
    }
    rand::lend_list(&case.draws);
    let run = catch(|| {
        let mut index = plain_index(case.params, case.epochs);
        fill(&mut index, &case.rows);
        let draws_used = rand::used();
        let search = |query| search_plain(&index, case.n(), query);
        let results = case.queries.iter().map(search).collect();
        Training { draws_used, buffers: plain_buffers(&index, case), results }
    });
    verdict(run, step)
}

/// The two buffers of a plain index.
fn plain_buffers(index: &PQIndex<f32, usize>, case: &PlainCase) -> Vec<Buffer> {
    let all: Vec<usize> = (0..case.n()).collect();
    let mut codes = vec![0; case.n() * case.params.n_sub];
    place_codes(index, &all, &mut codes);
    vec![
        buffer_f32("sub-centres", flat_sub_centres(index)),
        Buffer { name: "codes", words: Words::U8(codes) },
    ]
}

/// The first refusal of a celled index's k-means, or that an empty cell puts it outside.
fn step_celled(case: &CelledCase) -> Result<(), Verdict> {
    let PlainCase { params, epochs, .. } = case.plain;
    rand::lend_list(&case.plain.draws);
    let rows = vectors(&case.plain.rows, params.d);
    let mut coarse = Kmean::new(rows.clone(), [0, params.d], None, case.cells, epochs);
    let cell_of_row = coarse.stepped(Stage::Coarse).map_err(Verdict::Refused)?;
    for cell in 0..case.cells {
        let chosen = rows.iter().zip(&cell_of_row).filter(|(_, &c)| c == cell);
        let members: Vec<Vec<f32>> = chosen.map(|(row, _)| row.clone()).collect();
        if !members.is_empty() {
            let residual = Some(&coarse.kmeans.centers()[cell][..]);
            step_cell(params, epochs, cell, &members, residual)?;
        } else if epochs != 1 {
            return Err(Verdict::Outside);
        }
    }
    Ok(())
}

/// A celled index: training and searches.
fn judge_celled(case: &CelledCase) -> Verdict {
    if may_overflow(&case.plain.rows) {
        if let Err(verdict) = step_celled(case) {
            return verdict;
        }
    }
    rand::lend_list(&case.plain.draws);
    let run = catch(|| {
        let mut index = celled_index(case.params(), case.plain.epochs);
        fill(&mut index, &case.plain.rows);
        index
    });
    let index = match run {
        Ok(index) => index,
        Err(panic) => return verdict(Err(panic), || step_celled(case)),
    };
    if case.plain.epochs != 1 && reach::lists(&index).iter().any(Vec::is_empty) {
        return Verdict::Outside;
    }
    let draws_used = rand::used();
    let search = |query| search_celled(&index, case, query);
    let results = case.plain.queries.iter().map(search).collect();
    Verdict::Trained(Training { draws_used, buffers: celled_buffers(&index, &case.plain), results })
}

/// The five buffers of a celled index.
fn celled_buffers(index: &IVFPQIndex<f32, usize>, case: &PlainCase) -> Vec<Buffer> {
    let lists = reach::lists(index);
    let mut starts = vec![0];
    let mut sub_centres = Vec::new();
    let mut codes = vec![0; case.n() * case.params.n_sub];
    for (list, cell) in lists.iter().zip(reach::cells(index)) {
        starts.push(starts[starts.len() - 1] + list.len() as u32);
        sub_centres.extend(flat_sub_centres(cell));
        place_codes(cell, list, &mut codes);
    }
    let members = lists.iter().flatten().map(|&row| row as u32).collect();
    vec![
        buffer_f32("coarse centres", reach::coarse_centres(index).concat()),
        buffer_u32("list starts", starts),
        buffer_u32("list members", members),
        buffer_f32("sub-centres", sub_centres),
        Buffer { name: "codes", words: Words::U8(codes) },
    ]
}

/// Refusal 11, unless every distance worked is finite.
fn all_finite(distances: &[f32]) -> Result<(), u32> {
    match distances.iter().all(|x| x.is_finite()) {
        true => Ok(()),
        false => Err(11),
    }
}

/// A search of the plain index.
fn search_plain(index: &PQIndex<f32, usize>, n: usize, query: &Query) -> Result<Results, u32> {
    if (0..n).any(|row| query.sees(row)) {
        all_finite(&reach::table(index, &Node::new(&query.point)))?;
    }
    results(index, n, n, query)
}

/// A search of the celled index.
fn search_celled(
    index: &IVFPQIndex<f32, usize>,
    case: &CelledCase,
    query: &Query,
) -> Result<Results, u32> {
    let node = Node::new(&query.point);
    let distances = reach::coarse_distances(index, &node);
    all_finite(&distances)?;
    let mut order: Vec<usize> = (0..case.cells).collect();
    order.sort_by(|&a, &b| distances[a].total_cmp(&distances[b]).then(a.cmp(&b)));
    let probed = &order[..case.probes];
    for &cell in probed {
        if reach::lists(index)[cell].iter().any(|&row| query.sees(row)) {
            all_finite(&reach::table(&reach::cells(index)[cell], &node))?;
        }
    }
    let in_probed = probed.iter().map(|&cell| reach::lists(index)[cell].len()).sum();
    results(index, case.plain.n(), in_probed, query)
}

/// The Rust's own search. Where rows are hidden, it is asked for all rows, and the hidden ones are
/// struck out of its ordered list. `in_cells` is how many candidates there must be.
fn results(
    index: &impl ANNIndex<f32, usize>,
    n: usize,
    in_cells: usize,
    query: &Query,
) -> Result<Results, u32> {
    take_born();
    let asked = if query.mask.is_some() { n } else { query.k };
    let list = index.search_nodes(&query.point, asked);
    let born = take_born();
    assert_eq!(born.candidates, in_cells as u64, "the Rust probed other cells");
    let number = |node: &Node<f32, usize>| node.idx().expect("added under its number");
    let mut found: Vec<(usize, f32)> =
        list.iter().map(|(node, sum)| (number(node), *sum)).collect();
    let mut scored = born.candidates;
    if query.mask.is_some() {
        found.retain(|&(row, _)| query.sees(row));
        scored = found.len() as u64;
        all_finite(&found.iter().map(|&(_, sum)| sum).collect::<Vec<f32>>())?;
        found.truncate(query.k);
    } else if born.not_finite != 0 {
        return Err(11);
    }
    let mut rows: Vec<u32> = found.iter().map(|&(row, _)| row as u32).collect();
    let mut sums: Vec<f32> = found.iter().map(|&(_, sum)| sum).collect();
    rows.resize(query.k, BLANK_ROW);
    sums.resize(query.k, 0.0);
    Ok(Results { rows, sums, found: found.len() as u64, scored })
}

#[cfg(test)]
mod tests {
    use super::*;

    /// The example of document 01, step by step, through the Rust's own functions.
    #[test]
    fn the_split_of_document_01() {
        let rows = vec![vec![1.0, 2.0], vec![3.0, 4.0]];
        let mut kmean = Kmean::new(rows, [0, 2], None, 4, 2);
        kmean.kmeans.init_center(2, &kmean.rows);
        assert_eq!(kmean.kmeans.centers().concat(), [1.0, 2.0, 3.0, 2.0, 1.0, 2.0, 3.0, 2.0]);
        let assigned = kmean.assigned();
        assert_eq!(assigned, [0, 1]);
        let mut counts = kmean.kmeans.update_center(2, &kmean.rows, &assigned);
        assert_eq!(kmean.kmeans.centers().concat(), [1.0, 2.0, 3.0, 4.0, 0.0, 0.0, 0.0, 0.0]);
        assert_eq!(counts, [1, 1, 0, 0]);
        rand::lend_list(&[0.0, 0.25, 0.5, 0.4]);
        kmean.kmeans.split_center(2, &mut counts).unwrap();
        let split = [1.0009765625, 1.998046875, 3.0029296875, 3.99609375];
        let filled = [0.9990234375, 2.001953125, 2.9970703125, 4.00390625];
        assert_eq!(kmean.kmeans.centers().concat(), [split, filled].concat());
        assert_eq!((counts, rand::used()), (vec![1, 1, 0, 0], 4));
    }
}
