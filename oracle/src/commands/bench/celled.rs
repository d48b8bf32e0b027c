//! The celled index: the defaults with 5 epochs, then fewer and more rows, cells and probes.
//!
//! More epochs need more draws than may be lent, and with a cell that comes out empty the Rust panics.
//! So the rows are such that no cell does.

use hora_as_is::core::ann_index::ANNIndex;
use hora_as_is::core::metrics::Metric::Euclidean;
use hora_as_is::core::node::Node;
use hora_as_is::index::pq_idx::{reach, IVFPQIndex};
use hora_as_is::index::pq_params::IVFPQParams;
use seat::{
    CelledCheck, CelledIndex, CelledParams, CelledSearch, CelledTraining, PlainParams, Subject,
};

use crate::cases::chance::Chance;

use super::{least, queries, same_bits, time as in_words, timed, Report, QUERIES};

const PLAIN: PlainParams = PlainParams { d: 128, n_sub: 25, sub_bits: 4 };
const EPOCHS: usize = 5;
const K: usize = 10;

/// The draws that the first training of the Rust is lent; all others are lent those that it used.
const DRAWS: usize = 16_777_216;

/// A celled index that is timed, and the numbers of probes asked of it.
struct Workload {
    n: usize,
    cells: usize,
    probes: &'static [usize],
}

const WORKLOADS: [Workload; 6] = [
    Workload { n: 10_000, cells: 256, probes: &[8, 1, 64, 256] },
    Workload { n: 1_000, cells: 256, probes: &[8] },
    Workload { n: 100_000, cells: 256, probes: &[8] },
    Workload { n: 10_000, cells: 16, probes: &[8] },
    Workload { n: 10_000, cells: 64, probes: &[8] },
    Workload { n: 10_000, cells: 1_024, probes: &[8] },
];

/// What is timed instead if it has to be quick.
const QUICK: [Workload; 1] = [Workload { n: 1_000, cells: 64, probes: &[8, 1, 64] }];

/// Times every workload.
pub fn time(subject: &dyn Subject, quick: bool, report: &mut Report) {
    let workloads = if quick { &QUICK[..] } else { &WORKLOADS };
    for workload in workloads {
        time_one(subject, workload, report);
    }
}

/// Rows that differ mostly in the direction in which a split parts centres: even coordinates up, odd
/// ones down. Such rows leave no cell empty.
fn rows(chance: &mut Chance, n: usize) -> Vec<f32> {
    let mut rows = Vec::with_capacity(n * PLAIN.d);
    for _ in 0..n {
        let apart = 20.0 * chance.signed();
        let sides = [1000.0 + apart, 1000.0 - apart];
        rows.extend((0..PLAIN.d).map(|j| (sides[j % 2] + 3.0 * chance.signed()) as f32));
    }
    rows
}

/// What a workload is run on.
struct Input {
    n: usize,
    cells: usize,
    rows: Vec<f32>,
    draws: Vec<f64>,
    queries: Vec<Vec<f32>>,
}

impl Input {
    /// The input of a workload.
    fn new(workload: &Workload) -> Input {
        let Workload { n, cells, .. } = *workload;
        let mut chance = Chance::new(1);
        let rows = rows(&mut chance, n);
        let queries = queries(&mut chance, &rows, PLAIN.d);
        let draws = (0..DRAWS).map(|_| chance.unit()).collect();
        Input { n, cells, rows, draws, queries }
    }

    /// The parameters with some number of probes.
    fn params(&self, probes: usize) -> CelledParams {
        CelledParams { plain: PLAIN, cells: self.cells, probes }
    }

    /// Trains the Rust; the seconds without the adding of rows.
    fn train_rust(&self) -> (f64, IVFPQIndex<f32, usize>) {
        let params = IVFPQParams::default()
            .n_sub(PLAIN.n_sub)
            .sub_bits(PLAIN.sub_bits)
            .n_kmeans_center(self.cells)
            .search_n_center(1)
            .train_epoch(EPOCHS);
        let mut index = IVFPQIndex::new(PLAIN.d, &params);
        for (number, row) in self.rows.chunks_exact(PLAIN.d).enumerate() {
            index.add(row, number).expect("not too many rows");
        }
        rand::lend_list(&self.draws);
        let (seconds, built) = timed(|| index.build(Euclidean));
        built.expect("training answers no error");
        (seconds, index)
    }
}

/// A voice with the buffers that it is lent.
struct Voice<'a> {
    subject: &'a dyn Subject,
    coarse: Vec<f32>,
    starts: Vec<u32>,
    members: Vec<u32>,
    sub_centres: Vec<f32>,
    codes: Vec<u8>,
    work: Vec<u32>,
    table: Vec<f32>,
    mask: Vec<u8>,
    rows: Vec<u32>,
    sums: Vec<f32>,
}

impl<'a> Voice<'a> {
    /// Buffers of the right lengths, not clear; all rows are visible.
    fn new(subject: &'a dyn Subject, input: &Input) -> Voice<'a> {
        let PlainParams { d, n_sub, sub_bits } = PLAIN;
        Voice {
            subject,
            coarse: vec![1.0; input.cells * d],
            starts: vec![1; input.cells + 1],
            members: vec![1; input.n],
            sub_centres: vec![1.0; (input.cells * page::covered(d, n_sub)) << sub_bits],
            codes: vec![1; input.n * n_sub],
            work: vec![1; input.n + 1024],
            table: vec![1.0; n_sub << sub_bits],
            mask: vec![1; input.n],
            rows: vec![1; K],
            sums: vec![1.0; K],
        }
    }

    /// Trains; the seconds.
    fn train(&mut self, input: &Input) -> f64 {
        let task = CelledTraining {
            params: input.params(1),
            epochs: EPOCHS,
            n: input.n,
            rows: &input.rows,
            draws: &input.draws,
            coarse: &mut self.coarse,
            starts: &mut self.starts,
            members: &mut self.members,
            sub_centres: &mut self.sub_centres,
            codes: &mut self.codes,
            work: &mut self.work,
        };
        let (seconds, trained) = timed(|| self.subject.train_celled(task));
        assert_eq!(trained, Ok(input.draws.len() as u64), "other draws are used");
        seconds
    }

    /// Checks the index; the seconds.
    fn check(&mut self, input: &Input) -> f64 {
        let index = CelledIndex {
            coarse: &self.coarse,
            starts: &self.starts,
            members: &self.members,
            sub_centres: &self.sub_centres,
            codes: &self.codes,
        };
        let task = CelledCheck { params: input.params(1), n: input.n, index, work: &mut self.work };
        let (seconds, checked) = timed(|| self.subject.check_celled(task));
        assert_eq!(checked, Ok(()), "a trained index is not sound");
        seconds
    }

    /// Searches for one point; the seconds.
    fn search(&mut self, input: &Input, probes: usize, query: &[f32]) -> f64 {
        let index = CelledIndex {
            coarse: &self.coarse,
            starts: &self.starts,
            members: &self.members,
            sub_centres: &self.sub_centres,
            codes: &self.codes,
        };
        let task = CelledSearch {
            params: input.params(probes),
            n: input.n,
            index,
            mask: &self.mask,
            query,
            table: &mut self.table,
            rows: &mut self.rows,
            sums: &mut self.sums,
        };
        let (seconds, searched) = timed(|| self.subject.search_celled(task));
        assert!(searched.is_ok(), "a search is refused with {searched:?}");
        seconds
    }

    /// Whether centres, lists and codes are those of the Rust.
    fn trained_as(&self, index: &IVFPQIndex<f32, usize>) -> bool {
        let members = reach::lists(index).iter().flatten().map(|&row| row as u32);
        let sub_centres = reach::cells(index).iter().flat_map(reach::sub_centres);
        same_bits(reach::coarse_centres(index).iter().flatten(), &self.coarse)
            && members.eq(self.members.iter().copied())
            && same_bits(sub_centres.flatten().flatten(), &self.sub_centres)
            && (0..self.starts.len() - 1).all(|cell| self.coded_as(index, cell))
    }

    /// Whether the codes of one cell's rows are those of the Rust.
    fn coded_as(&self, index: &IVFPQIndex<f32, usize>, cell: usize) -> bool {
        let list = &reach::lists(index)[cell];
        let code = |row: usize, sub: usize| self.codes[row * PLAIN.n_sub + sub] as usize;
        let coded = |(sub, codes): (usize, &Vec<usize>)| {
            list.iter().zip(codes).all(|(&row, &centre)| code(row, sub) == centre)
        };
        let stretch = self.starts[cell] as usize..self.starts[cell + 1] as usize;
        stretch.len() == list.len()
            && reach::codes(&reach::cells(index)[cell]).iter().enumerate().all(coded)
    }

    /// Whether the sums of a search are those of the Rust, which leaves the order of equal ones open.
    fn found_as(&self, list: &[(Node<f32, usize>, f32)]) -> bool {
        same_bits(list.iter().map(|(_, sum)| sum), &self.sums[..list.len()])
    }
}

/// One workload: a line for its training, its whole check and each number of probes.
fn time_one(subject: &dyn Subject, workload: &Workload, report: &mut Report) {
    let PlainParams { d, n_sub, sub_bits } = PLAIN;
    let Workload { n, cells, probes } = *workload;
    let words = format!("celled, D {d}, n {n}, n_sub {n_sub}, sub_bits {sub_bits}, cells {cells}");
    let mut input = Input::new(workload);
    let (first, mut index) = input.train_rust();
    input.draws.truncate(rand::used() as usize);
    let mut voice = Voice::new(subject, &input);
    let ours = voice.train(&input);
    report.equal &= voice.trained_as(&index);
    let best = match first > super::LONG {
        true => (first, ours),
        false => least(|| input.train_rust().0, || voice.train(&input)),
    };
    report.line(format!("{words}, training of {EPOCHS} epochs"), best);
    let check = (0..super::FEWEST_RUNS).map(|_| voice.check(&input)).fold(f64::INFINITY, f64::min);
    println!("{words}, the whole check: ours {}", in_words(check));
    for &probes in probes {
        reach::set_probes(&mut index, probes);
        let best = searches(&mut voice, &input, &index, probes, report);
        report.line(format!("{words}, a search of k {K}, probes {probes}"), best);
    }
}

/// The times of one search with some number of probes; the answers are compared first.
fn searches(
    voice: &mut Voice,
    input: &Input,
    index: &IVFPQIndex<f32, usize>,
    probes: usize,
    report: &mut Report,
) -> (f64, f64) {
    let nodes: Vec<Node<f32, usize>> = input.queries.iter().map(|query| Node::new(query)).collect();
    for (query, node) in input.queries.iter().zip(&nodes) {
        voice.search(input, probes, query);
        report.equal &= voice.found_as(&index.node_search_k(node, K));
    }
    let rust = || timed(|| nodes.iter().map(|node| index.node_search_k(node, K).len()).max()).0;
    let ours = || input.queries.iter().map(|query| voice.search(input, probes, query)).sum();
    let (rust, ours) = least(rust, ours);
    (rust / QUERIES as f64, ours / QUERIES as f64)
}
