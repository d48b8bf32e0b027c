//! The plain index: the defaults, finer codes, more sub-spaces, more rows, and a small index.

use hora_as_is::core::ann_index::ANNIndex;
use hora_as_is::core::metrics::Metric::Euclidean;
use hora_as_is::core::node::Node;
use hora_as_is::index::pq_idx::{reach, PQIndex};
use hora_as_is::index::pq_params::PQParams;
use seat::{PlainParams, PlainSearch, PlainTraining, Subject};

use crate::cases::chance::Chance;

use super::{least, queries, same_bits, timed, Report, QUERIES};

/// The draws that the first training of the Rust is lent; all others are lent those that it used.
const DRAWS: usize = 16_000_000;

/// A plain index that is timed, and the numbers of results asked of it.
struct Workload {
    d: usize,
    n: usize,
    n_sub: usize,
    sub_bits: usize,
    epochs: usize,
    ks: [usize; 3],
}

const WORKLOADS: [Workload; 7] = [
    Workload { d: 128, n: 10_000, n_sub: 4, sub_bits: 4, epochs: 100, ks: [10, 1_000, 4_096] },
    Workload { d: 128, n: 10_000, n_sub: 4, sub_bits: 8, epochs: 2, ks: [10, 1_000, 4_096] },
    Workload { d: 128, n: 10_000, n_sub: 16, sub_bits: 8, epochs: 2, ks: [10, 1_000, 4_096] },
    Workload { d: 128, n: 10_000, n_sub: 64, sub_bits: 8, epochs: 2, ks: [10, 1_000, 4_096] },
    Workload { d: 128, n: 10_000, n_sub: 64, sub_bits: 4, epochs: 5, ks: [10, 1_000, 4_096] },
    Workload { d: 128, n: 100_000, n_sub: 16, sub_bits: 4, epochs: 2, ks: [10, 1_000, 4_096] },
    Workload { d: 32, n: 1_000, n_sub: 4, sub_bits: 4, epochs: 100, ks: [1, 10, 1_000] },
];

/// What is timed instead if it has to be quick.
const QUICK: [Workload; 2] = [
    Workload { d: 128, n: 10_000, n_sub: 16, sub_bits: 4, epochs: 2, ks: [10, 1_000, 4_096] },
    Workload { d: 32, n: 1_000, n_sub: 4, sub_bits: 4, epochs: 100, ks: [1, 10, 1_000] },
];

/// Times every workload.
pub fn time(subject: &dyn Subject, quick: bool, report: &mut Report) {
    let workloads = if quick { &QUICK[..] } else { &WORKLOADS };
    for workload in workloads {
        time_one(subject, workload, report);
    }
}

/// Rows around some centres, so that k-means has something to find.
fn rows(chance: &mut Chance, d: usize, n: usize) -> Vec<f32> {
    let centres: Vec<f32> = (0..64 * d).map(|_| chance.signed() as f32).collect();
    let mut rows = Vec::with_capacity(n * d);
    for _ in 0..n {
        let from = chance.below(64) * d;
        rows.extend((0..d).map(|j| centres[from + j] + 0.3 * chance.signed() as f32));
    }
    rows
}

/// What a workload is run on.
struct Input {
    params: PlainParams,
    epochs: usize,
    n: usize,
    rows: Vec<f32>,
    draws: Vec<f64>,
    queries: Vec<Vec<f32>>,
}

impl Input {
    /// The input of a workload.
    fn new(workload: &Workload) -> Input {
        let Workload { d, n, n_sub, sub_bits, epochs, .. } = *workload;
        let mut chance = Chance::new(1);
        let rows = rows(&mut chance, d, n);
        let queries = queries(&mut chance, &rows, d);
        let draws = (0..DRAWS).map(|_| chance.unit()).collect();
        Input { params: PlainParams { d, n_sub, sub_bits }, epochs, n, rows, draws, queries }
    }

    /// Trains the Rust; the seconds without the adding of rows.
    fn train_rust(&self) -> (f64, PQIndex<f32, usize>) {
        let PlainParams { d, n_sub, sub_bits } = self.params;
        let params = PQParams::default().n_sub(n_sub).sub_bits(sub_bits).train_epoch(self.epochs);
        let mut index = PQIndex::new(d, &params);
        for (number, row) in self.rows.chunks_exact(d).enumerate() {
            index.add(row, number).expect("not too many rows");
        }
        rand::lend_list(&self.draws);
        let (seconds, built) = timed(|| index.build(Euclidean));
        built.expect("training answers no error");
        (seconds, index)
    }
}

/// A voice with the buffers that it is lent.
struct Voice<'a> {
    subject: &'a dyn Subject,
    sub_centres: Vec<f32>,
    codes: Vec<u8>,
    work: Vec<u32>,
    table: Vec<f32>,
    mask: Vec<u8>,
    rows: Vec<u32>,
    sums: Vec<f32>,
}

impl<'a> Voice<'a> {
    /// Buffers of the right lengths, not clear; all rows are visible.
    fn new(subject: &'a dyn Subject, input: &Input) -> Voice<'a> {
        let PlainParams { d, n_sub, sub_bits } = input.params;
        Voice {
            subject,
            sub_centres: vec![1.0; page::covered(d, n_sub) << sub_bits],
            codes: vec![1; input.n * n_sub],
            work: vec![1; input.n + 1024],
            table: vec![1.0; n_sub << sub_bits],
            mask: vec![1; input.n],
            rows: Vec::new(),
            sums: Vec::new(),
        }
    }

    /// Trains; the seconds.
    fn train(&mut self, input: &Input) -> f64 {
        let task = PlainTraining {
            params: input.params,
            epochs: input.epochs,
            n: input.n,
            rows: &input.rows,
            draws: &input.draws,
            sub_centres: &mut self.sub_centres,
            codes: &mut self.codes,
            work: &mut self.work,
        };
        let (seconds, trained) = timed(|| self.subject.train_plain(task));
        assert_eq!(trained, Ok(input.draws.len() as u64), "other draws are used");
        seconds
    }

    /// Searches for one point; the seconds.
    fn search(&mut self, input: &Input, query: &[f32]) -> f64 {
        let task = PlainSearch {
            params: input.params,
            n: input.n,
            sub_centres: &self.sub_centres,
            codes: &self.codes,
            mask: &self.mask,
            query,
            table: &mut self.table,
            rows: &mut self.rows,
            sums: &mut self.sums,
        };
        let (seconds, searched) = timed(|| self.subject.search_plain(task));
        assert_eq!(searched.map(|found| found.scored), Ok(input.n as u64));
        seconds
    }

    /// Whether the centres and codes are those of the Rust.
    fn trained_as(&self, index: &PQIndex<f32, usize>) -> bool {
        let centres = reach::sub_centres(index).iter().flatten().flatten();
        let n_sub = reach::codes(index).len();
        let code = |sub: usize, row: usize| self.codes[row * n_sub + sub] as usize;
        let coded = |(sub, codes): (usize, &Vec<usize>)| {
            codes.iter().enumerate().all(|(row, &centre)| code(sub, row) == centre)
        };
        same_bits(centres, &self.sub_centres) && reach::codes(index).iter().enumerate().all(coded)
    }

    /// Whether the sums of a search are those of the Rust, which leaves the order of equal ones open.
    fn found_as(&self, list: &[(Node<f32, usize>, f32)]) -> bool {
        same_bits(list.iter().map(|(_, sum)| sum), &self.sums[..list.len()])
    }
}

/// One workload: a line for its training and for each k.
fn time_one(subject: &dyn Subject, workload: &Workload, report: &mut Report) {
    let Workload { d, n, n_sub, sub_bits, epochs, ks } = *workload;
    let words = format!("plain, D {d}, n {n}, n_sub {n_sub}, sub_bits {sub_bits}");
    let mut input = Input::new(workload);
    let (first, index) = input.train_rust();
    input.draws.truncate(rand::used() as usize);
    let mut voice = Voice::new(subject, &input);
    voice.train(&input);
    report.equal &= voice.trained_as(&index);
    let best = least(|| input.train_rust().0, || voice.train(&input));
    report.line(format!("{words}, training of {epochs} epochs"), (best.0.min(first), best.1));
    for k in ks {
        let best = searches(&mut voice, &input, &index, k, report);
        report.line(format!("{words}, a search of k {k}"), best);
    }
}

/// The times of one search of some k; the answers are compared first.
fn searches(
    voice: &mut Voice,
    input: &Input,
    index: &PQIndex<f32, usize>,
    k: usize,
    report: &mut Report,
) -> (f64, f64) {
    let nodes: Vec<Node<f32, usize>> = input.queries.iter().map(|query| Node::new(query)).collect();
    voice.rows = vec![1; k];
    voice.sums = vec![1.0; k];
    for (query, node) in input.queries.iter().zip(&nodes) {
        voice.search(input, query);
        report.equal &= voice.found_as(&index.node_search_k(node, k));
    }
    let rust = || timed(|| nodes.iter().map(|node| index.node_search_k(node, k).len()).max()).0;
    let ours = || input.queries.iter().map(|query| voice.search(input, query)).sum();
    let (rust, ours) = least(rust, ours);
    (rust / QUERIES as f64, ours / QUERIES as f64)
}
