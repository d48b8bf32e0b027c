//! What is compared: a case is the input that both sides get, and these are the answers.

use seat::{CelledParams, PlainParams, Subject};

/// One k-means over a list of members.
#[derive(Clone, Debug)]
pub struct KmeansCase {
    pub d: usize,
    pub rows: Vec<f32>,
    pub members: Vec<u32>,
    pub begin: usize,
    pub end: usize,
    pub residual: Option<Vec<f32>>,
    pub n_center: usize,
    pub epochs: usize,
    pub draws: Vec<f64>,
}

/// One search; without a mask all rows are visible.
#[derive(Clone, Debug)]
pub struct Query {
    pub point: Vec<f32>,
    pub k: usize,
    pub mask: Option<Mask>,
}

/// A mask that hides rows; `spoil` says to damage the codes of hidden rows, which must not matter.
#[derive(Clone, Debug)]
pub struct Mask {
    pub visible: Vec<u8>,
    pub spoil: bool,
}

impl Query {
    /// Whether a row is visible.
    pub fn sees(&self, row: usize) -> bool {
        self.mask.as_ref().is_none_or(|mask| mask.visible[row] != 0)
    }
}

/// A training and the searches after it.
#[derive(Clone, Debug)]
pub struct PlainCase {
    pub params: PlainParams,
    pub epochs: usize,
    pub rows: Vec<f32>,
    pub draws: Vec<f64>,
    pub queries: Vec<Query>,
}

/// The same for a celled index.
#[derive(Clone, Debug)]
pub struct CelledCase {
    pub plain: PlainCase,
    pub cells: usize,
    pub probes: usize,
}

impl PlainCase {
    /// The number of rows.
    pub fn n(&self) -> usize {
        self.rows.len() / self.params.d
    }
}

impl CelledCase {
    /// All parameters of the index.
    pub fn params(&self) -> CelledParams {
        CelledParams { plain: self.plain.params, cells: self.cells, probes: self.probes }
    }
}

/// A case of any kind.
#[derive(Clone, Debug)]
pub enum Case {
    Kmeans(KmeansCase),
    Plain(PlainCase),
    Celled(CelledCase),
}

/// The kinds of cases, and what the commands call them.
#[derive(Clone, Copy, Debug, PartialEq, Eq)]
pub enum Kind {
    Kmeans,
    Plain,
    Celled,
}

impl Kind {
    pub const ALL: [Kind; 3] = [Kind::Kmeans, Kind::Plain, Kind::Celled];

    /// Its name in commands and printed lines.
    pub fn name(self) -> &'static str {
        match self {
            Kind::Kmeans => "kmeans",
            Kind::Plain => "plain",
            Kind::Celled => "celled",
        }
    }

    /// Whether a voice can be put cases of this kind.
    pub fn is_had_by(self, subject: &dyn Subject) -> bool {
        self != Kind::Kmeans || subject.kmeans().is_some()
    }
}

impl Case {
    /// Its kind.
    pub fn kind(&self) -> Kind {
        match self {
            Case::Kmeans(_) => Kind::Kmeans,
            Case::Plain(_) => Kind::Plain,
            Case::Celled(_) => Kind::Celled,
        }
    }

    /// The lent draws.
    pub fn draws(&mut self) -> &mut Vec<f64> {
        match self {
            Case::Kmeans(case) => &mut case.draws,
            Case::Plain(case) => &mut case.draws,
            Case::Celled(case) => &mut case.plain.draws,
        }
    }
}

/// The content of a buffer.
#[derive(Clone, Debug)]
pub enum Words {
    F32(Vec<f32>),
    U32(Vec<u32>),
    U8(Vec<u8>),
}

/// A buffer with its name in document 01.
#[derive(Clone, Debug)]
pub struct Buffer {
    pub name: &'static str,
    pub words: Words,
}

impl Words {
    /// Its words as bits, so that two contents can be compared exactly.
    pub fn bits(&self) -> Vec<u32> {
        match self {
            Words::F32(list) => list.iter().map(|x| x.to_bits()).collect(),
            Words::U32(list) => list.clone(),
            Words::U8(list) => list.iter().map(|&x| x as u32).collect(),
        }
    }
}

/// What a search leaves in the results, blanks included, and what it reports.
#[derive(Clone, Debug)]
pub struct Results {
    pub rows: Vec<u32>,
    pub sums: Vec<f32>,
    pub found: u64,
    pub scored: u64,
}

/// What a training leaves, and what each search after it answers.
#[derive(Clone, Debug)]
pub struct Training {
    pub draws_used: u64,
    pub buffers: Vec<Buffer>,
    pub results: Vec<Result<Results, u32>>,
}
