//! The seat in the comparison: what a voice (the page, the library) is lent, and what it answers.
//! Buffers, their lengths and the answer numbers are those of document 01.

/// Parameters of a plain index.
#[derive(Clone, Copy, Debug, PartialEq, Eq)]
pub struct PlainParams {
    pub d: usize,
    pub n_sub: usize,
    pub sub_bits: usize,
}

/// Parameters of a celled index.
#[derive(Clone, Copy, Debug, PartialEq, Eq)]
pub struct CelledParams {
    pub plain: PlainParams,
    pub cells: usize,
    pub probes: usize,
}

/// The list of ranges, begin and end; unused places are 0, 0.
pub type Ranges = [[usize; 2]; 64];

/// One k-means: a range of some rows, less a residual if there is one. Its refusals are 8 and 9, named
/// as of the coarse stage.
pub struct Kmeans<'a> {
    pub d: usize,
    pub rows: &'a [f32],
    pub members: &'a [u32],
    pub begin: usize,
    pub end: usize,
    pub residual: Option<&'a [f32]>,
    pub n_center: usize,
    pub epochs: usize,
    pub draws: &'a [f64],
    pub centres: &'a mut [f32],
    pub assigned: &'a mut [u32],
}

/// Training of a plain index.
pub struct PlainTraining<'a> {
    pub params: PlainParams,
    pub epochs: usize,
    pub n: usize,
    pub rows: &'a [f32],
    pub draws: &'a [f64],
    pub sub_centres: &'a mut [f32],
    pub codes: &'a mut [u8],
    pub work: &'a mut [u32],
}

/// Search of a plain index.
pub struct PlainSearch<'a> {
    pub params: PlainParams,
    pub n: usize,
    pub sub_centres: &'a [f32],
    pub codes: &'a [u8],
    pub mask: &'a [u8],
    pub query: &'a [f32],
    pub table: &'a mut [f32],
    pub rows: &'a mut [u32],
    pub sums: &'a mut [f32],
}

/// Training of a celled index.
pub struct CelledTraining<'a> {
    pub params: CelledParams,
    pub epochs: usize,
    pub n: usize,
    pub rows: &'a [f32],
    pub draws: &'a [f64],
    pub coarse: &'a mut [f32],
    pub starts: &'a mut [u32],
    pub members: &'a mut [u32],
    pub sub_centres: &'a mut [f32],
    pub codes: &'a mut [u8],
    pub work: &'a mut [u32],
}

/// The five buffers of a built celled index.
#[derive(Clone, Copy)]
pub struct CelledIndex<'a> {
    pub coarse: &'a [f32],
    pub starts: &'a [u32],
    pub members: &'a [u32],
    pub sub_centres: &'a [f32],
    pub codes: &'a [u8],
}

/// Search of a celled index.
pub struct CelledSearch<'a> {
    pub params: CelledParams,
    pub n: usize,
    pub index: CelledIndex<'a>,
    pub mask: &'a [u8],
    pub query: &'a [f32],
    pub table: &'a mut [f32],
    pub rows: &'a mut [u32],
    pub sums: &'a mut [f32],
}

/// The whole check of a celled index.
pub struct CelledCheck<'a> {
    pub params: CelledParams,
    pub n: usize,
    pub index: CelledIndex<'a>,
    pub work: &'a mut [u32],
}

/// Which k-means of a training.
#[derive(Clone, Copy, Debug, PartialEq, Eq)]
pub enum Stage {
    Coarse,
    Sub { cell: usize, sub_space: usize },
}

/// Which step of a k-means gave a centre that is not finite.
#[derive(Clone, Copy, Debug, PartialEq, Eq)]
pub enum Step {
    Start,
    Averaging,
    Splitting,
}

/// Why a training is refused.
#[derive(Clone, Copy, Debug, PartialEq, Eq)]
pub enum Refusal {
    /// Answers 1 to 7.
    Input(u32),
    /// Answer 8; the centre is the empty one being filled.
    NoDraw { stage: Stage, epoch: usize, centre: usize },
    /// Answer 9.
    NotFinite { stage: Stage, epoch: usize, centre: usize, step: Step },
}

impl Refusal {
    /// The answer number.
    pub fn number(self) -> u32 {
        match self {
            Refusal::Input(number) => number,
            Refusal::NoDraw { .. } => 8,
            Refusal::NotFinite { .. } => 9,
        }
    }
}

/// The answer of a training: the number of draws used, or a refusal.
pub type Trained = Result<u64, Refusal>;

/// What a search reports: the places filled and the number of candidates.
#[derive(Clone, Copy, Debug, PartialEq, Eq)]
pub struct Found {
    pub found: u64,
    pub scored: u64,
}

/// The answer of a search: its report, or the number of its refusal.
pub type Searched = Result<Found, u32>;

/// The answer of the whole check: sound, or the number of its refusal.
pub type Checked = Result<(), u32>;

/// A blank place of the results holds this row number, and the sum 0.0.
pub const BLANK_ROW: u32 = u32::MAX;

/// A voice in the comparison.
pub trait Subject: Sync {
    /// What the printed lines call it.
    fn name(&self) -> &'static str;

    /// The range rule; refusal 1 is the only one.
    fn ranges(&self, d: usize, n_sub: usize) -> Result<Ranges, u32>;

    /// Its k-means; none if it has no entry point for one alone.
    fn kmeans(&self) -> Option<fn(Kmeans) -> Trained>;

    /// Training of a plain index.
    fn train_plain(&self, task: PlainTraining) -> Trained;
    /// Search of a plain index.
    fn search_plain(&self, task: PlainSearch) -> Searched;
    /// Training of a celled index.
    fn train_celled(&self, task: CelledTraining) -> Trained;
    /// Search of a celled index.
    fn search_celled(&self, task: CelledSearch) -> Searched;
    /// The whole check of a celled index.
    fn check_celled(&self, task: CelledCheck) -> Checked;
}
