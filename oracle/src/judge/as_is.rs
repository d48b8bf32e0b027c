//! The Rust with its own order on neighbours, asked in words: what it trains and finds, or how it
//! panics. For `disagree` only.

use hora_as_is::core::ann_index::ANNIndex;
use hora_as_is::core::metrics::Metric::Euclidean;
use hora_as_is::index::pq_idx::{reach, IVFPQIndex, PQIndex};
use hora_as_is::index::pq_params::{IVFPQParams, PQParams};

use crate::cases::case::*;
use crate::judge::quiet::{catch, Panic};

/// How many cells are shown with their sub-centres.
pub const CELLS_SHOWN: usize = 3;

/// What the Rust answers to the rows one by one, if it does not take them all; then what it trains;
/// then what it finds.
pub fn answer(case: &Case) -> String {
    let words = match case {
        Case::Kmeans(_) => unreachable!("no disagreement is shown on k-means alone"),
        Case::Plain(case) => plain(case),
        Case::Celled(case) => celled(case),
    };
    words.unwrap_or_else(|text| text)
}

/// Runs a step of the Rust; its panic ends the answer.
fn step<T>(what: &str, run: impl FnOnce() -> T) -> Result<T, String> {
    catch(run).map_err(|panic| match panic {
        Panic::OutOfDraws => format!("{what} asks for a draw past the last lent one"),
        Panic::Said(text) => {
            let text: Vec<&str> = text.split_whitespace().collect();
            format!("{what} panics: {}", text.join(" "))
        }
    })
}

/// A plain index: made, filled, trained, searched.
fn plain(case: &PlainCase) -> Result<String, String> {
    let params = case.params;
    let mut index: PQIndex<f32, usize> = step("making the index", || {
        let shape = PQParams::default().n_sub(params.n_sub).sub_bits(params.sub_bits);
        PQIndex::new(params.d, &shape.train_epoch(case.epochs))
    })?;
    let mut words = add(&mut index, case)?;
    train(&mut index, case)?;
    words +=
        &format!("sub-centres {}", list(reach::sub_centres(&index).iter().flatten().flatten()));
    search(&index, case, words)
}

/// A celled index: made, filled, trained, searched.
fn celled(case: &CelledCase) -> Result<String, String> {
    let params = case.plain.params;
    let mut index: IVFPQIndex<f32, usize> = step("making the index", || {
        let shape = IVFPQParams::default().n_sub(params.n_sub).sub_bits(params.sub_bits);
        let cells = shape.n_kmeans_center(case.cells).search_n_center(case.probes);
        IVFPQIndex::new(params.d, &cells.train_epoch(case.plain.epochs))
    })?;
    let mut words = add(&mut index, &case.plain)?;
    train(&mut index, &case.plain)?;
    words += &format!("coarse centres {}", list(reach::coarse_centres(&index).iter().flatten()));
    words += &format!(", lists {}", list(reach::lists(&index).iter()));
    for (number, cell) in reach::cells(&index).iter().enumerate().take(CELLS_SHOWN) {
        let centres = list(reach::sub_centres(cell).iter().flatten().flatten());
        words += &format!(", sub-centres of cell {number} {centres}");
    }
    search(&index, &case.plain, words)
}

/// Adds the rows; the answer to one that is not taken is kept.
fn add(index: &mut impl ANNIndex<f32, usize>, case: &PlainCase) -> Result<String, String> {
    let mut words = String::new();
    for (number, row) in case.rows.chunks_exact(case.params.d.max(1)).enumerate() {
        if let Err(text) = step("adding a row", || index.add(row, number))? {
            words += &format!("row {number} is not taken, \"{text}\"; it trains without it; ");
        }
    }
    Ok(words)
}

/// Trains with the draws lent.
fn train(index: &mut impl ANNIndex<f32, usize>, case: &PlainCase) -> Result<(), String> {
    rand::lend_list(&case.draws);
    step("training", || index.build(Euclidean).expect("training answers no error"))
}

/// What it finds, after what it trained.
fn search(
    index: &impl ANNIndex<f32, usize>,
    case: &PlainCase,
    trained: String,
) -> Result<String, String> {
    let mut words = trained;
    for query in &case.queries {
        match step("search", || index.search_nodes(&query.point, query.k)) {
            Ok(found) => {
                let rows: Vec<usize> = found.iter().map(|(node, _)| node.idx().unwrap()).collect();
                words += &format!("; finds rows {}", list(rows.iter()));
                words += &format!(" with sums {}", list(found.iter().map(|(_, sum)| sum)));
            }
            Err(text) => words += &format!("; {text}"),
        }
    }
    Ok(words)
}

/// A list in words, cut short if it is long.
pub fn list<'a, T: std::fmt::Debug + 'a>(items: impl Iterator<Item = &'a T>) -> String {
    let words: Vec<String> = items.map(|item| format!("{item:?}")).collect();
    match words.len() {
        0..=8 => format!("[{}]", words.join(", ")),
        n => format!("[{}, .. {n} in all]", words[..3].join(", ")),
    }
}
