//! The cases of the recorded file, chosen so that every corner is reached. A case is drafted from
//! its parameters and a seed; the first draft that lies in the differential domain, within the
//! limits of the file and without a refused search is taken, so the list is the same on every
//! machine.

use seat::PlainParams;

use crate::cases::case::*;
use crate::cases::chance::Chance;
use crate::cases::generate::{coordinate, point, rows, Grain};
use crate::judge::original::{judge, Verdict};
use crate::recorded::layout::limits;

const GRAINS: [Grain; 9] = [
    Grain::Whole,
    Grain::Unit,
    Grain::Binary,
    Grain::Huge,
    Grain::Near,
    Grain::Zeros,
    Grain::Tiny,
    Grain::Halves,
    Grain::Subnormal,
];

/// D, and the n_sub that go with it.
const SHAPES: [(usize, &[usize]); 7] = [
    (1, &[1]),
    (2, &[1, 2]),
    (63, &[1, 25, 63]),
    (64, &[1, 25, 64]),
    (65, &[1, 25, 64]),
    (128, &[1, 25, 64]),
    (256, &[1, 25, 64]),
];

/// D and n_sub for 256 sub-centres, which fill the file quickly.
const WIDE_SHAPES: [(usize, usize); 7] =
    [(1, 1), (2, 1), (2, 2), (63, 25), (64, 64), (65, 1), (256, 64)];

/// How often a draft is tried before a corner is given up.
const DRAFTS: u64 = 100;

/// All cases with the Rust's answers.
pub fn corners() -> Vec<(Case, Training)> {
    let mut list: Vec<(Case, Training)> = vec![answered(example()).expect("in the domain")];
    kmeans_corners(&mut list);
    plain_corners(&mut list);
    celled_corners(&mut list);
    list
}

/// The Rust's answer, if the case lies in the domain and no search is refused.
fn answered(mut case: Case) -> Option<(Case, Training)> {
    let Verdict::Trained(training) = judge(&case) else {
        return None;
    };
    if training.results.iter().any(Result::is_err) {
        return None;
    }
    case.draws().truncate(training.draws_used as usize + training.draws_used as usize % 3);
    within_limits(&mut case);
    Some((case, training))
}

/// Stops the recording if a case is larger than the file's readers allow for.
fn within_limits(case: &mut Case) {
    assert!(case.draws().len() <= limits::DRAWS);
    let (cells, index) = match case {
        Case::Kmeans(case) => {
            assert!(
                case.rows.len() <= limits::ROW_WORDS && case.rows.len() / case.d <= limits::ROWS
            );
            assert!(case.n_center * (case.end - case.begin) <= limits::SUB_CENTRE_WORDS);
            return;
        }
        Case::Plain(case) => (1, case),
        Case::Celled(case) => (case.cells, &mut case.plain),
    };
    let PlainParams { d, n_sub, sub_bits } = index.params;
    assert!(index.rows.len() <= limits::ROW_WORDS && index.n() <= limits::ROWS);
    assert!((cells * page::covered(d, n_sub)) << sub_bits <= limits::SUB_CENTRE_WORDS);
    assert!(index.queries.len() <= limits::QUERIES);
    assert!(index.queries.iter().all(|query| query.k <= limits::K));
}

/// Takes the first draft that can be recorded.
fn take(list: &mut Vec<(Case, Training)>, draft: impl Fn(&mut Chance) -> Case) {
    let number = list.len() as u64;
    let drafts = (0..DRAFTS).map(|seed| draft(&mut Chance::new(number * DRAFTS + seed)));
    list.extend(drafts.filter_map(answered).next());
}

/// Draws, mostly of a manner that finds a donor soon; mostly a sixth of what the file allows, so
/// that a draft that needs many is passed over.
fn draws(chance: &mut Chance, n: usize) -> Vec<f64> {
    let count = if chance.one_in(40) { limits::DRAWS } else { limits::DRAWS / 6 };
    let manner = chance.below(5);
    let draw = |_| match manner {
        0 => chance.unit(),
        1 => chance.below(n) as f64 / n as f64,
        _ => chance.unit().powi(5),
    };
    (0..count).map(draw).collect()
}

/// The example of document 01: two rows, four centres, four draws.
fn example() -> Case {
    Case::Kmeans(KmeansCase {
        d: 2,
        rows: vec![1.0, 2.0, 3.0, 4.0],
        members: vec![0, 1],
        begin: 0,
        end: 2,
        residual: None,
        n_center: 4,
        epochs: 2,
        draws: vec![0.0, 0.25, 0.5, 0.4],
    })
}

/// k-means: every number of centres with every number of epochs, with and without a residual. 256
/// centres come without a split, which would use more draws than the file holds.
fn kmeans_corners(list: &mut Vec<(Case, Training)>) {
    let mut turn = 0;
    for n_center in [1, 2, 3, 7, 16, 40, 128, 256] {
        for epochs in [0, 1, 2, 5] {
            for with_residual in [false, true] {
                turn += 1;
                if n_center < 256 || epochs < 2 {
                    take(list, |chance| kmeans(chance, turn, n_center, epochs, with_residual));
                }
            }
        }
    }
    for grain in [Grain::Brink, Grain::Beyond, Grain::Giant, Grain::Mixed] {
        for n in 1..=4 {
            take(list, |chance| giant_kmeans(chance, grain, n));
        }
    }
}

/// One of the k-means; `turn` decides what else it has.
fn kmeans(
    chance: &mut Chance,
    turn: usize,
    n_center: usize,
    epochs: usize,
    with_residual: bool,
) -> Case {
    let narrow = [(1, 0, 1), (2, 0, 2), (64, 60, 64), (256, 249, 256)];
    let wide = [(63, 0, 63), (65, 0, 65), (128, 1, 128), (256, 190, 256)];
    let choose_narrow = n_center > 40 || turn.is_multiple_of(3);
    let (d, begin, end) = if choose_narrow { narrow[turn % 4] } else { wide[turn % 4] };
    let n = [1, 2, 5, 9, if d > 2 { 20 } else { 100 }][turn % 5];
    let grain = GRAINS[turn % GRAINS.len()];
    let rows = rows(chance, grain, n, d);
    let members: Vec<u32> =
        (0..n as u32).filter(|row| turn.is_multiple_of(2) || row % 4 != 2).collect();
    let residual = with_residual.then(|| point(chance, grain, d));
    let draws = draws(chance, members.len());
    Case::Kmeans(KmeansCase { d, rows, members, begin, end, residual, n_center, epochs, draws })
}

/// A k-means whose distances overflow, while its centres stay finite.
fn giant_kmeans(chance: &mut Chance, grain: Grain, n: usize) -> Case {
    let d = chance.between(1, 3);
    let rows = rows(chance, grain, n, d);
    let members = (0..n as u32).collect();
    let residual = chance.one_in(2).then(|| vec![coordinate(chance, grain); d]);
    let (n_center, epochs) = (chance.between(2, 5), chance.between(1, 3));
    let draws = draws(chance, n);
    Case::Kmeans(KmeansCase {
        d,
        rows,
        members,
        begin: 0,
        end: d,
        residual,
        n_center,
        epochs,
        draws,
    })
}

/// Plain: every D with every n_sub and every sub_bits, the epochs in turn.
fn plain_corners(list: &mut Vec<(Case, Training)>) {
    let mut turn = 0;
    for (d, n_subs) in SHAPES {
        for &n_sub in n_subs {
            for sub_bits in [0, 1, 4] {
                for epochs in [[0, 2], [1, 5]][turn % 2] {
                    turn += 1;
                    let params = PlainParams { d, n_sub, sub_bits };
                    take(list, |chance| Case::Plain(plain(chance, turn, params, epochs)));
                }
                turn += 1;
            }
        }
    }
    for (d, n_sub) in WIDE_SHAPES {
        turn += 1;
        let params = PlainParams { d, n_sub, sub_bits: 8 };
        take(list, |chance| Case::Plain(plain(chance, turn, params, turn % 2)));
    }
}

/// One plain index; `turn` decides its rows.
fn plain(chance: &mut Chance, turn: usize, params: PlainParams, epochs: usize) -> PlainCase {
    let n = match params.d {
        1 | 2 => [1, 3, 40, 150, 512][turn % 5],
        _ => [1, 2, 5, 9, 16][turn % 5],
    };
    let grain = GRAINS[turn % GRAINS.len()];
    let rows = rows(chance, grain, n, params.d);
    let draws = draws(chance, n);
    let queries = queries(chance, turn, grain, &rows, params.d);
    PlainCase { params, epochs, rows, draws, queries }
}

/// Queries for one to four of the k that matter: 1, n, more than n, 0.
fn queries(chance: &mut Chance, turn: usize, grain: Grain, rows: &[f32], d: usize) -> Vec<Query> {
    let n = rows.len() / d;
    let more = if turn.is_multiple_of(16) { limits::K } else { n + 1 + turn % 5 };
    let ks = [1, n, more, 0];
    let mut list = Vec::new();
    for at in 0..[2, 4, 1][turn % 3] {
        let from = chance.below(n) * d;
        let point = match (turn + at) % 3 {
            0 => rows[from..from + d].to_vec(),
            1 => vec![0.0; d],
            _ => point(chance, grain, d),
        };
        list.push(Query { point, k: ks[(turn + at) % 4].min(limits::K), mask: None });
    }
    list
}

/// Celled: every number of cells with every number of epochs that leaves no cell empty. With 0 epochs
/// only two centres can have rows; with 2 the Rust fills a few cells, with 5 forty.
fn celled_corners(list: &mut Vec<(Case, Training)>) {
    let small = [(1, 1), (2, 1), (2, 2), (8, 3)];
    let large = [(63, 25), (64, 64), (65, 25), (128, 25), (256, 1)];
    let mut turn = 0;
    for (cells, all_epochs) in
        [(1, &[0, 1, 2, 5][..]), (2, &[0, 1, 2, 5]), (7, &[1, 2, 5]), (40, &[1, 5])]
    {
        for &epochs in all_epochs {
            for sub_bits in [0, 1, 4] {
                for shape in [small[turn % 4], large[turn % 5], small[(turn + 1) % 4]] {
                    turn += 1;
                    let (d, n_sub) = shape;
                    let params = PlainParams { d, n_sub, sub_bits };
                    if cells * (page::covered(d, n_sub) << sub_bits) <= 8_192 {
                        take(list, |chance| celled(chance, turn, params, cells, epochs));
                    }
                }
            }
        }
    }
    for (cells, d, n_sub) in [(1, 2, 2), (2, 1, 1), (7, 2, 1), (40, 1, 1)] {
        turn += 1;
        let params = PlainParams { d, n_sub, sub_bits: 8 };
        take(list, |chance| celled(chance, turn, params, cells, 1));
    }
}

/// One celled index. Where no cell may come out empty, there are many rows that a split parts.
fn celled(
    chance: &mut Chance,
    turn: usize,
    params: PlainParams,
    cells: usize,
    epochs: usize,
) -> Case {
    let crowded = epochs > 1 && cells > 2;
    let most = limits::ROWS.min(limits::ROW_WORDS / params.d);
    let n = if crowded {
        (cells * if params.d > 8 { 6 } else { 9 }).min(most)
    } else {
        [2, 5, 30, 9][turn % 4].min(most)
    };
    let grain = if crowded { Grain::Near } else { GRAINS[turn % GRAINS.len()] };
    let rows = rows(chance, grain, n, params.d);
    let draws = draws(chance, n);
    let queries = queries(chance, turn, grain, &rows, params.d);
    let probes = [1, cells, cells.div_ceil(2)][turn % 3];
    Case::Celled(CelledCase {
        plain: PlainCase { params, epochs, rows, draws, queries },
        cells,
        probes,
    })
}

/// The corners that a case stands at.
pub fn names(case: &Case) -> Vec<String> {
    let of_index = |case: &PlainCase| {
        let n = case.n();
        let mut list = vec![
            format!("D {}", case.params.d),
            format!("n_sub {}", case.params.n_sub),
            format!("sub_bits {}", case.params.sub_bits),
            format!("epochs {}", case.epochs),
        ];
        for query in &case.queries {
            list.push(match query.k {
                0 => "k 0".to_string(),
                1 => "k 1".to_string(),
                k if k == n => "k n".to_string(),
                k if k > n => "k more than n".to_string(),
                _ => "k below n".to_string(),
            });
        }
        list
    };
    match case {
        Case::Kmeans(case) => vec![
            format!("kmeans centres {}", case.n_center),
            format!("kmeans epochs {}", case.epochs),
        ],
        Case::Plain(case) => of_index(case),
        Case::Celled(case) => {
            let mut list = of_index(&case.plain);
            list.push(format!("cells {} epochs {}", case.cells, case.plain.epochs));
            list
        }
    }
}
