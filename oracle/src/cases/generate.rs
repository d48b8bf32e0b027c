//! Random cases over document 01's differential domain: mostly small, with a tail of large ones, and
//! rows among which ties, duplicates and overflow really happen.

use seat::PlainParams;

use crate::cases::case::*;
use crate::cases::chance::Chance;
use crate::judge::original::{judge, Verdict};

/// Rows of one coordinate whose sum stays finite in row order, but not without the second row, which
/// is 1 - 1/1024 of their mean: a centre overflows in averaging, though not at start.
pub const AVERAGING: [f32; 5] =
    [2.4e38, f32::from_bits(0xfdf0_816b), 1.4e38, -3e38, f32::from_bits(0xff34_95c4)];

/// What the coordinates of a case look like.
#[derive(Clone, Copy, Debug)]
pub enum Grain {
    /// 0 or 1: many ties.
    Binary,
    /// Whole numbers from -3 to 3.
    Whole,
    /// Halves from -8 to 8.
    Halves,
    /// Anything from -1 to 1.
    Unit,
    /// Anything from -100 to 100.
    Wide,
    /// Within one part in 200 of 1000: a split, which moves by one part in 1024, parts them.
    Near,
    /// Up to 1e18: squares are large, sums of them finite.
    Huge,
    /// All coordinates of a row near 9e18, or all near -9e18: the square of a difference is finite,
    /// the sum of two such squares overflows.
    Brink,
    /// Up to 2e19: the square of a difference comes close to the largest f32 or passes it.
    Beyond,
    /// Up to the largest f32: sums and differences overflow too.
    Giant,
    /// Up to 1e-20: squares are subnormal or zero.
    Tiny,
    /// Subnormal numbers.
    Subnormal,
    /// Zeros of both signs.
    Zeros,
    /// Each coordinate of another grain.
    Mixed,
}

pub const GRAINS: [Grain; 14] = [
    Grain::Binary,
    Grain::Whole,
    Grain::Halves,
    Grain::Unit,
    Grain::Wide,
    Grain::Near,
    Grain::Huge,
    Grain::Brink,
    Grain::Beyond,
    Grain::Giant,
    Grain::Tiny,
    Grain::Subnormal,
    Grain::Zeros,
    Grain::Mixed,
];

/// The most draws that a case is drafted with.
const MOST_DRAWS: usize = 2_000_000;

/// What one donor step counts in a case's budget; it stands for the memory of its draw too.
const DONOR_STEP: usize = 150;

/// A coordinate of a grain.
pub fn coordinate(chance: &mut Chance, grain: Grain) -> f32 {
    match grain {
        Grain::Binary => chance.below(2) as f32,
        Grain::Whole => chance.below(7) as f32 - 3.0,
        Grain::Halves => (chance.below(33) as f32 - 16.0) / 2.0,
        Grain::Unit => chance.signed() as f32,
        Grain::Wide => (chance.signed() * 100.0) as f32,
        Grain::Near => (1000.0 + 5.0 * chance.signed()) as f32,
        Grain::Huge => (chance.signed() * 1e18) as f32,
        Grain::Brink => chance.pick(&[-9e18, -8e18, 8e18, 9e18]),
        Grain::Beyond => (chance.signed() * 2e19) as f32,
        Grain::Giant => (chance.signed() * f32::MAX as f64) as f32,
        Grain::Tiny => (chance.signed() * 1e-20) as f32,
        Grain::Subnormal => f32::from_bits(chance.bits() as u32 & 0x807f_ffff),
        Grain::Zeros => f32::from_bits(chance.bits() as u32 & 0x8000_0000),
        Grain::Mixed => {
            let grain = chance.pick(&GRAINS[..13]);
            coordinate(chance, grain)
        }
    }
}

/// Rows of one grain. In most cases some of them repeat earlier ones, with a coordinate changed or
/// none.
pub fn rows(chance: &mut Chance, grain: Grain, n: usize, d: usize) -> Vec<f32> {
    let repeat = chance.pick(&[0, 0, 1, 4, 9]);
    let mut rows: Vec<f32> = Vec::with_capacity(n * d);
    for row in 0..n {
        if row > 0 && chance.below(10) < repeat {
            let from = chance.below(row) * d;
            rows.extend_from_within(from..from + d);
            if chance.one_in(2) {
                let at = row * d + chance.below(d);
                rows[at] = coordinate(chance, grain);
            }
        } else {
            rows.extend(point(chance, grain, d));
        }
    }
    rows
}

/// A point of a grain.
pub fn point(chance: &mut Chance, grain: Grain, d: usize) -> Vec<f32> {
    let side = chance.pick(&[-1.0, 1.0]);
    let one = |x: f32| if matches!(grain, Grain::Brink) { side * x.abs() } else { x };
    (0..d).map(|_| one(coordinate(chance, grain))).collect()
}

/// More draws than the donor steps expected, of one of several manners; `n` is the number of rows, so
/// that a draw can equal count/n.
fn draws(chance: &mut Chance, steps: usize, n: usize) -> Vec<f64> {
    let count = (64 + 3 * steps).min(MOST_DRAWS);
    let manner = chance.below(8);
    let draw = |_| match manner {
        0..=2 => chance.unit(),
        3 | 4 => chance.unit().powi(3),
        5 => chance.below(n) as f64 / n as f64,
        6 => chance.pick(&[0.0, -0.0, 0.25, 0.5, 0.75, 1.0 - f64::EPSILON / 2.0]),
        _ => chance.unit() * 0.1,
    };
    (0..count).map(draw).collect()
}

/// A dimension; the corners of document 01 come often enough.
fn dimension(chance: &mut Chance) -> usize {
    match chance.below(20) {
        0..=11 => chance.between(1, 8),
        12..=15 => chance.between(9, 40),
        16..=18 => chance.pick(&[63, 64, 65, 66, 100, 127, 128, 129, 130, 200]),
        _ => chance.pick(&[255, 256]),
    }
}

/// A number of rows.
fn row_count(chance: &mut Chance) -> usize {
    match chance.below(40) {
        0..=19 => chance.between(1, 12),
        20..=33 => chance.between(13, 40),
        34..=38 => chance.between(41, 150),
        _ => chance.between(151, 600),
    }
}

/// A number of epochs.
fn epoch_count(chance: &mut Chance) -> usize {
    chance.pick(&[0, 1, 1, 2, 2, 2, 3, 3, 4, 5, 6, 10, 30])
}

/// Parameters of a plain index.
fn plain_params(chance: &mut Chance) -> PlainParams {
    let d = dimension(chance);
    let most = d.min(64);
    let n_sub = match chance.below(5) {
        0 => 1,
        1 | 2 => most,
        3 => most.min(25),
        _ => chance.between(1, most),
    };
    let sub_bits = chance.pick(&[0, 1, 1, 2, 2, 2, 3, 3, 3, 4, 4, 4, 5, 6, 7, 8, 8]);
    PlainParams { d, n_sub, sub_bits }
}

/// Nanoseconds that a case may take, roughly: mostly six milliseconds.
fn budget(chance: &mut Chance) -> usize {
    match chance.below(100) {
        0..=89 => 6_000_000,
        90..=98 => 60_000_000,
        _ => 600_000_000,
    }
}

/// Nanoseconds that one k-means takes, roughly.
fn kmeans_cost(n: usize, n_center: usize, width: usize, epochs: usize) -> usize {
    2 * n * n_center * (epochs + 1) * (50 + width) + DONOR_STEP * donor_steps(n_center, epochs)
}

/// Donor steps that one k-means takes, roughly, at most.
fn donor_steps(n_center: usize, epochs: usize) -> usize {
    n_center * n_center * epochs.saturating_sub(1)
}

/// A k-means within its budget.
fn kmeans(chance: &mut Chance) -> KmeansCase {
    let d = dimension(chance);
    let begin = if chance.one_in(2) { 0 } else { chance.below(d) };
    let end = if chance.one_in(2) { d } else { chance.between(begin + 1, d) };
    let mut n = row_count(chance);
    let mut n_center = chance.pick(&[1, 2, 2, 3, 4, 5, 7, 8, 16, 16, 32, 40, 64, 256, 1024]);
    let mut epochs = epoch_count(chance);
    let most = budget(chance);
    while kmeans_cost(n, n_center, end - begin, epochs) > most {
        match chance.below(3) {
            0 => n = n.div_ceil(2),
            1 => epochs -= epochs / 2,
            _ => n_center = n_center.div_ceil(2),
        }
    }
    let grain = chance.pick(&GRAINS);
    let rows = rows(chance, grain, n, d);
    let members = members(chance, n);
    let residual = chance.one_in(2).then(|| (0..d).map(|_| coordinate(chance, grain)).collect());
    let draws = draws(chance, donor_steps(n_center, epochs), members.len());
    KmeansCase { d, rows, members, begin, end, residual, n_center, epochs, draws }
}

/// All rows, or some of them, rising and at least one.
fn members(chance: &mut Chance, n: usize) -> Vec<u32> {
    let all = 0..n as u32;
    if chance.one_in(2) {
        return all.collect();
    }
    let some: Vec<u32> = all.filter(|_| !chance.one_in(3)).collect();
    if some.is_empty() {
        vec![0]
    } else {
        some
    }
}

/// A plain index within its budget.
fn plain(chance: &mut Chance) -> PlainCase {
    let mut params = plain_params(chance);
    let mut n = row_count(chance);
    let mut epochs = epoch_count(chance);
    let most = budget(chance);
    while plain_cost(params, n, epochs) > most {
        match chance.below(4) {
            0 | 1 => n = n.div_ceil(2),
            2 => epochs -= epochs / 2,
            _ => params.sub_bits = params.sub_bits.saturating_sub(1),
        }
    }
    let grain = chance.pick(&GRAINS);
    let rows = rows(chance, grain, n, params.d);
    let steps = params.n_sub * donor_steps(1 << params.sub_bits, epochs);
    let draws = draws(chance, steps, n);
    let queries = queries(chance, grain, &rows, params.d);
    PlainCase { params, epochs, rows, draws, queries }
}

/// Nanoseconds that the training of a plain index takes, roughly.
fn plain_cost(params: PlainParams, n: usize, epochs: usize) -> usize {
    let width = params.d / params.n_sub;
    params.n_sub * kmeans_cost(n, 1 << params.sub_bits, width, epochs)
}

/// A celled index within its budget. With more than one epoch no cell may come out empty, so there
/// the rows are many and spread out.
fn celled(chance: &mut Chance) -> CelledCase {
    let mut plain = plain_params(chance);
    let mut epochs = epoch_count(chance);
    let most = 2 * budget(chance);
    let mut cells = match epochs {
        0 => chance.between(1, 2),
        1 => chance.pick(&[1, 2, 3, 7, 16, 40, 40, 200, 1024]),
        2..=4 => chance.pick(&[1, 2, 2, 2, 3, 3, 4, 5, 7]),
        _ => chance.pick(&[1, 2, 2, 3, 3, 5, 7, 16, 40]),
    };
    let mut n = row_count(chance).max(if epochs > 1 { 6 * cells } else { 1 });
    while celled_cost(plain, cells, n, epochs) > most {
        match chance.below(6) {
            0 | 1 if epochs < 2 || n >= 12 * cells => n = n.div_ceil(2),
            2 => epochs -= epochs / 2,
            3 | 4 => plain.sub_bits = plain.sub_bits.saturating_sub(1),
            5 => cells = cells.div_ceil(2),
            _ => {}
        }
    }
    let many = epochs > 1 && cells > 4;
    let grain = if many { Grain::Near } else { chance.pick(&GRAINS) };
    let rows = rows(chance, grain, n, plain.d);
    let steps =
        donor_steps(cells, epochs) + cells * plain.n_sub * donor_steps(1 << plain.sub_bits, epochs);
    let draws = draws(chance, steps, n);
    let queries = queries(chance, grain, &rows, plain.d);
    let probes = chance.pick(&[1, cells.min(8), cells, cells.div_ceil(2)]);
    CelledCase { plain: PlainCase { params: plain, epochs, rows, draws, queries }, cells, probes }
}

/// Nanoseconds that the training of a celled index takes, roughly.
fn celled_cost(plain: PlainParams, cells: usize, n: usize, epochs: usize) -> usize {
    let words = cells * (plain.d << plain.sub_bits);
    let donors = (cells - 1) * plain.n_sub * donor_steps(1 << plain.sub_bits, epochs);
    let coarse = kmeans_cost(n, cells, plain.d, epochs);
    coarse + plain_cost(plain, n, epochs) + DONOR_STEP * donors + 10 * words
}

/// Some queries: rows themselves, rows with a coordinate changed, and new points. Some hide rows,
/// more often where the sum of a hidden row may overflow.
fn queries(chance: &mut Chance, grain: Grain, rows: &[f32], d: usize) -> Vec<Query> {
    let n = rows.len() / d;
    let mut list = Vec::new();
    for _ in 0..chance.pick(&[1, 2, 3]) {
        let from = chance.below(n) * d;
        let mut point = rows[from..from + d].to_vec();
        match chance.below(3) {
            0 => {}
            1 => point[chance.below(d)] = coordinate(chance, grain),
            _ => point = self::point(chance, grain, d),
        }
        let k = match chance.below(8) {
            0 => 0,
            1 => 1,
            2 => n,
            3 => n + chance.between(1, 20),
            4 if chance.one_in(10) => 4096,
            _ => chance.between(1, n),
        };
        let often = if matches!(grain, Grain::Brink) { 2 } else { 5 };
        let mask = chance.one_in(often).then(|| mask(chance, rows, &point));
        list.push(Query { point, k, mask });
    }
    list
}

/// A mask: some rows hidden, at times all of them, at times those on the other side of zero.
fn mask(chance: &mut Chance, rows: &[f32], query: &[f32]) -> Mask {
    let shown = chance.below(5);
    let mut shows = |row: &[f32]| match shown {
        4 => row[0].is_sign_negative() == query[0].is_sign_negative(),
        _ => chance.below(4) < shown,
    };
    let visible: Vec<bool> = rows.chunks_exact(query.len()).map(&mut shows).collect();
    let byte = |shows| if shows { chance.between(1, 255) as u8 } else { 0 };
    Mask { visible: visible.into_iter().map(byte).collect(), spoil: chance.one_in(2) }
}

/// A case of a kind, decided by its seed alone, with more draws than it needs.
fn drafted(kind: Kind, chance: &mut Chance) -> Case {
    match kind {
        Kind::Kmeans => Case::Kmeans(kmeans(chance)),
        Kind::Plain => Case::Plain(plain(chance)),
        Kind::Celled => Case::Celled(celled(chance)),
    }
}

/// A case that its seed decides, the Rust's verdict on it, and how many drafts before it were
/// outside the domain. It is lent the draws that it needs and up to two more, or, at times, too few.
pub fn fitted(kind: Kind, seed: u64) -> (Case, Verdict, usize) {
    let mut chance = Chance::new(seed);
    let mut outside = 0;
    loop {
        let mut case = drafted(kind, &mut chance);
        let verdict = judge(&case);
        if let Verdict::Outside = verdict {
            outside += 1;
            continue;
        }
        let used = rand::used() as usize;
        if used > 0 && chance.one_in(20) {
            case.draws().truncate(chance.below(used));
            let verdict = judge(&case);
            return (case, verdict, outside);
        }
        case.draws().truncate(used + chance.below(3));
        return (case, verdict, outside);
    }
}
