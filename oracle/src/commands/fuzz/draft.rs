//! Calls of the face with anything: numbers at and past every bound, lengths right and wrong, contents
//! of every kind. Most are small; each is decided by the run's seed and its number.

use crate::cases::chance::Chance;
use crate::cases::generate::{Grain, AVERAGING, GRAINS};

use super::call::{Buffers, Call, Function, Shape};
use super::content::*;
use super::lend::Manner;

const MOST_ROWS: usize = 100_001;
const MOST_DRAWS: usize = 16_777_216;
const MOST_RESULTS: usize = 4_096;

/// The most elements that the buffers of a call may have, small or large.
const SMALL: usize = 20_000;
const LARGE: usize = 2_000_000;

/// The most steps of arithmetic, roughly, that a training may take.
const MOST_STEPS: usize = 200_000;

/// What a call may be as large as.
#[derive(Clone, Copy, PartialEq, Eq)]
enum Size {
    Small,
    ManyRows,
    ManyDraws,
}

impl Size {
    /// Most calls are small.
    fn of(chance: &mut Chance) -> Size {
        match chance.below(20_000) {
            0 => Size::ManyDraws,
            1..=10 => Size::ManyRows,
            _ => Size::Small,
        }
    }

    /// The most elements of all buffers together.
    fn most(self) -> usize {
        if self == Size::ManyRows {
            LARGE
        } else {
            SMALL
        }
    }
}

/// The call that a seed decides, and where its buffers stand.
pub fn draft(seed: u64) -> (Call, Manner) {
    let mut chance = Chance::new(seed);
    let manner = chance.pick(&[Manner::BeforeAWall, Manner::AfterAWall]);
    let size = Size::of(&mut chance);
    let chance = &mut chance;
    let call = match chance.below(40) {
        0 => range(chance),
        1 => lengths(chance, Function::PlainLengths),
        2 => lengths(chance, Function::CelledLengths),
        3..=9 => training(chance, Function::PlainTrain, size),
        10..=16 => search(chance, Function::PlainSearch, size),
        17..=24 => training(chance, Function::CelledTrain, size),
        25..=30 => check(chance, size),
        _ => search(chance, Function::CelledSearch, size),
    };
    (call, manner)
}

/// A question for a range.
fn range(chance: &mut Chance) -> Call {
    let (shape, _) = spoiled(chance, Function::Range, Size::Small);
    let i = match chance.below(4) {
        0 => chance.pick(&[shape.n_sub.wrapping_sub(1), shape.n_sub, 63, 64, usize::MAX]),
        1 => chance.bits() as usize,
        _ => chance.below(shape.n_sub.clamp(1, 64)),
    };
    Call::of_numbers(Function::Range, shape, i)
}

/// A question for lengths, often of more rows than there may be.
fn lengths(chance: &mut Chance, function: Function) -> Call {
    let (mut shape, _) = spoiled(chance, function, Size::Small);
    if chance.one_in(4) {
        spoil(chance, &mut shape, 4);
    }
    Call::of_numbers(function, shape, 0)
}

// ---- numbers

/// Numbers within bounds, but that many rows may be one too many.
fn mostly_right(chance: &mut Chance, size: Size) -> Shape {
    if size == Size::ManyRows {
        let d = chance.between(1, 4);
        let (n_sub, n) = (chance.between(1, d), MOST_ROWS - 1 + chance.below(3));
        let (sub_bits, epochs, cells) = (chance.below(3), chance.below(3), chance.between(1, 4));
        return Shape { d, n_sub, sub_bits, cells, probes: chance.between(1, cells), epochs, n };
    }
    let cells = match chance.below(40) {
        0 => chance.pick(&[1023, 1024]),
        1..=4 => chance.between(7, 40),
        _ => chance.between(1, 6),
    };
    let (many, d) = (cells > 40, chance.between(1, 6));
    let d = match chance.below(20) {
        _ if many => d,
        0 => chance.pick(&[63, 64, 65, 127, 128, 255, 256]),
        1..=5 => chance.between(7, 40),
        _ => d,
    };
    let most = d.min(64);
    let n_sub = match chance.below(3) {
        0 => most,
        _ => chance.between(1, most),
    };
    let sub_bits = match many {
        true => chance.below(3),
        false => chance.pick(&[0, 1, 1, 1, 2, 2, 2, 3, 3, 4, 5, 7, 8]),
    };
    let some = chance.between(1, cells);
    let probes = chance.pick(&[1, cells, some]);
    let epochs = match chance.below(200) {
        0 => chance.pick(&[999, 1000]),
        _ => chance.pick(&[0, 1, 1, 2, 2, 2, 3, 4, 7]),
    };
    let n = match chance.below(20) {
        0 => 0,
        1..=3 => chance.between(9, 40),
        _ => chance.between(1, 8),
    };
    Shape { d, n_sub, sub_bits, cells, probes, epochs, n }
}

/// Numbers of which some may be anything, and the right numbers that they come from.
fn spoiled(chance: &mut Chance, function: Function, size: Size) -> (Shape, Shape) {
    let right = mostly_right(chance, size);
    let mut shape = right;
    for _ in 0..chance.pick(&[0, 0, 0, 0, 0, 0, 1, 1, 2]) {
        let at = chance.below(if function.is_celled() { 8 } else { 6 });
        spoil(chance, &mut shape, at);
    }
    (shape, right)
}

/// Makes one number anything, above all what is at or past its bound.
fn spoil(chance: &mut Chance, shape: &mut Shape, at: usize) {
    let any = chance.bits() as usize >> chance.below(64);
    let Shape { d, n_sub, cells, n, .. } = *shape;
    let wide = |x: usize| x.wrapping_add(1 << 32);
    let one_more = |x: usize| x.wrapping_add(1);
    let wrapping = (usize::MAX / d.max(1)).wrapping_add(1).wrapping_add(n);
    match at {
        0 => shape.d = chance.pick(&[0, 1, 255, 256, 257, wide(d), usize::MAX, any]),
        1 => shape.n_sub = chance.pick(&[0, 1, d, one_more(d), 63, 64, 65, usize::MAX, any]),
        2 => shape.sub_bits = chance.pick(&[0, 7, 8, 9, 31, 32, 63, 64, 65, 256, usize::MAX, any]),
        3 => shape.epochs = chance.pick(&[0, 999, 1000, 1001, 1 << 32, usize::MAX, any]),
        4 => {
            let past = chance.pick(&[MOST_ROWS + 1, wide(n), wrapping, 1 << 63, usize::MAX, any]);
            shape.n = chance.pick(&[0, 1, MOST_ROWS - 1, MOST_ROWS, past, past]);
        }
        5 => (shape.d, shape.n_sub) = (n_sub, d),
        6 => shape.cells = chance.pick(&[0, 1, 1023, 1024, 1025, wide(cells), usize::MAX, any]),
        _ => {
            let near = chance.pick(&[cells, one_more(cells)]);
            shape.probes = chance.pick(&[0, 1, near, near, 1024, 1025, wide(1), usize::MAX, any]);
        }
    }
}

/// Fewer epochs and centres, until a training of these numbers takes no more than its time.
fn tamed(mut shape: Shape, celled: bool, most: usize) -> Shape {
    let steps = |shape: &Shape| {
        let cells = if celled { shape.cells } else { 0 };
        let distances = times(shape.n.saturating_add(4), centres(shape).saturating_add(cells));
        let an_epoch = times(distances, shape.d.saturating_add(times(shape.n_sub, 4)));
        times(an_epoch, shape.epochs.saturating_add(1))
    };
    let in_bounds = |shape: &Shape| shape.d <= 256 && shape.sub_bits <= 8 && shape.epochs <= 1000;
    while in_bounds(&shape) && shape.n <= MOST_ROWS && steps(&shape) > most {
        match (shape.epochs, shape.sub_bits) {
            (0, 0) => break,
            (0, bits) => shape.sub_bits = bits - 1,
            (epochs, _) => shape.epochs = epochs / 2,
        }
    }
    shape
}

// ---- lengths

/// C as document 01 has it, and D where that has none.
fn covered(shape: &Shape) -> usize {
    match (1..=256).contains(&shape.d) && (1..=shape.d.min(64)).contains(&shape.n_sub) {
        true => page::covered(shape.d, shape.n_sub),
        false => shape.d,
    }
}

/// A product that may be too large for any buffer.
fn times(a: usize, b: usize) -> usize {
    a.saturating_mul(b)
}

/// 2^sub_bits, as far as a number holds it.
fn centres(shape: &Shape) -> usize {
    match shape.sub_bits {
        0..=62 => 1 << shape.sub_bits,
        _ => usize::MAX,
    }
}

/// The lengths of coarse centres, starts, members, sub-centres and codes; a plain index has no lists.
fn index_lengths(shape: &Shape, celled: bool) -> [usize; 5] {
    let (of_cell, codes) = (times(covered(shape), centres(shape)), times(shape.n, shape.n_sub));
    let Shape { d, cells, n, .. } = *shape;
    match celled {
        true => [times(cells, d), cells.saturating_add(1), n, times(cells, of_cell), codes],
        false => [0, 0, 0, of_cell, codes],
    }
}

/// The lengths that the numbers ask for if buffers so long can be had and chance does not say
/// otherwise; else those of the right numbers. Some are then spoiled.
fn chosen<const N: usize>(
    chance: &mut Chance,
    asked: [usize; N],
    right: [usize; N],
    most: usize,
) -> [usize; N] {
    let sum = |list: &[usize; N]| list.iter().fold(0usize, |sum, &len| sum.saturating_add(len));
    let mut list = if sum(&asked) <= most && !chance.one_in(8) { asked } else { right };
    if sum(&list) > LARGE {
        list = [1; N];
    }
    if chance.one_in(12) {
        let (at, other) = (chance.below(N), chance.below(N));
        let len = list[at];
        let any = chance.below(70);
        list[at] = chance.pick(&[0, len.saturating_sub(1), len + 1, 2 * len, list[other], any]);
    }
    if chance.one_in(50) {
        list.swap(chance.below(N), chance.below(N));
    }
    list
}

// ---- calls

/// A training, of a plain or a celled index.
fn training(chance: &mut Chance, function: Function, size: Size) -> Call {
    let celled = function.is_celled();
    if chance.one_in(40) {
        return overflowing_later(chance, function);
    }
    let (shape, right) = spoiled(chance, function, size);
    let large = size == Size::ManyRows;
    let shape = tamed(shape, celled, MOST_STEPS * if large { 100 } else { 1 });
    let of = |shape: &Shape| {
        let [coarse, starts, members, subs, codes] = index_lengths(shape, celled);
        let (rows, work) = (times(shape.n, shape.d), shape.n.saturating_add(1024));
        [rows, coarse, starts, members, subs, codes, work]
    };
    let lengths = chosen(chance, of(&shape), of(&right), size.most());
    let draws = draw_count(chance, &shape, size);
    let rows = rows(chance, lengths[0]);
    let draws = draws_of(chance, shape.n, draws, size);
    trained(chance, function, shape, rows, draws, lengths)
}

/// A training whose outputs and work hold anything.
fn trained(
    chance: &mut Chance,
    function: Function,
    shape: Shape,
    rows: Vec<f32>,
    draws: Vec<f64>,
    [_, coarse, starts, members, subs, codes, work]: [usize; 7],
) -> Call {
    let buffers = Buffers {
        rows,
        draws,
        coarse: junk_f32(chance, coarse),
        starts: junk_u32(chance, starts),
        members: junk_u32(chance, members),
        subs: junk_f32(chance, subs),
        codes: junk_u8(chance, codes),
        work: junk_u32(chance, work),
        ..Buffers::default()
    };
    Call { function, shape, i: 0, buffers, damage: None }
}

/// How many draws a training is lent: none, few or plenty.
fn draw_count(chance: &mut Chance, shape: &Shape, size: Size) -> usize {
    let centres = times(centres(shape), shape.n_sub).saturating_add(shape.cells);
    let plenty = times(centres, 8 * shape.epochs.min(8)).min(4_000);
    match chance.below(8) {
        _ if size == Size::ManyDraws => MOST_DRAWS + chance.below(2),
        0 => 0,
        1 | 2 => chance.below(12),
        _ => plenty,
    }
}

/// So many draws; where they are as many as may be, they are 0.
fn draws_of(chance: &mut Chance, n: usize, len: usize, size: Size) -> Vec<f64> {
    match size {
        Size::ManyDraws => vec![0.0; len],
        _ => draws(chance, n, len),
    }
}

/// A training in which sums overflow in averaging, or products in splitting, though nothing does at
/// start: columns of such rows, each a sub-space, among others. The coarse k-means of a celled index
/// meets them first.
fn overflowing_later(chance: &mut Chance, function: Function) -> Call {
    let column: &[f32] = if chance.one_in(2) { &AVERAGING } else { &[f32::MAX] };
    let (d, n) = (chance.between(1, 4), column.len());
    let (sub_bits, epochs) = (chance.between(1, 3), chance.between(2, 4));
    let shape = Shape { d, n_sub: d, sub_bits, cells: chance.between(1, 3), probes: 1, epochs, n };
    let [coarse, starts, members, subs, codes] = index_lengths(&shape, function.is_celled());
    let mut rows: Vec<f32> = (0..n * d).map(|_| chance.signed() as f32).collect();
    for sub in 0..d {
        let sign = chance.pick(&[0.0, -1.0, 1.0]);
        if sign != 0.0 {
            (0..n).for_each(|row| rows[row * d + sub] = sign * column[row]);
        }
    }
    let lengths = [n * d, coarse, starts, members, subs, codes, n + 1024];
    trained(chance, function, shape, rows, vec![0.0; 4_000], lengths)
}

/// A search, of a plain or a celled index.
fn search(chance: &mut Chance, function: Function, size: Size) -> Call {
    let (shape, right) = spoiled(chance, function, size);
    let of = |shape: &Shape| {
        let [coarse, starts, members, subs, codes] = index_lengths(shape, function.is_celled());
        let table = times(shape.n_sub, centres(shape));
        [shape.d, shape.n, coarse, starts, members, subs, codes, table]
    };
    let [query, mask_len, coarse, starts, members, subs, codes, table] =
        chosen(chance, of(&shape), of(&right), size.most());
    let k = match chance.below(40) {
        0 => chance.pick(&[MOST_RESULTS - 1, MOST_RESULTS]),
        1 => chance.pick(&[MOST_RESULTS + 1, MOST_RESULTS + 1, 5_000, 70_000]),
        2..=5 => 0,
        _ => chance.between(1, mask_len.min(40) + 3),
    };
    let sums = if chance.one_in(40) { chance.pick(&[0, k + 1, k.saturating_sub(1)]) } else { k };
    let (mut buffers, damage) = index(chance, &shape, [coarse, starts, members, subs, codes]);
    let sums_overflow = chance.one_in(12);
    let grain = if sums_overflow { Grain::Whole } else { chance.pick(&GRAINS) };
    buffers.query = of_grain(chance, grain, query);
    buffers.coarse = of_grain(chance, grain, coarse);
    buffers.subs = match sums_overflow {
        true => far_off(chance, subs),
        false => of_grain(chance, grain, subs),
    };
    odd_coordinate(chance, &mut buffers.query, 12);
    odd_coordinate(chance, &mut buffers.coarse, 20);
    odd_coordinate(chance, &mut buffers.subs, 8);
    buffers.mask = mask(chance, mask_len);
    if sums_overflow && chance.one_in(2) {
        hide_far_off(&mut buffers.codes, &buffers.mask, shape.n_sub);
    }
    buffers.found = junk_u32(chance, k);
    buffers.sums = junk_f32(chance, sums);
    buffers.table = junk_f32(chance, table);
    Call { function, shape, i: 0, buffers, damage }
}

/// A whole check.
fn check(chance: &mut Chance, size: Size) -> Call {
    let function = Function::CelledCheck;
    let (shape, right) = spoiled(chance, function, size);
    let of = |shape: &Shape| {
        let [coarse, starts, members, subs, codes] = index_lengths(shape, true);
        [coarse, starts, members, subs, codes, shape.n.saturating_add(1024)]
    };
    let [coarse, starts, members, subs, codes, work] =
        chosen(chance, of(&shape), of(&right), size.most());
    let (mut buffers, damage) = index(chance, &shape, [coarse, starts, members, subs, codes]);
    buffers.work = junk_u32(chance, work);
    Call { function, shape, i: 0, buffers, damage }
}

/// The buffers of an index: lists and codes sound or damaged, centres of any bits.
fn index(
    chance: &mut Chance,
    shape: &Shape,
    [coarse, starts, members, subs, code_len]: [usize; 5],
) -> (Buffers, Option<&'static str>) {
    let (lists, of_lists) = lists(chance, shape, starts, members);
    let (codes, of_codes) = codes(chance, centres(shape), code_len);
    let buffers = Buffers {
        coarse: junk_f32(chance, coarse),
        starts: lists.starts,
        members: lists.members,
        subs: junk_f32(chance, subs),
        codes,
        ..Buffers::default()
    };
    (buffers, of_lists.or(of_codes))
}
