//! Document 01, "Ranges".

use seat::Ranges;

use super::refusals::plain_bounds;

/// The range rule as an entry point: D and n_sub are tested.
pub fn ranges(d: usize, n_sub: usize) -> Result<Ranges, u32> {
    plain_bounds(d, n_sub, 0)?;
    let mut list = [[0, 0]; 64];
    for (place, range) in list.iter_mut().zip(pairs(d, n_sub)) {
        *place = range;
    }
    Ok(list)
}

/// The n_sub ranges: s = D / n_sub, e = D mod s, the first e one longer, without gaps from 0.
pub fn pairs(d: usize, n_sub: usize) -> Vec<[usize; 2]> {
    let s = d / n_sub;
    let e = d % s;
    let mut begin = 0;
    let mut list = Vec::new();
    for i in 0..n_sub {
        let end = begin + if i < e { s + 1 } else { s };
        list.push([begin, end]);
        begin = end;
    }
    list
}

/// C, the coordinates covered.
pub fn covered(d: usize, n_sub: usize) -> usize {
    pairs(d, n_sub)[n_sub - 1][1]
}
