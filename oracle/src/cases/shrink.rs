//! Makes a case that shows a difference as small as it can, step by step, as long as the difference
//! stays.

use std::ops::Range;

use crate::cases::case::*;

/// How many smaller cases are tried in all.
const TRIES: usize = 4000;

/// A step that makes a case smaller or plainer.
type Change<'a, T> = Box<dyn Fn(&mut T) + 'a>;

/// The smallest case found that still fails.
pub fn shrink(mut case: Case, fails: &dyn Fn(&Case) -> bool) -> Case {
    let mut tries = 0;
    loop {
        let next = changes(&case).into_iter().find_map(|change| {
            tries += 1;
            let mut smaller = case.clone();
            change(&mut smaller);
            (tries <= TRIES && fails(&smaller)).then_some(smaller)
        });
        match next {
            Some(found) => case = found,
            None => return case,
        }
    }
}

/// The steps that a case allows, the largest first.
fn changes(case: &Case) -> Vec<Change<'_, Case>> {
    match case {
        Case::Kmeans(case) => raised(kmeans(case), |case| match case {
            Case::Kmeans(case) => case,
            _ => unreachable!("a change keeps the kind"),
        }),
        Case::Plain(case) => raised(plain(case), |case| match case {
            Case::Plain(case) => case,
            _ => unreachable!("a change keeps the kind"),
        }),
        Case::Celled(case) => raised(celled(case), |case| match case {
            Case::Celled(case) => case,
            _ => unreachable!("a change keeps the kind"),
        }),
    }
}

/// Steps on a part, as steps on the whole.
fn raised<'a, W: 'a, P: 'a>(
    list: Vec<Change<'a, P>>,
    part: fn(&mut W) -> &mut P,
) -> Vec<Change<'a, W>> {
    let raise =
        |change: Change<'a, P>| -> Change<'a, W> { Box::new(move |whole| change(part(whole))) };
    list.into_iter().map(raise).collect()
}

/// Steps that set one number lower: to the least, to half, to one less.
fn lower<'a, T: 'a>(
    list: &mut Vec<Change<'a, T>>,
    value: usize,
    least: usize,
    set: impl Fn(&mut T, usize) + Copy + 'a,
) {
    let mut tried = vec![least, value / 2, value.saturating_sub(1)];
    tried.retain(|&x| least <= x && x < value);
    tried.dedup();
    for x in tried {
        list.push(Box::new(move |case| set(case, x)));
    }
}

/// Stretches of 0..n to leave out: halves, quarters, down to single ones.
fn cuts(n: usize) -> Vec<Range<usize>> {
    let mut list = Vec::new();
    let mut length = n / 2;
    while length > 0 {
        list.extend((0..n / length).map(|i| i * length..(i + 1) * length));
        length /= 2;
    }
    list
}

/// Steps that put a plainer number at one place of a list. Only short lists are looked at.
fn plainer<'a, T: 'a, X: Copy + PartialEq + 'a>(
    list: &mut Vec<Change<'a, T>>,
    numbers: &[X],
    plain: impl Fn(X) -> Vec<X>,
    reach: impl Fn(&mut T) -> &mut [X] + Copy + 'a,
) {
    if numbers.len() > 64 {
        return;
    }
    for (at, &x) in numbers.iter().enumerate() {
        for y in plain(x).into_iter().take_while(|&y| y != x) {
            list.push(Box::new(move |case| reach(case)[at] = y));
        }
    }
}

/// Plainer numbers in place of a coordinate, the plainest first, itself last.
fn plain_f32(x: f32) -> Vec<f32> {
    vec![0.0, 1.0, x.round(), f32::from_bits(x.to_bits() & 0xffff_0000), x]
}

/// Plainer draws, itself last.
fn plain_f64(x: f64) -> Vec<f64> {
    vec![0.0, 0.5, x]
}

/// Rows of `d` coordinates without a stretch of these.
fn narrowed(rows: &[f32], d: usize, cut: &Range<usize>) -> Vec<f32> {
    let kept = rows.iter().enumerate().filter(|(at, _)| !cut.contains(&(at % d)));
    kept.map(|(_, &x)| x).collect()
}

/// Steps on a k-means.
fn kmeans(case: &KmeansCase) -> Vec<Change<'_, KmeansCase>> {
    let mut list: Vec<Change<KmeansCase>> = Vec::new();
    for cut in cuts(case.members.len()) {
        list.push(Box::new(move |c| drop(c.members.drain(cut.clone()))));
    }
    lower(&mut list, case.n_center, 1, |c, x| c.n_center = x);
    lower(&mut list, case.epochs, 0, |c, x| c.epochs = x);
    for cut in cuts(case.end - case.begin) {
        let cut = case.begin + cut.start..case.begin + cut.end;
        list.push(Box::new(move |c| without_coordinates(c, &cut)));
    }
    if case.residual.is_some() {
        list.push(Box::new(|c| c.residual = None));
    }
    if case.begin > 0 {
        list.push(Box::new(|c| {
            without_coordinates(c, &(0..c.begin));
            c.begin = 0;
        }));
    }
    if case.members.len() * case.d < case.rows.len() {
        list.push(Box::new(without_strangers));
    }
    if case.end < case.d {
        list.push(Box::new(|c| {
            let end = c.end;
            without_coordinates(c, &(c.end..c.d));
            c.end = end;
        }));
    }
    lower(&mut list, case.draws.len(), 0, |c, x| c.draws.truncate(x));
    plainer(&mut list, &case.rows, plain_f32, |c| &mut c.rows);
    let residual = case.residual.as_deref().unwrap_or(&[]);
    plainer(&mut list, residual, plain_f32, |c| c.residual.as_deref_mut().unwrap_or(&mut []));
    plainer(&mut list, &case.draws, plain_f64, |c| &mut c.draws);
    list
}

/// Drops rows that are no members.
fn without_strangers(case: &mut KmeansCase) {
    let row = |&row: &u32| case.rows[row as usize * case.d..][..case.d].to_vec();
    case.rows = case.members.iter().flat_map(row).collect();
    case.members = (0..case.members.len() as u32).collect();
}

/// Drops coordinates; the range ends as many earlier.
fn without_coordinates(case: &mut KmeansCase, cut: &Range<usize>) {
    case.rows = narrowed(&case.rows, case.d, cut);
    if let Some(residual) = &mut case.residual {
        residual.drain(cut.clone());
    }
    case.d -= cut.len();
    case.end -= cut.len();
}

/// Steps on a plain index.
fn plain(case: &PlainCase) -> Vec<Change<'_, PlainCase>> {
    let mut list: Vec<Change<PlainCase>> = Vec::new();
    for cut in cuts(case.n()) {
        list.push(Box::new(move |c| without_rows(c, &cut)));
    }
    queries(&mut list, &case.queries);
    lower(&mut list, case.params.n_sub, 1, |c, x| c.params.n_sub = x);
    lower(&mut list, case.params.sub_bits, 0, |c, x| c.params.sub_bits = x);
    lower(&mut list, case.epochs, 0, |c, x| c.epochs = x);
    for cut in cuts(case.params.d) {
        if case.params.n_sub + cut.len() <= case.params.d {
            list.push(Box::new(move |c| narrow(c, &cut)));
        }
    }
    lower(&mut list, case.draws.len(), 0, |c, x| c.draws.truncate(x));
    plainer(&mut list, &case.rows, plain_f32, |c| &mut c.rows);
    plainer(&mut list, &case.draws, plain_f64, |c| &mut c.draws);
    list
}

/// Drops rows, also from the masks.
fn without_rows(case: &mut PlainCase, cut: &Range<usize>) {
    let d = case.params.d;
    case.rows.drain(cut.start * d..cut.end * d);
    for mask in case.queries.iter_mut().filter_map(|query| query.mask.as_mut()) {
        mask.visible.drain(cut.clone());
    }
}

/// Drops coordinates.
fn narrow(case: &mut PlainCase, cut: &Range<usize>) {
    case.rows = narrowed(&case.rows, case.params.d, cut);
    for query in &mut case.queries {
        query.point.drain(cut.clone());
    }
    case.params.d -= cut.len();
}

/// Fewer or plainer queries: one of several, or none; then a plainer one.
fn queries<'a>(list: &mut Vec<Change<'a, PlainCase>>, queries: &'a [Query]) {
    if !queries.is_empty() {
        list.push(Box::new(|c| c.queries.clear()));
    }
    if queries.len() > 1 {
        for query in queries {
            list.push(Box::new(move |c| c.queries = vec![query.clone()]));
        }
    }
    if let [query] = queries {
        lower(list, query.k, 0, |c, k| c.queries[0].k = k);
        if query.mask.is_some() {
            list.push(Box::new(|c| c.queries[0].mask = None));
        }
        plainer(list, &query.point, plain_f32, |c| &mut c.queries[0].point);
    }
}

/// Steps on cells and probes, and those on a plain index.
fn celled(case: &CelledCase) -> Vec<Change<'_, CelledCase>> {
    let mut list: Vec<Change<CelledCase>> = Vec::new();
    lower(&mut list, case.cells, 1, |c, x| (c.cells, c.probes) = (x, c.probes.min(x)));
    lower(&mut list, case.probes, 1, |c, x| c.probes = x);
    list.extend(raised(plain(&case.plain), |case: &mut CelledCase| &mut case.plain));
    list
}
