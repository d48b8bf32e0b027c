//! The page against the examples of document 01, and against the refusals that the comparison with
//! the Rust does not reach: each number with a smallest input, and what the buffers hold afterwards.

use page::Page;
use seat::*;

const JUNK: f32 = 7.0;

/// The ranges in use; the unused places must be 0, 0.
fn ranges(d: usize, n_sub: usize) -> Result<Vec<[usize; 2]>, u32> {
    let list = Page.ranges(d, n_sub)?;
    assert!(list[n_sub..].iter().all(|range| *range == [0, 0]));
    Ok(list[..n_sub].to_vec())
}

#[test]
fn the_range_rule() {
    assert_eq!(ranges(10, 4), Ok(vec![[0, 2], [2, 4], [4, 6], [6, 8]]));
    assert_eq!(ranges(11, 3), Ok(vec![[0, 4], [4, 8], [8, 11]]));
    assert_eq!(ranges(11, 4), Ok(vec![[0, 3], [3, 5], [5, 7], [7, 9]]));
    assert_eq!(page::covered(60, 25), 50);
    assert_eq!(page::covered(128, 25), 128);
    assert_eq!(ranges(3, 4), Err(1));
    assert_eq!(ranges(3, 0), Err(1));
    assert_eq!(ranges(257, 1), Err(1));
}

/// Rows (1,2), (3,4) and four centres: the answer, the centres and the assignment.
fn four_centres(epochs: usize, draws: &[f64]) -> (Trained, Vec<f32>, Vec<u32>) {
    let (mut centres, mut assigned) = (vec![JUNK; 8], vec![9; 2]);
    let kmeans = Page.kmeans().expect("the page has one");
    let answer = kmeans(Kmeans {
        d: 2,
        rows: &[1.0, 2.0, 3.0, 4.0],
        members: &[0, 1],
        begin: 0,
        end: 2,
        residual: None,
        n_center: 4,
        epochs,
        draws,
        centres: &mut centres,
        assigned: &mut assigned,
    });
    (answer, centres, assigned)
}

#[test]
fn start_and_average() {
    let start = vec![1.0, 2.0, 3.0, 2.0, 1.0, 2.0, 3.0, 2.0];
    assert_eq!(four_centres(0, &[]), (Ok(0), start, vec![0, 1]));
    let average = vec![1.0, 2.0, 3.0, 4.0, 0.0, 0.0, 0.0, 0.0];
    assert_eq!(four_centres(1, &[]), (Ok(0), average, vec![0, 1]));
}

#[test]
fn a_split_uses_four_draws() {
    let (answer, _, _) = four_centres(2, &[0.0, 0.25, 0.5, 0.4]);
    assert_eq!(answer, Ok(4));
    let refusal = Refusal::NoDraw { stage: Stage::Coarse, epoch: 1, centre: 3 };
    assert_eq!(four_centres(2, &[0.0, 0.25, 0.5]), (Err(refusal), vec![0.0; 8], vec![0; 2]));
}

/// Four rows, one for each of four sub-centres at distances 4, 1, 4 and 0.5 from the query.
fn four_rows(mask: [u8; 4], codes: [u8; 4], k: usize) -> (Searched, Vec<u32>, Vec<f32>) {
    let (mut table, mut rows, mut sums) = ([JUNK; 4], vec![9; k], vec![JUNK; k]);
    let answer = Page.search_plain(PlainSearch {
        params: PlainParams { d: 2, n_sub: 1, sub_bits: 2 },
        n: 4,
        sub_centres: &[2.0, 0.0, 1.0, 0.0, 0.0, 2.0, 0.5, 0.5],
        codes: &codes,
        mask: &mask,
        query: &[0.0, 0.0],
        table: &mut table,
        rows: &mut rows,
        sums: &mut sums,
    });
    assert_eq!(table, [0.0; 4]);
    (answer, rows, sums)
}

#[test]
fn the_first_k() {
    let in_order = [0, 1, 2, 3];
    let found = |found, scored| Ok(Found { found, scored });
    assert_eq!(four_rows([1; 4], in_order, 3), (found(3, 4), vec![3, 1, 0], vec![0.5, 1.0, 4.0]));
    let hidden = four_rows([1, 1, 1, 0], in_order, 3);
    assert_eq!(hidden, (found(3, 3), vec![1, 0, 2], vec![1.0, 4.0, 4.0]));
    let more = four_rows([1; 4], in_order, 5);
    assert_eq!(more, (found(4, 4), vec![3, 1, 0, 2, BLANK_ROW], vec![0.5, 1.0, 4.0, 4.0, 0.0]));
}

#[test]
fn damaged_codes() {
    let refused = (Err(10), vec![BLANK_ROW; 1], vec![0.0]);
    assert_eq!(four_rows([1; 4], [0, 1, 4, 3], 1), refused);
    let hidden = four_rows([1, 1, 0, 1], [0, 1, 4, 3], 1);
    assert_eq!(hidden, (Ok(Found { found: 1, scored: 3 }), vec![3], vec![0.5]));
}

/// Training of a plain index of D 1: refused by one of the tests 1 to 7, nothing is changed.
fn refused_training(n: usize, rows: &[f32], draws: &[f64], epochs: usize, work: usize) -> u32 {
    let (mut sub_centres, mut codes, mut work) = ([JUNK], vec![9; n], vec![9; work]);
    let answer = Page.train_plain(PlainTraining {
        params: PlainParams { d: 1, n_sub: 1, sub_bits: 0 },
        epochs,
        n,
        rows,
        draws,
        sub_centres: &mut sub_centres,
        codes: &mut codes,
        work: &mut work,
    });
    assert!(sub_centres == [JUNK] && codes.iter().all(|&c| c == 9) && work.iter().all(|&w| w == 9));
    answer.unwrap_err().number()
}

#[test]
fn tests_in_order() {
    let (nan, late) = ([f32::NAN], [1.0]);
    assert_eq!(refused_training(0, &[], &late, 1001, 3), 1);
    assert_eq!(refused_training(0, &[], &late, 1, 3), 2);
    assert_eq!(refused_training(100_002, &nan, &late, 1, 3), 3);
    assert_eq!(refused_training(1, &nan, &late, 1, 3), 4);
    assert_eq!(refused_training(1, &nan, &late, 1, 1025), 6);
    assert_eq!(refused_training(1, &[0.0], &late, 1, 1025), 7);
    assert_eq!(refused_training(1, &[0.0], &[f64::NAN], 1, 1025), 7);
}

/// Two cells, three rows: the whole check, and a search of both cells.
fn two_cells(starts: [u32; 3], members: [u32; 3], codes: [u8; 3]) -> (Checked, Searched) {
    let params =
        CelledParams { plain: PlainParams { d: 1, n_sub: 1, sub_bits: 1 }, cells: 2, probes: 2 };
    let index = CelledIndex {
        coarse: &[0.0, 1.0],
        starts: &starts,
        members: &members,
        sub_centres: &[0.0; 4],
        codes: &codes,
    };
    let mut work = [9; 1027];
    let checked = Page.check_celled(CelledCheck { params, n: 3, index, work: &mut work });
    assert_eq!(work, [0; 1027]);
    let (mut table, mut rows, mut sums) = ([JUNK; 2], [9; 3], [JUNK; 3]);
    let searched = Page.search_celled(CelledSearch {
        params,
        n: 3,
        index,
        mask: &[1; 3],
        query: &[0.0],
        table: &mut table,
        rows: &mut rows,
        sums: &mut sums,
    });
    assert!(searched.is_ok() || rows == [BLANK_ROW; 3] && sums == [0.0; 3]);
    assert_eq!(table, [0.0; 2]);
    (checked, searched)
}

#[test]
fn damaged_lists() {
    let scored = |scored| Ok(Found { found: 3, scored });
    assert_eq!(two_cells([0, 2, 3], [0, 2, 1], [0, 1, 0]), (Ok(()), scored(3)));
    assert_eq!(two_cells([0, 2, 3], [2, 0, 1], [0, 1, 0]), (Err(10), Err(10)));
    assert_eq!(two_cells([0, 2, 3], [0, 3, 1], [0, 1, 0]), (Err(10), Err(10)));
    assert_eq!(two_cells([0, 2, 2], [0, 2, 1], [0, 1, 0]), (Err(10), Err(10)));
    assert_eq!(two_cells([1, 2, 3], [0, 2, 1], [0, 1, 0]), (Err(10), Err(10)));
    assert_eq!(two_cells([0, 2, 3], [0, 2, 1], [0, 2, 0]), (Err(10), Err(10)));
    assert_eq!(two_cells([0, 2, 3], [0, 2, 2], [0, 1, 0]), (Err(10), scored(3)));
}
