//! The command `record`: writes the Rust's answers to chosen cases into files, one for each kind of
//! case, that a program can replay without the Rust. The layout stands in `layout.rs`.

use std::fs;
use std::path::{Path, PathBuf};

use crate::cases::case::*;
use crate::outcome::Outcome;
use crate::recorded::corners::{corners, names};
use crate::recorded::layout::{copy, file, MAGIC, VERSION};
use crate::recorded::replay;

/// Writes the file of each kind, then reads it back and replays it with the page; well if all of it
/// agrees.
pub fn record(folder: Option<&Path>) -> Outcome {
    let cases = corners();
    print_corners(&cases);
    let mut agree = 0;
    for kind in Kind::ALL {
        let path = file(kind, folder);
        match record_kind(&cases, kind, &path).and_then(|count| copied(&path, copy(kind, folder), count)) {
            Ok(count) => agree += count,
            Err(words) => {
                return Outcome::not_well(format!("not recorded: {}: {words}", path.display()));
            }
        }
    }
    let all = cases.len();
    let words = format!("recorded and replayed with the page: {agree} of {all} agree");
    Outcome::new(agree == all, words)
}

/// Copies a recorded file to where it stands once more; what was said of it stays.
fn copied(path: &Path, copy: Option<PathBuf>, count: usize) -> Result<usize, String> {
    if let Some(copy) = copy {
        fs::copy(path, copy).map_err(|error| error.to_string())?;
    }
    Ok(count)
}

/// Writes the cases of one kind, then replays them; how many agree, or why they cannot be recorded.
fn record_kind(cases: &[(Case, Training)], kind: Kind, path: &Path) -> Result<usize, String> {
    let chosen: Vec<_> = cases.iter().filter(|(case, _)| case.kind() == kind).collect();
    let mut bytes = MAGIC.to_vec();
    put(&mut bytes, &[VERSION, chosen.len() as u32]);
    for (case, training) in &chosen {
        let body = body(case, training);
        put(&mut bytes, &[kind as u32 + 1, body.len() as u32]);
        bytes.extend(body);
    }
    fs::write(path, &bytes).map_err(|error| error.to_string())?;
    println!("recorded {} cases of kind {}, {} bytes", chosen.len(), kind.name(), bytes.len());
    Ok(replay::replay(&page::Page, path)?.agree)
}

/// Appends words.
fn put(bytes: &mut Vec<u8>, words: &[u32]) {
    bytes.extend(words.iter().flat_map(|word| word.to_le_bytes()));
}

/// Appends counts.
fn put_counts(bytes: &mut Vec<u8>, counts: &[usize]) {
    put(bytes, &counts.iter().map(|&count| count as u32).collect::<Vec<u32>>());
}

/// Appends f32 by their bits.
fn put_f32(bytes: &mut Vec<u8>, list: &[f32]) {
    bytes.extend(list.iter().flat_map(|x| x.to_le_bytes()));
}

/// Appends f64 by their bits.
fn put_f64(bytes: &mut Vec<u8>, list: &[f64]) {
    bytes.extend(list.iter().flat_map(|x| x.to_le_bytes()));
}

/// The body of a case.
fn body(case: &Case, training: &Training) -> Vec<u8> {
    let mut bytes = Vec::new();
    match case {
        Case::Kmeans(case) => put_kmeans(&mut bytes, case),
        Case::Plain(case) => put_plain(&mut bytes, case),
        Case::Celled(case) => put_celled(&mut bytes, case),
    }
    put(&mut bytes, &[training.draws_used as u32]);
    for buffer in &training.buffers {
        match &buffer.words {
            Words::U8(list) => {
                bytes.extend(list);
                bytes.resize(bytes.len().next_multiple_of(4), 0);
            }
            words => put(&mut bytes, &words.bits()),
        }
    }
    let queries = match case {
        Case::Kmeans(_) => &[],
        Case::Plain(case) => &case.queries[..],
        Case::Celled(case) => &case.plain.queries[..],
    };
    for (query, results) in queries.iter().zip(&training.results) {
        put_query(&mut bytes, query, results.as_ref().expect("no recorded search is refused"));
    }
    bytes
}

/// The inputs of a k-means.
fn put_kmeans(bytes: &mut Vec<u8>, case: &KmeansCase) {
    let n = case.rows.len() / case.d;
    let residual = case.residual.as_deref().unwrap_or(&[]);
    let has_residual = case.residual.is_some() as usize;
    put_counts(bytes, &[case.d, n, case.begin, case.end, case.members.len(), has_residual]);
    put_counts(bytes, &[case.n_center, case.epochs, case.draws.len()]);
    put_f32(bytes, &case.rows);
    put(bytes, &case.members);
    put_f32(bytes, residual);
    put_f64(bytes, &case.draws);
}

/// The inputs of a plain index.
fn put_plain(bytes: &mut Vec<u8>, case: &PlainCase) {
    let params = case.params;
    put_counts(bytes, &[params.d, params.n_sub, params.sub_bits]);
    put_rest(bytes, case);
}

/// The inputs of a celled index.
fn put_celled(bytes: &mut Vec<u8>, case: &CelledCase) {
    let params = case.plain.params;
    put_counts(bytes, &[params.d, params.n_sub, params.sub_bits, case.cells, case.probes]);
    put_rest(bytes, &case.plain);
}

/// What a plain and a celled case have in common, from the epochs on.
fn put_rest(bytes: &mut Vec<u8>, case: &PlainCase) {
    let covered = page::covered(case.params.d, case.params.n_sub);
    put_counts(bytes, &[case.epochs, case.n(), case.draws.len(), case.queries.len(), covered]);
    put_f32(bytes, &case.rows);
    put_f64(bytes, &case.draws);
}

/// A query and its answer.
fn put_query(bytes: &mut Vec<u8>, query: &Query, results: &Results) {
    put_counts(bytes, &[query.k]);
    put_f32(bytes, &query.point);
    put(bytes, &[results.found as u32, results.scored as u32]);
    put(bytes, &results.rows);
    put_f32(bytes, &results.sums);
}

/// Prints how many cases stand at each corner, so that a missing one is noticed.
fn print_corners(cases: &[(Case, Training)]) {
    let mut list: Vec<(String, usize)> = Vec::new();
    for (case, _) in cases {
        for name in names(case) {
            match list.iter_mut().find(|(known, _)| *known == name) {
                Some((_, count)) => *count += 1,
                None => list.push((name, 1)),
            }
        }
    }
    list.sort();
    let words: Vec<String> = list.iter().map(|(name, count)| format!("{name}: {count}")).collect();
    println!("  {}", words.join(", "));
}
