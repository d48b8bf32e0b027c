//! The command `replay`: reads files of recorded answers, puts each case to a voice, and says how
//! many agree. The layout stands in `layout.rs`.

use std::fs;
use std::path::{Path, PathBuf};

use seat::{PlainParams, Subject};

use crate::cases::case::*;
use crate::judge::original::Verdict;
use crate::outcome::Outcome;
use crate::recorded::layout::{self, MAGIC, VERSION};
use crate::voices::difference::difference;
use crate::voices::drive::hear;

/// How many cases were replayed, and how many of them agree.
#[derive(Clone, Copy, Default)]
pub struct Count {
    pub cases: usize,
    pub agree: usize,
}

/// Replays the files named, or else the file of each kind that the voice has; well if there are cases
/// and all agree.
pub fn replay_all(subject: &dyn Subject, named: &[PathBuf]) -> Outcome {
    let paths = if named.is_empty() { in_place(subject) } else { named.to_vec() };
    let mut all = Count::default();
    for path in &paths {
        match replay(subject, path) {
            Ok(Count { cases, agree }) => {
                println!("{}: {agree} of {cases} agree", path.display());
                all = Count { cases: all.cases + cases, agree: all.agree + agree };
            }
            Err(words) => {
                return Outcome::not_well(format!("not replayed: {}: {words}", path.display()));
            }
        }
    }
    let Count { cases, agree } = all;
    let words = format!("replayed with the {}: {agree} of {cases} agree", subject.name());
    Outcome::new(cases > 0 && agree == cases, words)
}

/// The files of the kinds that a voice has; says which it has not.
fn in_place(subject: &dyn Subject) -> Vec<PathBuf> {
    let (had, not_had): (Vec<Kind>, Vec<Kind>) =
        Kind::ALL.into_iter().partition(|kind| kind.is_had_by(subject));
    for kind in not_had {
        println!("{}: the {} has no entry point for one alone", kind.name(), subject.name());
    }
    had.into_iter().map(|kind| layout::file(kind, None)).collect()
}

/// Replays a file, and prints every case that does not agree; or why it cannot be replayed.
pub fn replay(subject: &dyn Subject, path: &Path) -> Result<Count, String> {
    let bytes = fs::read(path).map_err(|error| error.to_string())?;
    let cases = read(&bytes).ok_or("not laid out as a file of recorded answers")?;
    let mut count = Count { cases: cases.len(), agree: 0 };
    for (at, (case, training)) in cases.into_iter().enumerate() {
        let kind = case.kind();
        if !kind.is_had_by(subject) {
            let (voice, kind) = (subject.name(), kind.name());
            return Err(format!("the {voice} has no entry point for {kind} alone"));
        }
        match difference(&Verdict::Trained(training), &hear(subject, &case)) {
            None => count.agree += 1,
            Some(words) => println!("case {at} ({}): {words}", kind.name()),
        }
    }
    Ok(count)
}

/// The bytes not yet read.
struct Reader<'a>(&'a [u8]);

impl<'a> Reader<'a> {
    /// The next bytes, if there are so many.
    fn bytes(&mut self, length: usize) -> Option<&'a [u8]> {
        if length > self.0.len() {
            return None;
        }
        let (head, rest) = self.0.split_at(length);
        self.0 = rest;
        Some(head)
    }

    /// The next words.
    fn words(&mut self, count: usize) -> Option<Vec<u32>> {
        let bytes = self.bytes(count * 4)?;
        Some(bytes.chunks_exact(4).map(|b| u32::from_le_bytes(b.try_into().unwrap())).collect())
    }

    /// The next word, as a count.
    fn count(&mut self) -> Option<usize> {
        Some(self.words(1)?[0] as usize)
    }

    /// The next f32.
    fn f32s(&mut self, count: usize) -> Option<Vec<f32>> {
        Some(self.words(count)?.into_iter().map(f32::from_bits).collect())
    }

    /// The next f64.
    fn f64s(&mut self, count: usize) -> Option<Vec<f64>> {
        let bytes = self.bytes(count * 8)?;
        Some(bytes.chunks_exact(8).map(|b| f64::from_le_bytes(b.try_into().unwrap())).collect())
    }

    /// Bytes, and the zero bytes that fill the last word.
    fn padded(&mut self, count: usize) -> Option<Vec<u8>> {
        let bytes = self.bytes(count.next_multiple_of(4))?;
        bytes[count..].iter().all(|&b| b == 0).then(|| bytes[..count].to_vec())
    }
}

/// All cases of a file; none if it is not laid out as it must be.
fn read(bytes: &[u8]) -> Option<Vec<(Case, Training)>> {
    let mut reader = Reader(bytes);
    if reader.bytes(8)? != MAGIC || reader.words(1)?[0] != VERSION {
        return None;
    }
    let count = reader.count()?;
    let cases = (0..count).map(|_| read_case(&mut reader)).collect();
    if reader.0.is_empty() {
        cases
    } else {
        None
    }
}

/// One case; its body must be read to its end.
fn read_case(reader: &mut Reader) -> Option<(Case, Training)> {
    let kind = reader.count()?;
    let length = reader.count()?;
    let mut body = Reader(reader.bytes(length)?);
    let pair = match kind {
        1 => read_kmeans(&mut body),
        2 => read_plain(&mut body),
        3 => read_celled(&mut body),
        _ => None,
    }?;
    body.0.is_empty().then_some(pair)
}

/// A k-means and its answer.
fn read_kmeans(body: &mut Reader) -> Option<(Case, Training)> {
    let (d, n) = (body.count()?, body.count()?);
    let (begin, end) = (body.count()?, body.count()?);
    let (m, has_residual) = (body.count()?, body.count()? == 1);
    let (n_center, epochs, lent) = (body.count()?, body.count()?, body.count()?);
    let rows = body.f32s(n * d)?;
    let members = body.words(m)?;
    let residual = if has_residual { Some(body.f32s(d)?) } else { None };
    let draws = body.f64s(lent)?;
    let draws_used = body.count()? as u64;
    let centres = Words::F32(body.f32s(n_center * (end - begin))?);
    let assigned = Words::U32(body.words(m)?);
    let buffers = vec![
        Buffer { name: "centres", words: centres },
        Buffer { name: "assignment", words: assigned },
    ];
    let case = KmeansCase { d, rows, members, begin, end, residual, n_center, epochs, draws };
    Some((Case::Kmeans(case), Training { draws_used, buffers, results: Vec::new() }))
}

/// The counts of an index's body after its parameters, and its inputs; queries are not read yet.
fn read_inputs(body: &mut Reader, params: PlainParams) -> Option<(PlainCase, usize, usize)> {
    let (epochs, n, lent) = (body.count()?, body.count()?, body.count()?);
    let (queries, covered) = (body.count()?, body.count()?);
    let rows = body.f32s(n * params.d)?;
    let draws = body.f64s(lent)?;
    Some((PlainCase { params, epochs, rows, draws, queries: Vec::new() }, queries, covered))
}

/// The parameters that every index has.
fn read_params(body: &mut Reader) -> Option<PlainParams> {
    Some(PlainParams { d: body.count()?, n_sub: body.count()?, sub_bits: body.count()? })
}

/// A plain index and its answer.
fn read_plain(body: &mut Reader) -> Option<(Case, Training)> {
    let params = read_params(body)?;
    let (mut case, queries, covered) = read_inputs(body, params)?;
    let draws_used = body.count()? as u64;
    let sub_centres = Words::F32(body.f32s(covered << params.sub_bits)?);
    let codes = Words::U8(body.padded(case.n() * params.n_sub)?);
    let buffers = vec![
        Buffer { name: "sub-centres", words: sub_centres },
        Buffer { name: "codes", words: codes },
    ];
    let results = read_queries(body, &mut case, queries)?;
    Some((Case::Plain(case), Training { draws_used, buffers, results }))
}

/// A celled index and its answer.
fn read_celled(body: &mut Reader) -> Option<(Case, Training)> {
    let params = read_params(body)?;
    let (cells, probes) = (body.count()?, body.count()?);
    let (mut plain, queries, covered) = read_inputs(body, params)?;
    let draws_used = body.count()? as u64;
    let coarse = Words::F32(body.f32s(cells * params.d)?);
    let starts = Words::U32(body.words(cells + 1)?);
    let members = Words::U32(body.words(plain.n())?);
    let sub_centres = Words::F32(body.f32s((cells * covered) << params.sub_bits)?);
    let codes = Words::U8(body.padded(plain.n() * params.n_sub)?);
    let buffers = vec![
        Buffer { name: "coarse centres", words: coarse },
        Buffer { name: "list starts", words: starts },
        Buffer { name: "list members", words: members },
        Buffer { name: "sub-centres", words: sub_centres },
        Buffer { name: "codes", words: codes },
    ];
    let results = read_queries(body, &mut plain, queries)?;
    let case = Case::Celled(CelledCase { plain, cells, probes });
    Some((case, Training { draws_used, buffers, results }))
}

/// The queries, put into the case, and their answers.
fn read_queries(
    body: &mut Reader,
    case: &mut PlainCase,
    count: usize,
) -> Option<Vec<Result<Results, u32>>> {
    let mut answers = Vec::new();
    for _ in 0..count {
        let k = body.count()?;
        case.queries.push(Query { point: body.f32s(case.params.d)?, k, mask: None });
        let (found, scored) = (body.count()? as u64, body.count()? as u64);
        answers.push(Ok(Results { rows: body.words(k)?, sums: body.f32s(k)?, found, scored }));
    }
    Some(answers)
}
