//! Counts what a comparison reached, so that its report shows more than that nothing differed.

use seat::PlainParams;

use crate::cases::case::*;
use crate::judge::original::Verdict;
use crate::voices::drive::Reply;

/// Counts by kind of case, and of the corners reached.
#[derive(Clone, Default)]
pub struct Tally {
    kinds: [OfKind; 3],
    corners: Vec<(&'static str, usize)>,
}

/// Counts of one kind.
#[derive(Clone, Copy, Default)]
struct OfKind {
    trained: usize,
    refused_8: usize,
    refused_9: usize,
    searches: usize,
    refused_11: usize,
    hiding: usize,
    checks: usize,
    outside: usize,
}

impl OfKind {
    /// Adds the counts of another.
    fn add(&mut self, other: &OfKind) {
        self.trained += other.trained;
        self.refused_8 += other.refused_8;
        self.refused_9 += other.refused_9;
        self.searches += other.searches;
        self.refused_11 += other.refused_11;
        self.hiding += other.hiding;
        self.checks += other.checks;
        self.outside += other.outside;
    }
}

impl Tally {
    /// Counts one case, and how many drafts before it were outside the domain.
    pub fn count(&mut self, case: &Case, verdict: &Verdict, outside: usize, reply: &Reply) {
        let of_kind = &mut self.kinds[case.kind() as usize];
        of_kind.outside += outside;
        of_kind.checks += reply.check.is_some() as usize;
        match verdict {
            Verdict::Refused(refused) if refused.number == 8 => of_kind.refused_8 += 1,
            Verdict::Refused(_) => of_kind.refused_9 += 1,
            Verdict::Outside => of_kind.outside += 1,
            Verdict::Trained(training) => {
                of_kind.trained += 1;
                of_kind.searches += reply.searches.len();
                of_kind.refused_11 += training.results.iter().filter(|r| r.is_err()).count();
                let queries = match case {
                    Case::Kmeans(_) => &[],
                    Case::Plain(case) => &case.queries[..],
                    Case::Celled(case) => &case.plain.queries[..],
                };
                of_kind.hiding += queries.iter().filter(|query| query.mask.is_some()).count();
                for (query, results) in queries.iter().zip(&training.results) {
                    search_corners(query, results).into_iter().for_each(|c| self.reach(c, 1));
                }
            }
        }
        corners(case).into_iter().for_each(|corner| self.reach(corner, 1));
    }

    /// Counts a corner.
    fn reach(&mut self, corner: &'static str, times: usize) {
        match self.corners.iter_mut().find(|(name, _)| *name == corner) {
            Some((_, count)) => *count += times,
            None => self.corners.push((corner, times)),
        }
    }

    /// Adds the counts of another.
    pub fn add(&mut self, other: &Tally) {
        for (mine, theirs) in self.kinds.iter_mut().zip(&other.kinds) {
            mine.add(theirs);
        }
        for &(corner, times) in &other.corners {
            self.reach(corner, times);
        }
    }

    /// The number of cases compared.
    pub fn compared(&self) -> usize {
        self.kinds.iter().map(|k| k.trained + k.refused_8 + k.refused_9).sum()
    }

    /// Prints the counts, lines for each kind that came up, and a line of corners.
    pub fn print(&self) {
        println!("compared {}", self.compared());
        for kind in Kind::ALL {
            self.kinds[kind as usize].print(kind.name());
        }
        let mut corners = self.corners.clone();
        corners.sort();
        let word = |(name, count): &(&str, usize)| format!("{name}: {count}");
        println!("  corners: {}", corners.iter().map(word).collect::<Vec<String>>().join(", "));
    }
}

impl OfKind {
    /// Prints the counts of one kind.
    fn print(&self, name: &str) {
        if self.trained + self.refused_8 + self.refused_9 > 0 {
            println!(
                "  {name}: trained {}, refused 8 {}, refused 9 {}; drafts outside the domain {}",
                self.trained, self.refused_8, self.refused_9, self.outside
            );
        }
        if self.searches > 0 {
            println!(
                "  {name}: searches {}, of them refused 11 {}, hiding rows {}; whole checks {}",
                self.searches, self.refused_11, self.hiding, self.checks
            );
        }
    }
}

/// The corners that a case is at.
fn corners(case: &Case) -> Vec<&'static str> {
    let mut list = Vec::new();
    let mut at = |holds: bool, name: &'static str| {
        if holds {
            list.push(name);
        }
    };
    match case {
        Case::Kmeans(case) => {
            at(case.epochs == 0, "0 epochs");
            at(case.d == 256, "D 256");
            at(case.end - case.begin > 64, "range past 64");
            at(case.residual.is_some(), "residual");
            at(case.n_center >= 256, "256 centres or more");
            at(case.n_center >= 256 && case.epochs > 1, "256 centres or more, split");
        }
        Case::Plain(case) => {
            index_corners(case.params, case.epochs, &mut at);
            at(case.n() == 1, "one row");
            at(repeats(&case.rows, case.params.d), "a row twice");
        }
        Case::Celled(case) => {
            index_corners(case.plain.params, case.plain.epochs, &mut at);
            let many = case.plain.epochs > 1;
            at(case.cells == 40, "cells 40");
            at(case.cells == 1024, "cells 1024");
            at(case.cells > 4 && many, "cells above 4, epochs above 1");
            at(case.cells == 40 && many, "cells 40, epochs above 1");
        }
    }
    list
}

/// The corners that a search is at.
fn search_corners(query: &Query, results: &Result<Results, u32>) -> Vec<&'static str> {
    let mut list = Vec::new();
    if let Ok(results) = results {
        let sums = &results.sums[..results.found as usize];
        let at = [
            (query.k == 0, "k 0"),
            (query.k == 4096, "k 4096"),
            (query.k as u64 > results.scored, "k above the candidates"),
            (sums.windows(2).any(|pair| pair[0] == pair[1]), "equal sums"),
        ];
        list.extend(at.iter().filter(|(holds, _)| *holds).map(|(_, name)| *name));
    }
    list
}

/// Whether a row comes twice.
fn repeats(rows: &[f32], d: usize) -> bool {
    let row = |row: &[f32]| row.iter().map(|x| x.to_bits()).collect::<Vec<u32>>();
    let mut list: Vec<Vec<u32>> = rows.chunks_exact(d).map(row).collect();
    list.sort();
    list.windows(2).any(|pair| pair[0] == pair[1])
}

/// The corners of an index's parameters.
fn index_corners(params: PlainParams, epochs: usize, at: &mut impl FnMut(bool, &'static str)) {
    at(epochs == 0, "0 epochs");
    at(params.d == 1, "D 1");
    at(params.d == 256, "D 256");
    at(params.n_sub == 64, "n_sub 64");
    at(params.sub_bits == 0, "sub_bits 0");
    at(params.sub_bits == 8, "sub_bits 8");
    at(params.sub_bits == 8 && epochs > 1, "sub_bits 8, split");
    at(page::covered(params.d, params.n_sub) < params.d, "C below D");
}
