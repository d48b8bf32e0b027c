//! Puts a call to the library and checks it whole: the answer and every byte of every lent buffer
//! against the page on equal copies, and that nothing beside the buffers was touched.

use seat::{
    CelledCheck, CelledIndex, CelledParams, CelledSearch, CelledTraining, PlainParams, PlainSearch,
    PlainTraining, Subject,
};

use crate::voices::face::*;
use crate::voices::library::check_answer;

use super::call::{sides, Buffers, Call, Function, Loans, Shape, Side};
use super::lend::{Lender, Manner};

/// What a call came to.
pub struct Outcome {
    /// The answer as the tally counts it.
    pub answer: String,
    /// The difference from document 01, if there is one.
    pub difference: Option<String>,
}

/// An answer of any function.
#[derive(Clone, Copy, Debug, PartialEq, Eq)]
enum Answer {
    Range(RangeAnswer),
    PlainLengths(PlainBuffers),
    CelledLengths(CelledBuffers),
    Trained(TrainAnswer),
    Searched(SearchAnswer),
    Checked(u32),
}

impl Answer {
    /// Its number.
    fn number(&self) -> u32 {
        match *self {
            Answer::Range(answer) => answer.number,
            Answer::PlainLengths(answer) => answer.number,
            Answer::CelledLengths(answer) => answer.number,
            Answer::Trained(answer) => answer.number,
            Answer::Searched(answer) => answer.number,
            Answer::Checked(number) => number,
        }
    }

    /// Its number, and for an 8 or 9 what it names.
    fn words(&self) -> String {
        match self {
            Answer::Trained(answer) => answer.words(),
            _ => self.number().to_string(),
        }
    }
}

/// Puts a call to the library and checks it.
pub fn check(call: &Call, manner: Manner, lender: &mut Lender) -> Outcome {
    lender.begin();
    let lent = call.buffers.lend(manner, lender);
    let heard = ask_library(call, &lent);
    let unsound = unsound(call, heard, &lent);
    let mut left = call.buffers.clone();
    let right = ask_page(call, &mut left);
    let sides = sides(&call.buffers, &lent, &left);
    let unequal = || match right == heard {
        true => None,
        false => Some(format!("document 01 answers {right:?}, the library {heard:?}")),
    };
    let difference = unequal().or(unsound).or_else(|| unequal_buffers(heard.number(), &sides));
    Outcome { answer: heard.words(), difference }
}

/// The first difference of all lent buffers.
fn unequal_buffers(number: u32, sides: &[Side]) -> Option<String> {
    let overrun = sides.iter().find_map(Side::overrun);
    let changed = || match number {
        1..=7 => sides.iter().find_map(|side| side.changed(number)),
        _ => None,
    };
    overrun.or_else(changed).or_else(|| sides.iter().find_map(Side::differs))
}

/// What the library's own check has against an index that the library trained. It leaves every buffer
/// as the training must leave it.
fn unsound(call: &Call, heard: Answer, lent: &Loans) -> Option<String> {
    if call.function != Function::CelledTrain || heard.number() != 0 {
        return None;
    }
    let number = check_by_library(&call.shape, lent);
    (number != 0).then(|| format!("the whole check answers {number} to what is trained"))
}

/// What the library answers.
#[rustfmt::skip]
fn ask_library(call: &Call, lent: &Loans) -> Answer {
    let Shape { d, n_sub, sub_bits, cells, probes, epochs, n } = call.shape;
    let Loans {
        rows, draws, query, mask, coarse, starts, members, subs, codes, work, found, sums, table,
    } = lent;
    unsafe {
        match call.function {
            Function::Range => Answer::Range(bergrosk_range(d, n_sub, call.i)),
            Function::PlainLengths => {
                Answer::PlainLengths(bergrosk_plain_lengths(d, n_sub, sub_bits, n))
            }
            Function::CelledLengths => {
                Answer::CelledLengths(bergrosk_celled_lengths(d, n_sub, sub_bits, cells, probes, n))
            }
            Function::PlainTrain => Answer::Trained(bergrosk_plain_train(
                d, n_sub, sub_bits, epochs, n,
                rows.start, rows.len, draws.start, draws.len,
                subs.start, subs.len, codes.start, codes.len, work.start, work.len,
            )),
            Function::PlainSearch => Answer::Searched(bergrosk_plain_search(
                d, n_sub, sub_bits, n,
                query.start, query.len, mask.start, mask.len,
                subs.start, subs.len, codes.start, codes.len,
                found.start, found.len, sums.start, sums.len, table.start, table.len,
            )),
            Function::CelledTrain => Answer::Trained(bergrosk_celled_train(
                d, n_sub, sub_bits, cells, probes, epochs, n,
                rows.start, rows.len, draws.start, draws.len,
                coarse.start, coarse.len, starts.start, starts.len, members.start, members.len,
                subs.start, subs.len, codes.start, codes.len, work.start, work.len,
            )),
            Function::CelledSearch => Answer::Searched(bergrosk_celled_search(
                d, n_sub, sub_bits, cells, probes, n,
                query.start, query.len, mask.start, mask.len,
                coarse.start, coarse.len, starts.start, starts.len, members.start, members.len,
                subs.start, subs.len, codes.start, codes.len,
                found.start, found.len, sums.start, sums.len, table.start, table.len,
            )),
            Function::CelledCheck => Answer::Checked(check_by_library(&call.shape, lent)),
        }
    }
}

/// What the library's whole check answers.
#[rustfmt::skip]
fn check_by_library(shape: &Shape, lent: &Loans) -> u32 {
    let Shape { d, n_sub, sub_bits, cells, probes, n, .. } = *shape;
    let Loans { coarse, starts, members, subs, codes, work, .. } = lent;
    unsafe {
        bergrosk_celled_check(
            d, n_sub, sub_bits, cells, probes, n,
            coarse.start, coarse.len, starts.start, starts.len, members.start, members.len,
            subs.start, subs.len, codes.start, codes.len, work.start, work.len,
        )
    }
}

/// What document 01 answers; the buffers are left as it leaves them.
fn ask_page(call: &Call, b: &mut Buffers) -> Answer {
    let Shape { d, n_sub, sub_bits, cells, probes, epochs, n } = call.shape;
    let plain = PlainParams { d, n_sub, sub_bits };
    let params = CelledParams { plain, cells, probes };
    let index = CelledIndex {
        coarse: &call.buffers.coarse,
        starts: &call.buffers.starts,
        members: &call.buffers.members,
        sub_centres: &call.buffers.subs,
        codes: &call.buffers.codes,
    };
    match call.function {
        Function::Range => Answer::Range(right_range(d, n_sub, call.i)),
        Function::PlainLengths => Answer::PlainLengths(right_plain_lengths(&call.shape)),
        Function::CelledLengths => Answer::CelledLengths(right_celled_lengths(&call.shape)),
        Function::PlainTrain => {
            Answer::Trained(TrainAnswer::of(page::Page.train_plain(PlainTraining {
                params: plain,
                epochs,
                n,
                rows: &b.rows,
                draws: &b.draws,
                sub_centres: &mut b.subs,
                codes: &mut b.codes,
                work: &mut b.work,
            })))
        }
        Function::PlainSearch => {
            Answer::Searched(SearchAnswer::of(page::Page.search_plain(PlainSearch {
                params: plain,
                n,
                sub_centres: &b.subs,
                codes: &b.codes,
                mask: &b.mask,
                query: &b.query,
                table: &mut b.table,
                rows: &mut b.found,
                sums: &mut b.sums,
            })))
        }
        Function::CelledTrain => {
            Answer::Trained(TrainAnswer::of(page::Page.train_celled(CelledTraining {
                params,
                epochs,
                n,
                rows: &b.rows,
                draws: &b.draws,
                coarse: &mut b.coarse,
                starts: &mut b.starts,
                members: &mut b.members,
                sub_centres: &mut b.subs,
                codes: &mut b.codes,
                work: &mut b.work,
            })))
        }
        Function::CelledSearch => {
            Answer::Searched(SearchAnswer::of(page::Page.search_celled(CelledSearch {
                params,
                n,
                index,
                mask: &b.mask,
                query: &b.query,
                table: &mut b.table,
                rows: &mut b.found,
                sums: &mut b.sums,
            })))
        }
        Function::CelledCheck => {
            Answer::Checked(check_answer(page::Page.check_celled(CelledCheck {
                params,
                n,
                index,
                work: &mut b.work,
            })))
        }
    }
}

/// The range that document 01 has at a place.
fn right_range(d: usize, n_sub: usize, i: usize) -> RangeAnswer {
    match page::Page.ranges(d, n_sub) {
        Ok(list) => {
            let [begin, end] = list.get(i).copied().unwrap_or([0, 0]);
            RangeAnswer { number: 0, begin, end }
        }
        Err(number) => RangeAnswer { number, begin: 0, end: 0 },
    }
}

/// Test 1 of a plain index's numbers, then test 3.
fn refusal_of_numbers(shape: &Shape) -> u32 {
    let Shape { d, n_sub, sub_bits, n, .. } = *shape;
    match () {
        _ if page::Page.ranges(d, n_sub).is_err() || sub_bits > 8 => 1,
        _ if n > 100_001 => 3,
        _ => 0,
    }
}

/// The lengths of a plain index, written out.
fn right_plain_lengths(shape: &Shape) -> PlainBuffers {
    let Shape { d, n_sub, sub_bits, n, .. } = *shape;
    match refusal_of_numbers(shape) {
        0 => PlainBuffers {
            number: 0,
            rows: n * d,
            subs: page::covered(d, n_sub) << sub_bits,
            codes: n * n_sub,
            work: n + 1024,
            table: n_sub << sub_bits,
        },
        number => PlainBuffers { number, ..PlainBuffers::default() },
    }
}

/// The lengths of a celled index, written out.
fn right_celled_lengths(shape: &Shape) -> CelledBuffers {
    let Shape { d, n_sub, sub_bits, cells, probes, n, .. } = *shape;
    let in_bounds = (1..=1024).contains(&cells) && (1..=cells).contains(&probes);
    match refusal_of_numbers(shape) {
        0 | 3 if !in_bounds => CelledBuffers { number: 1, ..CelledBuffers::default() },
        0 => CelledBuffers {
            number: 0,
            rows: n * d,
            coarse: cells * d,
            starts: cells + 1,
            members: n,
            subs: (cells * page::covered(d, n_sub)) << sub_bits,
            codes: n * n_sub,
            work: n + 1024,
            table: n_sub << sub_bits,
        },
        number => CelledBuffers { number, ..CelledBuffers::default() },
    }
}
