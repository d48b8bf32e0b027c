//! Sets a voice's reply beside the Rust's verdict: every buffer by its bits, counts, draws used, row
//! numbers and sums.

use seat::{Refusal, BLANK_ROW};

use crate::cases::case::{Buffer, Results, Training};
use crate::judge::original::{Refused, Verdict};
use crate::voices::drive::{Heard, Reply};

/// The first difference, in words; none if the two agree. A case outside the domain has none.
pub fn difference(verdict: &Verdict, reply: &Reply) -> Option<String> {
    match verdict {
        Verdict::Outside => None,
        Verdict::Refused(refused) => not_refused(refused, reply),
        Verdict::Trained(training) => not_trained(training, reply),
    }
}

/// Document 01 refuses with 8 or 9: the number and the place, and outputs and work zero.
fn not_refused(right: &Refused, reply: &Reply) -> Option<String> {
    match reply.answer {
        Ok(used) => return Some(format!("must be {right:?}, but trained, {used} draws used")),
        Err(refusal) if !same_place(right, refusal) => {
            return Some(format!("must be {right:?}, but refused with {refusal:?}"));
        }
        Err(_) => {}
    }
    let left = reply.buffers.iter().find(|buffer| buffer.words.bits().iter().any(|&w| w != 0));
    match left {
        Some(buffer) => {
            Some(format!("after refusal {} the {} are not zero", right.number, buffer.name))
        }
        None => work_left(&reply.work),
    }
}

/// Whether a refusal has the number and the place that the Rust's steps show.
fn same_place(right: &Refused, heard: Refusal) -> bool {
    match heard {
        Refusal::Input(_) => false,
        Refusal::NoDraw { stage, epoch, .. } => {
            (right.number, right.stage, right.epoch) == (8, stage, epoch)
        }
        Refusal::NotFinite { stage, epoch, centre, step } => {
            (right.number, right.stage, right.epoch, right.step) == (9, stage, epoch, Some(step))
                && right.centre.is_none_or(|lowest| lowest == centre)
        }
    }
}

/// Work must be zero.
fn work_left(work: &[u32]) -> Option<String> {
    let place = work.iter().position(|&w| w != 0)?;
    Some(format!("work is not zero at {place}"))
}

/// A trained celled index must pass the whole check.
fn not_sound(reply: &Reply) -> Option<String> {
    let (checked, work) = reply.check.as_ref()?;
    let words = match checked {
        Err(number) => Some(format!("refuses the trained index with {number}")),
        Ok(()) => work_left(work),
    };
    words.map(|words| format!("the whole check: {words}"))
}

/// The Rust trained: draws used, every buffer, work, then every search.
fn not_trained(training: &Training, reply: &Reply) -> Option<String> {
    match reply.answer {
        Err(refusal) => return Some(format!("must train, but refused with {refusal:?}")),
        Ok(used) if used != training.draws_used => {
            return Some(format!("draws used: the Rust {}, heard {used}", training.draws_used));
        }
        Ok(_) => {}
    }
    let pairs = training.buffers.iter().zip(&reply.buffers);
    let unequal = pairs.map(|(right, heard)| unequal_buffers(right, heard)).find(Option::is_some);
    if let Some(words) = unequal {
        return words;
    }
    assert_eq!(training.results.len(), reply.searches.len(), "a search for each query");
    work_left(&reply.work).or_else(|| not_sound(reply)).or_else(|| {
        let pairs = training.results.iter().zip(&reply.searches).enumerate();
        pairs.map(|(at, (right, heard))| unequal_search(at, right, heard)).find(Option::is_some)?
    })
}

/// The first word at which two buffers differ.
fn unequal_buffers(right: &Buffer, heard: &Buffer) -> Option<String> {
    assert_eq!(right.name, heard.name);
    unequal_bits(right.name, &right.words.bits(), &heard.words.bits())
}

/// The first place at which two lists of words differ, or that their lengths do.
fn unequal_bits(name: &str, right: &[u32], heard: &[u32]) -> Option<String> {
    if right.len() != heard.len() {
        return Some(format!("{name}: the Rust has {} words, heard {}", right.len(), heard.len()));
    }
    let at = (0..right.len()).find(|&at| right[at] != heard[at])?;
    Some(format!(
        "{name} at {at}: the Rust {} ({:?}), heard {} ({:?})",
        right[at],
        f32::from_bits(right[at]),
        heard[at],
        f32::from_bits(heard[at])
    ))
}

/// One search: refusal, found, scored, rows and sums; the table must be zero.
fn unequal_search(at: usize, right: &Result<Results, u32>, heard: &Heard) -> Option<String> {
    let words = match (right, heard.answer) {
        (Ok(right), Ok(answer)) if (right.found, right.scored) != (answer.found, answer.scored) => {
            Some(format!(
                "the Rust found {} scored {}, heard {answer:?}",
                right.found, right.scored
            ))
        }
        (Ok(right), Ok(_)) => unequal_bits("rows", &right.rows, &heard.rows)
            .or_else(|| unequal_bits("sums", &bits(&right.sums), &bits(&heard.sums))),
        (Err(number), Err(answer)) if *number == answer => not_blank(heard),
        (Ok(_), Err(answer)) => Some(format!("must answer, but refused with {answer}")),
        (Err(number), answer) => Some(format!("must refuse with {number}, but heard {answer:?}")),
    };
    let table_left = || {
        let place = heard.table.iter().position(|x| x.to_bits() != 0)?;
        Some(format!("the table is not zero at {place}"))
    };
    words.or_else(table_left).map(|words| format!("search {at}: {words}"))
}

/// A refused search leaves its results blank.
fn not_blank(heard: &Heard) -> Option<String> {
    let blank = heard.rows.iter().all(|&row| row == BLANK_ROW)
        && heard.sums.iter().all(|sum| sum.to_bits() == 0);
    (!blank).then(|| "the results of a refused search are not blank".to_string())
}

/// A list of f32 as bits.
fn bits(list: &[f32]) -> Vec<u32> {
    list.iter().map(|x| x.to_bits()).collect()
}
