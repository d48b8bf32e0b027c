//! The command `slips`: shows that the comparison sees each plausible slip, by putting the same
//! random cases to copies of the page in which one slip each is planted.

use slipped::{slips, Slip};

use crate::cases::case::{Case, Kind};
use crate::cases::chance::seed_of;
use crate::cases::generate::fitted;
use crate::cases::shrink::shrink;
use crate::commands::compare::differs;
use crate::judge::original::Verdict;
use crate::judge::quiet::{catch, Panic};
use crate::outcome::Outcome;
use crate::voices::difference::difference;
use crate::voices::drive::hear;
use seat::Subject;

/// Where a slip was seen.
struct Seen {
    at: usize,
    kind: Kind,
    words: String,
}

/// Runs cases until every slip that can be seen is seen, and prints where; well if all are, and
/// those that cannot be are not.
pub fn show(cases: usize, seed: u64) -> Outcome {
    println!("slips: up to {cases} cases of every kind, seed {seed}");
    let all: Vec<(&Slip, &dyn Subject)> = slips().collect();
    let mut seen: Vec<Option<Seen>> = all.iter().map(|_| None).collect();
    let visible = |number: usize| all[number].0.same_because.is_none();
    let mut run = 0;
    while run < cases && (0..all.len()).any(|number| visible(number) && seen[number].is_none()) {
        let kind = Kind::ALL[run % 3];
        let (case, verdict, _) = fitted(kind, seed_of(seed, run));
        for (number, (_, voice)) in all.iter().enumerate() {
            if seen[number].is_none() {
                let words = catch_difference(*voice, &case, &verdict);
                seen[number] = words.map(|words| Seen { at: run, kind, words });
            }
        }
        run += 1;
    }
    print(&all, &seen, run)
}

/// The difference that a slipped voice shows on a case; a panic is one too.
fn catch_difference(voice: &dyn Subject, case: &Case, verdict: &Verdict) -> Option<String> {
    match catch(|| hear(voice, case)) {
        Ok(reply) => difference(verdict, &reply),
        Err(Panic::Said(text)) => Some(format!("panicked: {text}")),
        Err(Panic::OutOfDraws) => unreachable!("the page draws from its own list"),
    }
}

/// A line for each slip, and the count.
fn print(all: &[(&Slip, &dyn Subject)], seen: &[Option<Seen>], run: usize) -> Outcome {
    let mut right = 0;
    for ((slip, _), seen) in all.iter().zip(seen) {
        let (as_it_must_be, words) = match (seen, slip.same_because) {
            (Some(seen), None) => {
                (true, format!("seen at case {} ({}): {}", seen.at, seen.kind.name(), seen.words))
            }
            (None, Some(why)) => (true, format!("same on all {run} cases, as it must be: {why}")),
            (None, None) => (false, format!("NOT SEEN in {run} cases")),
            (Some(seen), Some(_)) => (false, format!("SEEN, but must be the same: {}", seen.words)),
        };
        println!("  {}: {words}", slip.says);
        right += as_it_must_be as usize;
    }
    let same = all.iter().filter(|(slip, _)| slip.same_because.is_some()).count();
    let found = seen.iter().flatten().count();
    println!("seen {found}, the same by arithmetic {same}");
    let words = format!("slips {}, as they must be {right}", all.len());
    Outcome::new(right == all.len(), words)
}

/// Prints the smallest case at which one slip is seen; well if it is seen.
pub fn show_smallest(number: usize, cases: usize, seed: u64) -> Result<Outcome, String> {
    let fewer = || format!("there are {} slips, counted from 0", slips().count());
    let (slip, voice) = slips().nth(number).ok_or_else(fewer)?;
    let differing =
        |case: &Case| catch(|| differs(voice, case)).map_or(true, |found| found.is_some());
    for run in 0..cases {
        let (case, _, _) = fitted(Kind::ALL[run % 3], seed_of(seed, run));
        if differing(&case) {
            let words = format!("{}: {:?}", slip.says, shrink(case, &differing));
            return Ok(Outcome::new(true, words));
        }
    }
    Ok(Outcome::not_well(format!("{}: not seen in {cases} cases", slip.says)))
}
