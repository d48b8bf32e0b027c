//! The command `compare`: random cases, put to the Rust and to a voice, until one differs.

use std::sync::atomic::{AtomicUsize, Ordering};
use std::sync::Mutex;
use std::thread;
use std::time::Instant;

use seat::Subject;

use crate::cases::case::*;
use crate::cases::chance::seed_of;
use crate::cases::generate::fitted;
use crate::cases::shrink::shrink;
use crate::commands::tally::Tally;
use crate::judge::original::{judge, ranges as original_ranges, Verdict};
use crate::outcome::Outcome;
use crate::voices::difference::difference;
use crate::voices::drive::hear;

/// What is to be compared.
pub struct Order {
    pub cases: usize,
    pub seed: u64,
    pub kinds: Vec<Kind>,
}

/// Where the two differed.
struct Found {
    at: usize,
    case: Case,
    words: String,
}

/// The kinds to compare: the one asked for, or all that the voice has.
pub fn kinds(subject: &dyn Subject, asked: Option<Kind>) -> Result<Vec<Kind>, String> {
    match asked {
        None => Ok(Kind::ALL.into_iter().filter(|kind| kind.is_had_by(subject)).collect()),
        Some(kind) if kind.is_had_by(subject) => Ok(vec![kind]),
        Some(kind) => {
            Err(format!("the {} has no entry point for {} alone", subject.name(), kind.name()))
        }
    }
}

/// Runs the comparison and prints what came of it; well if cases were compared and none differed.
pub fn compare(subject: &dyn Subject, order: &Order) -> Outcome {
    let begun = Instant::now();
    let names: Vec<&str> = order.kinds.iter().map(|kind| kind.name()).collect();
    println!(
        "compare: {} beside the Rust, {} cases of {}, seed {}",
        subject.name(),
        order.cases,
        names.join(", "),
        order.seed
    );
    if !ranges_agree(subject) {
        return Outcome::differences(1, 1);
    }
    let (tally, found) = run(subject, order);
    tally.print();
    println!("seconds {:.1}", begun.elapsed().as_secs_f64());
    let differences = found.is_some() as usize;
    if let Some(found) = found {
        print_difference(subject, order, found);
    }
    Outcome::differences(differences, tally.compared())
}

/// The range rule on every D and n_sub within bounds.
fn ranges_agree(subject: &dyn Subject) -> bool {
    let mut compared = 0;
    for d in 1..=256 {
        for n_sub in 1..=d.min(64) {
            let heard = subject.ranges(d, n_sub);
            let rust = original_ranges(d, n_sub);
            if heard != Ok(rust) {
                println!(
                    "DIFFERENT: ranges of D {d}, n_sub {n_sub}: the Rust {rust:?}, heard {heard:?}"
                );
                return false;
            }
            compared += 1;
        }
    }
    println!("  ranges: {compared} pairs of D and n_sub agree");
    true
}

/// All cases, on as many threads as there are cores; each case is decided by its number alone. The
/// first difference by number is kept.
fn run(subject: &dyn Subject, order: &Order) -> (Tally, Option<Found>) {
    let next = AtomicUsize::new(0);
    let shared: Mutex<(Tally, Option<Found>)> = Mutex::new((Tally::default(), None));
    let threads = thread::available_parallelism().map_or(1, |n| n.get());
    thread::scope(|scope| {
        for _ in 0..threads {
            scope.spawn(|| {
                let mut tally = Tally::default();
                loop {
                    let at = next.fetch_add(1, Ordering::Relaxed);
                    if at >= order.cases {
                        break;
                    }
                    let kind = order.kinds[at % order.kinds.len()];
                    if let Some(found) = one(subject, kind, order.seed, at, &mut tally) {
                        next.store(order.cases, Ordering::Relaxed);
                        keep_first(&mut shared.lock().expect("no thread fails").1, found);
                    }
                }
                shared.lock().expect("no thread fails").0.add(&tally);
            });
        }
    });
    shared.into_inner().expect("no thread fails")
}

/// Keeps the difference with the lower number.
fn keep_first(kept: &mut Option<Found>, found: Found) {
    if kept.as_ref().is_none_or(|kept| found.at < kept.at) {
        *kept = Some(found);
    }
}

/// One case.
fn one(subject: &dyn Subject, kind: Kind, run: u64, at: usize, tally: &mut Tally) -> Option<Found> {
    let (case, verdict, outside) = fitted(kind, seed_of(run, at));
    let reply = hear(subject, &case);
    tally.count(&case, &verdict, outside, &reply);
    let words = difference(&verdict, &reply)?;
    Some(Found { at, case, words })
}

/// The difference between the Rust and a voice on a case, if there is one.
pub fn differs(subject: &dyn Subject, case: &Case) -> Option<String> {
    match judge(case) {
        Verdict::Outside => None,
        verdict => difference(&verdict, &hear(subject, case)),
    }
}

/// Prints a difference, and the smallest case that it shrinks to.
fn print_difference(subject: &dyn Subject, order: &Order, found: Found) {
    let kind = found.case.kind().name();
    println!("DIFFERENT: case {} ({kind}) of seed {}: {}", found.at, order.seed, found.words);
    let small = shrink(found.case, &|case| differs(subject, case).is_some());
    println!("smallest: {}", differs(subject, &small).unwrap_or(found.words));
    println!("{small:?}");
}
