//! The command `fuzz`: calls of every function of the library's face with anything, each checked whole
//! against the page, in buffers beside which any access is a crash.

mod call;
mod check;
mod content;
mod crash;
mod draft;
mod lend;
mod numbers;

use std::collections::BTreeMap;
use std::time::Instant;

use crate::cases::chance::seed_of;
use crate::outcome::Outcome;

use call::Function;
use check::check;
use content::{Damage, DAMAGES};
use draft::draft;
use lend::{Lender, Manner};

/// What is to be called.
pub struct Order {
    pub calls: usize,
    pub seed: u64,
    /// One call alone, with its buffers printed.
    pub only: Option<usize>,
    /// Buffers on the heap, for valgrind; then functions that are lent nothing are only called.
    pub heap: bool,
}

/// Every answer that each function has; an 8 and a 9 by the k-means and the step that it names.
#[rustfmt::skip]
const ANSWERS: [(Function, &[&str]); 8] = [
    (Function::Range, &["0", "1"]),
    (Function::PlainLengths, &["0", "1", "3"]),
    (Function::CelledLengths, &["0", "1", "3"]),
    (Function::PlainTrain, &[
        "0", "1", "2", "3", "4", "6", "7", "8 sub",
        "9 sub start", "9 sub averaging", "9 sub splitting",
    ]),
    (Function::PlainSearch, &["0", "1", "3", "4", "5", "6", "10", "11"]),
    (Function::CelledTrain, &[
        "0", "1", "2", "3", "4", "6", "7", "8 coarse", "8 sub",
        "9 coarse start", "9 coarse averaging", "9 coarse splitting", "9 sub start",
    ]),
    (Function::CelledSearch, &["0", "1", "3", "4", "5", "6", "10", "11"]),
    (Function::CelledCheck, &["0", "1", "3", "4", "10"]),
];

/// How often each function gave each answer, and how often to each damage of the lists.
#[derive(Default)]
struct Tally {
    answers: BTreeMap<(Function, String), usize>,
    to_damage: BTreeMap<(Function, String), usize>,
}

/// Runs the calls and prints what came of them; well if none differed and every answer was given.
pub fn fuzz(order: &Order) -> Outcome {
    crash::install();
    if let Some(at) = order.only {
        return one_alone(order, at);
    }
    let begun = Instant::now();
    println!("fuzz: {} calls, seed {}, {}", order.calls, order.seed, places(order));
    let mut lender = Lender::new();
    let mut tally = Tally::default();
    let equal = (0..order.calls).all(|at| one(order, at, &mut lender, &mut tally));
    if !equal || !(order.heap || numbers::every_number()) {
        return Outcome::differences(1, 1);
    }
    let missing = tally.print();
    println!("seconds {:.1}", begun.elapsed().as_secs_f64());
    let words = format!("calls {}, differences 0", order.calls);
    match missing {
        0 => Outcome::new(true, words),
        _ => Outcome::not_well(format!("too short: {words}, answers that never came up {missing}")),
    }
}

/// Where the buffers stand, in words.
fn places(order: &Order) -> &'static str {
    match order.heap {
        true => "each buffer an allocation of its exact size",
        false => "each buffer directly before or after inaccessible memory",
    }
}

/// One call, counted; false if it differed, and then that is printed.
fn one(order: &Order, at: usize, lender: &mut Lender, tally: &mut Tally) -> bool {
    let (call, manner) = draft(seed_of(order.seed, at));
    let manner = if order.heap { Manner::Heap } else { manner };
    let words = format!("call {at} of seed {}, {manner:?}: {}", order.seed, call.words());
    let outcome = crash::under_words(&words, || check(&call, manner, lender));
    tally.count(call.function, &outcome.answer, call.damage);
    match outcome.difference {
        Some(difference) => {
            println!("DIFFERENT: {words}: {difference}");
            println!("again, with its buffers: fuzz --call {at} --seed {}", order.seed);
            false
        }
        None => true,
    }
}

/// One call alone, printed with its buffers before it is made.
fn one_alone(order: &Order, at: usize) -> Outcome {
    draft(seed_of(order.seed, at)).0.print();
    let equal = one(order, at, &mut Lender::new(), &mut Tally::default());
    Outcome::new(equal, format!("calls 1, differences {}", !equal as usize))
}

impl Tally {
    /// Counts an answer, and what it was given to.
    fn count(&mut self, function: Function, answer: &str, damage: Option<&'static str>) {
        *self.answers.entry((function, answer.to_string())).or_insert(0) += 1;
        if let Some(damage) = damage {
            *self.to_damage.entry((function, format!("{answer} to {damage}"))).or_insert(0) += 1;
        }
    }

    /// A line of counts for each function, and of those that must come up for each damage; how many
    /// never did.
    fn print(&self) -> usize {
        let mut missing = 0;
        for (function, answers) in ANSWERS {
            let names: Vec<String> = answers.iter().map(|answer| answer.to_string()).collect();
            missing += print_counts(function, &names, &self.answers);
        }
        let by_check = |damage: &Damage| vec![format!("10 to {}", damage.name)];
        let by_search = |damage: &Damage| -> Vec<String> {
            let answers = damage.to_search.iter();
            answers.map(|number| format!("{number} to {}", damage.name)).collect()
        };
        let names: Vec<String> = DAMAGES.iter().flat_map(by_check).collect();
        missing += print_counts(Function::CelledCheck, &names, &self.to_damage);
        let names: Vec<String> = DAMAGES.iter().flat_map(by_search).collect();
        missing + print_counts(Function::CelledSearch, &names, &self.to_damage)
    }
}

/// A line of a function's counts, and a line for each that is 0; how many are.
fn print_counts(
    function: Function,
    names: &[String],
    counts: &BTreeMap<(Function, String), usize>,
) -> usize {
    let count = |name: &String| counts.get(&(function, name.clone())).copied().unwrap_or(0);
    let words: Vec<String> = names.iter().map(|name| format!("{name}: {}", count(name))).collect();
    println!("  {} answered {}", function.name(), words.join(", "));
    let missing: Vec<&String> = names.iter().filter(|name| count(name) == 0).collect();
    for name in &missing {
        println!("  NEVER: {} answered {name}", function.name());
    }
    missing.len()
}
