//! The command `bench`: the Rust and a voice on the same inputs, in one process, on one thread, in
//! turns. Each line has the least time of several runs of each, and the ratio.
//!
//! The Rust is the build with its own order on neighbours, and of it the least that answers is timed:
//! training without the adding of rows, and searching without the making of a query. The vectors that
//! it makes and drops are part of that. A voice is timed whole: its tests of the input, and its
//! clearing of the lent buffers.

mod celled;
mod plain;

use std::time::Instant;

use seat::Subject;

use crate::cases::case::Kind;
use crate::cases::chance::Chance;
use crate::outcome::Outcome;

/// A time is the least of at least so many runs, and of more while they take less than these seconds;
/// of fewer once they have taken so long.
const FEWEST_RUNS: usize = 3;
const MOST_RUNS: usize = 50;
const SECONDS: f64 = 1.0;
const LONG: f64 = 10.0;

/// Queries of one run.
const QUERIES: usize = 20;

/// What is to be timed.
pub struct Order {
    /// The indexes of one kind, or both.
    pub kind: Option<Kind>,
    /// A few small indexes only.
    pub quick: bool,
}

/// Times what is asked for; the last line has the worst ratio, and whether the answers are equal. Well
/// if they are.
pub fn bench(subject: &dyn Subject, order: &Order) -> Result<Outcome, String> {
    let Order { kind, quick } = *order;
    if kind == Some(Kind::Kmeans) {
        return Err("bench times plain and celled indexes".to_string());
    }
    let name = subject.name();
    println!("{name} beside the Rust, one thread, in turns, the least of several runs");
    println!("the Rust: without adding rows; with the vectors that it makes and drops");
    println!("{name}: with its tests of the input and its clearing of the lent buffers");
    let mut report = Report { ratio: 0.0, words: "nothing".to_string(), equal: true };
    if kind != Some(Kind::Celled) {
        plain::time(subject, quick, &mut report);
    }
    if kind != Some(Kind::Plain) {
        celled::time(subject, quick, &mut report);
    }
    let answers = if report.equal { "answers equal" } else { "ANSWERS DIFFER" };
    let words = format!("{answers}, worst ratio {:.3}: {}", report.ratio, report.words);
    Ok(Outcome::new(report.equal, words))
}

/// The largest ratio so far, and whether all answers are equal.
struct Report {
    ratio: f64,
    words: String,
    equal: bool,
}

impl Report {
    /// Prints a line of two times, and keeps it if it is the worst.
    fn line(&mut self, words: String, (rust, voice): (f64, f64)) {
        let ratio = voice / rust;
        println!("{words}: the Rust {}, ours {}, ratio {ratio:.3}", time(rust), time(voice));
        if ratio > self.ratio {
            (self.ratio, self.words) = (ratio, words);
        }
    }
}

/// Seconds in words.
fn time(seconds: f64) -> String {
    match seconds {
        s if s >= 1.0 => format!("{s:.3} s"),
        s if s >= 1e-3 => format!("{:.3} ms", 1e3 * s),
        s => format!("{:.1} us", 1e6 * s),
    }
}

/// Runs two jobs in turns, each answering its seconds; the least of each.
fn least(mut rust: impl FnMut() -> f64, mut voice: impl FnMut() -> f64) -> (f64, f64) {
    let mut best = (f64::INFINITY, f64::INFINITY);
    let begun = Instant::now();
    for run in 1..=MOST_RUNS {
        best = (best.0.min(rust()), best.1.min(voice()));
        let seconds = begun.elapsed().as_secs_f64();
        if seconds > LONG || (run >= FEWEST_RUNS && seconds > SECONDS) {
            break;
        }
    }
    best
}

/// The seconds that a job takes, and its outcome.
fn timed<T>(job: impl FnOnce() -> T) -> (f64, T) {
    let begun = Instant::now();
    let outcome = job();
    (begun.elapsed().as_secs_f64(), outcome)
}

/// Points near some of the rows.
fn queries(chance: &mut Chance, rows: &[f32], d: usize) -> Vec<Vec<f32>> {
    let mut list = Vec::new();
    for _ in 0..QUERIES {
        let from = chance.below(rows.len() / d) * d;
        let near = |x: &f32| x + 0.1 * chance.signed() as f32;
        list.push(rows[from..from + d].iter().map(near).collect());
    }
    list
}

/// Whether two lists of f32 have the same bits.
fn same_bits<'a>(a: impl Iterator<Item = &'a f32>, b: &[f32]) -> bool {
    a.map(|x| x.to_bits()).eq(b.iter().map(|x| x.to_bits()))
}
