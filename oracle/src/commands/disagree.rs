//! The command `disagree`: the smallest inputs on which document 01 and the Rust differ, with what
//! each says. The Rust runs with its own order on neighbours; document 01 speaks through the page.
//! An input on which the two say the same fails the command, and so does one on which another voice
//! does not say what document 01 says.

use seat::{PlainParams, PlainTraining, Stage, Step, Subject, Trained};

use crate::cases::case::*;
use crate::cases::generate::AVERAGING;
use crate::judge::as_is::{self, list};
use crate::outcome::Outcome;
use crate::voices::drive::{hear, Heard, Reply};

/// The largest f32.
const MAX: f32 = f32::MAX;

/// An input on which the two differ, and why document 01 differs.
struct Item {
    title: &'static str,
    case: Case,
    why: &'static str,
}

/// Prints every item; well if the two differ on each, and the voice says what document 01 says.
pub fn show(voice: &dyn Subject) -> Outcome {
    let items = items();
    let (mut differ, mut heard) = (0, 0);
    for item in &items {
        let rust = as_is::answer(&item.case);
        let page = answer(&page::Page, &item.case);
        let voiced = answer(voice, &item.case);
        println!("## {}", item.title);
        println!("- input: {}", input(&item.case));
        println!("- the Rust: {rust}");
        println!("- document 01: {page}");
        println!("- why: {}", item.why);
        match rust == page {
            true => println!("- THE SAME"),
            false => differ += 1,
        }
        match voiced == page {
            true => heard += 1,
            false => println!("- NOT SO THE {}: {voiced}", voice.name()),
        }
        println!();
    }
    let (name, all) = (voice.name(), items.len());
    let words = format!(
        "of {all} inputs the Rust differs on {differ}, the {name} is as document 01 on {heard}"
    );
    Outcome::new(differ == all && heard == all, words)
}

/// A plain index with one sub-centre for each row's range and no epochs, to be changed.
fn plain(rows: &[f32]) -> PlainCase {
    let params = PlainParams { d: 1, n_sub: 1, sub_bits: 0 };
    PlainCase { params, epochs: 0, rows: rows.to_vec(), draws: Vec::new(), queries: Vec::new() }
}

/// A celled index over the same.
fn celled(rows: &[f32], cells: usize, probes: usize, epochs: usize) -> CelledCase {
    CelledCase { plain: PlainCase { epochs, ..plain(rows) }, cells, probes }
}

/// One query with all rows visible.
fn query(point: &[f32], k: usize) -> Vec<Query> {
    vec![Query { point: point.to_vec(), k, mask: None }]
}

/// All items, in the order of document 01's answers.
fn items() -> Vec<Item> {
    let mut list = ties();
    list.extend(empty_cells());
    list.extend(overflow_in_training());
    list.extend(overflow_in_search());
    list.extend(no_such_input());
    list.extend(outside_bounds());
    list
}

/// An item of the list.
fn item(title: &'static str, case: Case, why: &'static str) -> Item {
    Item { title, case, why }
}

/// Ties among rows and among cells.
fn ties() -> Vec<Item> {
    let two = |k| Case::Plain(PlainCase { queries: query(&[0.0], k), ..plain(&[0.0, 0.0]) });
    let mut cells = celled(&[-1.0, 1.0], 3, 2, 1);
    cells.plain.queries = query(&[0.0], 1);
    let rows = "the Rust's order has no rule for equal sums, so the heap's shape decides; document 01 takes the lower row first";
    vec![
        item("Equal sums: which row is kept", two(1), rows),
        item("Equal sums: in which order", two(2), rows),
        item(
            "Cells at equal distance",
            Case::Celled(cells),
            "the Rust's order has no rule for equal distances either; document 01 probes the lower cell first",
        ),
    ]
}

/// Cells without rows.
fn empty_cells() -> Vec<Item> {
    vec![
        item(
            "An empty cell with 0 epochs: NaN centres",
            Case::Celled(celled(&[0.0], 2, 1, 0)),
            "the Rust divides 0 by 0; document 01 gives an empty cell zero sub-centres",
        ),
        item(
            "An empty cell with 2 epochs",
            Case::Celled(CelledCase {
                plain: PlainCase { draws: vec![0.0], ..celled(&[0.0], 2, 1, 2).plain },
                ..celled(&[0.0], 2, 1, 2)
            }),
            "the Rust's split of no rows answers an error that is unwrapped",
        ),
    ]
}

/// Centres that come out not finite, at each step that can make them.
fn overflow_in_training() -> Vec<Item> {
    let centre = "document 01 refuses a centre that is not finite, and names the place";
    let one_bit = |rows: &[f32], draws: &[f64]| {
        let params = PlainParams { d: 1, n_sub: 1, sub_bits: 1 };
        Case::Plain(PlainCase { params, epochs: 2, draws: draws.to_vec(), ..plain(rows) })
    };
    let mut nan = celled(&[MAX, MAX], 1, 1, 0);
    nan.plain.queries = query(&[0.0], 1);
    vec![
        item("A sum that overflows at start", Case::Plain(plain(&[MAX, MAX])), centre),
        item(
            "A sum that overflows in averaging, though not at start",
            one_bit(&AVERAGING, &[0.0]),
            "the second row lies exactly on a split centre, so the others are summed without it",
        ),
        item(
            "A product that overflows in splitting",
            one_bit(&[MAX], &[0.0]),
            "the Rust's next averaging makes the centre finite again; document 01 refuses at once",
        ),
        item(
            "A difference from a residual that overflows",
            Case::Celled(celled(&[3e38, -3e38, -3e38], 1, 1, 0)),
            centre,
        ),
        item(
            "Centres that are not finite, searched: NaN sums",
            Case::Celled(nan),
            "the Rust compares two NaN sums and unwraps; document 01 has refused the training",
        ),
    ]
}

/// Distances and sums that come out not finite.
fn overflow_in_search() -> Vec<Item> {
    let why = "document 01 refuses a search in which a distance or sum is not finite";
    let wide = PlainParams { d: 2, n_sub: 2, sub_bits: 0 };
    let entry = PlainCase { queries: query(&[2e19], 1), ..plain(&[0.0]) };
    let sum =
        PlainCase { params: wide, queries: query(&[1.5e19, 1.5e19], 1), ..plain(&[0.0, 0.0]) };
    let mut far = celled(&[0.0, 4e19], 2, 1, 1);
    far.plain.queries = query(&[0.0], 1);
    let mut coarse = celled(&[0.0], 1, 1, 0);
    coarse.plain.queries = query(&[2e19], 1);
    let params = PlainParams { d: 1, n_sub: 1, sub_bits: 1 };
    let unused = PlainCase { params, epochs: 1, queries: query(&[2e19], 1), ..plain(&[2e19]) };
    vec![
        item("A table entry that overflows", Case::Plain(entry), why),
        item("A sum of finite entries that overflows", Case::Plain(sum), why),
        item("A coarse distance that overflows", Case::Celled(coarse), why),
        item(
            "A coarse distance that overflows, of a cell that is not probed",
            Case::Celled(far),
            "document 01 tests every coarse distance",
        ),
        item(
            "An unused centre whose table entry overflows",
            Case::Plain(unused),
            "document 01 tests every entry of a table, also one that no row uses",
        ),
    ]
}

/// Inputs that document 01 refuses by tests 2 to 7, and draws used up.
fn no_such_input() -> Vec<Item> {
    let with_epochs = |epochs| Case::Plain(PlainCase { epochs, ..plain(&[]) });
    let none = "document 01 refuses a training without rows";
    let not_finite = "both refuse, the Rust by a panic when the row is made";
    let params = PlainParams { d: 1, n_sub: 1, sub_bits: 1 };
    let no_draws = PlainCase { params, epochs: 2, ..plain(&[0.0]) };
    let long = Case::Plain(PlainCase { queries: query(&[0.0, 0.0], 1), ..plain(&[0.0]) });
    vec![
        item("No rows, 0 epochs: NaN centres", with_epochs(0), none),
        item("No rows, 1 epoch", with_epochs(1), none),
        item("No rows, 2 epochs", with_epochs(2), none),
        item("A row that is not finite", Case::Plain(plain(&[f32::INFINITY])), not_finite),
        item(
            "A query that is not finite",
            Case::Plain(PlainCase { queries: query(&[f32::NAN], 1), ..plain(&[0.0]) }),
            not_finite,
        ),
        item("A query of another length", long, "both refuse, the Rust by a panic"),
        item(
            "Draws used up",
            Case::Plain(no_draws),
            "the Rust draws without end; document 01 lends a number of draws",
        ),
        item(
            "Rows past 100,001",
            Case::Plain(plain(&vec![0.0; 100_002])),
            "the Rust answers an error for the row and trains on the others; document 01 refuses the training",
        ),
    ]
}

/// Parameters and results asked for outside their bounds.
fn outside_bounds() -> Vec<Item> {
    let bound = "a bound that only document 01 has";
    let panics = "both refuse, the Rust by a panic";
    let with = |d: usize, n_sub: usize, sub_bits: usize, epochs: usize| {
        let params = PlainParams { d, n_sub, sub_bits };
        Case::Plain(PlainCase { params, epochs, ..plain(&vec![0.0; d]) })
    };
    let in_cells = |cells, probes, epochs| {
        let mut case = celled(&[0.0], cells, probes, epochs);
        case.plain.queries = query(&[0.0], 1);
        Case::Celled(case)
    };
    let many = Case::Plain(PlainCase { queries: query(&[0.0], 4_097), ..plain(&[0.0]) });
    vec![
        item("n_sub above D", with(1, 2, 0, 0), panics),
        item("n_sub 0", with(1, 0, 0, 0), panics),
        item("D 0", with(0, 1, 0, 0), panics),
        item("D above 256", with(257, 1, 0, 0), bound),
        item("n_sub above 64", with(65, 65, 0, 0), bound),
        item("sub_bits above 8", with(1, 1, 9, 0), bound),
        item("epochs above 1000", with(1, 1, 0, 1001), bound),
        item("cells 0", in_cells(0, 0, 1), panics),
        item("cells above 1024", in_cells(1025, 1, 1), bound),
        item("probes 0", in_cells(1, 0, 1), "the Rust looks into no cell and finds nothing"),
        item("probes above cells", in_cells(1, 2, 1), "the Rust unwraps a cell that is not there"),
        item("k above 4,096", many, bound),
    ]
}

/// An input in words.
fn input(case: &Case) -> String {
    let (words, index) = match case {
        Case::Kmeans(_) => unreachable!("no disagreement is shown on k-means alone"),
        Case::Plain(case) => ("plain".to_string(), case),
        Case::Celled(case) => {
            (format!("celled, cells {}, probes {}", case.cells, case.probes), &case.plain)
        }
    };
    let PlainParams { d, n_sub, sub_bits } = index.params;
    let rows: Vec<&[f32]> = index.rows.chunks_exact(d.max(1)).collect();
    let row = |row: &&[f32]| list(row.iter());
    let rows = match rows.len() {
        0 => "no rows".to_string(),
        n @ 9.. => format!("{n} rows, each {}", row(&rows[0])),
        _ => format!("rows {}", rows.iter().map(row).collect::<Vec<String>>().join(" ")),
    };
    let mut words = format!(
        "{words}, D {d}, n_sub {n_sub}, sub_bits {sub_bits}, epochs {}; {rows}",
        index.epochs
    );
    if !index.draws.is_empty() {
        words += &format!("; draws {}", list(index.draws.iter()));
    }
    for query in &index.queries {
        words += &format!("; query {}, k {}", list(query.point.iter()), query.k);
    }
    words
}

/// What a voice says, in the words that the Rust's answer has.
fn answer(voice: &dyn Subject, case: &Case) -> String {
    if let Case::Plain(case) = case {
        if page::Page.ranges(case.params.d, case.params.n_sub).is_err() {
            return refused(without_lengths(voice, case).expect_err("it is out of bounds"));
        }
    }
    let reply = hear(voice, case);
    match reply.answer {
        Ok(_) => trained(case, &reply),
        Err(refusal) => refused(refusal),
    }
}

/// A training whose parameters give its buffers no lengths: those to be written are empty.
fn without_lengths(voice: &dyn Subject, case: &PlainCase) -> Trained {
    voice.train_plain(PlainTraining {
        params: case.params,
        epochs: case.epochs,
        n: 1,
        rows: &case.rows,
        draws: &case.draws,
        sub_centres: &mut [],
        codes: &mut [],
        work: &mut [],
    })
}

/// A refused training in words.
fn refused(refusal: seat::Refusal) -> String {
    let at = |stage| match stage {
        Stage::Coarse => "the coarse stage".to_string(),
        Stage::Sub { cell, sub_space } => format!("cell {cell}, sub-space {sub_space}"),
    };
    match refusal {
        seat::Refusal::Input(number) => format!("training refused with {number}"),
        seat::Refusal::NoDraw { stage, epoch, centre } => {
            format!("training refused with 8 at {}, epoch {epoch}, centre {centre}", at(stage))
        }
        seat::Refusal::NotFinite { stage, epoch, centre, step } => {
            let step = match step {
                Step::Start => "start",
                Step::Averaging => "averaging",
                Step::Splitting => "splitting",
            };
            format!(
                "training refused with 9 at {}, epoch {epoch}, centre {centre}, {step}",
                at(stage)
            )
        }
    }
}

/// A training and its searches in words.
fn trained(case: &Case, reply: &Reply) -> String {
    let mut words = match case {
        Case::Celled(case) => celled_words(case, reply),
        _ => format!("sub-centres {}", f32_list(&reply.buffers[0].words, 0, usize::MAX)),
    };
    for Heard { answer, rows, sums, .. } in &reply.searches {
        words += &match answer {
            Ok(found) => {
                let count = found.found as usize;
                let (rows, sums) = (list(rows[..count].iter()), list(sums[..count].iter()));
                format!("; finds rows {rows} with sums {sums}")
            }
            Err(number) => format!("; search refused with {number}"),
        };
    }
    words
}

/// A stretch of a buffer of f32 in words.
fn f32_list(words: &Words, begin: usize, end: usize) -> String {
    match words {
        Words::F32(all) => list(all[begin..end.min(all.len())].iter()),
        _ => unreachable!("centres are f32"),
    }
}

/// The buffers of a celled index in words.
fn celled_words(case: &CelledCase, reply: &Reply) -> String {
    let (starts, members) = (reply.buffers[1].words.bits(), reply.buffers[2].words.bits());
    let stretch = |cell: usize| &members[starts[cell] as usize..starts[cell + 1] as usize];
    let lists: Vec<&[u32]> = (0..case.cells).map(stretch).collect();
    let mut words = format!("coarse centres {}", f32_list(&reply.buffers[0].words, 0, usize::MAX));
    words += &format!(", lists {}", list(lists.iter()));
    let params = case.plain.params;
    let length = page::covered(params.d, params.n_sub) << params.sub_bits;
    for cell in 0..case.cells.min(as_is::CELLS_SHOWN) {
        let centres = f32_list(&reply.buffers[3].words, cell * length, (cell + 1) * length);
        words += &format!(", sub-centres of cell {cell} {centres}");
    }
    words
}
