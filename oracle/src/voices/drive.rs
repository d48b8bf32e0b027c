//! Puts a case to a voice: lends it buffers of the right lengths, filled with junk, and keeps what
//! they hold afterwards.

use seat::{
    CelledCheck, CelledIndex, CelledSearch, CelledTraining, Checked, Kmeans, PlainParams,
    PlainSearch, PlainTraining, Searched, Subject, Trained,
};

use crate::cases::case::*;

/// What a voice answered, and what it left in the lent buffers.
pub struct Reply {
    pub answer: Trained,
    pub buffers: Vec<Buffer>,
    pub work: Vec<u32>,
    /// One for each query, if it trained.
    pub searches: Vec<Heard>,
    /// What the whole check says to a trained celled index, and the work that it leaves.
    pub check: Option<(Checked, Vec<u32>)>,
}

/// One search as heard.
pub struct Heard {
    pub answer: Searched,
    pub rows: Vec<u32>,
    pub sums: Vec<f32>,
    pub table: Vec<f32>,
}

const JUNK_U32: u32 = 0xdead_beef;
const JUNK_F32: f32 = -1.25e-7;
const JUNK_U8: u8 = 0xaa;

/// The reply of a voice. It is put a k-means alone only if it has an entry point for one.
pub fn hear(subject: &dyn Subject, case: &Case) -> Reply {
    match case {
        Case::Kmeans(case) => hear_kmeans(subject, case),
        Case::Plain(case) => hear_plain(subject, case),
        Case::Celled(case) => hear_celled(subject, case),
    }
}

/// A k-means put to a voice.
fn hear_kmeans(subject: &dyn Subject, case: &KmeansCase) -> Reply {
    let mut centres = vec![JUNK_F32; case.n_center * (case.end - case.begin)];
    let mut assigned = vec![JUNK_U32; case.members.len()];
    let kmeans = subject.kmeans().expect("the voice has a k-means");
    let answer = kmeans(Kmeans {
        d: case.d,
        rows: &case.rows,
        members: &case.members,
        begin: case.begin,
        end: case.end,
        residual: case.residual.as_deref(),
        n_center: case.n_center,
        epochs: case.epochs,
        draws: &case.draws,
        centres: &mut centres,
        assigned: &mut assigned,
    });
    let buffers = vec![
        Buffer { name: "centres", words: Words::F32(centres) },
        Buffer { name: "assignment", words: Words::U32(assigned) },
    ];
    Reply { answer, buffers, work: Vec::new(), searches: Vec::new(), check: None }
}

/// A plain index put to a voice.
fn hear_plain(subject: &dyn Subject, case: &PlainCase) -> Reply {
    let (n, params) = (case.n(), case.params);
    let mut sub_centres = vec![JUNK_F32; page::covered(params.d, params.n_sub) << params.sub_bits];
    let mut codes = vec![JUNK_U8; n * params.n_sub];
    let mut work = vec![JUNK_U32; n + 1024];
    let answer = subject.train_plain(PlainTraining {
        params,
        epochs: case.epochs,
        n,
        rows: &case.rows,
        draws: &case.draws,
        sub_centres: &mut sub_centres,
        codes: &mut codes,
        work: &mut work,
    });
    let mut searches = Vec::new();
    if answer.is_ok() {
        let search = |query| search_plain(subject, case, &sub_centres, &codes, query);
        searches = case.queries.iter().map(search).collect();
    }
    let buffers = vec![
        Buffer { name: "sub-centres", words: Words::F32(sub_centres) },
        Buffer { name: "codes", words: Words::U8(codes) },
    ];
    Reply { answer, buffers, work, searches, check: None }
}

/// One search of a trained plain index.
fn search_plain(
    subject: &dyn Subject,
    case: &PlainCase,
    sub_centres: &[f32],
    codes: &[u8],
    query: &Query,
) -> Heard {
    let (n, params) = (case.n(), case.params);
    let (codes, mask) = under_mask(query, codes, params, n);
    let (codes, mask, point) = (&codes[..], &mask[..], &query.point[..]);
    Lent::new(query.k, params.n_sub << params.sub_bits).search(|table, rows, sums| {
        subject.search_plain(PlainSearch {
            params,
            n,
            sub_centres,
            codes,
            mask,
            query: point,
            table,
            rows,
            sums,
        })
    })
}

/// The five buffers of a celled index, lent full of junk.
struct CelledBuffers {
    coarse: Vec<f32>,
    starts: Vec<u32>,
    members: Vec<u32>,
    sub_centres: Vec<f32>,
    codes: Vec<u8>,
}

impl CelledBuffers {
    /// Buffers of the right lengths.
    fn new(case: &CelledCase) -> CelledBuffers {
        let (n, plain, cells) = (case.plain.n(), case.plain.params, case.cells);
        let covered = page::covered(plain.d, plain.n_sub);
        CelledBuffers {
            coarse: vec![JUNK_F32; cells * plain.d],
            starts: vec![JUNK_U32; cells + 1],
            members: vec![JUNK_U32; n],
            sub_centres: vec![JUNK_F32; (cells * covered) << plain.sub_bits],
            codes: vec![JUNK_U8; n * plain.n_sub],
        }
    }

    /// The index that they hold, with these codes.
    fn index<'a>(&'a self, codes: &'a [u8]) -> CelledIndex<'a> {
        CelledIndex {
            coarse: &self.coarse,
            starts: &self.starts,
            members: &self.members,
            sub_centres: &self.sub_centres,
            codes,
        }
    }

    /// The same buffers under their names.
    fn named(self) -> Vec<Buffer> {
        vec![
            Buffer { name: "coarse centres", words: Words::F32(self.coarse) },
            Buffer { name: "list starts", words: Words::U32(self.starts) },
            Buffer { name: "list members", words: Words::U32(self.members) },
            Buffer { name: "sub-centres", words: Words::F32(self.sub_centres) },
            Buffer { name: "codes", words: Words::U8(self.codes) },
        ]
    }
}

/// A celled index put to a voice.
fn hear_celled(subject: &dyn Subject, case: &CelledCase) -> Reply {
    let (n, params) = (case.plain.n(), case.params());
    let mut lent = CelledBuffers::new(case);
    let mut work = vec![JUNK_U32; n + 1024];
    let answer = subject.train_celled(CelledTraining {
        params,
        epochs: case.plain.epochs,
        n,
        rows: &case.plain.rows,
        draws: &case.plain.draws,
        coarse: &mut lent.coarse,
        starts: &mut lent.starts,
        members: &mut lent.members,
        sub_centres: &mut lent.sub_centres,
        codes: &mut lent.codes,
        work: &mut work,
    });
    let mut searches = Vec::new();
    let mut check = None;
    if answer.is_ok() {
        let search = |query| search_celled(subject, case, &lent, query);
        searches = case.plain.queries.iter().map(search).collect();
        let mut work = vec![JUNK_U32; n + 1024];
        let index = lent.index(&lent.codes);
        let checked = subject.check_celled(CelledCheck { params, n, index, work: &mut work });
        check = Some((checked, work));
    }
    Reply { answer, buffers: lent.named(), work, searches, check }
}

/// One search of a trained celled index.
fn search_celled(
    subject: &dyn Subject,
    case: &CelledCase,
    built: &CelledBuffers,
    query: &Query,
) -> Heard {
    let (n, params) = (case.plain.n(), case.params());
    let plain = params.plain;
    let (codes, mask) = under_mask(query, &built.codes, plain, n);
    let index = built.index(&codes);
    let (mask, point) = (&mask[..], &query.point[..]);
    Lent::new(query.k, plain.n_sub << plain.sub_bits).search(|table, rows, sums| {
        subject.search_celled(CelledSearch {
            params,
            n,
            index,
            mask,
            query: point,
            table,
            rows,
            sums,
        })
    })
}

/// The codes as a search is lent them, and its mask. The codes of hidden rows are spoiled where the
/// query says so and a byte can hold a code that is none.
fn under_mask(query: &Query, codes: &[u8], params: PlainParams, n: usize) -> (Vec<u8>, Vec<u8>) {
    let mut codes = codes.to_vec();
    let Some(mask) = &query.mask else {
        return (codes, vec![1; n]);
    };
    if mask.spoil && params.sub_bits < 8 {
        for row in (0..n).filter(|&row| !query.sees(row)) {
            codes[row * params.n_sub..(row + 1) * params.n_sub].fill(u8::MAX);
        }
    }
    (codes, mask.visible.clone())
}

/// The buffers that a search is lent to write.
struct Lent {
    table: Vec<f32>,
    rows: Vec<u32>,
    sums: Vec<f32>,
}

impl Lent {
    /// Buffers for k results.
    fn new(k: usize, table: usize) -> Lent {
        Lent { table: vec![JUNK_F32; table], rows: vec![JUNK_U32; k], sums: vec![JUNK_F32; k] }
    }

    /// Runs one search over them.
    fn search(mut self, run: impl FnOnce(&mut [f32], &mut [u32], &mut [f32]) -> Searched) -> Heard {
        let answer = run(&mut self.table, &mut self.rows, &mut self.sums);
        Heard { answer, rows: self.rows, sums: self.sums, table: self.table }
    }
}
