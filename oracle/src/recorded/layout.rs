//! The layout of a file of recorded answers: what its writer, its reader and the choice of its cases
//! share.
//!
//! Layout, version 1. Every number is little-endian and starts at a multiple of 4: u32, f32 as its
//! bits, f64 as its bits (low word first). A list has no length of its own; its length is given in
//! brackets.
//!
//! ```text
//! file     8 bytes "bergrosk", u32 version = 1, u32 cases, then the cases
//! case     u32 kind (1 k-means, 2 plain, 3 celled; the same in all of a file), u32 length of the
//!          body in bytes, body
//!
//! k-means  u32 D, n, begin, end, m, has residual (0 or 1), n_center, epochs, draws lent
//!          f32 rows[n·D], u32 members[m], f32 residual[D] if there is one, f64 draws[draws lent]
//!          answer: u32 draws used, f32 centres[n_center·(end − begin)], u32 last assignment[m]
//!
//! plain    u32 D, n_sub, sub_bits, epochs, n, draws lent, queries, C
//!          f32 rows[n·D], f64 draws[draws lent]
//!          answer: u32 draws used, f32 sub-centres[K·C], codes[n·n_sub]
//!          queries
//!
//! celled   u32 D, n_sub, sub_bits, cells, probes, epochs, n, draws lent, queries, C
//!          f32 rows[n·D], f64 draws[draws lent]
//!          answer: u32 draws used, f32 coarse centres[cells·D], u32 starts[cells + 1],
//!          u32 members[n], f32 sub-centres[cells·K·C], codes[n·n_sub]
//!          queries
//!
//! codes    n·n_sub bytes, then zero bytes up to a multiple of 4
//! query    u32 k, f32 query[D]; answer: u32 found, scored, u32 rows[k], f32 sums[k]
//! ```
//!
//! All rows are visible, no case is refused, and blanks stand in the results as document 01 has them.

use std::path::{Path, PathBuf};

use crate::cases::case::Kind;

/// The first bytes of the file.
pub const MAGIC: &[u8; 8] = b"bergrosk";

/// The version of the layout.
pub const VERSION: u32 = 1;

/// What one case may hold, so that a program without a heap can set aside its buffers.
pub mod limits {
    pub const ROWS: usize = 512;
    pub const ROW_WORDS: usize = 16_384;
    pub const SUB_CENTRE_WORDS: usize = 65_536;
    pub const DRAWS: usize = 20_000;
    pub const QUERIES: usize = 4;
    pub const K: usize = 600;
}

/// The file of a kind, in the folder or, without one, in its place in the repository.
pub fn file(kind: Kind, folder: Option<&Path>) -> PathBuf {
    let name = format!("{}.bin", kind.name());
    let root = Path::new(env!("CARGO_MANIFEST_DIR"));
    match (folder, kind) {
        (Some(folder), _) => folder.join(name),
        (None, Kind::Kmeans) => root.join("../crates/replay_kmeans/data").join(name),
        (None, Kind::Plain) => root.join("../crates/replay_plain/data").join(name),
        (None, Kind::Celled) => root.join("../crates/replay_celled/data").join(name),
    }
}

/// Where the file that stands in its place in the repository stands once more, if it does.
pub fn copy(kind: Kind, folder: Option<&Path>) -> Option<PathBuf> {
    let once_more = folder.is_none() && kind == Kind::Celled;
    once_more.then(|| Path::new(env!("CARGO_MANIFEST_DIR")).join("recorded/celled.bin"))
}
