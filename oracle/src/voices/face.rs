//! The declarations of `include/bergrosk.h`, for the feature `library`: the one file that names the
//! library's entry points. The archive is for x86-64, and so is a build with that feature.

/// Where an 8 or 9 was met; all zero in every other answer.
#[repr(C)]
#[derive(Clone, Copy, Debug, Default, PartialEq, Eq)]
pub struct Place {
    pub stage: u32,
    pub cell: u32,
    pub sub: u32,
    pub step: u32,
    pub epoch: u32,
    pub center: u32,
}

/// The answer of a training.
#[repr(C)]
#[derive(Clone, Copy, Debug, Default, PartialEq, Eq)]
pub struct TrainAnswer {
    pub number: u32,
    pub place: Place,
    pub used: usize,
}

/// The answer of a search.
#[repr(C)]
#[derive(Clone, Copy, Debug, Default, PartialEq, Eq)]
pub struct SearchAnswer {
    pub number: u32,
    pub found: usize,
    pub scored: usize,
}

/// A range of coordinates.
#[repr(C)]
#[derive(Clone, Copy, Debug, Default, PartialEq, Eq)]
pub struct RangeAnswer {
    pub number: u32,
    pub begin: usize,
    pub end: usize,
}

/// The lengths of a plain index's buffers.
#[repr(C)]
#[derive(Clone, Copy, Debug, Default, PartialEq, Eq)]
pub struct PlainBuffers {
    pub number: u32,
    pub rows: usize,
    pub subs: usize,
    pub codes: usize,
    pub work: usize,
    pub table: usize,
}

/// The lengths of a celled index's buffers.
#[repr(C)]
#[derive(Clone, Copy, Debug, Default, PartialEq, Eq)]
pub struct CelledBuffers {
    pub number: u32,
    pub rows: usize,
    pub coarse: usize,
    pub starts: usize,
    pub members: usize,
    pub subs: usize,
    pub codes: usize,
    pub work: usize,
    pub table: usize,
}

/// The defaults of a plain index.
#[repr(C)]
#[derive(Clone, Copy, Debug, Default, PartialEq, Eq)]
pub struct PlainDefaults {
    pub n_sub: usize,
    pub sub_bits: usize,
    pub epochs: usize,
}

/// The defaults of a celled index.
#[repr(C)]
#[derive(Clone, Copy, Debug, Default, PartialEq, Eq)]
pub struct CelledDefaults {
    pub n_sub: usize,
    pub sub_bits: usize,
    pub cells: usize,
    pub probes: usize,
    pub epochs: usize,
}

extern "C" {
    pub fn bergrosk_range(d: usize, n_sub: usize, i: usize) -> RangeAnswer;

    pub fn bergrosk_plain_defaults() -> PlainDefaults;

    pub fn bergrosk_celled_defaults() -> CelledDefaults;

    pub fn bergrosk_plain_lengths(
        d: usize,
        n_sub: usize,
        sub_bits: usize,
        n: usize,
    ) -> PlainBuffers;

    pub fn bergrosk_celled_lengths(
        d: usize,
        n_sub: usize,
        sub_bits: usize,
        cells: usize,
        probes: usize,
        n: usize,
    ) -> CelledBuffers;

    pub fn bergrosk_plain_train(
        d: usize,
        n_sub: usize,
        sub_bits: usize,
        epochs: usize,
        n: usize,
        rows: *const f32,
        rows_len: usize,
        draws: *const f64,
        draws_len: usize,
        subs: *mut f32,
        subs_len: usize,
        codes: *mut u8,
        codes_len: usize,
        work: *mut u32,
        work_len: usize,
    ) -> TrainAnswer;

    pub fn bergrosk_plain_search(
        d: usize,
        n_sub: usize,
        sub_bits: usize,
        n: usize,
        query: *const f32,
        query_len: usize,
        mask: *const u8,
        mask_len: usize,
        subs: *const f32,
        subs_len: usize,
        codes: *const u8,
        codes_len: usize,
        rows: *mut u32,
        rows_len: usize,
        sums: *mut f32,
        sums_len: usize,
        table: *mut f32,
        table_len: usize,
    ) -> SearchAnswer;

    pub fn bergrosk_celled_train(
        d: usize,
        n_sub: usize,
        sub_bits: usize,
        cells: usize,
        probes: usize,
        epochs: usize,
        n: usize,
        rows: *const f32,
        rows_len: usize,
        draws: *const f64,
        draws_len: usize,
        coarse: *mut f32,
        coarse_len: usize,
        starts: *mut u32,
        starts_len: usize,
        members: *mut u32,
        members_len: usize,
        subs: *mut f32,
        subs_len: usize,
        codes: *mut u8,
        codes_len: usize,
        work: *mut u32,
        work_len: usize,
    ) -> TrainAnswer;

    pub fn bergrosk_celled_search(
        d: usize,
        n_sub: usize,
        sub_bits: usize,
        cells: usize,
        probes: usize,
        n: usize,
        query: *const f32,
        query_len: usize,
        mask: *const u8,
        mask_len: usize,
        coarse: *const f32,
        coarse_len: usize,
        starts: *const u32,
        starts_len: usize,
        members: *const u32,
        members_len: usize,
        subs: *const f32,
        subs_len: usize,
        codes: *const u8,
        codes_len: usize,
        rows: *mut u32,
        rows_len: usize,
        sums: *mut f32,
        sums_len: usize,
        table: *mut f32,
        table_len: usize,
    ) -> SearchAnswer;

    pub fn bergrosk_celled_check(
        d: usize,
        n_sub: usize,
        sub_bits: usize,
        cells: usize,
        probes: usize,
        n: usize,
        coarse: *const f32,
        coarse_len: usize,
        starts: *const u32,
        starts_len: usize,
        members: *const u32,
        members_len: usize,
        subs: *const f32,
        subs_len: usize,
        codes: *const u8,
        codes_len: usize,
        work: *mut u32,
        work_len: usize,
    ) -> u32;
}
