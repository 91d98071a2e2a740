//! The proved library's C interface. An f32 passes as the bits of a u32, an
//! f64 as those of a u64; a NaN result is one word, [`NAN_F32`] or
//! [`NAN_F64`], and any NaN's word is taken.

pub const NAN_F32: u32 = 0x7FC0_0000;
pub const NAN_F64: u64 = 0x7FF8_0000_0000_0000;

unsafe extern "C" {
    pub safe fn floats_u64_to_f32(n: u64) -> u32;
    pub safe fn floats_f64_to_f32(x: u64) -> u32;
    pub safe fn floats_round_to_i64(x: u64) -> i64;
    pub safe fn floats_max_f32(a: u32, b: u32) -> u32;
    pub safe fn floats_abs_f32(x: u32) -> u32;
    pub safe fn floats_abs_f64(x: u64) -> u64;
    pub safe fn floats_clamp_f32(x: u32, lo: u32, hi: u32) -> u32;
    pub safe fn floats_clamp_f64(x: u64, lo: u64, hi: u64) -> u64;

    pub safe fn matching_from_frames(frames: i64, rate: u32, answer: &mut [i64; 2]);
    pub safe fn matching_try_from_frames(frames: i64, rate: u32, answer: &mut [i64; 3]);
    pub safe fn matching_frames_per_sec_compatible(a: u32, b: u32) -> u32;
    pub safe fn matching_clamp_score(s: u32) -> u32;
    pub safe fn matching_below_threshold(value: u32, threshold: u32) -> u32;
    pub safe fn matching_match_result_compare_desc(
        a_score: u32,
        a_prominence: u32,
        b_score: u32,
        b_prominence: u32,
    ) -> u32;
    pub safe fn matching_wang_prominence(peak: u64, total: u64, width: u64) -> u32;
    pub safe fn matching_score(n: u64, hashes: u64) -> u32;
    pub safe fn matching_time_scale(
        scale_min: u32,
        scale_max: u32,
        scale_bins: u32,
        bin: u32,
    ) -> u32;
    pub safe fn matching_none(answer: &mut [u64; 8]);

    pub safe fn panako_normalize_config(
        scale_min: u32,
        scale_max: u32,
        scale_bins: u32,
        tolerance: u32,
        answer: &mut Answer,
    );
    pub safe fn panako_pair_vote(
        scale_min: u32,
        scale_max: u32,
        scale_bins: u32,
        q_anchor: u32,
        q_end: u32,
        r_anchor: u32,
        r_end: u32,
        answer: &mut Answer,
    );
}

/// A leaf's answer: its case, 0 where the arguments are beyond the limits,
/// then its values, signed ones in two's complement; unused words are 0.
pub type Answer = [u64; 8];

/// What an answer holds before the call: no leaf gives it.
pub const UNANSWERED: Answer = [u64::MAX; 8];

/// A slice passes as a pointer and a length.
mod raw {
    use super::Answer;

    unsafe extern "C" {
        pub fn sorting_sort_words(words: *mut i64, len: usize, n: usize) -> u32;
        pub fn consolidate_mode_offset(bins: *const i64, len: usize, answer: &mut Answer);
        pub fn consolidate_sparse_wang_box_peak(
            bins: *const i64,
            len: usize,
            tol: u64,
            low: i64,
            high: i64,
            answer: &mut Answer,
        );
        pub fn hough_panako_peak(
            words: *mut i64,
            len: usize,
            n: usize,
            tol: u64,
            answer: &mut Answer,
        );
        pub fn sheet_card_sheet_of(
            card: *const u8,
            card_len: usize,
            sheet: *mut u8,
            sheet_len: usize,
        ) -> usize;
    }
}

pub fn sorting_sort_words(words: &mut [i64], n: usize) -> u32 {
    // SAFETY: pointer and length are those of one slice, here and below.
    unsafe { raw::sorting_sort_words(words.as_mut_ptr(), words.len(), n) }
}

pub fn consolidate_mode_offset(bins: &[i64]) -> Answer {
    let mut answer = UNANSWERED;
    unsafe { raw::consolidate_mode_offset(bins.as_ptr(), bins.len(), &mut answer) };
    answer
}

pub fn consolidate_sparse_wang_box_peak(bins: &[i64], tol: u64, low: i64, high: i64) -> Answer {
    let (at, len) = (bins.as_ptr(), bins.len());
    let mut answer = UNANSWERED;
    unsafe { raw::consolidate_sparse_wang_box_peak(at, len, tol, low, high, &mut answer) };
    answer
}

/// The first `n` bins of `words`, with the next `n` words for their sums.
pub fn hough_panako_peak(words: &mut [i64], n: usize, tol: u64) -> Answer {
    let (at, len) = (words.as_mut_ptr(), words.len());
    let mut answer = UNANSWERED;
    unsafe { raw::hough_panako_peak(at, len, n, tol, &mut answer) };
    answer
}

pub fn sheet_card_sheet_of(card: &[u8], sheet: &mut [u8]) -> usize {
    let (at, len) = (sheet.as_mut_ptr(), sheet.len());
    unsafe { raw::sheet_card_sheet_of(card.as_ptr(), card.len(), at, len) }
}

/// The slices of a store: references, postings, stopped keys.
pub type Lent<'a> = [&'a mut [u32]; 3];

/// A query's settings, scale ends and float gates as bits. Scales are Panako's
/// alone.
#[derive(Clone, Copy, Debug)]
pub struct Settings {
    pub scale_min: u32,
    pub scale_max: u32,
    pub scale_bins: u32,
    pub tolerance: u32,
    pub min_votes: u32,
    pub min_score: u32,
    pub min_prominence: u32,
}

/// Store, scratch, hashes, rate, settings, set.
pub type Query = fn([&[u32]; 3], &mut [i64], &[u32], u32, &Settings, u32) -> Answer;

/// The calls of one index on a lent store.
#[derive(Clone, Copy)]
pub struct Entries {
    /// Hashes, lengths, rates, limit, sets.
    pub build: fn(Lent<'_>, &[u32], &[u32], &[u32], u32, &[u32]) -> Answer,
    /// Hashes, rate, limit, set.
    pub insert: fn(Lent<'_>, &[u32], u32, u32, u32) -> Answer,
    pub remove: fn(Lent<'_>, u32) -> Answer,
    /// Id, hashes, rate, limit.
    pub replace: fn(Lent<'_>, u32, &[u32], u32, u32) -> Answer,
    pub live_count: fn([&[u32]; 3]) -> Answer,
    /// None where the library has no such function yet.
    pub query: Option<Query>,
}

/// A call that may change the lent store: the C function of that name, which
/// takes these words after the three slices.
macro_rules! lent_to {
    ($name:ident, $lent:ident, $($word:ident: $type:ty),*) => {{
        unsafe extern "C" {
            fn $name(
                refs: *mut u32,
                refs_len: usize,
                postings: *mut u32,
                postings_len: usize,
                stopped: *mut u32,
                stopped_len: usize,
                $($word: $type,)*
                answer: &mut Answer,
            );
        }
        let [refs, postings, stopped] = $lent.map(|words| (words.as_mut_ptr(), words.len()));
        answered(|answer| unsafe {
            $name(
                refs.0,
                refs.1,
                postings.0,
                postings.1,
                stopped.0,
                stopped.1,
                $($word,)*
                answer,
            );
        })
    }};
}

macro_rules! entries {
    (
        $list:ident,
        $build:ident,
        $insert:ident,
        $remove:ident,
        $replace:ident,
        $live_count:ident,
        $query:expr
    ) => {
        pub const $list: Entries = {
            unsafe extern "C" {
                fn $live_count(
                    refs: *const u32,
                    refs_len: usize,
                    postings: *const u32,
                    postings_len: usize,
                    stopped: *const u32,
                    stopped_len: usize,
                    answer: &mut Answer,
                );
            }
            Entries {
                build: |lent, hashes, lengths, rates, limit, sets| {
                    let (hash_at, m) = (hashes.as_ptr(), hashes.len());
                    let (length_at, l) = (lengths.as_ptr(), lengths.len());
                    let (rate_at, n) = (rates.as_ptr(), rates.len());
                    let (set_at, k) = (sets.as_ptr(), sets.len());
                    lent_to!(
                        $build,
                        lent,
                        hash_at: *const u32,
                        m: usize,
                        length_at: *const u32,
                        l: usize,
                        rate_at: *const u32,
                        n: usize,
                        limit: u32,
                        set_at: *const u32,
                        k: usize
                    )
                },
                insert: |lent, hashes, rate, limit, set| {
                    let (at, m) = (hashes.as_ptr(), hashes.len());
                    lent_to!(
                        $insert,
                        lent,
                        at: *const u32,
                        m: usize,
                        rate: u32,
                        limit: u32,
                        set: u32
                    )
                },
        remove: |lent, id| lent_to!($remove, lent, id: u32),
                replace: |lent, id, hashes, rate, limit| {
                    let (at, m) = (hashes.as_ptr(), hashes.len());
                    lent_to!(
                        $replace,
                        lent,
                        id: u32,
                        at: *const u32,
                        m: usize,
                        rate: u32,
                        limit: u32
                    )
                },
                live_count: |[r, p, s]| {
                    answered(|answer| unsafe {
                        let (refs, postings, stopped) = (r.as_ptr(), p.as_ptr(), s.as_ptr());
                        $live_count(refs, r.len(), postings, p.len(), stopped, s.len(), answer);
                    })
                },
                query: $query,
            }
        };
    };
}

/// The query of that name, which takes these settings before the tolerance.
macro_rules! query_of {
    ($query:ident $(, $scale:ident)*) => {{
        unsafe extern "C" {
            fn $query(
                refs: *const u32,
                refs_len: usize,
                postings: *const u32,
                postings_len: usize,
                stopped: *const u32,
                stopped_len: usize,
                scratch: *mut i64,
                scratch_len: usize,
                hashes: *const u32,
                hashes_len: usize,
                rate: u32,
                $($scale: u32,)*
                tolerance: u32,
                min_votes: u32,
                min_score: u32,
                min_prominence: u32,
                set: u32,
                answer: &mut Answer,
            );
        }
        let query: Query = |[r, p, s], scratch, hashes, rate, settings, set| {
            answered(|answer| unsafe {
                $query(
                    r.as_ptr(),
                    r.len(),
                    p.as_ptr(),
                    p.len(),
                    s.as_ptr(),
                    s.len(),
                    scratch.as_mut_ptr(),
                    scratch.len(),
                    hashes.as_ptr(),
                    hashes.len(),
                    rate,
                    $(settings.$scale,)*
                    settings.tolerance,
                    settings.min_votes,
                    settings.min_score,
                    settings.min_prominence,
                    set,
                    answer,
                );
            })
        };
        query
    }};
}

fn answered(call: impl FnOnce(&mut Answer)) -> Answer {
    let mut answer = UNANSWERED;
    call(&mut answer);
    answer
}

entries!(
    WANG,
    wang_index_build,
    wang_index_insert,
    wang_index_remove,
    wang_index_replace,
    wang_index_live_count,
    Some(query_of!(wang_index_query))
);
entries!(
    PANAKO,
    panako_index_build,
    panako_index_insert,
    panako_index_remove,
    panako_index_replace,
    panako_index_live_count,
    PANAKO_QUERY
);

#[cfg(feature = "panako-query")]
const PANAKO_QUERY: Option<Query> = Some(query_of!(
    panako_index_query,
    scale_min,
    scale_max,
    scale_bins
));
#[cfg(not(feature = "panako-query"))]
const PANAKO_QUERY: Option<Query> = None;
