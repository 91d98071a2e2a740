//! Stand-in, not part of audiofp: the Haitsma matcher, which neither index
//! runs. `HaitsmaMatcher` serves as the way to the private functions of the
//! modules around it: each function below calls the one it is named after.

use core::cmp::Ordering;

use super::consolidate::{self, HoughScratch};
use super::{PanakoMatchConfig, maps, panako};
use crate::classical::WangHash;
use alloc::vec::Vec;

/// `index.rs` and `content.rs` in one, as `build.rs` wrote them: the indexes,
/// and what they hold.
mod open {
    include!(concat!(env!("OUT_DIR"), "/index.rs"));
}

// What `index.rs` takes from the module around it.
use super::{MatchResult, below_threshold, calibration, haitsma};

impl crate::Open for HaitsmaMatcher {
    type WangIndex = open::WangIndex;
    type PanakoIndex = open::PanakoIndex;
    type Content<P> = open::Content<P>;
}

/// A Hough accumulator: `((scale bin, offset), votes)`, sorted.
type Bins<'a> = &'a [((u32, i64), u32)];

#[derive(Default)]
pub struct HaitsmaMatcher {
    scratch: HoughScratch,
}

/// `mod.rs`
impl HaitsmaMatcher {
    pub fn frames_per_sec_compatible(a: f32, b: f32) -> bool {
        super::frames_per_sec_compatible(a, b)
    }

    pub fn below_threshold(value: f32, threshold: f32) -> bool {
        super::below_threshold(value, threshold)
    }

    pub fn score_compare_desc_rank(a: f32, b: f32) -> Ordering {
        super::score_compare_desc_rank(a, b)
    }
}

/// `panako.rs`
impl HaitsmaMatcher {
    pub fn normalize_config(cfg: PanakoMatchConfig) -> PanakoMatchConfig {
        panako::normalize_config(cfg)
    }
}

/// `consolidate.rs`
impl HaitsmaMatcher {
    pub fn mode_offset(votes: impl Iterator<Item = (i64, u32)>) -> Option<i64> {
        consolidate::mode_offset(votes)
    }

    /// Peak, centre, mode, total.
    pub fn sparse_wang_box_peak(
        bins: &[(i64, u32)],
        tol: i64,
        dmin: i64,
        dmax: i64,
    ) -> (u32, i64, i64, u64) {
        consolidate::sparse_wang_box_peak(bins, tol, dmin, dmax)
    }

    pub fn first_connected_plateau(consolidated: &[u32], peak_val: u32) -> (usize, usize) {
        consolidate::first_connected_plateau(consolidated, peak_val)
    }

    pub fn count_sorted<K: Copy + PartialEq>(sorted: &[K], out: &mut Vec<(K, u32)>) {
        consolidate::count_sorted(sorted, out);
    }

    /// Peak and its index; leaves the sums of `bins` in `consolidated`.
    pub fn panako_hough_peak(&mut self, bins: Bins<'_>, tol: i64) -> (u32, usize) {
        consolidate::panako_hough_peak(bins, tol, &mut self.scratch)
    }

    /// What the last `panako_hough_peak` left.
    pub fn consolidated(&self) -> &[u32] {
        &self.scratch.consolidated
    }

    pub fn panako_peak_offset(&mut self, bins: Bins<'_>, peak_idx: usize, tol: i64) -> i64 {
        consolidate::panako_peak_offset(bins, peak_idx, tol, &mut self.scratch)
    }

    /// Over what the last `panako_hough_peak` left.
    pub fn panako_prominence(&self, bins: Bins<'_>, peak_idx: usize, tol: i64) -> f32 {
        consolidate::panako_prominence(bins, &self.scratch.consolidated, peak_idx, tol)
    }
}

/// `maps.rs`
impl HaitsmaMatcher {
    /// The anchors under `key`, ascending; empty where more than
    /// `max_postings` stand there.
    pub fn sorted_postings(hashes: &[WangHash], max_postings: u32, key: u32) -> Vec<u32> {
        maps::SortedPostings::build_from_wang(hashes, max_postings)
            .map_or(Vec::new(), |sorted| sorted.get(key).to_vec())
    }

    /// What a posting list holds after `pushed` and then `retain`.
    pub fn postings<P: Copy>(pushed: &[P], keep: impl FnMut(&P) -> bool) -> Vec<P> {
        let mut list = maps::Postings::default();
        for &posting in pushed {
            list.push(posting);
        }
        list.retain(keep);
        list.as_slice().to_vec()
    }
}

#[derive(Clone, Debug)]
pub struct HaitsmaMatchConfig {
    pub min_overlap_frames: u32,
    pub max_ber: f32,
}

pub(crate) struct BestAlignment {
    pub delta: i64,
    pub overlap: usize,
    pub hamming: u32,
}

impl BestAlignment {
    pub fn new() -> Self {
        unimplemented!()
    }

    pub fn consider(&mut self, _: &[u32], _: &[u32], _: usize, _: usize, _: i64, _: usize) {
        unimplemented!()
    }

    pub fn found(&self) -> bool {
        unimplemented!()
    }
}

pub(crate) fn informative_frames(_: &[u32]) -> bool {
    unimplemented!()
}

pub(crate) fn overlap_at(_: usize, _: usize, _: i64) -> usize {
    unimplemented!()
}

pub(crate) fn ber_score_match(_: u32, _: usize, _: f32) -> (f32, f32, bool) {
    unimplemented!()
}
