//! `normalize_config` beside the reference's; the vote, which stands inside
//! its query, beside the results of queries. What the library refuses is told
//! by a test of the limits here.

use crate::capi::{self, Answer};
use crate::harness::{Check, Rng, Run, answer, few32, many32, word32};
use crate::matching::{open_panako, panako};
use audiofp::Reach;
use audiofp::classical::{PanakoFingerprint, PanakoHash};
use audiofp::matching::{MatchResult, PanakoIndex, PanakoMatchConfig};

pub fn run(run: &mut Run) {
    run.check("panako_normalize_config", normalize_config);
    run.check("panako_pair_vote", pair_vote);
    run.check("panako_pair_vote, two votes", two_votes);
}

/// Whether settings are taken, once the reference has normalised them.
pub fn within(settings: &PanakoMatchConfig) -> bool {
    settings.scale_min.abs() <= 64.0
        && settings.scale_max.abs() <= 64.0
        && settings.scale_bins <= 4096
        && settings.offset_tolerance_frames <= 65_535
}

fn normalize_config(check: &mut Check) {
    let same = |check: &mut Check, [min, max, bins, tolerance]: [u32; 4]| {
        let rust = Reach::normalize_config(PanakoMatchConfig {
            scale_min: f32::from_bits(min),
            scale_max: f32::from_bits(max),
            scale_bins: bins,
            offset_tolerance_frames: tolerance,
            ..open_panako()
        });
        let mut ours = capi::UNANSWERED;
        capi::panako_normalize_config(min, max, bins, tolerance, &mut ours);
        let rust = answer([
            within(&rust).into(),
            word32(rust.scale_min),
            word32(rust.scale_max),
            rust.scale_bins.into(),
        ]);
        check.same(&[min, max, bins, tolerance].map(u64::from), &ours, &rust);
    };
    const BINS: [u32; 8] = [0, 1, 2, 24, 4095, 4096, 4097, u32::MAX];
    const TOLERANCES: [u32; 4] = [0, 65_535, 65_536, u32::MAX];
    let limit = 64_f32.to_bits();
    let mut ends = few32();
    ends.extend([limit - 1, limit, limit + 1].map(|word| word | 1 << 31));
    ends.extend([limit - 1, limit, limit + 1]);
    for &min in &ends {
        for &max in &ends {
            for bins in BINS {
                for tolerance in TOLERANCES {
                    same(check, [min, max, bins, tolerance]);
                }
            }
        }
    }
    let many = many32();
    for _ in check.times(1_000_000) {
        let rng = &mut check.rng;
        let min = match rng.below(4) {
            0 => rng.pick(&many),
            1 => rng.near32(limit) ^ (rng.below(2) as u32) << 31,
            _ => rng.float32(),
        };
        let max = match rng.below(4) {
            0 => rng.pick(&many),
            1 => rng.near32(limit),
            2 => rng.near32(min),
            _ => rng.float32(),
        };
        let bins = match rng.below(2) {
            0 => rng.pick(&BINS),
            _ => rng.sized(32) as u32,
        };
        let tolerance = match rng.below(2) {
            0 => rng.pick(&TOLERANCES),
            _ => rng.sized(17) as u32,
        };
        same(check, [min, max, bins, tolerance]);
    }
}

/// A hash's anchor and end.
type Times = [u32; 2];

fn hash_of(hash: u32, [t_anchor, t_c]: Times) -> PanakoHash {
    PanakoHash {
        hash,
        t_anchor,
        t_b: t_anchor,
        t_c,
    }
}

/// A recording whose hashes have the keys 0, 1, ...
fn recording_of(hashes: &[Times]) -> PanakoIndex {
    let hashes = (0..).zip(hashes).map(|(key, &times)| hash_of(key, times));
    PanakoIndex::build(&[panako(hashes.collect())], u32::MAX)
}

/// A query on such a recording, with settings.
struct Query {
    settings: PanakoMatchConfig,
    fingerprint: PanakoFingerprint,
}

impl Query {
    fn new() -> Self {
        Self {
            settings: open_panako(),
            fingerprint: panako(Vec::new()),
        }
    }

    fn put(&mut self, index: &PanakoIndex, hashes: &[Times]) -> Option<MatchResult> {
        let hashes = (0..).zip(hashes).map(|(key, &times)| hash_of(key, times));
        self.fingerprint.hashes.clear();
        self.fingerprint.hashes.extend(hashes);
        let best = index.query(&self.fingerprint, &self.settings);
        best.map(|(_, result)| result)
    }

    /// The settings' words: scale ends and bins.
    fn words(&self) -> [u32; 3] {
        let PanakoMatchConfig {
            scale_min,
            scale_max,
            scale_bins,
            ..
        } = self.settings;
        [scale_min.to_bits(), scale_max.to_bits(), scale_bins]
    }

    fn input<const N: usize>(&self, times: [Times; N]) -> Vec<u64> {
        let words = self.words();
        let all = words.iter().chain(times.as_flattened());
        all.map(|&word| word.into()).collect()
    }

    fn ours(&self, query: Times, reference: Times) -> Answer {
        let [min, max, bins] = self.words();
        let ([qa, qc], [ra, rc]) = (query, reference);
        let mut ours = capi::UNANSWERED;
        capi::panako_pair_vote(min, max, bins, qa, qc, ra, rc, &mut ours);
        ours
    }

    /// Our time scale of a bin, which `matching` compares.
    fn time_scale(&self, bin: u64) -> u64 {
        let grid = Reach::normalize_config(self.settings.clone());
        assert!(bin < grid.scale_bins.into(), "the bin is one of the grid");
        let ends = [grid.scale_min.to_bits(), grid.scale_max.to_bits()];
        capi::matching_time_scale(ends[0], ends[1], grid.scale_bins, bin as u32).into()
    }

    /// One hash on either side. Of a vote the query shows the offset, and the
    /// bin by its time scale.
    fn same(&mut self, check: &mut Check, index: &PanakoIndex, query: Times, reference: Times) {
        let mut ours = self.ours(query, reference);
        let rust = if !within(&Reach::normalize_config(self.settings.clone())) {
            answer([0])
        } else if let Some(rust) = self.put(index, &[query]) {
            answer([2, word32(rust.time_scale), rust.offset.frames as u64])
        } else {
            answer([1])
        };
        if ours[0] == 2 {
            ours[1] = self.time_scale(ours[1]);
        }
        check.same_of(|| self.input([query, reference]), &ours, &rust);
    }

    /// Two hashes on either side, the query's at anchor 0, so that both votes
    /// have one offset. The query counts both where their bins are the same
    /// or next to each other, and names the lower bin first; this tells bins
    /// apart whose time scales are alike.
    fn same_two(&mut self, check: &mut Check, index: &PanakoIndex, times: [Times; 4]) {
        let [query, other_query, reference, other_reference] = times;
        let ours = [
            self.ours(query, reference),
            self.ours(other_query, other_reference),
        ];
        if !ours.iter().all(|vote| vote[0] == 2) {
            return;
        }
        let bins = ours.map(|vote| vote[1]);
        let near = bins[0].abs_diff(bins[1]) <= 1;
        let first = self.time_scale(bins[0].min(bins[1]));
        let rust = self
            .put(index, &[query, other_query])
            .expect("there are votes");
        check.same_of(
            || self.input(times),
            &[1 + u64::from(near), first],
            &[rust.votes.into(), word32(rust.time_scale)],
        );
    }

    /// A scale in the grid, at the bound of a bin, at or around its ends, or
    /// of any size.
    fn scale(&self, rng: &mut Rng) -> f64 {
        let grid = Reach::normalize_config(self.settings.clone());
        let (min, max) = (f64::from(grid.scale_min), f64::from(grid.scale_max));
        let bins = f64::from(grid.scale_bins);
        let half = (max - min) / bins * 0.5;
        match rng.below(8) {
            0 => rng.sized(32) as f64 / rng.sized(32).max(1) as f64,
            1 => rng.pick(&[min - half, min, max, max + half]),
            2 | 3 => min + (max - min) * (rng.below(u64::from(grid.scale_bins) + 1) as f64 / bins),
            _ => min - half + (max - min + 2.0 * half) * rng.unit(),
        }
    }
}

/// Scale settings of every kind, most of them within the limits.
pub fn vary(settings: &mut PanakoMatchConfig, rng: &mut Rng, ends: &[f32]) {
    settings.scale_bins = match rng.below(16) {
        0 => rng.pick(&[4097, 4098, 1 << 16, u32::MAX]),
        1..6 => rng.pick(&[0, 1, 2, 3, 24, 4095, 4096]),
        _ => rng.sized(12) as u32,
    };
    let wide = |rng: &mut Rng| (129.0 * rng.unit() - 64.5) as f32;
    let near = |rng: &mut Rng, x: f32| f32::from_bits(rng.near32(x.to_bits()));
    let low = 2.0 * rng.unit() as f32;
    (settings.scale_min, settings.scale_max) = match rng.below(8) {
        0 => (rng.pick(ends), rng.pick(ends)),
        1 => (wide(rng), wide(rng)),
        2 => (near(rng, -64.0), near(rng, 64.0)),
        // A grid whose bins are hardly apart.
        3 => (low, near(rng, low)),
        4 => (0.5, 2.0),
        _ => (low, low + 2.0 * rng.unit() as f32),
    };
}

/// A span of a query hash that has about this scale to the span `reference`.
fn span_for(rng: &mut Rng, reference: u32, scale: f64) -> u32 {
    let span = (f64::from(reference) / scale).round() as u32;
    span.saturating_add(rng.below(3) as u32).saturating_sub(1)
}

/// An anchor that leaves room for the span.
fn anchored(rng: &mut Rng, span: u32) -> Times {
    let anchor = match rng.below(4) {
        0 => u32::MAX,
        _ => rng.sized(32) as u32,
    };
    let anchor = anchor.min(u32::MAX - span);
    [anchor, anchor + span]
}

fn pair_vote(check: &mut Check) {
    let mut query = Query::new();
    // Small ones, spans of 0 and less among them.
    let grids = [
        (0.8, 1.25, 24),
        (0.5, 2.0, 3),
        (0.5, 2.0, 1),
        (1.0, 1.5, 4096),
        (-64.0, 64.0, 1),
        (0.0, 4.0, 8),
        (f32::NAN, 1.0, 0),
    ];
    for [anchor, end] in (0..4).flat_map(|a| (0..14).map(move |c| [a, c])) {
        let reference = [anchor, end];
        let index = recording_of(&[reference]);
        for grid in grids {
            let settings = &mut query.settings;
            (settings.scale_min, settings.scale_max, settings.scale_bins) = grid;
            for anchor in 0..7 {
                (0..16).for_each(|end| query.same(check, &index, [anchor, end], reference));
            }
        }
    }
    let mut ends: Vec<f32> = many32().into_iter().map(f32::from_bits).collect();
    ends.retain(|end| !end.is_finite() || end.abs() <= 128.0);
    for _ in check.times(250_000) {
        let rng = &mut check.rng;
        let span = rng.sized(32) as u32;
        let mut reference = anchored(rng, span);
        if rng.below(32) == 0 {
            reference.reverse();
        }
        let index = recording_of(&[reference]);
        for _ in 0..6 {
            let rng = &mut check.rng;
            vary(&mut query.settings, rng, &ends);
            let scale = query.scale(rng);
            let span = span_for(rng, span, scale);
            let mut times = anchored(rng, span);
            if rng.below(32) == 0 {
                times.reverse();
            }
            query.same(check, &index, times, reference);
        }
    }
}

fn two_votes(check: &mut Check) {
    let mut query = Query::new();
    for _ in check.times(250_000) {
        let rng = &mut check.rng;
        let spans = [(); 2].map(|()| rng.sized(32) as u32);
        let anchor = rng.sized(32) as u32;
        let anchor = anchor.min(u32::MAX - spans[0].max(spans[1]));
        let reference = spans.map(|span| [anchor, anchor + span]);
        let index = recording_of(&reference);
        for _ in 0..6 {
            let rng = &mut check.rng;
            vary(&mut query.settings, rng, &[0.0, 1.0, 2.0, 32.0, 64.0]);
            // The second scale is often a bin or two away.
            let scale = query.scale(rng);
            let grid = Reach::normalize_config(query.settings.clone());
            let per = f64::from(grid.scale_max - grid.scale_min) / f64::from(grid.scale_bins);
            let other = match rng.below(4) {
                0 => query.scale(rng),
                _ => scale + 4.0 * per * (rng.unit() - 0.5),
            };
            let times = [scale, other];
            let [a, b] = [0, 1].map(|i| [0, span_for(rng, spans[i], times[i])]);
            query.same_two(check, &index, [a, b, reference[0], reference[1]]);
        }
    }
}
