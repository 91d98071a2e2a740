//! `TimeOffset`, `MatchResult`, the gates and the ranking beside the
//! reference's functions; prominence, score and time scale, which stand
//! inside its queries, beside the results of queries.

use crate::capi;
use crate::harness::{Check, Rng, Run, few32, many32, whole, word32};
use audiofp::Reach;
use audiofp::classical::{PanakoFingerprint, PanakoHash, WangFingerprint, WangHash};
use audiofp::matching::{
    MatchResult, PanakoIndex, PanakoMatchConfig, TimeOffset, WangIndex, WangMatchConfig,
    clamp_score, compute_prominence, match_result_compare_desc,
};

pub fn run(run: &mut Run) {
    run.check("matching_from_frames", from_frames);
    run.check("matching_try_from_frames", try_from_frames);
    run.check("matching_frames_per_sec_compatible", compatible);
    run.check("matching_clamp_score", score_held);
    run.check("matching_below_threshold", below_threshold);
    run.check("matching_match_result_compare_desc", compare_desc);
    run.check("matching_none", none);
    run.check("matching_wang_prominence", wang_prominence);
    run.check(
        "matching_wang_prominence, compute_prominence",
        dense_prominence,
    );
    run.check("matching_score, Wang", wang_score);
    run.check("matching_score, Panako", panako_score);
    run.check("matching_time_scale", time_scale);
}

fn from_frames(check: &mut Check) {
    frames_at_rates(check, |check, frames, rate| {
        let rust = TimeOffset::from_frames(frames, f32::from_bits(rate));
        let mut ours = [0; 2];
        capi::matching_from_frames(frames, rate, &mut ours);
        check.same(
            &[frames as u64, rate.into()],
            &ours.map(|word| word as u64),
            &[rust.frames as u64, rust.ms as u64],
        );
    });
}

fn try_from_frames(check: &mut Check) {
    let mut none = 0_u64;
    frames_at_rates(check, |check, frames, rate| {
        let rust = match TimeOffset::try_from_frames(frames, f32::from_bits(rate)) {
            Some(offset) => [1, offset.frames, offset.ms],
            None => [0; 3],
        };
        none += u64::from(rust[0] == 0);
        let mut ours = [-1; 3];
        capi::matching_try_from_frames(frames, rate, &mut ours);
        check.same(
            &[frames as u64, rate.into()],
            &ours.map(|word| word as u64),
            &rust.map(|word| word as u64),
        );
    });
    check.note(format!("{none} without a time"));
}

/// Frames and rates: the ends of their types, small ones, milliseconds that
/// are halves, those at the ends of an i64, and random ones.
fn frames_at_rates(check: &mut Check, mut same: impl FnMut(&mut Check, i64, u32)) {
    let ends: Vec<i64> = whole(64).into_iter().map(|n| n as i64).collect();
    for rate in many32() {
        for &frames in &ends {
            same(check, frames, rate);
            same(check, frames.wrapping_neg(), rate);
        }
    }
    // Rates at which many milliseconds are halves.
    for rate in [
        1.0_f32, 16.0, 62.5, 125.0, 999.0, 1000.0, 2000.0, 16_000.0, 48_000.0, 64_000.0,
    ] {
        (-20_000..=20_000).for_each(|frames| same(check, frames, rate.to_bits()));
    }
    // 2^63 milliseconds, and numbers next to them.
    for k in 0..63 {
        let rate = (1000.0 * 2.0_f32.powi(k - 63)).to_bits();
        for near in -2_000..=2_000 {
            same(check, (1 << k) + near, rate);
            same(check, -(1 << k) + near, rate);
        }
    }
    for _ in check.times(300_000) {
        let rate = match check.rng.below(2) {
            0 => (1000.0 * check.rng.unit()) as f32,
            _ => f32::from_bits(check.rng.float32()),
        };
        let edge = 2.0_f64.powi(63) * f64::from(rate) / 1000.0;
        let frames = f64::from_bits(check.rng.near64(edge.to_bits())) as i64;
        let frames = frames.saturating_add(check.rng.below(5) as i64 - 2);
        same(check, frames, rate.to_bits());
        same(check, frames.saturating_neg(), rate.to_bits());
    }
    for _ in check.times(1_000_000) {
        let frames = check.rng.sized(64) as i64;
        let rate = match check.rng.below(3) {
            0 => (100.0 * check.rng.unit()) as f32,
            1 => check.rng.sized(20) as f32 * 0.5,
            _ => f32::from_bits(check.rng.float32()),
        };
        same(check, frames, rate.to_bits());
    }
}

fn compatible(check: &mut Check) {
    let same = |check: &mut Check, a: u32, b: u32| {
        let rust = Reach::frames_per_sec_compatible(f32::from_bits(a), f32::from_bits(b));
        let ours = capi::matching_frames_per_sec_compatible(a, b);
        check.same(&[a.into(), b.into()], &[ours.into()], &[rust.into()]);
    };
    let list = many32();
    for &a in &list {
        list.iter().for_each(|&b| same(check, a, b));
    }
    for _ in check.times(500_000) {
        let a = check.rng.float32();
        let edge = (f32::from_bits(a) * 0.999).to_bits();
        for b in [
            check.rng.float32(),
            check.rng.near32(edge),
            check.rng.near32(a),
        ] {
            same(check, a, b);
            same(check, b, a);
        }
    }
}

fn score_held(check: &mut Check) {
    let same = |check: &mut Check, s: u32| {
        let rust = word32(clamp_score(f32::from_bits(s)));
        check.same(
            &[s.into()],
            &[capi::matching_clamp_score(s).into()],
            &[rust],
        );
    };
    many32().into_iter().for_each(|s| same(check, s));
    for _ in check.times(1_000_000) {
        let s = check.rng.float32();
        same(check, s);
    }
}

fn below_threshold(check: &mut Check) {
    let same = |check: &mut Check, value: u32, threshold: u32| {
        let rust = Reach::below_threshold(f32::from_bits(value), f32::from_bits(threshold));
        let ours = capi::matching_below_threshold(value, threshold);
        check.same(
            &[value.into(), threshold.into()],
            &[ours.into()],
            &[rust.into()],
        );
    };
    let list = many32();
    for &value in &list {
        list.iter()
            .for_each(|&threshold| same(check, value, threshold));
    }
    for _ in check.times(500_000) {
        let value = check.rng.float32();
        for threshold in [check.rng.float32(), check.rng.near32(value)] {
            same(check, value, threshold);
        }
    }
}

fn compare_desc(check: &mut Check) {
    let same = |check: &mut Check, words: [u32; 4]| {
        let [a_score, a_prominence, b_score, b_prominence] = words;
        let result = |score, prominence| MatchResult {
            score: f32::from_bits(score),
            prominence: f32::from_bits(prominence),
            ..MatchResult::NONE
        };
        let a = result(a_score, a_prominence);
        let b = result(b_score, b_prominence);
        let rust = match_result_compare_desc(&a, &b) as i8 + 1;
        let ours =
            capi::matching_match_result_compare_desc(a_score, a_prominence, b_score, b_prominence);
        check.same(&words.map(u64::from), &[ours.into()], &[rust as u64]);
    };
    let list = few32();
    for &a in &list {
        for &b in &list {
            // The scores decide, or are equal, or both are no number.
            for (x, y) in [(a, a), (a, b), (b, a)] {
                same(check, [a, x, b, y]);
            }
            for score in [0, 0x3F80_0000, 0x7FC0_0000, 0xFF80_0001] {
                same(check, [score, a, score, b]);
            }
            same(check, [0, a, 0x8000_0000, b]);
        }
    }
    for _ in check.times(1_000_000) {
        let [a, x] = [check.rng.float32(), check.rng.float32()];
        let b = if check.rng.below(2) == 0 {
            a
        } else {
            check.rng.near32(a)
        };
        let y = if check.rng.below(4) == 0 {
            check.rng.float32()
        } else {
            check.rng.near32(x)
        };
        same(check, [a, x, b, y]);
    }
}

fn none(check: &mut Check) {
    let rust = MatchResult::NONE;
    let mut ours = [u64::MAX; 8];
    capi::matching_none(&mut ours);
    let rust = [
        rust.is_match.into(),
        rust.votes.into(),
        word32(rust.score),
        word32(rust.prominence),
        rust.offset.frames as u64,
        rust.offset.ms as u64,
        word32(rust.time_scale),
        0,
    ];
    check.same(&[], &ours, &rust);
}

/// Settings whose gates let every candidate pass.
fn open_wang(tolerance: u32) -> WangMatchConfig {
    WangMatchConfig {
        offset_tolerance_frames: tolerance,
        min_votes: 0,
        min_score: f32::NEG_INFINITY,
        min_prominence: f32::NEG_INFINITY,
        max_postings_per_hash: u32::MAX,
    }
}

fn wang_hash(hash: u32, t_anchor: u32) -> WangHash {
    WangHash { hash, t_anchor }
}

fn wang(hashes: Vec<WangHash>) -> WangFingerprint {
    WangFingerprint {
        hashes,
        frames_per_sec: 62.5,
    }
}

/// One Wang recording and one query, and room for their votes.
struct WangPair {
    recording: WangFingerprint,
    query: WangFingerprint,
    deltas: Vec<i64>,
    bins: Vec<(i64, u32)>,
}

impl WangPair {
    fn new() -> Self {
        Self {
            recording: wang(Vec::new()),
            query: wang(Vec::new()),
            deltas: Vec::new(),
            bins: Vec::new(),
        }
    }

    fn clear(&mut self) {
        self.recording.hashes.clear();
        self.query.hashes.clear();
    }

    /// Puts the pair's query; compares its prominence. No vote, no answer.
    fn same(&mut self, check: &mut Check, tolerance: u32) {
        let index = WangIndex::build(std::slice::from_ref(&self.recording), u32::MAX);
        let Some((_, rust)) = index.query(&self.query, &open_wang(tolerance)) else {
            return;
        };
        self.deltas.clear();
        for q in &self.query.hashes {
            for r in self.recording.hashes.iter().filter(|r| r.hash == q.hash) {
                self.deltas
                    .push(i64::from(r.t_anchor) - i64::from(q.t_anchor));
            }
        }
        self.deltas.sort_unstable();
        Reach::count_sorted(&self.deltas, &mut self.bins);
        let largest = |hashes: &[WangHash]| hashes.iter().map(|h| h.t_anchor).max().unwrap_or(0);
        let (r_max, q_max) = (largest(&self.recording.hashes), largest(&self.query.hashes));
        let (low, high) = (-i64::from(q_max), i64::from(r_max));
        let (peak, _, mode, total) =
            Reach::sparse_wang_box_peak(&self.bins, tolerance.into(), low, high);
        assert_eq!(
            (peak, mode),
            (rust.votes, rust.offset.frames),
            "the sweep is the query's"
        );
        let input = [peak.into(), total, u64::from(q_max) + u64::from(r_max) + 1];
        let ours = capi::matching_wang_prominence(input[0], input[1], input[2]);
        check.same(&input, &[ours.into()], &[word32(rust.prominence)]);
    }
}

fn wang_prominence(check: &mut Check) {
    const VOTING: u32 = 0;
    const IN_QUERY: u32 = 1;
    const IN_RECORDING: u32 = 2;
    let mut pair = WangPair::new();
    // `votes` votes for one offset: b in the query, a in the recording; the
    // span goes from -q to r. The total is then votes times the number of
    // centres within the tolerance, so any of its values can be had.
    let lone = |pair: &mut WangPair, votes: u64, a: u32, b: u32, q: u32, r: u32| {
        pair.clear();
        pair.query
            .hashes
            .extend([wang_hash(VOTING, b), wang_hash(IN_QUERY, q)]);
        pair.recording.hashes.push(wang_hash(IN_RECORDING, r));
        pair.recording
            .hashes
            .resize(1 + votes as usize, wang_hash(VOTING, a));
    };
    let ends: Vec<u32> = whole(32).into_iter().map(|n| n as u32).collect();
    for &tolerance in &ends {
        for &q in &ends {
            for r in [
                q,
                tolerance,
                check.rng.pick(&ends),
                check.rng.sized(32) as u32,
            ] {
                lone(&mut pair, 1, 0, 0, q, r);
                pair.same(check, tolerance);
            }
        }
    }
    for _ in check.times(400_000) {
        let [a, b, q, r] = std::array::from_fn(|_| check.rng.sized(32) as u32);
        let votes = 1 + if check.rng.below(8) == 0 {
            check.rng.sized(7)
        } else {
            check.rng.below(8)
        };
        lone(&mut pair, votes, a, b, q.max(b), r.max(a));
        let tolerance = check.rng.sized(32) as u32;
        pair.same(check, tolerance);
    }
    // Several offsets.
    for _ in check.times(800_000) {
        pair.clear();
        let size = 1 + check.rng.below(32) as u32;
        let hash =
            |rng: &mut Rng| wang_hash(rng.below(3) as u32, (rng.next() >> (64 - size)) as u32);
        let [in_recording, in_query] = [1 + check.rng.below(5), 1 + check.rng.below(4)];
        pair.recording
            .hashes
            .extend((0..in_recording).map(|_| hash(&mut check.rng)));
        pair.query
            .hashes
            .extend((0..in_query).map(|_| hash(&mut check.rng)));
        let tolerance = check.rng.sized(size) as u32;
        pair.same(check, tolerance);
    }
    // Many votes.
    for _ in check.times(20) {
        lone(&mut pair, 1 + check.rng.below(1000), 7, 5, 1000, 1_000_000);
        let first = pair.query.hashes[0];
        pair.query
            .hashes
            .extend((0..check.rng.below(1000)).map(|_| first));
        let tolerance = check.rng.sized(16) as u32;
        pair.same(check, tolerance);
    }
}

/// The reference's dense prominence, the same number wherever the width is at
/// most 2^24: peaks beyond what queries reach.
fn dense_prominence(check: &mut Check) {
    let same = |check: &mut Check, values: &[u32], peak: usize| {
        let total = values.iter().map(|&value| u64::from(value)).sum();
        let input = [values[peak].into(), total, values.len() as u64];
        let ours = capi::matching_wang_prominence(input[0], input[1], input[2]);
        check.same(
            &input,
            &[ours.into()],
            &[word32(compute_prominence(values, peak))],
        );
    };
    let ends: Vec<u32> = whole(32).into_iter().map(|n| n as u32).collect();
    for &peak in &ends {
        same(check, &[peak], 0);
        for &rest in &ends {
            same(check, &[peak, rest], 0);
            same(check, &[rest, peak, peak], 0);
        }
    }
    for _ in check.times(1_000_000) {
        let values: [u32; 12] = std::array::from_fn(|_| check.rng.sized(32) as u32);
        let length = 1 + check.rng.below(12) as usize;
        same(check, &values[..length], 0);
    }
    for _ in check.times(100) {
        let length = 1 + check.rng.below(100_000) as usize;
        let size = 1 + check.rng.below(32);
        let values: Vec<u32> = (0..length)
            .map(|_| (check.rng.next() >> (64 - size)) as u32)
            .collect();
        same(check, &values, length / 2);
    }
}

/// `n` hashes of the query have a posting, or two, at one offset; the others
/// have none.
fn wang_score(check: &mut Check) {
    const ONE: u32 = 1;
    const TWO: u32 = 2;
    const ABSENT: u32 = 3;
    let posting = |key| wang_hash(key, 0);
    let recording = wang([ONE, TWO, TWO].map(posting).to_vec());
    let index = WangIndex::build(&[recording], u32::MAX);
    let mut query = wang(Vec::new());
    let mut same = |check: &mut Check, n: u64, hashes: u64| {
        let present = if check.rng.below(2) == 0 { ONE } else { TWO };
        query.hashes.clear();
        query.hashes.resize((hashes - n) as usize, posting(ABSENT));
        query.hashes.resize(hashes as usize, posting(present));
        let (_, rust) = index.query(&query, &open_wang(0)).expect("there are votes");
        assert_eq!(u64::from(rust.votes), n * u64::from(present));
        let ours = capi::matching_score(n, hashes);
        check.same(&[n, hashes], &[ours.into()], &[word32(rust.score)]);
    };
    for hashes in 1..=400 {
        (1..=hashes).for_each(|n| same(check, n, hashes));
    }
    for _ in check.times(1_000_000) {
        let hashes = check.rng.sized(11).max(1);
        let n = 1 + check.rng.below(hashes);
        same(check, n, hashes);
    }
    for _ in check.times(50) {
        let hashes = check.rng.sized(18).max(1);
        let n = 1 + check.rng.below(hashes);
        same(check, n, hashes);
    }
}

/// Settings whose gates let every candidate pass.
pub fn open_panako() -> PanakoMatchConfig {
    PanakoMatchConfig {
        offset_tolerance_frames: 0,
        min_votes: 0,
        min_score: f32::NEG_INFINITY,
        min_prominence: f32::NEG_INFINITY,
        ransac_refine: false,
        ..PanakoMatchConfig::default()
    }
}

fn panako_hash(hash: u32, span: u32) -> PanakoHash {
    PanakoHash {
        hash,
        t_anchor: 0,
        t_b: 0,
        t_c: span,
    }
}

pub fn panako(hashes: Vec<PanakoHash>) -> PanakoFingerprint {
    PanakoFingerprint {
        hashes,
        frames_per_sec: 62.5,
    }
}

/// Key k has 2^k postings, so that the digits of `n` make a query of `n`
/// votes, more than it has hashes.
fn panako_score(check: &mut Check) {
    const KEYS: u32 = 18;
    let keys = 0..KEYS;
    let hashes = keys
        .flat_map(|key| (0..1_u32 << key).map(move |_| panako_hash(key, 1)))
        .collect();
    let index = PanakoIndex::build(&[panako(hashes)], u32::MAX);
    let settings = open_panako();
    let mut query = panako(Vec::new());
    let mut same = |check: &mut Check, n: u64, hashes: u64| {
        query.hashes.clear();
        let digits = (0..KEYS).filter(|key| n >> key & 1 == 1);
        query.hashes.extend(digits.map(|key| panako_hash(key, 1)));
        let hashes = hashes.max(query.hashes.len() as u64);
        query.hashes.resize(hashes as usize, panako_hash(KEYS, 1));
        let (_, rust) = index.query(&query, &settings).expect("there are votes");
        assert_eq!(u64::from(rust.votes), n);
        let ours = capi::matching_score(n, hashes);
        check.same(&[n, hashes], &[ours.into()], &[word32(rust.score)]);
    };
    for hashes in 1..=128 {
        (1..=256).for_each(|n| same(check, n, hashes));
    }
    for _ in check.times(1_000_000) {
        let n = check.rng.sized(8).max(1);
        let hashes = check.rng.sized(8);
        same(check, n, hashes);
    }
    for _ in check.times(200) {
        let n = check.rng.sized(KEYS).max(1);
        let hashes = check.rng.sized(KEYS);
        same(check, n, hashes);
    }
}

/// A Panako recording with a span for each key; a query of one hash then has
/// one vote, in one scale bin.
struct Grid {
    index: PanakoIndex,
    query: PanakoFingerprint,
}

impl Grid {
    /// Key k has the span 2^k.
    fn new() -> Self {
        let hashes = (0..32).map(|key| panako_hash(key, 1 << key)).collect();
        Self {
            index: PanakoIndex::build(&[panako(hashes)], u32::MAX),
            query: panako(Vec::new()),
        }
    }

    /// Puts a query whose scale is as near to `scale` as spans allow. Compares
    /// the time scale if it has a vote.
    fn same(&mut self, check: &mut Check, settings: &PanakoMatchConfig, scale: f64) {
        if scale.is_nan() || scale <= 0.0 {
            return;
        }
        let key = (0..32)
            .rev()
            .find(|&key| f64::from(1_u32 << key) / scale < 4.2e9)
            .unwrap_or(0);
        let span = ((f64::from(1_u32 << key) / scale).round() as u32).max(1);
        self.query.hashes.clear();
        self.query.hashes.push(panako_hash(key, span));
        let Some((_, rust)) = self.index.query(&self.query, settings) else {
            return;
        };

        // The bin of the only vote, worked out as the query does, since its
        // result does not name it.
        let grid = Reach::normalize_config(settings.clone());
        let (min, max) = (f64::from(grid.scale_min), f64::from(grid.scale_max));
        let per = (max - min) / f64::from(grid.scale_bins);
        let s = f64::from(1_u32 << key) / f64::from(span);
        let bin = ((s - min) / per).clamp(0.0, f64::from(grid.scale_bins - 1)) as u32;

        let ends = [grid.scale_min.to_bits(), grid.scale_max.to_bits()];
        let ours = capi::matching_time_scale(ends[0], ends[1], grid.scale_bins, bin);
        let input = [ends[0], ends[1], grid.scale_bins, bin].map(u64::from);
        check.same(&input, &[ours.into()], &[word32(rust.time_scale)]);
    }
}

fn time_scale(check: &mut Check) {
    let mut grid = Grid::new();
    let mut settings = open_panako();
    let limit = |x: f64| (x as f32).clamp(-64.0, 64.0);
    // Ends of every kind, those that the reference replaces among them.
    let mut ends: Vec<f32> = many32().into_iter().map(f32::from_bits).collect();
    ends.retain(|end| !end.is_finite() || end.abs() <= 64.0);
    for _ in check.times(2_000_000) {
        let rng = &mut check.rng;
        settings.scale_bins = match rng.below(3) {
            0 => 1,
            1 => rng.pick(&[0, 1, 2, 3, 24, 4095, 4096]),
            _ => rng.sized(12) as u32,
        };
        let bins = f64::from(settings.scale_bins.max(1));
        let bin = rng.below(settings.scale_bins.max(1).into()) as f64;
        let bound: f32 = rng.pick(&[0.5, 1.0, 2.0, 1e-6, -1e-6]);
        let near = |rng: &mut Rng| f32::from_bits(rng.near32(bound.to_bits()));
        let tiny = |rng: &mut Rng| (rng.unit() * 10_f64.powi(-(rng.below(10) as i32))) as f32;
        (settings.scale_min, settings.scale_max) = match rng.below(7) {
            0 => (rng.pick(&ends), rng.pick(&ends)),
            // A common grid.
            1 => {
                let low = 2.0 * rng.unit();
                (low as f32, (low + 2.0 * rng.unit()) as f32)
            }
            // Up to the limits, and about as small as scales get.
            2 => (
                limit(140.0 * rng.unit() - 70.0),
                limit(140.0 * rng.unit() - 70.0),
            ),
            3 => (tiny(rng) - tiny(rng), tiny(rng)),
            // Its middle at, or close to, a bound of the code.
            4 => (near(rng), near(rng)),
            5 => {
                let reach = bound.abs() * rng.unit() as f32;
                (bound - reach, bound + reach)
            }
            // The middle of one bin at 1e-6, but for the last places: the
            // upper end brings it close, the lower one closer.
            _ => {
                let part = (bin + 0.5) / bins;
                let max = (1e-6 / part) as f32;
                let max = if f64::from(max) * part > 1e-6 {
                    max.next_down()
                } else {
                    max
                };
                (((1e-6 - f64::from(max) * part) / (1.0 - part)) as f32, max)
            }
        };
        // A scale in that bin, in the grid or in the half bin at its ends, or
        // of any size.
        let used = Reach::normalize_config(settings.clone());
        let (min, max) = (f64::from(used.scale_min), f64::from(used.scale_max));
        let slack = (max - min) / bins * 0.6;
        let low = (min - slack).max(0.0);
        let scale = match rng.below(8) {
            0 => rng.sized(32) as f64 / rng.sized(32).max(1) as f64,
            1..4 => min + (bin + rng.unit()) * (max - min) / bins,
            _ => low + rng.unit() * (max + slack - low),
        };
        grid.same(check, &settings, scale);
    }
}
