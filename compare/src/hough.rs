//! Panako's Hough consolidation beside the reference's: the peak, its offset,
//! its prominence, and the sums that are left behind the bins. What the
//! library refuses is told by a test of the limits here.

use crate::capi;
use crate::consolidate::{MILLION, damage, digits, length};
use crate::harness::{Check, Run, answer, word32, words};
use audiofp::Reach;

pub fn run(run: &mut Run) {
    run.check("hough_panako_peak", panako_peak);
}

fn hough_takes(bins: &[i64], tol: u64) -> bool {
    let within = |bin: &[i64]| {
        (0..4096).contains(&bin[0])
            && bin[1].abs_diff(0) <= 1 << 39
            && (0..=MILLION).contains(&bin[2])
    };
    let triples = || bins.chunks_exact(3);
    tol <= 65_535
        && (1..=MILLION as usize).contains(&triples().len())
        && triples().all(within)
        && triples().is_sorted_by(|a, b| a[..2] < b[..2])
        && triples().map(|bin| bin[2]).sum::<i64>() <= MILLION
}

/// Bins, the words that are lent and what should be left of them, and room
/// for the bins that the reference takes.
#[derive(Default)]
pub struct Hough {
    bins: Vec<i64>,
    words: Vec<i64>,
    left: Vec<i64>,
    keyed: Vec<((u32, i64), u32)>,
    reach: Reach,
}

impl Hough {
    pub fn put(&mut self, bins: &[((u32, i64), u32)]) {
        let words = |&((scale, offset), votes)| [i64::from(scale), offset, i64::from(votes)];
        self.bins.clear();
        self.bins.extend(bins.iter().flat_map(words));
    }

    /// With room for every sum.
    pub fn same(&mut self, check: &mut Check, tol: u64) {
        self.lent(check, tol, self.bins.len() / 3);
    }

    fn lent(&mut self, check: &mut Check, tol: u64, room: usize) {
        let Self {
            bins,
            words: lent,
            left,
            keyed,
            reach,
        } = self;
        let n = bins.len() / 3;
        left.clone_from(bins);
        left.resize(bins.len() + room, -1);
        lent.clone_from(left);
        let rust = if n <= room && hough_takes(bins, tol) {
            keyed.clear();
            keyed.extend(
                bins.chunks_exact(3)
                    .map(|bin| ((bin[0] as u32, bin[1]), bin[2] as u32)),
            );
            let tol = tol as i64;
            let (votes, at) = reach.panako_hough_peak(keyed, tol);
            let prominence = reach.panako_prominence(keyed, at, tol);
            let offset = reach.panako_peak_offset(keyed, at, tol);
            let sums = left[3 * n..].iter_mut().zip(reach.consolidated());
            sums.for_each(|(word, &sum)| *word = sum.into());
            answer([
                1,
                votes.into(),
                at as u64,
                offset as u64,
                word32(prominence),
            ])
        } else {
            answer([0])
        };
        let ours = capi::hough_panako_peak(lent, n, tol);
        let input = || [words(bins), vec![tol, room as u64]].concat();
        if lent != left {
            check.same_of(input, &words(lent), &words(left));
        }
        check.same_of(input, &ours, &rust);
    }

    /// Every grid of `scales` by `offsets` whose bins are absent or count up
    /// to 2; where `zero` is 0, counts of 0 too.
    fn grids(&mut self, check: &mut Check, scales: u32, offsets: u32, zero: i64) {
        // Scales next to each other, at the ends, and with gaps.
        let spread: [[i64; 3]; 6] = [
            [0, 1, 2],
            [4093, 4094, 4095],
            [5, 6, 8],
            [5, 7, 8],
            [5, 7, 9],
            [5, 8, 11],
        ];
        for states in digits(4 - zero as u32, scales * offsets) {
            let [scale_of, gaps] = [check.rng.below(6), check.rng.below(2)].map(|n| n as usize);
            self.bins.clear();
            for (place, state) in (0_i64..).zip(states).filter(|&(_, state)| state > 0) {
                let (row, column) = (place / i64::from(offsets), place % i64::from(offsets));
                let offset = column * (1 + gaps as i64) - 2;
                self.bins
                    .extend([spread[scale_of][row as usize], offset, state - 1 + zero]);
            }
            (0..3).for_each(|tol| self.same(check, tol));
        }
    }

    fn some(&mut self, check: &mut Check, n: u64) {
        let rng = &mut check.rng;
        let end = 1_i64 << 39;
        let middle = match rng.below(4) {
            0 => rng.pick(&[-end, end]),
            _ => rng.signed(39),
        };
        let first = match rng.below(4) {
            0 => 4095 - rng.below(8),
            1 => 0,
            _ => rng.below(4096),
        };
        let scales = 1 + rng.pick(&[0, 2, 5, 23, 4095]);
        let bits = rng.pick(&[1, 2, 3, 5, 8, 16, 18, 38]);
        let most = rng.pick(&[1, 2, 3, 8, MILLION as u64 / n.max(1)]);
        let least = rng.below(2);
        let mut bins: Vec<[i64; 3]> = (0..n)
            .map(|_| {
                let scale = (first + rng.below(scales)).min(4095);
                let offset = (middle + rng.signed(bits)).clamp(-end, end);
                [scale as i64, offset, (least + rng.below(most)) as i64]
            })
            .collect();
        bins.sort_unstable();
        bins.dedup_by(|a, b| a[..2] == b[..2]);
        self.bins.clear();
        self.bins.extend(bins.as_flattened());
        let mut tol = match rng.below(4) {
            0 => rng.sized(16),
            1 => rng.below(4),
            _ => rng.sized(bits.min(16)),
        };
        match rng.below(16) {
            0 => damage(rng, &mut self.bins, 3),
            1 => tol = rng.pick(&[65_535, 65_536, 1 << 32, u64::MAX]),
            _ => {}
        }
        // Now and then a word short of the room for the sums, or some more.
        let n = self.bins.len() / 3;
        let room = match rng.below(16) {
            0 => n.saturating_sub(1),
            1 => n + 1 + rng.below(5) as usize,
            _ => n,
        };
        self.lent(check, tol, room);
    }
}

fn panako_peak(check: &mut Check) {
    let mut hough = Hough::default();
    hough.grids(check, 3, 4, 1);
    hough.grids(check, 3, 3, 0);
    for _ in check.times(1_000_000) {
        let n = length(&mut check.rng);
        hough.some(check, n);
    }
    for _ in check.times(300) {
        let n = check.rng.below(5000);
        hough.some(check, n);
    }
    // As many bins as votes, and one more that counts 0.
    for n in [MILLION, MILLION + 1] {
        hough.bins.clear();
        hough
            .bins
            .extend((0..n).flat_map(|i| [i / 300, i % 300 * 5, (i < MILLION).into()]));
        hough.same(check, 7);
    }
}
