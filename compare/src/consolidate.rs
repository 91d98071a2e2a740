//! The sort of votes beside Rust's own; mode and box sweep beside the
//! reference's. What the library refuses is told by tests of the limits here.

use crate::capi;
use crate::harness::{Check, Rng, Run, answer, words};
use audiofp::Reach;

pub fn run(run: &mut Run) {
    run.check("sorting_sort_words", sort_words);
    run.check("consolidate_mode_offset", mode_offset);
    run.check("consolidate_sparse_wang_box_peak", box_peak);
}

/// The most votes, and the most bins, that are taken.
pub const MILLION: i64 = 1_000_000;

/// Changes bins of `width` words, the last its count: one word to a limit or
/// the next beyond, or to that of another bin; two bins change places; or the
/// counts come to a million or one more.
pub fn damage(rng: &mut Rng, bins: &mut [i64], width: usize) {
    const LIMITS: [i64; 16] = [
        0,
        1,
        2,
        4095,
        4096,
        MILLION,
        MILLION + 1,
        (1 << 32) - 1,
        1 << 32,
        (1 << 32) + 1,
        1 << 33,
        (1 << 33) + 1,
        1 << 39,
        (1 << 39) + 1,
        i64::MAX,
        i64::MIN,
    ];
    if bins.len() < width {
        return;
    }
    let count = (bins.len() / width) as u64;
    let [a, b] = [(); 2].map(|()| rng.below(count) as usize * width);
    let field = rng.below(width as u64) as usize;
    match rng.below(5) {
        0 => bins[a + field] = rng.pick(&LIMITS),
        1 => bins[a + field] = rng.pick(&LIMITS).wrapping_neg(),
        2 => bins[a + field] = bins[b + field],
        3 => (0..width).for_each(|word| bins.swap(a + word, b + word)),
        _ => {
            let sum: i64 = bins.chunks_exact(width).map(|bin| bin[width - 1]).sum();
            bins[a + width - 1] += MILLION - sum + rng.below(2) as i64;
        }
    }
}

/// Every list of `places` digits below `base`.
pub fn digits(base: u32, places: u32) -> impl Iterator<Item = Vec<i64>> {
    (0..base.pow(places)).map(move |code| {
        let digit = |place| code / base.pow(place) % base;
        (0..places).map(|place| digit(place).into()).collect()
    })
}

/// A small number of bins, seldom a larger one.
pub fn length(rng: &mut Rng) -> u64 {
    match rng.below(256) {
        0 => rng.below(500),
        1..32 => rng.below(40),
        _ => rng.below(10),
    }
}

// ---- sort

fn sort_words(check: &mut Check) {
    let same = |check: &mut Check, list: &[i64], n: usize| {
        let [mut ours, mut rust] = [list.to_vec(), list.to_vec()];
        let code = capi::sorting_sort_words(&mut ours, n);
        let room = n <= list.len() / 2;
        if room {
            rust[..n].sort_unstable();
            // What the room holds is left open.
            ours[n..2 * n].fill(0);
            rust[n..2 * n].fill(0);
        }
        ours.push(code.into());
        rust.push(room.into());
        let input = || [words(list), vec![n as u64]].concat();
        check.same_of(input, &words(&ours), &words(&rust));
    };
    let ends = [i64::MIN, -1, 0, 1, i64::MAX];
    for n in 0..=6 {
        for list in digits(5, n as u32) {
            let mut list: Vec<i64> = list.iter().map(|&digit| ends[digit as usize]).collect();
            list.resize(2 * n + 1, 7);
            same(check, &list, n);
        }
    }
    // Room that is one word short, and lengths that are no length.
    for len in 0..70 {
        let list: Vec<i64> = (0..len).rev().collect();
        for n in [len as usize / 2 + 1, usize::MAX / 2 + 1, usize::MAX] {
            same(check, &list, n);
        }
        (0..=len as usize / 2).for_each(|n| same(check, &list, n));
    }
    let some = |check: &mut Check, n: usize| {
        let rng = &mut check.rng;
        let bits = rng.pick(&[1, 2, 4, 10, 62, 63]);
        let mut list: Vec<i64> = (0..n).map(|_| rng.signed(bits)).collect();
        match rng.below(8) {
            0 => list.sort_unstable(),
            1 => list.sort_unstable_by(|a, b| b.cmp(a)),
            // Ascending parts, as postings give them.
            2 | 3 => {
                let part = 1 + rng.below(64) as usize;
                list.chunks_mut(part).for_each(<[i64]>::sort_unstable);
            }
            // Ascending but for one word.
            4 if n > 0 => {
                list.sort_unstable();
                list[rng.below(n as u64) as usize] = rng.signed(bits);
            }
            _ => {}
        }
        list.resize(2 * n + rng.below(4) as usize, -7);
        let n = if rng.below(32) == 0 { n + 1 } else { n };
        same(check, &list, n);
    };
    for _ in check.times(1_000_000) {
        let n = match check.rng.below(8) {
            0 => check.rng.below(300),
            1..4 => check.rng.below(70),
            _ => check.rng.below(12),
        };
        some(check, n as usize);
    }
    for _ in check.times(300) {
        let n = check.rng.below(20_000) as usize;
        some(check, n);
    }
    for n in [(1 << 20) - 1, 1 << 20, MILLION as usize] {
        some(check, n);
    }
}

// ---- mode

fn mode_takes(bins: &[i64]) -> bool {
    let mut bins = bins.chunks_exact(2);
    let within = |bin: &[i64]| bin[0].abs_diff(0) <= 1 << 33 && (0..1 << 32).contains(&bin[1]);
    bins.len() <= MILLION as usize && bins.all(within)
}

fn same_mode(check: &mut Check, bins: &[i64]) {
    let rust = if mode_takes(bins) {
        let votes = bins.chunks_exact(2).map(|bin| (bin[0], bin[1] as u32));
        Reach::mode_offset(votes).map_or(answer([1]), |mode| answer([2, mode as u64]))
    } else {
        answer([0])
    };
    let ours = capi::consolidate_mode_offset(bins);
    check.same_of(|| words(bins), &ours, &rust);
}

fn mode_offset(check: &mut Check) {
    let end = 1_i64 << 33;
    for counts in digits(4, 6) {
        for low in (-8..4).chain([-end - 1, -end, end - 5, end - 4]) {
            for step in [1, 2, -1, -3] {
                let offsets = (0..6).map(|i| low + i * step);
                let bins: Vec<i64> = offsets
                    .zip(&counts)
                    .flat_map(|(offset, &count)| [offset, count])
                    .collect();
                same_mode(check, &bins);
            }
        }
    }
    let mut bins = Vec::new();
    let mut some = |check: &mut Check, n: u64| {
        let rng = &mut check.rng;
        // Small counts tie; offsets may come twice.
        let bits = rng.pick(&[0, 1, 2, 3, 32]);
        let (size, middle) = (rng.below(34) as u32, rng.signed(33));
        bins.clear();
        for _ in 0..n {
            let offset = (middle + rng.signed(size)).clamp(-end, end);
            let count = match bits {
                0 => rng.pick(&[0, 1, u32::MAX]).into(),
                _ => rng.sized(bits) as i64,
            };
            bins.extend([offset, count]);
        }
        if rng.below(8) == 0 {
            damage(rng, &mut bins, 2);
        }
        // Half a bin is passed over.
        if rng.below(16) == 0 {
            bins.push(i64::MIN);
        }
        same_mode(check, &bins);
    };
    for _ in check.times(1_000_000) {
        let n = length(&mut check.rng);
        some(check, n);
    }
    for _ in check.times(300) {
        let n = check.rng.below(5000);
        some(check, n);
    }
    // The greatest sums, and a bin too many.
    for n in [MILLION - 1, MILLION, MILLION + 1] {
        for offset in [-end, end] {
            let bin = [offset, u32::MAX.into()];
            let mut bins = bin.repeat(n as usize);
            same_mode(check, &bins);
            bins[0] -= offset.signum();
            same_mode(check, &bins);
        }
    }
}

// ---- sweep

fn sweep_takes(bins: &[i64], tol: u64, low: i64, high: i64) -> bool {
    let within = |end: i64| end.abs_diff(0) < 1 << 32;
    let inside = |bin: &[i64]| (low..=high).contains(&bin[0]) && bin[1] > 0;
    let pairs = || bins.chunks_exact(2);
    mode_takes(bins)
        && (tol <= 65_535 && within(low) && within(high))
        && pairs().all(inside)
        && pairs().is_sorted_by(|a, b| a[0] < b[0])
        && pairs().map(|bin| bin[1]).sum::<i64>() <= MILLION
}

/// The sweep's inputs, and room for those that the reference takes.
#[derive(Default)]
struct Sweep {
    bins: Vec<i64>,
    pairs: Vec<(i64, u32)>,
}

impl Sweep {
    fn same(&mut self, check: &mut Check, tol: u64, low: i64, high: i64) {
        let Self { bins, pairs } = self;
        let rust = if sweep_takes(bins, tol, low, high) {
            pairs.clear();
            pairs.extend(bins.chunks_exact(2).map(|bin| (bin[0], bin[1] as u32)));
            let (peak, centre, mode, total) =
                Reach::sparse_wang_box_peak(pairs, tol as i64, low, high);
            answer([1, peak.into(), centre as u64, mode as u64, total])
        } else {
            answer([0])
        };
        let ours = capi::consolidate_sparse_wang_box_peak(bins, tol, low, high);
        let input = || [words(bins), words(&[tol as i64, low, high])].concat();
        check.same_of(input, &ours, &rust);
    }

    /// At most `n` bins with gaps of `bits` bits, from `first` on, as far as
    /// anchors go. Often they repeat, and so does the greatest sum.
    fn fill(&mut self, rng: &mut Rng, n: u64, bits: u32, first: i64) {
        let most = rng.pick(&[1, 2, 3, 8, MILLION as u64 / n.max(1)]);
        let period = 1 + rng.pick(&[0, 1, 3, n, n, n]);
        let pattern: Vec<[i64; 2]> = (0..period)
            .map(|_| [1 + rng.sized(bits) as i64, 1 + rng.below(most) as i64])
            .collect();
        let mut offset = first;
        self.bins.clear();
        for &[gap, count] in pattern.iter().cycle().take(n as usize) {
            if offset >= 1 << 32 {
                break;
            }
            self.bins.extend([offset, count]);
            offset += gap;
        }
    }

    /// A tolerance and a span for the bins, both often tight.
    fn some(&mut self, check: &mut Check, n: u64) {
        let rng = &mut check.rng;
        let bits = rng.pick(&[0, 1, 2, 3, 8, 16, 17, 29]);
        let first = match rng.below(4) {
            0 => 1 - (1 << 32),
            1 => (1 << 32) - 1 - rng.sized(20) as i64,
            _ => rng.signed(31),
        };
        self.fill(rng, n, bits, first);
        let mut tol = match rng.below(4) {
            0 => rng.sized(16),
            1 => rng.below(4),
            _ => rng.sized(bits.min(16)),
        };
        let last = self.bins.iter().nth_back(1).map_or(first, |&offset| offset);
        let mut slack = || match rng.below(4) {
            0 => 0,
            1 => tol as i64 + rng.below(3) as i64 - 1,
            2 => rng.below(4) as i64,
            _ => rng.sized(33) as i64,
        };
        let end = (1 << 32) - 1;
        let (mut low, mut high) = (
            first.saturating_sub(slack()).max(-end),
            last.saturating_add(slack()).min(end),
        );
        match rng.below(16) {
            0 => damage(rng, &mut self.bins, 2),
            1 => match rng.below(5) {
                0 => tol = rng.pick(&[65_535, 65_536, 1 << 32, u64::MAX]),
                1 => low = first + rng.below(2) as i64,
                2 => high = last - rng.below(2) as i64,
                3 => low = rng.pick(&[-end, -end - 1, i64::MIN, end, end + 1]),
                _ => high = rng.pick(&[end, end + 1, i64::MAX, -end, i64::MIN]),
            },
            2 => self.bins.push(i64::MIN),
            _ => {}
        }
        self.same(check, tol, low, high);
    }
}

fn box_peak(check: &mut Check) {
    let mut sweep = Sweep::default();
    for counts in digits(4, 6) {
        let offsets = -2..4;
        sweep.bins.clear();
        for (offset, &count) in offsets.zip(&counts).filter(|(_, count)| **count > 0) {
            sweep.bins.extend([offset, count]);
        }
        for tol in 0..4 {
            for low in -5..=-1 {
                (2..=6).for_each(|high| sweep.same(check, tol, low, high));
            }
        }
    }
    // No bins, and spans of every kind.
    sweep.bins.clear();
    for low in -4..=4 {
        (-4..=4).for_each(|high| sweep.same(check, 1, low, high));
    }
    for _ in check.times(1_000_000) {
        let n = length(&mut check.rng);
        sweep.some(check, n);
    }
    for _ in check.times(300) {
        let n = check.rng.below(5000);
        sweep.some(check, n);
    }
    for n in [MILLION as u64 - 1, MILLION as u64, MILLION as u64 + 1] {
        sweep.some(check, n);
    }
}
