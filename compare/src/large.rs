//! Counts past 16, 24 and 32 bits, few and large: postings of one key, votes
//! for one recording, what lies around a peak.

use crate::account::{Call, HASHES, VOTES, built, refused, removed, stored};
use crate::calls::{build, insert, replace};
use crate::capi::Answer;
use crate::harness::{Check, Rng, Run, answer, word32};
use crate::hough::Hough;
use crate::queries::{Asked, hash, query};
use crate::store::{Index, Panako, Sizes, Wang};
use crate::trial::{Met, Trial};
use audiofp::Reach;

macro_rules! checks {
    ($run:ident, $index:ty, $name:literal) => {
        if <$index>::ENTRIES.query.is_some() {
            $run.check(
                concat!($name, ", long lists of a key"),
                long_lists::<$index>,
            );
            $run.check(
                concat!($name, ", one key in all postings"),
                one_key::<$index>,
            );
            $run.check(
                concat!($name, "_query, most votes for one"),
                most_votes::<$index>,
            );
            $run.check(concat!($name, "_query, large peaks"), large_peaks::<$index>);
            $run.check(
                concat!($name, "_query, large backgrounds"),
                query_backgrounds::<$index>,
            );
        }
    };
}

pub fn run(run: &mut Run) {
    checks!(run, Wang, "wang_index");
    checks!(run, Panako, "panako_index");
    run.check("hough_panako_peak, large backgrounds", hough_backgrounds);
}

/// Hashes of one key with these anchors; Panako's spans are alike.
fn anchored<I: Index>(key: u32, anchors: impl IntoIterator<Item = u32>) -> Vec<u32> {
    let one = |anchor| hash::<I>(key, anchor, 100);
    anchors.into_iter().flat_map(one).collect()
}

/// A query of these hashes, by this tolerance and at least so many votes,
/// with scratch for `room` votes.
fn ask<I: Index>(
    rng: &mut Rng,
    hashes: Vec<u32>,
    tolerance: u32,
    min_votes: u32,
    room: usize,
) -> Call {
    let mut query = query(hashes, tolerance).with_room::<I>(rng, room);
    query.settings.min_votes = min_votes;
    Call::Query(query)
}

// ---- postings of one key

const LONG: u32 = 7;
/// As many of `LONG` come between two hashes with the keys next to it.
const BETWEEN: usize = 1000;

/// `count` hashes of `LONG`, some of the keys next to it among them.
fn long_list<I: Index>(rng: &mut Rng, count: usize) -> Vec<u32> {
    let key = |place: usize| match place % (BETWEEN + 2) {
        0 => LONG - 1,
        1 => LONG + 1,
        _ => LONG,
    };
    let all = count + others(count);
    let one = |place| anchored::<I>(key(place), [rng.below(8) as u32]);
    (0..all).flat_map(one).collect()
}

/// How many hashes with other keys are among them.
fn others(count: usize) -> usize {
    2 * count.div_ceil(BETWEEN)
}

/// Recordings of as many hashes as one can have, the last of the rest.
fn recordings<I: Index>(hashes: Vec<u32>, limit: u32) -> Call {
    let parts = hashes.chunks(I::HASH * HASHES);
    let lengths = parts.map(|part| (part.len() / I::HASH) as u32).collect();
    build(hashes, lengths, limit)
}

/// A query that has `LONG` so many times and the keys next to it once: some
/// recording is the best.
fn heard<I: Asked>(check: &mut Check, met: &mut Met, trial: &mut Trial<I>, times: usize) {
    let keys = [&[LONG - 1, LONG + 1], &vec![LONG; times][..]].concat();
    let rng = &mut check.rng;
    let one = |key| anchored::<I>(key, [rng.below(8) as u32]);
    let hashes: Vec<u32> = keys.into_iter().flat_map(one).collect();
    let votes = trial.account().voters(&query(hashes.clone(), 2)).count();
    let call = ask::<I>(rng, hashes, 2, 1, votes);
    let given = trial.call(check, met, call);
    assert_eq!(given[0], 4, "there are votes");
}

/// The store is to have so many postings and stopped keys.
fn has<I: Index>(check: &mut Check, trial: &Trial<I>, postings: usize, stopped: u32) {
    let [_, _, p, k] = trial.store().header();
    check.holds([p, k] == [postings as u32, stopped], || {
        format!("  {p} postings, {k} stopped, not {postings} and {stopped}\n")
    });
}

/// 65,535 to 65,537 postings of a key, limits about their number: by a build,
/// by the insertion of one of them, and of many.
fn long_lists<I: Asked>(check: &mut Check) {
    let met = &mut Met::default();
    for count in [65_535, 65_536, 65_537] {
        for limit in [65_535, 65_536] {
            for inserted in [0, 1, 8000] {
                let mut trial = stored_in_two::<I>(check, met, [count - inserted, inserted], limit);
                let rest = others(count - inserted) + others(inserted);
                match count > limit as usize {
                    true => has(check, &trial, rest, 1),
                    false => has(check, &trial, rest + count, 0),
                }
                heard(check, met, &mut trial, 1);
            }
        }
    }
    inserted_alone::<I>(check, met);
}

/// So many of `LONG` by a build, and so many by an insertion, if any; the last
/// of the two has the limit.
fn stored_in_two<I: Asked>(
    check: &mut Check,
    met: &mut Met,
    counts: [usize; 2],
    limit: u32,
) -> Trial<I> {
    let mut trial = Trial::<I>::empty(Sizes::new(10, 65_800, 1));
    let [first, last] = counts.map(|count| long_list::<I>(&mut check.rng, count));
    if last.is_empty() {
        trial.expect(check, met, recordings::<I>(first, limit), built());
        return trial;
    }
    trial.expect(check, met, recordings::<I>(first, u32::MAX), built());
    let id = trial.store().header()[0];
    trial.expect(check, met, insert(last, limit), stored(id));
    trial
}

/// 65,536 postings of a key by insertions; about as many votes as a scratch
/// can hold; one recording goes, and one too many of the key comes.
fn inserted_alone<I: Asked>(check: &mut Check, met: &mut Met) {
    const PARTS: [usize; 9] = [8000, 8000, 8000, 8000, 8000, 8000, 8000, 8000, 1536];
    let mut trial = Trial::<I>::empty(Sizes::new(9, 65_800, 1));
    for (id, part) in (0..).zip(PARTS) {
        let hashes = long_list::<I>(&mut check.rng, part);
        trial.expect(check, met, insert(hashes, 65_536), stored(id));
    }
    let rest: usize = PARTS.map(others).iter().sum();
    has(check, &trial, 65_536 + rest, 0);
    heard(check, met, &mut trial, 15);
    // In place of as many.
    let take = long_list::<I>(&mut check.rng, PARTS[3]);
    trial.expect(check, met, replace(3, take, 65_536), stored(3));
    has(check, &trial, 65_536 + rest, 0);
    trial.expect(check, met, Call::Remove { id: 3 }, removed(true));
    heard(check, met, &mut trial, 1);
    let more = long_list::<I>(&mut check.rng, 8001);
    trial.expect(check, met, insert(more, 65_536), stored(3));
    has(check, &trial, rest + 2, 1);
    heard(check, met, &mut trial, 1);
}

/// The largest store, all postings of one key, as many as the limit; one
/// recording goes, and comes back by a limit of one less.
fn one_key<I: Asked>(check: &mut Check) {
    let met = &mut Met::default();
    let most = Sizes::MOST.postings;
    let mut trial = Trial::<I>::empty(Sizes::new(most / HASHES, most, 1));
    let anchors = (0..most).map(|_| check.rng.below(8) as u32);
    let all = anchored::<I>(LONG, anchors);
    let part = all[..I::HASH * HASHES].to_vec();
    let limit = most as u32;
    trial.expect(check, met, recordings::<I>(all, limit), built());
    has(check, &trial, most, 0);
    let one = anchored::<I>(LONG, [3]);
    let call = ask::<I>(&mut check.rng, one.clone(), 1, 1, VOTES);
    trial.expect(check, met, call, refused(8));
    let take = replace(61, part.clone(), limit);
    trial.expect(check, met, take, stored(61));
    has(check, &trial, most, 0);
    trial.expect(check, met, Call::Remove { id: 60 }, removed(true));
    trial.expect(check, met, insert(part, limit - 1), stored(60));
    has(check, &trial, 0, 1);
    let call = ask::<I>(&mut check.rng, one, 1, 1, 0);
    trial.expect(check, met, call, answer([5]));
}

// ---- votes for one recording

/// A recording with 500, 499 and 1 hashes of three keys, all at one anchor,
/// and another with 1 of a fourth.
const KEYS: [(u32, usize); 4] = [(9, 500), (8, 499), (7, 1), (6, 1)];

fn many_equal<I: Asked>(check: &mut Check, met: &mut Met) -> Trial<I> {
    let mut trial = Trial::<I>::empty(Sizes::new(2, 1001, 1));
    let [one @ .., other] =
        KEYS.map(|(key, count)| anchored::<I>(key, std::iter::repeat_n(5000, count)));
    trial.expect(check, met, insert(one.concat(), u32::MAX), stored(0));
    trial.expect(check, met, insert(other, u32::MAX), stored(1));
    trial
}

/// Equal hashes on both sides: 65,535 votes for one recording, 999,999,
/// 1,000,000 and those about them, the scratch just large enough, and one vote
/// less.
fn most_votes<I: Asked>(check: &mut Check) {
    let met = &mut Met::default();
    let mut trial = many_equal::<I>(check, met);
    for asked in [
        [131, 0, 35, 0],
        [131, 0, 36, 0],
        [131, 0, 37, 1],
        [1999, 1, 0, 0],
        [1999, 1, 0, 1],
        [2000, 0, 0, 0],
    ] {
        let parts = || KEYS.into_iter().zip(asked);
        let part = |((key, _), count)| anchored::<I>(key, std::iter::repeat_n(4000, count));
        let hashes: Vec<u32> = parts().flat_map(part).collect();
        let all: usize = parts().map(|((_, stored), count)| stored * count).sum();
        let votes = (all - asked[3]) as u32;
        let mut put = |min_votes: u32, room: usize| -> Answer {
            let call = ask::<I>(&mut check.rng, hashes.clone(), 0, min_votes, room);
            trial.call(check, met, call)
        };
        assert_eq!(put(votes, all)[..3], [4, 0, votes.into()]);
        assert_eq!(put(1, all)[..3], [4, 0, votes.into()]);
        assert_eq!(put(votes + 1, all), answer([5]));
        assert_eq!(put(votes, all - 1), refused(8));
    }
}

/// So many hashes with this anchor and span.
type Heap = (usize, u32, u32);

/// Peaks of more than 65,535 votes: of one bin, of several together, of bins
/// that high beside each other, and of two rows of Panako's scales.
const PEAKS: [&[Heap]; 5] = [
    &[(140, 4000, 100)],
    &[(80, 4000, 100), (80, 4001, 100), (80, 4002, 100)],
    &[(132, 2000, 100), (140, 2001, 100), (140, 4000, 100)],
    &[(80, 0, 100), (80, 0, 98), (100, 2, 100)],
    &[(500, 3000, 100), (600, 3003, 100), (700, 3006, 100)],
];

/// Each peak alone, and with bins of one hash each around it.
fn large_peaks<I: Asked>(check: &mut Check) {
    let met = &mut Met::default();
    let mut trial = many_equal::<I>(check, met);
    let (key, stored) = KEYS[0];
    for peak in PEAKS {
        for around in [0, 60] {
            let around = (0..around).map(|i| (1, 100 + 20 * i, 100));
            let heaps = peak.iter().copied().chain(around);
            let words = |(count, anchor, span)| hash::<I>(key, anchor, span).repeat(count);
            let hashes: Vec<u32> = heaps.flat_map(words).collect();
            let votes = stored * hashes.len() / I::HASH;
            for tolerance in [1, 3, 65_535] {
                let call = ask::<I>(&mut check.rng, hashes.clone(), tolerance, 1, votes);
                let given = trial.call(check, met, call);
                assert!(given[0] == 4 && given[2] > 65_535, "the peak is large");
            }
        }
    }
}

// ---- what lies around a peak

/// A peak, and what is summed and counted around it.
struct Around {
    peak: u32,
    sum: u64,
    count: u64,
    /// The sum, had it been kept in f32.
    in_f32: f32,
}

impl Around {
    fn prominence(&self, mean: f32) -> u64 {
        word32(self.peak as f32 / (mean + 1.0))
    }

    /// As the reference works it out.
    fn known(&self) -> u64 {
        self.prominence(self.sum as f32 / self.count as f32)
    }

    /// Near misses: summed in f32, divided in f64, all of it in f64.
    fn misses(&self) -> [u64; 3] {
        let mean = self.sum as f64 / self.count as f64;
        [
            self.prominence(self.in_f32 / self.count as f32),
            self.prominence(mean as f32),
            word32((f64::from(self.peak) / (mean + 1.0)) as f32),
        ]
    }

    /// Whether each of them would show.
    fn tells(&self) -> bool {
        let known = self.known();
        self.sum > 1 << 24 && self.misses().iter().all(|&miss| miss != known)
    }
}

/// The first tolerance from `first` on whose surroundings tell.
fn telling(first: u32, around: impl Fn(u32) -> Around) -> u32 {
    let tolerance = (first..first + 500).find(|&tolerance| around(tolerance).tells());
    tolerance.expect("one of them tells")
}

/// What an index takes for the surroundings of a peak.
trait Spread: Asked {
    /// Of votes by offset, where a recording and a query have these last
    /// anchors.
    fn around(votes: &[(i64, u32)], last: [u32; 2], tolerance: u32) -> Around;
}

impl Spread for Wang {
    /// Every centre but that of the peak.
    fn around(votes: &[(i64, u32)], last: [u32; 2], tolerance: u32) -> Around {
        let [r_max, q_max] = last.map(i64::from);
        let (peak, _, _, total) =
            Reach::sparse_wang_box_peak(votes, tolerance.into(), -q_max, r_max);
        Around {
            peak,
            sum: total - u64::from(peak),
            count: (q_max + r_max) as u64,
            in_f32: total as f32 - peak as f32,
        }
    }
}

impl Spread for Panako {
    fn around(votes: &[(i64, u32)], _: [u32; 2], tolerance: u32) -> Around {
        let bins: Vec<_> = votes.iter().map(|&(offset, n)| ((10, offset), n)).collect();
        hough_around(&bins, tolerance)
    }
}

/// "every occupied bin outside the peak's reach"
fn hough_around(bins: &[((u32, i64), u32)], tolerance: u32) -> Around {
    let mut reach = Reach::default();
    let (peak, at) = reach.panako_hough_peak(bins, tolerance.into());
    let (scale, offset) = bins[at].0;
    let is_far = |&(s, o): &(u32, i64)| {
        s.abs_diff(scale) > 2 || o.abs_diff(offset) > 2 * u64::from(tolerance)
    };
    let sums = bins.iter().zip(reach.consolidated());
    let far = || sums.clone().filter(|((key, _), _)| is_far(key));
    Around {
        peak,
        sum: far().map(|(_, &sum)| u64::from(sum)).sum(),
        count: far().count() as u64,
        in_f32: far().map(|(_, &sum)| sum as f32).sum(),
    }
}

/// Some thousand bins with tens of votes each, in one row of scales or in
/// several; and so many bins that their sums add up to more than 32 bits.
fn hough_backgrounds(check: &mut Check) {
    let mut hough = Hough::default();
    for _ in check.times(20) {
        let rng = &mut check.rng;
        let [rows, apart] = [&[1, 2, 5, 9], &[1, 2, 3, 5]].map(|list| rng.pick(list));
        let offsets = (4000 + rng.below(4000)) / u64::from(rows);
        let most = VOTES as u64 / (u64::from(rows) * offsets);
        let places = (0..rows).flat_map(|row| (0..offsets as i64).map(move |o| (row * apart, o)));
        let bins: Vec<_> = places
            .map(|place| (place, 1 + rng.below(most) as u32))
            .collect();
        let first = 40 + rng.below(60) as u32;
        let tolerance = telling(first, |tolerance| hough_around(&bins, tolerance));
        hough.put(&bins);
        hough.same(check, tolerance.into());
    }
    let bins: Vec<_> = (0..250_000).map(|offset| ((7, offset), 4)).collect();
    assert!(hough_around(&bins, 30_000).sum > 1 << 32);
    hough.put(&bins);
    hough.same(check, 30_000);
}

/// The anchors of a recording and of a query, all of one key, and their votes
/// by offset.
struct Anchors {
    stored: Vec<u32>,
    asked: Vec<u32>,
    votes: Vec<(i64, u32)>,
}

impl Anchors {
    fn new(stored: Vec<u32>, asked: Vec<u32>) -> Self {
        let offsets = |&r: &u32| asked.iter().map(move |&q| i64::from(r) - i64::from(q));
        let mut offsets: Vec<i64> = stored.iter().flat_map(offsets).collect();
        offsets.sort_unstable();
        let mut votes = Vec::new();
        Reach::count_sorted(&offsets, &mut votes);
        Self {
            stored,
            asked,
            votes,
        }
    }

    fn around<I: Spread>(&self, tolerance: u32) -> Around {
        let last = |anchors: &[u32]| anchors.iter().copied().max().unwrap_or(0);
        I::around(
            &self.votes,
            [last(&self.stored), last(&self.asked)],
            tolerance,
        )
    }

    /// The recording is stored, and the query asked.
    fn same<I: Spread>(&self, check: &mut Check, tolerance: u32) {
        let met = &mut Met::default();
        let [recording, hashes] =
            [&self.stored, &self.asked].map(|list| anchored::<I>(LONG, list.iter().copied()));
        let mut trial = Trial::<I>::empty(Sizes::new(1, self.stored.len(), 1));
        trial.expect(check, met, insert(recording, u32::MAX), stored(0));
        let votes = self.stored.len() * self.asked.len();
        let call = ask::<I>(&mut check.rng, hashes, tolerance, 1, votes);
        let given = trial.call(check, met, call);
        let known = self.around::<I>(tolerance).known();
        assert_eq!(given[4], known, "these are the votes");
    }
}

/// The same by whole queries.
fn query_backgrounds<I: Spread>(check: &mut Check) {
    for _ in check.times(6) {
        let rng = &mut check.rng;
        let mut some = |count: u32, latest: u64| -> Vec<u32> {
            (0..count).map(|_| rng.below(latest) as u32).collect()
        };
        let anchors = Anchors::new(some(200, 3000), some(400, 2000));
        let first = 200 + rng.below(100) as u32;
        let tolerance = telling(first, |tolerance| anchors.around::<I>(tolerance));
        anchors.same::<I>(check, tolerance);
    }
    // A million offsets with a vote each.
    let stored = (0..500).map(|i| 2000 * i).collect();
    let anchors = Anchors::new(stored, (0..2000).collect());
    assert!(anchors.around::<I>(65_535).sum > 1 << 32);
    anchors.same::<I>(check, 65_535);
}
