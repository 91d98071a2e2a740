//! Queries among the other calls: random histories on small stores, and
//! families that come to each end.

use crate::account::{Account, Call, QUERY_HASHES, Query, VOTES, built, refused, removed, stored};
use crate::calls::{self, RATE, Source, some_rate};
use crate::capi::{Answer, Settings};
use crate::harness::{Check, Rng, Run, answer, word32};
use crate::panako;
use crate::store::{HEADER, Index, Panako, ROW, Sizes, Wang};
use crate::tally::Tally;
use crate::trial::{Met, Trial};
use audiofp::matching::MatchResult;
use std::ops::Range;

macro_rules! checks {
    ($run:ident, $index:ty, $name:literal) => {
        if <$index>::ENTRIES.query.is_some() {
            $run.check(concat!($name, ", examples"), examples::<$index>);
            $run.check(concat!($name, ", changed words"), changed_words::<$index>);
            $run.check(
                concat!($name, ", order of refusals"),
                order_of_refusals::<$index>,
            );
            $run.check(
                concat!($name, ", scratch lengths"),
                scratch_lengths::<$index>,
            );
            $run.check(concat!($name, ", every small one"), every_small::<$index>);
            $run.check(
                concat!($name, ", every one at the ends"),
                every_end::<$index>,
            );
            $run.check(concat!($name, ", a few bins"), few_bins::<$index>);
            $run.check(
                concat!($name, ", some votes of others"),
                votes_of_others::<$index>,
            );
            $run.check(concat!($name, ", many votes"), many_votes::<$index>);
            $run.check(concat!($name, ", histories"), histories::<$index>);
            $run.check(
                concat!($name, ", histories of larger stores"),
                larger_histories::<$index>,
            );
        }
    };
}

pub fn run(run: &mut Run) {
    checks!(run, Wang, "wang_index_query");
    checks!(run, Panako, "panako_index_query");
}

/// What the queries of one index are made of.
pub trait Asked: Index {
    /// The times of hashes that meet often, and of such as lie far apart.
    const FEW: [&'static [u32]; 4];
    const FAR: [&'static [u32]; 4];

    /// Settings of this index alone, of every kind.
    fn vary(rng: &mut Rng, settings: &mut Settings);
}

impl Asked for Wang {
    const FEW: [&'static [u32]; 4] = [&[0], &[1], &[2], &[4]];
    const FAR: [&'static [u32]; 4] = [&[0], &[1], &[u32::MAX - 1], &[u32::MAX]];

    fn vary(_: &mut Rng, _: &mut Settings) {}
}

impl Asked for Panako {
    const FEW: [&'static [u32]; 4] = [&[0, 1, 4], &[0, 1, 5], &[2, 3, 6], &[3, 3, 3]];
    const FAR: [&'static [u32]; 4] = [
        &[0, 0, u32::MAX],
        &[u32::MAX - 1, 0, u32::MAX],
        &[1, 7, u32::MAX],
        &[u32::MAX, 0, 1],
    ];

    fn vary(rng: &mut Rng, settings: &mut Settings) {
        const ENDS: [f32; 16] = [
            f32::NAN,
            f32::INFINITY,
            f32::NEG_INFINITY,
            f32::MAX,
            f32::MIN,
            f32::MIN_POSITIVE,
            64.0,
            -64.0,
            64.000_01,
            -64.000_01,
            0.0,
            -0.0,
            -1.0,
            0.8,
            1.25,
            4.0,
        ];
        let mut config = Self::config(settings);
        if rng.below(2) == 0 {
            panako::vary(&mut config, rng, &ENDS);
        }
        *settings = Self::settings(&config);
    }
}

/// Gates that let every candidate pass, and the reference's own scales.
pub const OPEN: Settings = Settings {
    scale_min: 0.8_f32.to_bits(),
    scale_max: 1.25_f32.to_bits(),
    scale_bins: 24,
    tolerance: 0,
    min_votes: 0,
    min_score: f32::NEG_INFINITY.to_bits(),
    min_prominence: f32::NEG_INFINITY.to_bits(),
};

/// Hashes at the rate of the recordings, gates open, all sets; scratch is
/// still to be given.
pub fn query(hashes: Vec<u32>, tolerance: u32) -> Query {
    Query {
        hashes,
        rate: RATE,
        settings: Settings { tolerance, ..OPEN },
        set: 0,
        scratch: 0,
        fill: 0,
    }
}

impl Query {
    /// The same for all sets.
    pub fn for_all(self) -> Self {
        Self { set: 0, ..self }
    }

    /// With scratch for so many votes.
    pub fn with_room<I: Index>(mut self, rng: &mut Rng, votes: usize) -> Self {
        self.scratch = I::VOTE * votes;
        self.fill = rng.next();
        self
    }
}

fn insert(hashes: Vec<u32>) -> Call {
    calls::insert(hashes, 100)
}

// ---- histories

/// Times that are few, so that offsets meet; some far apart.
pub fn some_times(rng: &mut Rng) -> Vec<u32> {
    let first = match rng.below(8) {
        0 => rng.sized(32) as u32,
        1 => u32::MAX - 7,
        2 => rng.below(1000) as u32,
        _ => 0,
    };
    let far = rng.below(3) == 0;
    let time = |rng: &mut Rng| match rng.below(6) {
        0 if far => rng.pick(&[0, u32::MAX - 1, u32::MAX]),
        1 if far => rng.sized(32) as u32,
        _ => first.saturating_add(rng.below(8) as u32),
    };
    (0..2 + rng.below(6)).map(|_| time(rng)).collect()
}

/// Rates that are one, or close to it, or of every kind.
pub fn some_rates(rng: &mut Rng) -> Vec<u32> {
    let rate = match rng.below(8) {
        0 => rng.pick(&[1, 0x0080_0000, 0x7F7F_FFFF, 1000_f32.to_bits()]),
        1 => rng.next() as u32 >> 1,
        _ => RATE,
    };
    let times = |by: f32| (f32::from_bits(rate) * by).to_bits();
    let other = |rng: &mut Rng| match rng.below(16) {
        0 => rng.near32(times(0.999)),
        1 => rng.near32(times(1.001)),
        2 | 3 => rng.near32(rate),
        4 => some_rate(rng),
        _ => rate,
    };
    (0..1 + rng.below(6)).map(|_| other(rng)).collect()
}

fn some_tolerance(rng: &mut Rng) -> u32 {
    match rng.below(16) {
        0 => rng.pick(&[65_534, 65_535, 65_536, 1 << 31, u32::MAX]),
        1..4 => rng.sized(16) as u32,
        4..8 => 0,
        _ => rng.below(5) as u32,
    }
}

/// A float gate: mostly open, or about the value that it is to meet.
fn some_gate(rng: &mut Rng, value: f32) -> u32 {
    const ODD: [u32; 7] = [
        0x7FC0_0000,
        0xFFC0_0001,
        0x7F80_0001,
        0x7F80_0000,
        0x3F80_0000,
        0x3F80_0001,
        0xBF80_0000,
    ];
    match rng.below(16) {
        0 | 1 => value.to_bits(),
        2 => value.next_up().to_bits(),
        3 => value.next_down().to_bits(),
        4 => rng.pick(&ODD),
        5 => ((4.0 * rng.unit()) as f32).to_bits(),
        6 => rng.float32(),
        _ => rng.pick(&[OPEN.min_score, 0, 0x8000_0000]),
    }
}

/// Gates left open, or of every kind, often about the answer that stands
/// where all are open.
fn some_gates(rng: &mut Rng, settings: &mut Settings, open: Option<(usize, MatchResult)>) {
    if rng.below(2) == 0 {
        return;
    }
    let value = open.map_or(MatchResult::NONE, |(_, result)| result);
    settings.min_votes = match rng.below(16) {
        0 | 1 => value.votes,
        2 => value.votes + 1,
        3 => rng.pick(&[u32::MAX, u32::MAX - 1, 1 << 31]),
        4..8 => rng.below(4) as u32,
        _ => 0,
    };
    settings.min_score = some_gate(rng, value.score);
    settings.min_prominence = some_gate(rng, value.prominence);
}

/// Hashes of a query: those of a recording, moved, with noise among them; or
/// any.
fn some_asked<I: Index>(rng: &mut Rng, source: &Source<'_>, heard: &[Vec<u32>]) -> Vec<u32> {
    let any = |rng: &mut Rng| {
        let count = rng.below(source.most + 2) as usize;
        source.hashes::<I>(rng, count)
    };
    if heard.is_empty() || rng.below(4) == 0 {
        return any(rng);
    }
    let recording = &heard[rng.below(heard.len() as u64) as usize];
    let shift = rng.pick(&[0, 0, 1, 2, 5]);
    let mut hashes = Vec::new();
    for hash in recording.chunks_exact(I::HASH) {
        let moved = hash[1..].iter().map(|time| time.saturating_sub(shift));
        let moved = moved.map(|time| time.saturating_add(u32::from(rng.below(8) == 0)));
        let moved: Vec<u32> = [hash[0]].into_iter().chain(moved).collect();
        match rng.below(8) {
            0 => hashes.extend(source.hashes::<I>(rng, 1)),
            1 => hashes.extend([&moved[..], &moved[..]].concat()),
            2 => {}
            _ => hashes.extend(moved),
        }
    }
    hashes
}

/// A query, and the reference's answer to it with open gates.
pub fn some_query<I: Asked>(
    rng: &mut Rng,
    source: &Source<'_>,
    account: &Account<I>,
    heard: &[Vec<u32>],
) -> (Query, Option<(usize, MatchResult)>) {
    let mut query = query(some_asked::<I>(rng, source, heard), some_tolerance(rng));
    if rng.below(32) == 0 {
        query.hashes.push(rng.pick(source.keys));
    }
    query.rate = source.rate(rng);
    query.set = source.asked(rng);
    query.fill = rng.next();
    I::vary(rng, &mut query.settings);
    let is_asked = account.is_sound() && !I::is_beyond(&query.settings);
    let open = is_asked.then(|| account.best(&query, &query.settings));
    let open = open.flatten();
    some_gates(rng, &mut query.settings, open);
    let votes = account.voters(&query).count();
    let room = match rng.below(8) {
        0..3 => votes,
        3 => votes.saturating_sub(1),
        4 => rng.below(4) as usize,
        5 => account.voters(&query.clone().for_all()).count(),
        _ => votes + rng.below(8) as usize,
    };
    let odd = match rng.below(24) {
        0 => 1 + rng.below(I::VOTE as u64 - 1) as usize,
        _ => 0,
    };
    query.scratch = I::VOTE * room + odd;
    (query, open)
}

/// A call that is no query, in this turn of a list. What is stored by it is
/// then among those heard.
pub fn some_other<I: Index>(
    rng: &mut Rng,
    source: &Source<'_>,
    account: &Account<I>,
    heard: &mut Vec<Vec<u32>>,
    turn: u64,
) -> Call {
    let p = account.store.header()[2] as usize;
    let mut call = match rng.below(4) {
        // Only a build is of use there.
        0 | 1 if !account.is_sound() => source.build::<I>(rng),
        0 if turn < 3 => source.build::<I>(rng),
        _ if turn < 3 => source.insert::<I>(rng, p),
        _ => source.call::<I>(rng, &account.store),
    };
    hear(rng, heard, &mut call);
    call
}

/// Puts what a call stores among the recordings heard. An insertion or a
/// replacement may turn into that of a recording that stands there already, or
/// stood.
pub fn hear(rng: &mut Rng, heard: &mut Vec<Vec<u32>>, call: &mut Call) {
    if let Call::Insert { hashes, .. } | Call::Replace { hashes, .. } = call
        && !heard.is_empty()
        && rng.below(4) == 0
    {
        *hashes = heard[rng.below(heard.len() as u64) as usize].clone();
    }
    if let Call::Insert { hashes, .. } | Call::Replace { hashes, .. } | Call::Build { hashes, .. } =
        call
    {
        heard.push(hashes.clone());
    }
}

/// A list of calls, most of them queries.
fn history<I: Asked>(
    check: &mut Check,
    source: &Source<'_>,
    others: &mut Met,
    tally: &mut Tally,
    calls: u64,
) {
    tally.histories += 1;
    let mut trial = Trial::<I>::new(source.start::<I>(&mut check.rng));
    let mut heard: Vec<Vec<u32>> = Vec::new();
    for turn in 0..calls {
        let rng = &mut check.rng;
        if turn >= 3 && rng.below(4) > 0 {
            let (query, open) = some_query(rng, source, trial.account(), &heard);
            let given = trial.call(check, &mut tally.met, Call::Query(query.clone()));
            tally.add(&trial, &query, open, &given);
            continue;
        }
        let call = some_other(rng, source, trial.account(), &mut heard, turn);
        trial.call(check, others, call);
    }
}

fn histories<I: Asked>(check: &mut Check) {
    const KEYS: [u32; 4] = [5, 0, u32::MAX, 6];
    let (mut others, mut tally) = (Met::default(), Tally::default());
    for _ in check.times(250_000) {
        let rng = &mut check.rng;
        let mut size = |most: u64| 1 + rng.below(most) as usize;
        let sizes = Sizes::new(size(6), size(40), size(3));
        let keys = &KEYS[..size(4)];
        let calls = 4 + size(10) as u64;
        let (times, rates) = (some_times(rng), some_rates(rng));
        let source = Source {
            times: &times,
            rates: &rates,
            limit: (rng.below(8) > 0).then(|| rng.pick(&[2, 3, 5, 8, 20, 100, 100, 100, 100, 100])),
            ..Source::any(sizes, keys, 5)
        };
        history::<I>(check, &source, &mut others, &mut tally, calls);
    }
    tally.end(check, &[1, 2, 3, 4, 8, 9]);
    others.expect(&[2, 3, 5, 6, 7, 9, 10]);
}

/// More recordings, keys and hashes than a card's, up to the highest ids.
fn larger_histories<I: Asked>(check: &mut Check) {
    let (mut others, mut tally) = (Met::default(), Tally::default());
    for turn in check.times(400) {
        let rng = &mut check.rng;
        let rows = match turn % 10 {
            0 => 4096,
            _ => 1 + rng.below(40) as usize,
        };
        let sizes = Sizes::new(rows, 1 + rng.below(4000) as usize, 60);
        let keys: Vec<u32> = (0..1 + rng.below(60))
            .map(|_| rng.sized(32) as u32)
            .collect();
        let mut times: Vec<u32> = (0..400).map(|_| rng.below(3000) as u32).collect();
        if rng.below(4) == 0 {
            times.extend((0..20).map(|_| rng.sized(32) as u32));
        }
        let rates = some_rates(rng);
        let source = Source {
            times: &times,
            rates: &rates,
            limit: Some(rng.pick(&[20, 100, 1000, u32::MAX])),
            ..Source::any(sizes, &keys, 300)
        };
        history::<I>(check, &source, &mut others, &mut tally, 12);
    }
    tally.end(check, &[1, 2, 3, 4, 8, 9]);
}

// ---- every one of a small kind

fn every_small<I: Asked>(check: &mut Check) {
    every::<I>(check, &[1, 2], &I::FEW, &[0, 1, 2], &[100, 1]);
}

fn every_end<I: Asked>(check: &mut Check) {
    every::<I>(check, &[7], &I::FAR, &[0, 1, 65_534, 65_535], &[100]);
}

/// Every store of two recordings of two hashes with these keys and times, and
/// every query of at most two such hashes, by these tolerances.
fn every<I: Asked>(
    check: &mut Check,
    keys: &[u32],
    times: &[&[u32]],
    tolerances: &[u32],
    limits: &[u32],
) {
    let met = &mut Met::default();
    let pairs = |lists: &[Vec<u32>]| -> Vec<Vec<u32>> {
        let with = |one: &Vec<u32>| {
            lists
                .iter()
                .map(|other| [&one[..], other].concat())
                .collect()
        };
        lists
            .iter()
            .flat_map(|one| -> Vec<_> { with(one) })
            .collect()
    };
    let hash = |key: u32| times.iter().map(move |times| [&[key], *times].concat());
    let hashes: Vec<Vec<u32>> = keys.iter().flat_map(|&key| hash(key)).collect();
    let two = pairs(&hashes);
    let asked: Vec<Vec<u32>> = [&[Vec::new()], &hashes[..], &two[..]].concat();
    for stores in pairs(&two) {
        for &limit in limits {
            let mut trial = Trial::<I>::empty(Sizes::new(2, 4, 2));
            let build = calls::build(stores.clone(), vec![2; 2], limit);
            trial.expect(check, met, build, built());
            for hashes in &asked {
                for &tolerance in tolerances {
                    let mut query = query(hashes.clone(), tolerance);
                    query.settings.min_votes = u32::from(tolerance == 1);
                    let votes = trial.account().voters(&query).count();
                    let query = query.with_room::<I>(&mut check.rng, votes);
                    trial.call(check, met, Call::Query(query));
                }
            }
        }
    }
    let [.., best, none, _, _] = met.cases;
    check.note(format!("best {best}, none {none}"));
    assert!(best > 0 && none > 0);
}

// ---- a few bins

/// A hash with this key, anchor and, in Panako, span.
pub fn hash<I: Index>(key: u32, anchor: u32, span: u32) -> Vec<u32> {
    let words = [key, anchor, anchor + 30, anchor + span];
    words.into_iter().take(I::HASH).collect()
}

/// Votes of one recording, or of two, in so many bins: about the numbers up to
/// which Panako's bins are counted with no sort, and their sums kept.
fn few_bins<I: Asked>(check: &mut Check) {
    const OTHER: u32 = 1000;
    let met = &mut Met::default();
    let posting = |key| hash::<I>(key, 5000, 100);
    let mut trial = Trial::<I>::empty(Sizes::new(2, 101, 1));
    let hashes = (0..100).flat_map(posting).collect();
    trial.expect(check, met, insert(hashes), stored(0));
    trial.expect(check, met, insert(posting(OTHER)), stored(1));
    for _ in check.times(20_000) {
        let rng = &mut check.rng;
        let votes = rng.pick(&[1, 2, 20, 63, 64, 65, 66, 100]);
        let bins = rng.pick(&[1, 2, 5, 6, 7, 8, 31, 32, 33, 34, 50]);
        let apart = rng.pick(&[1, 2, 50]);
        let span = rng.pick(&[100, 96, 105]);
        let first = rng.below(100) as u32;
        let heard = |key, bin: u32| hash::<I>(key, 4000 + apart * bin, span);
        // As many bins as are asked for, where there are votes enough.
        let mut hashes: Vec<u32> = (0..votes)
            .flat_map(|vote| {
                let bin = match vote {
                    vote if vote < bins => vote,
                    _ => rng.below(bins.into()) as u32,
                };
                heard((first + vote) % 100, bin)
            })
            .collect();
        if rng.below(4) == 0 {
            hashes.extend(heard(OTHER, bins));
        }
        let tolerance = rng.pick(&[0, 1, 2, 4, 5, 60]);
        let query = query(hashes, tolerance).with_room::<I>(rng, votes as usize + 1);
        let given = trial.call(check, met, Call::Query(query));
        assert_eq!(given[0], 4, "there are votes");
    }
}

/// Votes of one recording in so many bins, and some of two others, about as
/// many as `min_votes`: fewer decide nothing. A vote of theirs may come first.
fn votes_of_others<I: Asked>(check: &mut Check) {
    const OTHERS: u32 = 1000;
    let met = &mut Met::default();
    let posting = |key| hash::<I>(key, 5000, 100);
    let postings = |keys: Range<u32>| keys.flat_map(posting).collect();
    let mut trial = Trial::<I>::empty(Sizes::new(3, 112, 1));
    trial.expect(check, met, insert(postings(0..100)), stored(0));
    let second = OTHERS + 6;
    trial.expect(check, met, insert(postings(OTHERS..second)), stored(1));
    trial.expect(check, met, insert(postings(second..second + 6)), stored(2));
    let mut best = [0; 3];
    let mut none = 0;
    for _ in check.times(20_000) {
        let rng = &mut check.rng;
        let votes = rng.pick(&[1, 2, 5, 6, 7, 30, 100]);
        let bins = rng.pick(&[1, 2, 6, 7, 20, 40]);
        let apart = rng.pick(&[1, 2, 50]);
        let heard = |key, bin: u64| hash::<I>(key, 4000 + apart * bin as u32, 100);
        let mut hashes: Vec<Vec<u32>> = (0..votes).map(|key| heard(key, rng.below(bins))).collect();
        let others = rng.below(13) as u32;
        for other in 0..others {
            let place = rng.below(hashes.len() as u64 + 1) as usize;
            let key = OTHERS + (other * 7) % 12;
            hashes.insert(place, heard(key, rng.below(2)));
        }
        let mut query = query(hashes.concat(), rng.pick(&[0, 1, 5]));
        let around = [others.saturating_sub(1), others, others + 1];
        query.settings.min_votes = match rng.below(2) {
            0 => rng.pick(&around),
            _ => rng.below(8) as u32,
        };
        let asked = query.with_room::<I>(rng, votes as usize + 12);
        let given = trial.call(check, met, Call::Query(asked));
        let count = match given[0] {
            4 => &mut best[given[1] as usize],
            _ => &mut none,
        };
        *count += 1;
    }
    check.note(format!("best {best:?}, none {none}"));
    assert!(best.iter().all(|&best| best > 0) && none > 0);
}

// ---- many votes

/// `count` hashes of one key, as a recording or a query has them: Panako
/// spans are alike, so that all of them vote.
fn like<I: Index>(rng: &mut Rng, key: u32, count: usize, latest: u64) -> Vec<u32> {
    let one = |_| hash::<I>(key, rng.below(latest) as u32, 100);
    (0..count).flat_map(one).collect()
}

fn many_votes<I: Asked>(check: &mut Check) {
    const MANY: u32 = 9;
    const ONE: u32 = 7;
    let met = &mut Met::default();
    // Five recordings of 100 hashes with one key, and a hash with another.
    let mut trial = Trial::<I>::empty(Sizes::new(5, 501, 1));
    for id in 0..5 {
        let mut hashes = like::<I>(&mut check.rng, MANY, 100, 2000);
        if id == 3 {
            hashes.extend(like::<I>(&mut check.rng, ONE, 1, 2000));
        }
        let call = calls::insert(hashes, u32::MAX);
        trial.expect(check, met, call, stored(id));
    }
    let ask = |check: &mut Check, met: &mut Met, trial: &mut Trial<I>, asked: [usize; 3]| {
        let [many, ones, room] = asked;
        let rng = &mut check.rng;
        let latest = rng.pick(&[1, 50, 5000, 1 << 31]);
        let mut hashes = like::<I>(rng, MANY, many, latest);
        hashes.extend(like::<I>(rng, ONE, ones, latest));
        let tolerance = rng.pick(&[0, 1, 2, 300, 65_535]);
        let query = query(hashes, tolerance).with_room::<I>(rng, room);
        assert_eq!(trial.account().voters(&query).count(), 500 * many + ones);
        trial.call(check, met, Call::Query(query))
    };
    let is_best = |given: Answer| assert_eq!(given[0], 4, "there are votes");
    // Hashes up to the most, and one more.
    for _ in check.times(15) {
        for (many, ones) in [(0, QUERY_HASHES), (200, QUERY_HASHES - 200), (300, 0)] {
            let votes = 500 * many + ones;
            is_best(ask(check, met, &mut trial, [many, ones, votes]));
            let fewer = ask(check, met, &mut trial, [many, ones, votes - 1]);
            assert_eq!(fewer, refused(8));
        }
        let more = ask(check, met, &mut trial, [0, QUERY_HASHES + 1, 9000]);
        assert_eq!(more, refused(3));
    }
    // Votes up to the most, and one more.
    for _ in check.times(3) {
        is_best(ask(check, met, &mut trial, [2000, 0, VOTES]));
        let more = ask(check, met, &mut trial, [2000, 1, VOTES]);
        assert_eq!(more, refused(8));
    }
}

// ---- refusals

/// A store of two recordings and a query that has two votes.
fn two_votes<I: Asked>(check: &mut Check, met: &mut Met) -> (Trial<I>, Query) {
    let [one, other] = [I::FEW[0], I::FEW[2]];
    let hash = |key: u32, times: &[u32]| [&[key], times].concat();
    let mut trial = Trial::<I>::empty(Sizes::new(3, 8, 2));
    for id in 0..2 {
        let hashes = [hash(5, one), hash(6 + id, other)].concat();
        trial.expect(check, met, insert(hashes), stored(id));
    }
    let query = query(hash(5, one), 0).with_room::<I>(&mut check.rng, 2);
    (trial, query)
}

/// Faults of every choice in one call: the first number is returned.
fn order_of_refusals<I: Asked>(check: &mut Check) {
    let met = &mut Met::default();
    let (trial, sound) = two_votes::<I>(check, met);
    for faults in 0..1 << 7 {
        let is = |fault: u32| faults >> fault & 1 == 1;
        let mut store = trial.store().clone();
        let mut query = sound.clone();
        if is(0) {
            store.refs.push(0);
        }
        if is(1) {
            query.scratch += 1;
        }
        if is(2) {
            // An unused vacant entry.
            store.refs[HEADER + ROW + 3] = 1;
        }
        if is(3) {
            query.hashes.push(0);
        }
        if is(4) {
            query.settings.tolerance = 65_536;
        }
        if is(5) {
            query.set = 256;
        }
        if is(6) {
            query.scratch -= I::VOTE;
        }
        const NUMBERS: [u64; 7] = [1, 1, 2, 3, 4, 9, 8];
        let first = (0..).zip(NUMBERS).find(|&(fault, _)| is(fault));
        let mut damaged = Trial::<I>::new(store);
        let given = damaged.call(check, met, Call::Query(query));
        match first {
            Some((_, number)) => assert_eq!(given, refused(number)),
            None => assert_eq!(given[..2], [4, 0]),
        }
    }
    met.expect(&[1, 2, 3, 4, 8, 9]);
}

/// Scratch of every length up to three votes, and about the greatest.
fn scratch_lengths<I: Asked>(check: &mut Check) {
    let met = &mut Met::default();
    let (mut trial, query) = two_votes::<I>(check, met);
    let most = I::VOTE * VOTES;
    let ends = [
        most - I::VOTE,
        most - 1,
        most,
        most + 1,
        most + I::VOTE,
        2 * most,
    ];
    for scratch in (0..=3 * I::VOTE + 1).chain(ends) {
        let (whole, votes) = (scratch % I::VOTE == 0, scratch / I::VOTE);
        for absent in [false, true] {
            let mut query = query.clone();
            (query.scratch, query.fill) = (scratch, check.rng.next());
            if absent {
                query.hashes[0] = 99;
            }
            let known = match (whole && votes <= VOTES, absent) {
                (false, _) => refused(1),
                (true, true) => answer([5]),
                (true, false) if votes < 2 => refused(8),
                (true, false) => trial.call(check, met, Call::Query(query.clone())),
            };
            trial.expect(check, met, Call::Query(query), known);
        }
    }
    met.expect(&[1, 8]);
}

// ---- examples

/// A best answer: id, votes, score, prominence, frames, milliseconds, at a
/// time scale of 1.
fn best(id: u64, votes: u64, floats: [f32; 2], times: [i64; 2]) -> Answer {
    let ([score, prominence], [frames, ms]) = (floats.map(word32), times.map(|time| time as u64));
    [4, id, votes, score, prominence, frames, ms, word32(1.0)]
}

/// Queries whose answers are worked out by hand.
fn examples<I: Asked>(check: &mut Check) {
    let met = &mut Met::default();
    // Key and anchor; a Panako span is 40 everywhere, in a grid of one bin
    // whose middle is 1.
    let hashes = |list: &[[u32; 2]]| -> Vec<u32> {
        let hash = |&[key, t]: &[u32; 2]| [key, t, t, t + 40].into_iter().take(I::HASH);
        list.iter().flat_map(hash).collect()
    };
    let ask = |list: &[[u32; 2]], tolerance: u32, gates: [u32; 3]| {
        let mut query = query(hashes(list), tolerance);
        let settings = &mut query.settings;
        (settings.scale_min, settings.scale_max) = (0.5_f32.to_bits(), 1.5_f32.to_bits());
        settings.scale_bins = 1;
        [
            settings.min_votes,
            settings.min_score,
            settings.min_prominence,
        ] = gates;
        Call::Query(query.with_room::<I>(&mut Rng(1), 40))
    };
    let open = [0, OPEN.min_score, OPEN.min_prominence];
    let none = answer([5]);

    // The card of "The program sheet".
    let mut trial = Trial::<I>::empty(Sizes::new(4, 16, 4));
    trial.expect(check, met, insert(hashes(&[[7, 4], [9, 6]])), stored(0));
    let gates = [2, 0.5_f32.to_bits(), 2_f32.to_bits()];
    let heard = ask(&[[7, 1], [9, 3]], 0, gates);
    let known = best(0, 2, [1.0, 2.0], [3, 48]);
    trial.expect(check, met, heard.clone(), known);
    for gates in [
        [3, 0.5_f32.to_bits(), 2_f32.to_bits()],
        [2, 1_f32.next_up().to_bits(), 2_f32.to_bits()],
        [2, 0.5_f32.to_bits(), 2_f32.next_up().to_bits()],
        [2, f32::NAN.to_bits(), 2_f32.to_bits()],
        [2, 0.5_f32.to_bits(), f32::NAN.to_bits()],
    ] {
        trial.expect(check, met, ask(&[[7, 1], [9, 3]], 0, gates), none);
    }
    // "Tolerance 65,535 passes; 65,536 is refused 4."
    let wide = trial.call(check, met, ask(&[[7, 1], [9, 3]], 65_535, open));
    assert_eq!(wide[..4], [4, 0, 2, word32(1.0)]);
    let beyond = ask(&[[7, 1], [9, 3]], 65_536, open);
    trial.expect(check, met, beyond, refused(4));

    // Alike: the lower id, also where it came later.
    trial.expect(check, met, insert(hashes(&[[7, 4], [9, 6]])), stored(1));
    trial.expect(check, met, heard.clone(), known);
    trial.expect(check, met, Call::Remove { id: 0 }, removed(true));
    let other = best(1, 2, [1.0, 2.0], [3, 48]);
    trial.expect(check, met, heard.clone(), other);
    trial.expect(check, met, insert(hashes(&[[7, 4], [9, 6]])), stored(0));
    trial.expect(check, met, heard.clone(), known);

    // A higher id with the same score and the higher prominence: one vote
    // more lies off the peak.
    trial.expect(check, met, Call::Remove { id: 0 }, removed(true));
    let blurred = insert(hashes(&[[7, 4], [9, 6], [7, 900]]));
    trial.expect(check, met, blurred, stored(0));
    trial.expect(check, met, heard.clone(), other);
    for id in [0, 1] {
        trial.expect(check, met, Call::Remove { id }, removed(true));
    }
    trial.expect(check, met, heard, none);

    // One hash of the query with two votes, and one with none. Wang scores
    // positions, Panako votes.
    let mut trial = Trial::<I>::empty(Sizes::new(4, 16, 4));
    trial.expect(check, met, insert(hashes(&[[7, 4], [7, 4]])), stored(0));
    let score = if I::HAS_R_MAX { 0.5 } else { 1.0 };
    let known = best(0, 2, [score, 2.0], [4, 64]);
    trial.expect(check, met, ask(&[[7, 0], [8, 0]], 0, open), known);
    // A query begins before the recording: "−1 frame is −1 ms" at 2,000.
    let mut early = ask(&[[7, 5]], 0, open);
    let known = best(0, 2, [1.0, 2.0], [-1, -16]);
    trial.expect(check, met, early.clone(), known);
    if let Call::Query(query) = &mut early {
        query.rate = 62.4_f32.to_bits();
    }
    trial.expect(check, met, early, none);
    // Offsets 3 and 6 have a vote each: within 3 of the centres 3 to 6 lie
    // both, and their mean is rounded to the lower.
    let mut trial = Trial::<I>::empty(Sizes::new(4, 16, 4));
    trial.expect(check, met, insert(hashes(&[[7, 3], [7, 6]])), stored(0));
    let split = trial.call(check, met, ask(&[[7, 0]], 3, open));
    assert_eq!(split[..4], [4, 0, 2, word32(1.0)]);
    assert_eq!(split[5], 4);
    // No hashes, or none that is stored.
    trial.expect(check, met, ask(&[], 0, open), none);
    trial.expect(check, met, ask(&[[8, 0]], 0, open), none);
}

/// The comparison itself: a change of any one word is seen, after a best
/// answer, none and a refusal.
fn changed_words<I: Asked>(check: &mut Check) {
    let met = &mut Met::default();
    let (mut trial, query) = two_votes::<I>(check, met);
    for case in [4, 5, 6] {
        let mut query = query.clone();
        match case {
            4 => {}
            5 => query.hashes[0] = 99,
            _ => query.settings.tolerance = 65_536,
        }
        let given = trial.call(check, met, Call::Query(query));
        assert_eq!(given[0], case);
        check.holds(trial.sees_changes(&given), || {
            String::from("  a change is not seen\n")
        });
    }
}
