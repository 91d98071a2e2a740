//! Lists of calls on lent stores of every size: random ones, and document
//! 01's examples.

use crate::account::{Call, HASHES, Query, built, counted, refused, removed, stored};
use crate::capi::Answer;
use crate::harness::{Check, Rng, Run};
use crate::store::{HEADER, Index, Panako, ROW, Sizes, Store, Wang};
use crate::trial::{Met, Trial};

pub fn run(run: &mut Run) {
    run.check("wang_index, examples", examples::<Wang>);
    run.check("panako_index, examples", examples::<Panako>);
    run.check("wang_index, order of refusals", order_of_refusals::<Wang>);
    run.check(
        "panako_index, order of refusals",
        order_of_refusals::<Panako>,
    );
    run.check("wang_index, slice lengths", slice_lengths::<Wang>);
    run.check("panako_index, slice lengths", slice_lengths::<Panako>);
    run.check("wang_index, small stores", small_stores::<Wang>);
    run.check("panako_index, small stores", small_stores::<Panako>);
    run.check("wang_index, spread keys", spread_keys::<Wang>);
    run.check("panako_index, spread keys", spread_keys::<Panako>);
    run.check("wang_index, largest stores", largest_stores::<Wang>);
    run.check("panako_index, largest stores", largest_stores::<Panako>);
}

/// The rate of the reference's extractors.
pub const RATE: u32 = 0x427A_0000;

/// Sets that recordings are stored under, and such as are refused.
pub const SETS: [u32; 3] = [1, 2, 255];
pub const NO_SETS: [u32; 3] = [0, 256, u32::MAX];

/// The word of a rate: zeros, infinities and NaNs of either sign, with and
/// without payload, as often as others.
pub fn some_rate(rng: &mut Rng) -> u32 {
    const SPECIAL: [u32; 14] = [
        0,
        0x8000_0000,
        1,
        0x7F7F_FFFF,
        0x7F80_0000,
        0xFF80_0000,
        0x7FC0_0000,
        0xFFC0_0000,
        0x7F80_0001,
        0xFF80_0001,
        0x7FA5_5A5A,
        0x7FC0_0001,
        0x7FFF_FFFF,
        0xFFFF_FFFF,
    ];
    match rng.below(4) {
        0 => RATE,
        1 => rng.float32(),
        _ => rng.pick(&SPECIAL),
    }
}

/// An anchor or another time.
fn some_time(rng: &mut Rng) -> u32 {
    match rng.below(8) {
        0 => rng.pick(&[0, u32::MAX - 1, u32::MAX]),
        1 => rng.sized(32) as u32,
        _ => rng.below(8) as u32,
    }
}

fn some_limit(rng: &mut Rng) -> u32 {
    rng.pick(&[0, 1, 1, 2, 2, 3, 5, 100, u32::MAX - 1, u32::MAX])
}

/// `count` hashes with keys of `keys`.
pub fn some_hashes<I: Index>(rng: &mut Rng, count: usize, keys: &[u32]) -> Vec<u32> {
    Source::any(Sizes::MOST, keys, 0).hashes::<I>(rng, count)
}

/// A sound store of any content.
pub fn some_store<I: Index>(rng: &mut Rng, sizes: Sizes, keys: &[u32]) -> Store {
    Source::any(sizes, keys, 0).store::<I>(rng)
}

/// Words of every kind, seldom a sound store.
fn noise<I: Index>(rng: &mut Rng, sizes: Sizes) -> Store {
    let mut store = Store::zeroed::<I>(sizes);
    for word in store.lend().into_iter().flatten() {
        *word = match rng.below(3) {
            0 => rng.next() as u32,
            1 => rng.below(4) as u32,
            _ => 0,
        };
    }
    store
}

/// What random calls are made of.
pub struct Source<'a> {
    pub sizes: Sizes,
    pub keys: &'a [u32],
    /// Times of hashes and rates to pick from; of every kind, if none.
    pub times: &'a [u32],
    pub rates: &'a [u32],
    /// Sets that recordings are stored under.
    pub sets: &'a [u32],
    /// Sets that queries name; of every kind, if none.
    pub asked: &'a [u32],
    /// The limit of every call, or one for each.
    pub limit: Option<u32>,
    /// Hashes of a call, but for those that fill the store.
    pub most: u64,
}

impl<'a> Source<'a> {
    /// Times, rates and limits of every kind.
    pub fn any(sizes: Sizes, keys: &'a [u32], most: u64) -> Self {
        Self {
            sizes,
            keys,
            times: &[],
            rates: &[],
            sets: &SETS,
            asked: &[],
            limit: None,
            most,
        }
    }

    pub fn time(&self, rng: &mut Rng) -> u32 {
        match self.times {
            [] => some_time(rng),
            times => rng.pick(times),
        }
    }

    pub fn rate(&self, rng: &mut Rng) -> u32 {
        match self.rates {
            [] => some_rate(rng),
            rates => rng.pick(rates),
        }
    }

    /// The times of a hash; those of a Panako hash mostly ascend.
    pub fn times<I: Index>(&self, rng: &mut Rng) -> Vec<u32> {
        let mut times: Vec<u32> = (1..I::HASH).map(|_| self.time(rng)).collect();
        if rng.below(4) > 0 {
            times.sort_unstable();
        }
        times
    }

    pub fn hashes<I: Index>(&self, rng: &mut Rng, count: usize) -> Vec<u32> {
        let mut hashes = Vec::with_capacity(I::HASH * count);
        for _ in 0..count {
            hashes.push(rng.pick(self.keys));
            hashes.extend(self.times::<I>(rng));
        }
        hashes
    }

    /// A set to store under, seldom one that is refused.
    fn set(&self, rng: &mut Rng) -> u32 {
        match rng.below(32) {
            0 => rng.pick(&NO_SETS),
            _ => rng.pick(self.sets),
        }
    }

    /// Sets for so many recordings; now and then one is refused, or they are
    /// too few or too many.
    fn sets(&self, rng: &mut Rng, refs: usize) -> Vec<u32> {
        let mut sets: Vec<u32> = (0..refs).map(|_| rng.pick(self.sets)).collect();
        while rng.below(8) == 0 {
            match rng.below(4) {
                0 => drop(sets.pop()),
                1 => sets.push(self.set(rng)),
                _ if sets.is_empty() => {}
                _ => {
                    let place = rng.below(sets.len() as u64) as usize;
                    sets[place] = rng.pick(&NO_SETS);
                }
            }
        }
        sets
    }

    /// A set to ask for: all, one that may be stored, or one that isn't; seldom
    /// one that is refused.
    pub fn asked(&self, rng: &mut Rng) -> u32 {
        match (self.asked, rng.below(32)) {
            ([], 0) => rng.pick(&[256, u32::MAX]),
            ([], 1..3) => rng.pick(&[3, 254]),
            ([], 3..14) => 0,
            ([], _) => rng.pick(self.sets),
            (asked, _) => rng.pick(asked),
        }
    }

    pub fn limit(&self, rng: &mut Rng) -> u32 {
        self.limit.unwrap_or_else(|| some_limit(rng))
    }

    /// How many hashes: few, or as many as there is room for, or one more.
    fn count(&self, rng: &mut Rng, room: usize) -> usize {
        let room = room.min(HASHES);
        match rng.below(8) {
            0 => room,
            1 => room + 1,
            _ => rng.below(self.most + 1) as usize,
        }
    }

    /// Any call but a query.
    pub fn call<I: Index>(&self, rng: &mut Rng, store: &Store) -> Call {
        let p = store.header()[2];
        match rng.below(16) {
            0 => Call::LiveCount,
            1..4 => Call::Remove {
                id: self.id(rng, store),
            },
            4..7 => self.replace::<I>(rng, store),
            7..9 => self.build::<I>(rng),
            _ => self.insert::<I>(rng, p as usize),
        }
    }

    /// An id that was given, or the next one; now and then one that can't be.
    fn id(&self, rng: &mut Rng, store: &Store) -> u32 {
        let n = store.header()[0];
        match rng.below(8) {
            0 => rng.pick(&[n, self.sizes.rows as u32, 4096, 1 << 31, u32::MAX]),
            _ => rng.below(u64::from(n) + 1) as u32,
        }
    }

    /// An insertion into a store of `p` postings.
    pub fn insert<I: Index>(&self, rng: &mut Rng, p: usize) -> Call {
        Call::Insert {
            hashes: self.take::<I>(rng, p),
            rate: self.rate(rng),
            limit: self.limit(rng),
            set: self.set(rng),
        }
    }

    /// A replacement in this store.
    pub fn replace<I: Index>(&self, rng: &mut Rng, store: &Store) -> Call {
        let id = self.id(rng, store);
        let p = store.header()[2] as usize;
        Call::Replace {
            id,
            hashes: self.take::<I>(rng, p.saturating_sub(store.held_by::<I>(id))),
            rate: self.rate(rng),
            limit: self.limit(rng),
        }
    }

    /// Hashes to be stored beside `p` postings, now and then not whole.
    fn take<I: Index>(&self, rng: &mut Rng, p: usize) -> Vec<u32> {
        let room = self.sizes.postings.saturating_sub(p);
        let count = self.count(rng, room);
        let mut hashes = self.hashes::<I>(rng, count);
        if rng.below(24) == 0 {
            let odd = 1 + rng.below(I::HASH as u64) as usize;
            hashes.truncate(hashes.len().saturating_sub(odd));
        }
        hashes
    }

    pub fn build<I: Index>(&self, rng: &mut Rng) -> Call {
        let rows = self.sizes.rows as u64;
        let refs = match rng.below(8) {
            0 => rows,
            1 => rows + 1,
            _ => 1 + rng.below(rows),
        };
        let count = self.count(rng, self.sizes.postings);
        let mut hashes = self.hashes::<I>(rng, count);
        let mut lengths = vec![0_u32; refs as usize];
        for _ in 0..count {
            let most = 1 + rng.below(refs);
            lengths[rng.below(most) as usize] += 1;
        }
        let mut rates: Vec<u32> = lengths.iter().map(|_| self.rate(rng)).collect();
        if rng.below(3) == 0 {
            spoil(rng, &mut hashes, &mut lengths, &mut rates);
        }
        Call::Build {
            sets: self.sets(rng, lengths.len()),
            hashes,
            lengths,
            rates,
            limit: self.limit(rng),
        }
    }

    /// An empty store, a sound one, or noise.
    pub fn start<I: Index>(&self, rng: &mut Rng) -> Store {
        match rng.below(8) {
            0 => noise::<I>(rng, self.sizes),
            1..4 => Store::zeroed::<I>(self.sizes),
            _ => self.store::<I>(rng),
        }
    }

    fn list<I: Index>(&self, check: &mut Check, met: &mut Met, calls: usize) {
        let mut trial = Trial::<I>::new(self.start::<I>(&mut check.rng));
        for _ in 0..calls {
            let call = match trial.is_sound() {
                // Only a build is of use there.
                false if check.rng.below(2) == 0 => self.build::<I>(&mut check.rng),
                _ => self.call::<I>(&mut check.rng, trial.store()),
            };
            trial.call(check, met, call);
        }
    }
}

/// Puts a fault into what a build is given.
fn spoil(rng: &mut Rng, hashes: &mut Vec<u32>, lengths: &mut Vec<u32>, rates: &mut Vec<u32>) {
    let [a, b] = [(); 2].map(|()| rng.below(lengths.len() as u64) as usize);
    match rng.below(8) {
        0 => hashes.push(7),
        1 => hashes.truncate(hashes.len().saturating_sub(1)),
        2 => lengths[a] = lengths[a].wrapping_sub(1),
        3 => lengths[a] = rng.pick(&[8193, 1 << 31, u32::MAX]),
        // The sum is right but for a carry beyond 32 bits.
        4 => {
            let size = rng.sized(32) as u32;
            lengths[a] = lengths[a].wrapping_add(size);
            lengths[b] = lengths[b].wrapping_sub(size);
        }
        5 => rates.truncate(a),
        6 => rates.push(RATE),
        _ => lengths.push(0),
    }
}

fn small_stores<I: Index>(check: &mut Check) {
    let mut met = Met::default();
    // Few keys, so that many are stopped and stores are full.
    const KEYS: [u32; 6] = [5, 0, u32::MAX, 6, 1 << 31, 4];
    for _ in check.times(120) {
        for rows in 1..=4 {
            for postings in 1..=8 {
                for stopped in 1..=4 {
                    let rng = &mut check.rng;
                    let sizes = Sizes::new(rows, postings, stopped);
                    let keys = &KEYS[..1 + rng.below(6) as usize];
                    let source = Source {
                        limit: (rng.below(2) == 0).then(|| some_limit(rng)),
                        ..Source::any(sizes, keys, 4)
                    };
                    source.list::<I>(check, &mut met, 24);
                }
            }
        }
    }
    for _ in check.times(800) {
        let rng = &mut check.rng;
        let mut size = |most: u64| 1 + rng.below(most) as usize;
        let sizes = Sizes::new(size(12), size(200), size(30));
        let keys: Vec<u32> = (0..size(100)).map(|_| rng.sized(32) as u32).collect();
        let source = Source {
            limit: (rng.below(2) == 0).then(|| some_limit(rng)),
            ..Source::any(sizes, &keys, 20)
        };
        source.list::<I>(check, &mut met, 60);
    }
    met.expect(&[2, 3, 5, 6, 7, 9, 10]);
}

/// Keys spread in many ways over 32 bits, and many hashes of one key.
fn some_keys(rng: &mut Rng, count: usize) -> Vec<u32> {
    let many = count as u64;
    let first = rng.next() as u32;
    let key = |rng: &mut Rng, way: u64| -> u32 {
        match way {
            0 => rng.next() as u32,
            1 => rng.sized(32) as u32,
            2 => u32::MAX - rng.sized(32) as u32,
            3 => rng.below(many) as u32,
            4 => u32::MAX - rng.below(many) as u32,
            5 => first.wrapping_add(rng.below(many) as u32),
            6 => first,
            7 => first.wrapping_add(rng.below(2) as u32),
            8 => rng.pick(&[0, 1, 1 << 31, u32::MAX]),
            9 => (rng.next() >> 32) as u32 & 0xFFFF_0000,
            _ => (rng.next() >> 42) as u32,
        }
    };
    // One way, or two of them mixed.
    let ways = [(); 2].map(|()| rng.below(11));
    let share = rng.pick(&[0, 1, 1, 2]);
    (0..count)
        .map(|_| {
            let way = ways[usize::from(rng.below(2) < share)];
            key(rng, way)
        })
        .collect()
}

fn spread_keys<I: Index>(check: &mut Check) {
    let mut met = Met::default();
    for _ in check.times(60) {
        let rng = &mut check.rng;
        let most = rng.pick(&[2000, 8192, 20_000, 60_000]);
        let count = 1 + rng.below(most) as usize;
        let keys = some_keys(rng, count);
        let limit = rng.pick(&[0, 1, 2, 100, count as u32 - 1, count as u32, u32::MAX]);
        let refs = count.div_ceil(HASHES) + rng.below(200) as usize;
        let stopped = match rng.below(3) {
            0 => 1 + rng.below(100) as usize,
            _ => Sizes::MOST.stopped,
        };
        let room = rng.below(2 * HASHES as u64) as usize;
        let sizes = Sizes::new(refs + 2, count + room, stopped);
        let mut hashes = some_hashes::<I>(rng, count, &[0]);
        for (hash, &key) in hashes.chunks_exact_mut(I::HASH).zip(&keys) {
            hash[0] = key;
        }
        let lengths = some_lengths(rng, count, refs);
        let rates = (0..refs).map(|_| some_rate(rng)).collect();
        let sets = (0..refs).map(|_| rng.pick(&SETS)).collect();
        let mut trial = Trial::<I>::new(noise::<I>(rng, sizes));
        let build = Call::Build {
            hashes,
            lengths,
            rates,
            limit,
            sets,
        };
        trial.call(check, &mut met, build);
        (0..4).for_each(|_| stored_again(check, &mut met, &mut trial, &keys, limit));
    }
    met.expect(&[7]);
}

/// A recording goes, and another comes, by this limit or another: in two calls
/// or in one.
fn stored_again<I: Index>(
    check: &mut Check,
    met: &mut Met,
    trial: &mut Trial<I>,
    keys: &[u32],
    limit: u32,
) {
    let rng = &mut check.rng;
    let refs = u64::from(trial.store().header()[0]);
    let id = rng.below(refs.max(1)) as u32;
    let count = rng.below(HASHES as u64 + 1) as usize;
    let (hashes, rate) = (some_hashes::<I>(rng, count, keys), some_rate(rng));
    let limit = rng.pick(&[limit, limit, 0, 1, 50]);
    if rng.below(3) == 0 {
        let replace = Call::Replace {
            id,
            hashes,
            rate,
            limit,
        };
        trial.call(check, met, replace);
        return;
    }
    let insert = Call::Insert {
        hashes,
        rate,
        limit,
        set: rng.pick(&SETS),
    };
    trial.call(check, met, Call::Remove { id });
    trial.call(check, met, insert);
}

/// `refs` lengths, none above 8,192, that add up to `count`.
fn some_lengths(rng: &mut Rng, count: usize, refs: usize) -> Vec<u32> {
    let mut rest = count;
    let lengths = (0..refs).rev().map(|after| {
        let least = rest.saturating_sub(after * HASHES);
        let most = rest.min(HASHES);
        let even = rest.div_ceil(after + 1).clamp(least, most);
        let length = match rng.below(4) {
            0 => least + rng.below((most - least) as u64 + 1) as usize,
            1 => least,
            _ => even,
        };
        let length = if after == 0 { rest } else { length };
        rest -= length;
        length as u32
    });
    lengths.collect()
}

// ---- slice lengths

fn slice_lengths<I: Index>(check: &mut Check) {
    let mut met = Met::default();
    let most = Sizes::MOST;
    let around = |length: usize| length - 1..=length + ROW.max(I::WIDTH);
    let small = [0..=HEADER + 3 * ROW + 1, 0..=3 * I::WIDTH + 1, 0..=3];
    for refs in small[0].clone() {
        for postings in small[1].clone() {
            for stopped in small[2].clone() {
                at_lengths::<I>(check, &mut met, [refs, postings, stopped]);
            }
        }
    }
    // The ends of each, beside good and bad lengths of the others.
    let one = [HEADER + ROW, I::WIDTH, 1];
    let ends = [
        HEADER + ROW * most.rows,
        I::WIDTH * most.postings,
        most.stopped,
    ];
    for slice in 0..3 {
        for length in around(ends[slice]).chain([3 * ends[slice] / 2]) {
            for other in 0..3 {
                for bad in 0..2 {
                    let mut lengths = one;
                    lengths[other] -= bad;
                    lengths[slice] = length;
                    at_lengths::<I>(check, &mut met, lengths);
                }
            }
        }
    }
    met.expect(&[1]);
}

/// Each call, good or with faults of its own, on slices of these lengths.
fn at_lengths<I: Index>(check: &mut Check, met: &mut Met, lengths: [usize; 3]) {
    let [refs, postings, stopped] = lengths.map(|length| vec![0; length]);
    let mut store = Store {
        refs,
        postings,
        stopped,
    };
    if check.rng.below(2) == 0 {
        for word in store.lend().into_iter().flatten().take(40) {
            *word = check.rng.below(3) as u32;
        }
    }
    let mut trial = Trial::<I>::new(store);
    let ways = 5 + u32::from(I::ENTRIES.query.is_some());
    for way in 0..ways {
        let call = some_way::<I>(&mut check.rng, way);
        trial.call(check, met, call);
    }
}

/// The call of that number, good or with faults.
fn some_way<I: Index>(rng: &mut Rng, way: u32) -> Call {
    let odd = rng.below(2) as usize;
    let hashes = vec![1; I::HASH + odd];
    let (rate, limit) = (some_rate(rng), some_limit(rng));
    let set = rng.pick(&[1, 255, 0, 256]);
    match way {
        0 => Call::LiveCount,
        1 => Call::Remove { id: 0 },
        2 => Call::Insert {
            hashes,
            rate,
            limit,
            set,
        },
        3 => Call::Build {
            hashes,
            lengths: vec![1],
            rates: vec![rate],
            limit,
            sets: vec![set; rng.pick(&[1, 1, 0, 2])],
        },
        4 => Call::Replace {
            id: 0,
            hashes,
            rate,
            limit,
        },
        _ => Call::Query(Query {
            hashes,
            rate,
            settings: I::settings(&I::Config::default()),
            set,
            scratch: rng.pick(&[0, 1, I::VOTE, 2 * I::VOTE, I::VOTE + 1]),
            fill: rng.next(),
        }),
    }
}

// ---- the largest stores

/// Of a recording under set 1.
pub fn insert(hashes: Vec<u32>, limit: u32) -> Call {
    insert_in(hashes, limit, 1)
}

pub fn insert_in(hashes: Vec<u32>, limit: u32, set: u32) -> Call {
    Call::Insert {
        hashes,
        rate: RATE,
        limit,
        set,
    }
}

pub fn replace(id: u32, hashes: Vec<u32>, limit: u32) -> Call {
    Call::Replace {
        id,
        hashes,
        rate: RATE,
        limit,
    }
}

/// One recording for each of `lengths`, all under set 1.
pub fn build(hashes: Vec<u32>, lengths: Vec<u32>, limit: u32) -> Call {
    let sets = vec![1; lengths.len()];
    build_in(hashes, lengths, limit, sets)
}

pub fn build_in(hashes: Vec<u32>, lengths: Vec<u32>, limit: u32, sets: Vec<u32>) -> Call {
    Call::Build {
        rates: vec![RATE; lengths.len()],
        hashes,
        lengths,
        limit,
        sets,
    }
}

/// A hash for each key.
pub fn hashes_of<I: Index>(keys: impl IntoIterator<Item = u32>) -> Vec<u32> {
    let hash = |key| (0..I::HASH as u32).map(move |word| if word == 0 { key } else { word });
    keys.into_iter().flat_map(hash).collect()
}

fn largest_stores<I: Index>(check: &mut Check) {
    let mut met = Met::default();
    let most = Sizes::MOST;
    // Each size at either end.
    for ends in 0..8 {
        let end = |bit: usize, most: usize| if ends >> bit & 1 == 0 { 1 } else { most };
        let sizes = Sizes::new(
            end(0, most.rows),
            end(1, most.postings),
            end(2, most.stopped),
        );
        let source = Source::any(sizes, &[7, 8, u32::MAX], 3);
        let calls = if sizes.postings == 1 { 30 } else { 6 };
        source.list::<I>(check, &mut met, calls);
    }
    all_postings::<I>(check, &mut met);
    all_stopped::<I>(check, &mut met);
    all_rows::<I>(check, &mut met);
    many_lengths::<I>(check, &mut met);
}

/// P hashes are stored, P + 1 are not.
fn all_postings<I: Index>(check: &mut Check, met: &mut Met) {
    let most = Sizes::MOST;
    let full = most.postings / HASHES;
    let keys: Vec<u32> = (0..most.postings)
        .map(|_| check.rng.below(1 << 22) as u32)
        .collect();
    let hashes = some_hashes::<I>(&mut check.rng, most.postings, &keys);
    let mut lengths = vec![HASHES as u32; full];
    let mut trial = Trial::<I>::new(noise::<I>(&mut check.rng, most));
    let known = built();
    trial.expect(
        check,
        met,
        build(hashes.clone(), lengths.clone(), u32::MAX),
        known,
    );
    let one = vec![3; I::HASH];
    trial.expect(check, met, insert(one.clone(), 100), refused(6));
    trial.expect(check, met, insert(Vec::new(), 100), stored(full as u32));
    trial.expect(check, met, Call::Remove { id: 5 }, removed(true));
    let again = hashes[..I::HASH * HASHES].to_vec();
    let more = [&again[..], &one[..]].concat();
    trial.expect(check, met, insert(more, 100), refused(3));
    trial.expect(check, met, insert(again.clone(), u32::MAX), stored(5));
    trial.expect(check, met, insert(one.clone(), 100), refused(6));
    // So are they in place of others, as many as go.
    trial.expect(check, met, replace(7, again, u32::MAX), stored(7));
    let empty = replace(full as u32, one.clone(), 100);
    trial.expect(check, met, empty, refused(6));
    trial.expect(check, met, Call::LiveCount, counted(full + 1));
    // One hash more, as one more recording.
    lengths.push(1);
    let hashes = [&hashes[..], &one[..]].concat();
    trial.expect(check, met, build(hashes, lengths, 2), refused(6));
}

/// K keys are stopped, K + 1 are not.
fn all_stopped<I: Index>(check: &mut Check, met: &mut Met) {
    let sizes = Sizes::new(10, 2 * Sizes::MOST.stopped, Sizes::MOST.stopped);
    let key = |i: usize| (i as u32).wrapping_mul(0x9E37_79B1);
    let keys = |from: usize, count: usize| hashes_of::<I>((from..from + count).map(key));
    let lengths = vec![HASHES as u32; 8];
    let mut trial = Trial::<I>::empty(sizes);
    let all = build(keys(0, 8 * HASHES), lengths.clone(), 0);
    trial.expect(check, met, all, built());
    trial.expect(check, met, insert(keys(7, HASHES), 0), stored(8));
    trial.expect(check, met, insert(keys(8 * HASHES, 1), 0), refused(7));
    trial.expect(check, met, replace(2, keys(8 * HASHES, 1), 0), refused(7));
    trial.expect(check, met, insert(keys(8 * HASHES, 1), 1), stored(9));
    let lengths = [&lengths[..], &[1]].concat();
    let too_many = build(keys(0, 8 * HASHES + 1), lengths.clone(), 0);
    trial.expect(check, met, too_many, refused(7));
    let kept = build(keys(0, 8 * HASHES + 1), lengths, 1);
    trial.expect(check, met, kept, built());
    let mut trial = Trial::<I>::empty(sizes);
    for id in 0..8 {
        let part = keys(id as usize * HASHES, HASHES);
        trial.expect(check, met, insert(part, 0), stored(id));
    }
    trial.expect(check, met, insert(keys(8 * HASHES, 1), 0), refused(7));
}

/// R recordings are stored, R + 1 are not; all ids are used again.
fn all_rows<I: Index>(check: &mut Check, met: &mut Met) {
    let rows = Sizes::MOST.rows;
    let sizes = Sizes::new(rows, 2 * rows + 1, 10);
    let keys: Vec<u32> = (0..500).collect();
    let hashes = some_hashes::<I>(&mut check.rng, 2 * rows, &keys);
    let mut trial = Trial::<I>::empty(sizes);
    let more = build(hashes.clone(), [vec![2; rows], vec![0]].concat(), 100);
    trial.expect(check, met, more, refused(5));
    trial.expect(check, met, build(hashes, vec![2; rows], 100), built());
    let two = hashes_of::<I>([1, 501]);
    trial.expect(check, met, insert(two.clone(), 100), refused(5));
    for id in [0, rows as u32 - 1] {
        let call = replace(id, two.clone(), u32::MAX);
        trial.expect(check, met, call, stored(id));
    }
    let step = 1 + 2 * check.rng.below(rows as u64 / 2) as usize;
    let ids: Vec<u32> = (0..rows).map(|i| (i * step % rows) as u32).collect();
    let turns = check.times(300).end.min(rows as u64) as usize;
    for &id in &ids[..turns] {
        trial.expect(check, met, Call::Remove { id }, removed(true));
        trial.expect(check, met, Call::Remove { id }, removed(false));
        trial.expect(check, met, replace(id, two.clone(), 100), refused(10));
    }
    for &id in ids[..turns].iter().rev() {
        trial.expect(check, met, insert(two.clone(), u32::MAX), stored(id));
    }
    trial.expect(check, met, insert(two, 100), refused(5));
}

/// Lengths whose sum is right but for a carry beyond 32 bits.
fn many_lengths<I: Index>(check: &mut Check, met: &mut Met) {
    let mut trial = Trial::<I>::empty(Sizes::new(4, 8, 4));
    let many = (1 << 32) / HASHES;
    let mut lengths = vec![HASHES as u32; many];
    trial.expect(
        check,
        met,
        build(Vec::new(), lengths.clone(), 1),
        refused(3),
    );
    lengths.push(3);
    let hashes = hashes_of::<I>([1, 2, 3]);
    trial.expect(check, met, build(hashes.clone(), lengths, 1), refused(3));
    for lengths in [
        vec![u32::MAX, 4],
        vec![4, u32::MAX],
        vec![1 << 31, 1 << 31, 3],
        vec![u32::MAX, u32::MAX, 5],
        vec![u32::MAX],
        vec![3, u32::MAX, 1],
    ] {
        trial.expect(check, met, build(hashes.clone(), lengths, 1), refused(3));
    }
    let none = build(Vec::new(), vec![0; many], 1);
    trial.expect(check, met, none, refused(5));
    trial.expect(check, met, build(hashes, vec![3], 1), built());
}

// ---- examples

/// Document 01's table, the rows about stores.
fn examples<I: Index>(check: &mut Check) {
    let met = &mut Met::default();
    let one = |key: u32| hashes_of::<I>([key]);
    let counts = |trial: &Trial<I>| trial.store().header();

    // "ids 0, 1, 2; remove 0, then 2; inserts get 2, 0, 3"
    let mut trial = Trial::<I>::empty(Sizes::new(4, 8, 4));
    for id in [0, 1, 2] {
        trial.expect(check, met, insert(one(id), 100), stored(id));
    }
    for id in [0, 2] {
        trial.expect(check, met, Call::Remove { id }, removed(true));
    }
    trial.expect(check, met, Call::LiveCount, counted(1));
    for id in [2, 0, 3] {
        trial.expect(check, met, insert(one(id), 100), stored(id));
    }
    trial.expect(check, met, Call::LiveCount, counted(4));
    trial.expect(check, met, insert(one(9), 100), refused(5));

    // "limit 2: two postings stay, a third stops the key"
    let mut trial = Trial::<I>::empty(Sizes::new(4, 8, 4));
    for (id, postings, stopped) in [(0, 1, 0), (1, 2, 0), (2, 0, 1), (3, 0, 1)] {
        trial.expect(check, met, insert(one(7), 2), stored(id));
        let known = [id + 1, 0, postings, stopped];
        check.holds(counts(&trial) == known, || String::from("  limit 2\n"));
    }
    for (count, known) in [(2, [1, 0, 2, 0]), (3, [1, 0, 0, 1])] {
        let hashes = hashes_of::<I>(vec![7; count as usize]);
        trial.expect(check, met, build(hashes, vec![count], 2), built());
        check.holds(counts(&trial) == known, || String::from("  limit 2\n"));
    }

    // "limit 0: one stops it"
    let mut trial = Trial::<I>::empty(Sizes::new(4, 8, 4));
    trial.expect(check, met, insert(one(7), 0), stored(0));
    check.holds(counts(&trial) == [1, 0, 0, 1], || {
        String::from("  limit 0\n")
    });
    trial.expect(check, met, build(one(7), vec![1], 0), built());
    check.holds(counts(&trial) == [1, 0, 0, 1], || {
        String::from("  limit 0\n")
    });

    // "p + m = P is stored; P + 1 is refused 6"
    let mut trial = Trial::<I>::empty(Sizes::new(4, 8, 4));
    trial.expect(check, met, insert(hashes_of::<I>(0..5), 100), stored(0));
    trial.expect(check, met, insert(hashes_of::<I>(0..4), 100), refused(6));
    trial.expect(check, met, insert(hashes_of::<I>(0..3), 100), stored(1));
    trial.expect(check, met, insert(one(0), 100), refused(6));
    let [eight, nine] = [8, 9].map(|count| hashes_of::<I>(0..count));
    trial.expect(check, met, build(nine, vec![9], 0), refused(6));
    trial.expect(check, met, build(eight, vec![8], 1), built());

    // "8,192 hashes stored; 8,193 refused 3"
    let most = HASHES as u32;
    let mut trial = Trial::<I>::empty(Sizes::new(4, 20_000, 4));
    let [full, more] = [most, most + 1].map(|count| hashes_of::<I>(0..count));
    trial.expect(check, met, insert(more.clone(), 100), refused(3));
    trial.expect(check, met, insert(full.clone(), 100), stored(0));
    trial.expect(check, met, insert(full.clone(), 100), stored(1));
    trial.expect(
        check,
        met,
        build(more.clone(), vec![most + 1], 100),
        refused(3),
    );
    trial.expect(check, met, build(more, vec![1, most], 100), built());
    trial.expect(check, met, build(full, vec![most], 100), built());
}

/// Faults of a call, a bit each by its number; 8 is a wrong number of sets,
/// which is refused with 3.
#[derive(Clone, Copy)]
struct Faults(u32);

impl Faults {
    fn is(self, number: u32) -> bool {
        self.0 >> number & 1 == 1
    }

    /// The number of the first of these that is there, or the answer.
    fn first(self, numbers: &[u32], answer: Answer) -> Answer {
        let first = numbers.iter().find(|&&number| self.is(number));
        first.map_or(answer, |&number| refused(number.into()))
    }

    fn set(self) -> u32 {
        if self.is(9) { 256 } else { 255 }
    }

    /// A row, or all; four postings or none; a stopped key or none.
    fn store<I: Index>(self, check: &mut Check, met: &mut Met) -> Store {
        let rows = 1 + usize::from(self.is(5));
        let lengths = [4 * u32::from(self.is(6)), 0];
        let hashes = hashes_of::<I>(vec![50; lengths[0] as usize]);
        let mut start = Trial::<I>::empty(Sizes::new(2, 4, 1));
        let first = build(hashes, lengths[..rows].to_vec(), 4);
        start.expect(check, met, first, built());
        let mut store = start.store().clone();
        if self.is(7) {
            (store.refs[3], store.stopped[0]) = (1, 99);
        }
        if self.is(2) {
            // An unused vacant entry.
            store.refs[HEADER + ROW + 3] = 1;
        }
        if self.is(1) {
            store.refs.push(0);
        }
        store
    }

    /// An insertion of one hash.
    fn insert<I: Index>(self) -> Call {
        let hashes = [hashes_of::<I>([60]), vec![0; self.is(3).into()]].concat();
        insert_in(hashes, 0, self.set())
    }

    /// A replacement of the first recording or of none, by five hashes or one.
    fn replace<I: Index>(self) -> Call {
        let keys = vec![60; if self.is(6) { 5 } else { 1 }];
        let hashes = [hashes_of::<I>(keys), vec![0; self.is(3).into()]].concat();
        replace(if self.is(10) { 2 } else { 0 }, hashes, 0)
    }

    /// Three references or one, five hashes or two, of two keys or one.
    fn build<I: Index>(self) -> Call {
        let count = 2 + 3 * u32::from(self.is(6));
        let keys = (0..count).map(|i| 70 + i * u32::from(self.is(7)) % 2);
        let refs = 1 + 2 * usize::from(self.is(5));
        let mut lengths = vec![0; refs];
        lengths[0] = count;
        let hashes = [hashes_of::<I>(keys), vec![0; self.is(3).into()]].concat();
        let sets = vec![self.set(); refs + usize::from(self.is(8))];
        build_in(hashes, lengths, 0, sets)
    }
}

/// Faults of every choice in one call: the first number is returned.
fn order_of_refusals<I: Index>(check: &mut Check) {
    let met = &mut Met::default();
    for faults in (0..1 << 11).map(Faults) {
        let store = faults.store::<I>(check, met);
        let rows = 1 + usize::from(faults.is(5));
        let calls = [
            (faults.insert::<I>(), &[1, 2, 3, 9, 5, 6, 7][..], stored(1)),
            (faults.replace::<I>(), &[1, 2, 3, 10, 6, 7], stored(0)),
            (Call::Remove { id: 0 }, &[1, 2], removed(true)),
            (Call::LiveCount, &[1, 2], counted(rows)),
        ];
        for (call, numbers, answer) in calls {
            let known = faults.first(numbers, answer);
            Trial::<I>::new(store.clone()).expect(check, met, call, known);
        }
        let known = match faults.is(8) && !faults.is(1) {
            true => refused(3),
            false => faults.first(&[1, 3, 9, 5, 6, 7], built()),
        };
        Trial::<I>::new(store).expect(check, met, faults.build::<I>(), known);
    }
    met.expect(&[1, 2, 3, 5, 6, 7, 9, 10]);
}
