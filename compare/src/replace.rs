//! Replacements beside the unchanged index, and beside a removal and an
//! insertion of the library itself.

use crate::account::{Call, HASHES, counted, refused, removed, stored};
use crate::calls::{RATE, Source, hashes_of, insert, insert_in, replace};
use crate::capi::Answer;
use crate::consolidate::digits;
use crate::harness::{Check, Rng, Run, answer};
use crate::queries::{Asked, hash, query};
use crate::store::{Content, HEADER, Index, Panako, Sizes, Store, Wang, write};
use crate::trial::{Met, Trial};
use std::collections::BTreeMap;

macro_rules! checks {
    ($run:ident, $index:ty, $name:literal) => {
        if <$index>::ENTRIES.query.is_some() {
            $run.check(concat!($name, ", examples"), examples::<$index>);
            $run.check(concat!($name, ", every small one"), every_small::<$index>);
            $run.check(concat!($name, ", histories"), histories::<$index>);
            $run.check(concat!($name, ", long takes"), long_takes::<$index>);
        }
    };
}

pub fn run(run: &mut Run) {
    checks!(run, Wang, "wang_index_replace");
    checks!(run, Panako, "panako_index_replace");
}

// ---- in two calls

/// A removal and an insertion of the library, on a store of its own: what a
/// replacement is to answer, and what it is to leave where it isn't refused.
fn in_two<I: Index>(mut store: Store, call: &Call) -> (Answer, Store) {
    let Call::Replace {
        id,
        hashes,
        rate,
        limit,
    } = call
    else {
        unreachable!("it is a replacement");
    };
    // What isn't live has no set: its insertion is refused with 9, where the
    // replacement is refused with 10.
    let set = store.sets().get(*id as usize).copied().unwrap_or(0);
    (I::ENTRIES.remove)(store.lend(), *id);
    let given = (I::ENTRIES.insert)(store.lend(), hashes, *rate, *limit, set);
    let given = match given == refused(9) {
        true => refused(10),
        false => given,
    };
    (given, store)
}

/// A replacement on both sides, and in two calls.
fn swap<I: Index>(check: &mut Check, met: &mut Met, trial: &mut Trial<I>, call: Call) -> Answer {
    let (known, left) = in_two::<I>(trial.store().clone(), &call);
    trial.expect(check, met, call, known);
    let is_left = known[0] == 6 || *trial.store() == left;
    check.holds(is_left, || format!("  in two calls {left:X?}\n"));
    known
}

// ---- examples

/// The store's header and sets are to be these.
fn has<I: Index>(check: &mut Check, trial: &Trial<I>, header: [u32; HEADER], sets: &[u32]) {
    let held = (trial.store().header(), trial.store().sets());
    check.holds(held == (header, sets.to_vec()), || {
        format!("  {held:?}, not {header:?} and {sets:?}\n")
    });
}

/// Answers and counts that are worked out by hand.
fn examples<I: Asked>(check: &mut Check) {
    let met = &mut Met::default();
    kept_places::<I>(check, met);
    room::<I>(check, met);
    stops::<I>(check, met);
    heard_takes::<I>(check, met);
}

/// "keeps the id and set", and no other id is vacated.
fn kept_places<I: Index>(check: &mut Check, met: &mut Met) {
    let one = |key: u32| hashes_of::<I>([key]);
    let mut trial = Trial::<I>::empty(Sizes::new(4, 8, 4));
    for (id, set) in [(0, 1), (1, 2), (2, 255), (3, 7)] {
        trial.expect(check, met, insert_in(one(id), 100, set), stored(id));
    }
    for id in [2, 0] {
        trial.expect(check, met, Call::Remove { id }, removed(true));
    }
    let two = hashes_of::<I>([8, 9]);
    trial.expect(check, met, replace(1, two.clone(), 100), stored(1));
    has(check, &trial, [4, 2, 3, 0], &[0, 2, 0, 7]);
    // "an id that isn't live": vacated, never given, out of range; after 3.
    for id in [0, 2, 4, 5, 4096, u32::MAX] {
        trial.expect(check, met, replace(id, two.clone(), 100), refused(10));
        trial.expect(check, met, replace(id, vec![7], 100), refused(3));
        let many = hashes_of::<I>(0..9);
        trial.expect(check, met, replace(id, many, 0), refused(10));
    }
    trial.expect(check, met, Call::LiveCount, counted(2));
    for id in [0, 2] {
        trial.expect(check, met, insert(one(id), 100), stored(id));
    }
    // No row is free, and none is needed.
    trial.expect(check, met, insert(one(9), 100), refused(5));
    trial.expect(check, met, replace(3, Vec::new(), 100), stored(3));
    has(check, &trial, [4, 0, 4, 0], &[1, 2, 1, 7]);
}

/// "room (refusals 5 to 7) is judged with the old take already removed"
fn room<I: Index>(check: &mut Check, met: &mut Met) {
    let many = |count: u32| hashes_of::<I>(0..count);
    let mut trial = Trial::<I>::empty(Sizes::new(2, 8, 1));
    trial.expect(check, met, insert(many(5), 100), stored(0));
    trial.expect(check, met, insert(many(3), 100), stored(1));
    for (id, count) in [(0, 5), (1, 3)] {
        let over = replace(id, many(count + 1), 100);
        trial.expect(check, met, over, refused(6));
        let full = replace(id, many(count), 100);
        trial.expect(check, met, full, stored(id));
        has(check, &trial, [2, 0, 8, 0], &[1, 1]);
    }
    // A key is stopped, and there is room for no other.
    let stops = replace(1, hashes_of::<I>([9]), 0);
    trial.expect(check, met, stops, stored(1));
    has(check, &trial, [2, 0, 5, 1], &[1, 1]);
    let over = replace(0, hashes_of::<I>([9, 10]), 0);
    trial.expect(check, met, over, refused(7));
    has(check, &trial, [2, 0, 5, 1], &[1, 1]);
    // Hashes on it are skipped: they need no room.
    let skipped = replace(0, hashes_of::<I>(vec![9; 9]), 0);
    trial.expect(check, met, skipped, stored(0));
    has(check, &trial, [2, 0, 0, 1], &[1, 1]);
    let most = HASHES as u32;
    let mut trial = Trial::<I>::empty(Sizes::new(1, HASHES, 1));
    trial.expect(check, met, insert(many(most), 100), stored(0));
    trial.expect(check, met, replace(0, many(most + 1), 100), refused(3));
    trial.expect(check, met, replace(0, many(most), 100), stored(0));
}

/// "A stopped key stays stopped", and the old take's postings don't count.
fn stops<I: Index>(check: &mut Check, met: &mut Met) {
    let sevens = |count: usize| hashes_of::<I>(vec![7; count]);
    let mut trial = Trial::<I>::empty(Sizes::new(2, 8, 2));
    trial.expect(check, met, insert(sevens(1), 2), stored(0));
    trial.expect(check, met, insert(sevens(1), 2), stored(1));
    trial.expect(check, met, replace(1, sevens(1), 2), stored(1));
    has(check, &trial, [2, 0, 2, 0], &[1, 1]);
    trial.expect(check, met, replace(1, sevens(2), 2), stored(1));
    has(check, &trial, [2, 0, 0, 1], &[1, 1]);
    // The take that filled it goes.
    trial.expect(check, met, replace(1, sevens(1), 2), stored(1));
    trial.expect(check, met, replace(0, sevens(1), 100), stored(0));
    has(check, &trial, [2, 0, 0, 1], &[1, 1]);
}

/// A clip is of the old take before it and of the new one after it.
fn heard_takes<I: Asked>(check: &mut Check, met: &mut Met) {
    let take = |key: u32| [hash::<I>(key, 4, 40), hash::<I>(key + 1, 6, 40)].concat();
    let ask = |key: u32| Call::Query(query(take(key), 0).with_room::<I>(&mut Rng(1), 2));
    let mut trial = Trial::<I>::empty(Sizes::new(1, 2, 1));
    trial.expect(check, met, insert(take(7), 100), stored(0));
    // Refused, it leaves the old one.
    let over = replace(0, [take(20), take(20)].concat(), 100);
    trial.expect(check, met, over, refused(6));
    for (old, new) in [(7, 20), (20, 7)] {
        let best = trial.call(check, met, ask(old));
        assert_eq!(best[..3], [4, 0, 2]);
        trial.expect(check, met, ask(new), answer([5]));
        trial.expect(check, met, replace(0, take(new), 100), stored(0));
        let best = trial.call(check, met, ask(new));
        assert_eq!(best[..3], [4, 0, 2]);
        trial.expect(check, met, ask(old), answer([5]));
    }
}

// ---- what replacements came to

/// How many came to each kind of end.
#[derive(Default)]
struct Kinds(BTreeMap<&'static str, u64>);

impl Kinds {
    fn add(&mut self, kind: &'static str, is: bool) {
        *self.0.entry(kind).or_default() += u64::from(is);
    }

    /// Of the store before it and after it.
    fn put<I: Index>(&mut self, stores: [&Store; 2], call: &Call, given: &Answer) {
        let Call::Replace { id, hashes, .. } = call else {
            unreachable!("it is a replacement");
        };
        let before = stores[0];
        let sizes = before.sizes::<I>().expect("the lengths are listed");
        let [n, v, p, k] = before.header().map(|count| count as usize);
        let stopped = &before.stopped[..k.min(sizes.stopped)];
        let is_free = |hash: &&[u32]| !stopped.contains(&hash[0]);
        let m = hashes.chunks_exact(I::HASH).filter(is_free).count();
        let (held, place) = (before.held_by::<I>(*id), *id as usize);
        match given[..2] {
            [1, _] => {
                self.add("other ids vacant", v > 0);
                self.add("another set", before.sets()[place] != 1);
                self.add("empty", hashes.is_empty());
                self.add("a stopped key", m < hashes.len() / I::HASH);
                let is_full = p - held + m == sizes.postings;
                self.add("fills the room that goes", is_full && held > 0);
                self.put_sizes(held, m);
                self.put_stops::<I>(stores, call, sizes.stopped);
            }
            [6, 6] => self.add("one hash too many", p - held + m == sizes.postings + 1),
            [6, 7] => self.add("one key too many", k == sizes.stopped),
            [6, 10] => {
                self.add("vacated", place < n);
                self.add("never given", place >= n && place < sizes.rows);
                self.add("out of range", place >= sizes.rows);
            }
            _ => {}
        }
    }

    /// Of an accepted one: so many postings go, and so many hashes come.
    fn put_sizes(&mut self, held: usize, m: usize) {
        self.add("larger", m > held);
        self.add("smaller", m < held);
        self.add("as large", m == held && m > 0);
    }

    /// Of an accepted one: the keys that it stops, and such as the old take's
    /// postings would have had it stop.
    fn put_stops<I: Index>(&mut self, [before, after]: [&Store; 2], call: &Call, most: usize) {
        let Call::Replace {
            id, hashes, limit, ..
        } = call
        else {
            unreachable!("it is a replacement");
        };
        let [k, left] = [before, after].map(|store| store.header()[3] as usize);
        self.add("stops a key", left > k);
        self.add("stops the last", left > k && left == most);
        let is_spared = |hash: &[u32]| {
            let under = postings::<I>(after, hash[0]).count();
            let old = postings::<I>(before, hash[0]).filter(|posting| posting[1] == *id);
            under > 0 && under + old.count() > *limit as usize
        };
        let spared = hashes.chunks_exact(I::HASH).any(is_spared);
        self.add("spared by what goes", spared);
    }

    /// Prints the counts; fails where one is 0.
    fn end(&self, check: &mut Check) {
        let told = self.0.iter().map(|(kind, count)| format!("{kind} {count}"));
        check.note(told.collect::<Vec<String>>().join(", "));
        assert!(
            self.0.values().all(|&count| count > 0),
            "a count above is 0"
        );
    }
}

/// The postings of a store under a key.
fn postings<I: Index>(store: &Store, key: u32) -> impl Iterator<Item = &[u32]> {
    let p = store.header()[2] as usize;
    let all = store.postings.chunks_exact(I::WIDTH).take(p);
    all.filter(move |posting| posting[0] == key)
}

// ---- every one of a small kind

/// Every take of at most `most` hashes with two keys; times tell takes apart.
fn takes<I: Index>(most: u32, first: u32) -> Vec<Vec<u32>> {
    let take = |keys: Vec<i64>| {
        let hashes = (first..).zip(keys);
        let hash = |(time, key)| hash::<I>(key as u32, time, 40);
        hashes.flat_map(hash).collect()
    };
    let keys = (0..=most).flat_map(|count| digits(2, count));
    keys.map(take).collect()
}

/// What stands before a replacement: which of two recordings goes, whether a
/// third has gone, and the stopped key, if one is.
#[derive(Clone, Copy)]
struct Start {
    id: usize,
    is_gone: bool,
    stopped: Option<u32>,
}

impl Start {
    fn every() -> impl Iterator<Item = Self> {
        digits(2, 2).flat_map(|ways| {
            [None, Some(0), Some(1)].map(|stopped| Self {
                id: ways[0] as usize,
                is_gone: ways[1] == 1,
                stopped,
            })
        })
    }

    /// A set for each id.
    fn sets(self) -> &'static [u32] {
        &[3, 255, 0][..if self.is_gone { 3 } else { 2 }]
    }

    /// The take that goes and the one that stays, as the reference holds them.
    fn content<I: Index>(self, [old, other]: [&[u32]; 2]) -> Content<I> {
        let mut lists = [other, other, &[]];
        lists[self.id] = old;
        let lists = &lists[..self.sets().len()];
        let takes: Vec<_> = lists
            .iter()
            .map(|list| I::fingerprint(list, RATE))
            .collect();
        let mut index = I::build(&takes, u32::MAX);
        assert_eq!(index.remove(2), self.is_gone);
        let mut content = index.content();
        content.stopped.extend(self.stopped);
        content.map.retain(|(key, _)| Some(*key) != self.stopped);
        content
    }
}

/// Every replacement of a take of at most two hashes by one of at most three,
/// beside one of at most two; limits, keys that are stopped, and rooms about
/// what is needed.
fn every_small<I: Index>(check: &mut Check) {
    let (met, mut kinds) = (&mut Met::default(), Kinds::default());
    let [old, other, new] =
        [(2, 0), (2, 100), (3, 200)].map(|(most, first)| takes::<I>(most, first));
    for start in Start::every() {
        for pair in pairs(&old, &other) {
            let content = start.content::<I>(pair);
            for take in &new {
                every_room::<I>(check, met, &mut kinds, start, &content, take);
            }
        }
    }
    met.expect(&[6, 7]);
    kinds.end(check);
}

fn pairs<'a>(one: &'a [Vec<u32>], other: &'a [Vec<u32>]) -> impl Iterator<Item = [&'a [u32]; 2]> {
    let with = |one: &'a Vec<u32>| other.iter().map(move |other| [&one[..], &other[..]]);
    one.iter().flat_map(with)
}

/// A replacement by every limit, in stores of this content.
fn every_room<I: Index>(
    check: &mut Check,
    met: &mut Met,
    kinds: &mut Kinds,
    start: Start,
    content: &Content<I>,
    take: &[u32],
) {
    let id = start.id as u32;
    let p: usize = content.map.iter().map(|(_, list)| list.len()).sum();
    let sets = start.sets();
    let whole = write::<I>(content, sets, Sizes::new(sets.len(), p.max(1), 1));
    let free = take
        .chunks_exact(I::HASH)
        .filter(|hash| Some(hash[0]) != start.stopped);
    let needed = p - whole.held_by::<I>(id) + free.count();
    let mut rooms = vec![p.max(1), needed.saturating_sub(1), needed];
    rooms.retain(|&room| room >= p.max(1));
    rooms.dedup();
    for room in rooms {
        for stopped in [1, 2] {
            let store = write::<I>(content, sets, Sizes::new(sets.len(), room, stopped));
            for limit in 0..=2 {
                let call = Call::Replace {
                    id,
                    hashes: take.to_vec(),
                    // One word for every NaN.
                    rate: if limit == 1 { 0xFFC0_0001 } else { RATE },
                    limit,
                };
                let mut trial = Trial::<I>::new(store.clone());
                let given = swap(check, met, &mut trial, call.clone());
                kinds.put::<I>([&store, trial.store()], &call, &given);
            }
        }
    }
}

// ---- histories

/// Lists of calls, most of them replacements, on stores that are full of
/// postings, of rows or of stopped keys, or are not.
fn histories<I: Index>(check: &mut Check) {
    const KEYS: [u32; 6] = [5, 0, u32::MAX, 6, 1 << 31, 4];
    let (met, mut kinds) = (&mut Met::default(), Kinds::default());
    for _ in check.times(12_000) {
        let rng = &mut check.rng;
        let mut size = |most: u64| 1 + rng.below(most) as usize;
        let sizes = Sizes::new(size(6), size(12), size(3));
        let keys = &KEYS[..size(6)];
        let source = Source {
            limit: (rng.below(2) == 0).then(|| rng.pick(&[1, 2, 3, 100])),
            ..Source::any(sizes, keys, 5)
        };
        let mut trial = Trial::<I>::new(source.start::<I>(rng));
        for _ in 0..16 {
            let rng = &mut check.rng;
            if rng.below(3) == 0 {
                let call = source.call::<I>(rng, trial.store());
                trial.call(check, met, call);
                continue;
            }
            let (call, before) = (
                source.replace::<I>(rng, trial.store()),
                trial.store().clone(),
            );
            let given = swap(check, met, &mut trial, call.clone());
            kinds.put::<I>([&before, trial.store()], &call, &given);
        }
    }
    met.expect(&[2, 3, 6, 7, 10]);
    kinds.end(check);
}

// ---- takes longer than one can store

/// A sound store may have a recording of more postings than an insertion can
/// have hashes, or than the library lists of one: it goes like any other.
fn long_takes<I: Index>(check: &mut Check) {
    const LISTED: u32 = 40_960;
    let met = &mut Met::default();
    for long in [20_000, LISTED - 1, LISTED, LISTED + 1, 60_000] {
        long_take::<I>(check, met, long);
    }
    met.expect(&[3, 6]);
}

fn long_take<I: Index>(check: &mut Check, met: &mut Met, long: u32) {
    const KEYS: u32 = 5000;
    let most = HASHES as u32;
    let take = |count: u32| hashes_of::<I>((0..count).map(|place| place * 7 % KEYS));
    let takes = [long, 100].map(|count| I::fingerprint(&take(count), RATE));
    let content = I::build(&takes, u32::MAX).content();
    let sizes = Sizes::new(2, (long + 100) as usize, KEYS as usize);
    let store = write::<I>(&content, &[255, 1], sizes);
    // No key has more once the short take is stored again.
    let limit = long.div_ceil(KEYS) + 1;
    let calls = [
        (replace(0, take(0), 0), [2, 0, 100, 0]),
        (replace(0, take(100), 1), [2, 0, 0, 100]),
        (replace(0, take(most - 1), 3), [2, 0, most + 99, 0]),
        (replace(0, take(most), 3), [2, 0, most + 100, 0]),
        (replace(0, take(most), 0), [2, 0, 0, KEYS]),
        (replace(0, take(most + 1), 3), [2, 0, long + 100, 0]),
        (replace(1, take(100), limit), [2, 0, long + 100, 0]),
        (replace(1, take(most), limit), [2, 0, long + 100, 0]),
    ];
    for (call, header) in calls {
        let mut trial = Trial::<I>::new(store.clone());
        swap(check, met, &mut trial, call);
        has(check, &trial, header, &[255, 1]);
        let again = replace(0, take(most), u32::MAX);
        swap(check, met, &mut trial, again);
    }
}
