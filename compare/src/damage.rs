//! Stores with words that don't belong there: refused with 2 exactly where
//! the account finds them unsound.

use crate::account::{Call, Query};
use crate::calls::{RATE, SETS, Source, replace, some_hashes, some_store};
use crate::harness::{Check, Rng, Run};
use crate::queries::OPEN;
use crate::store::{HEADER, Index, Panako, ROW, SET, Sizes, Store, Wang};
use crate::trial::{Met, Trial};

pub fn run(run: &mut Run) {
    run.check("wang_index, every tiny store", tiny_stores::<Wang>);
    run.check("panako_index, every tiny store", tiny_stores::<Panako>);
    run.check("wang_index, one word damaged", one_word::<Wang>);
    run.check("panako_index, one word damaged", one_word::<Panako>);
    run.check("wang_index, words damaged", some_words::<Wang>);
    run.check("panako_index, words damaged", some_words::<Panako>);
}

const KEYS: [u32; 5] = [3, 5, 6, 9, u32::MAX];

/// What was met by queries, by replacements and by other calls.
#[derive(Default)]
struct Seen {
    queries: Met,
    replacements: Met,
    others: Met,
}

impl Seen {
    /// A query, if the library has it, whose hashes have keys of `keys` and
    /// times of `times`, or any if there are none.
    fn query<I: Index>(
        &mut self,
        check: &mut Check,
        trial: &mut Trial<I>,
        [keys, times]: [&[u32]; 2],
    ) {
        if I::ENTRIES.query.is_none() {
            return;
        }
        let rng = &mut check.rng;
        let count = 1 + rng.below(3) as usize;
        let source = Source {
            times,
            ..Source::any(Sizes::MOST, keys, 0)
        };
        let query = Query {
            hashes: source.hashes::<I>(rng, count),
            rate: RATE,
            settings: OPEN,
            set: rng.pick(&[0, 0, 0, 0, 1, 2, 255, 256]),
            scratch: I::VOTE * rng.pick(&[0, 2, 8, 8]),
            fill: rng.next(),
        };
        trial.call(check, &mut self.queries, Call::Query(query));
    }

    /// Fails where sound stores or unsound ones weren't among them.
    fn end<I: Index>(&self, check: &mut Check) {
        let (others, queries) = (&self.others, &self.queries);
        assert!(others.cases[3] > 0 && others.refusals[2] > 0);
        assert!(self.replacements.cases[1] > 0);
        self.replacements.expect(&[2, 10]);
        if I::ENTRIES.query.is_some() {
            let [.., best, none, _, _] = queries.cases;
            let unsound = queries.refusals[2];
            check.note(format!(
                "queries: best {best}, none {none}, refused with 2 {unsound}"
            ));
            assert!(best > 0 && none > 0 && unsound > 0);
        }
    }
}

/// Every call, one after another: they are refused, or do what they do on a
/// sound store.
fn calls_on<I: Index>(check: &mut Check, seen: &mut Seen, store: &Store) {
    let mut trial = Trial::<I>::new(store.clone());
    seen.query(check, &mut trial, [&KEYS, &[]]);
    let rng = &mut check.rng;
    let count = rng.below(3) as usize;
    let hashes = some_hashes::<I>(rng, count, &KEYS);
    let id = rng.below(store.rows().len() as u64) as u32;
    let (rate, limit) = (RATE, rng.pick(&[0, 1, 2, 100]));
    let set = rng.pick(&SETS);
    let calls = [
        Call::LiveCount,
        Call::Replace {
            id,
            hashes: hashes.clone(),
            rate,
            limit,
        },
        Call::Remove { id },
        Call::Insert {
            hashes: hashes.clone(),
            rate,
            limit,
            set,
        },
        // Overwrites any content.
        Call::Build {
            hashes,
            lengths: vec![count as u32],
            rates: vec![rate],
            limit,
            sets: vec![set],
        },
    ];
    for call in calls {
        let met = match call {
            Call::Replace { .. } => &mut seen.replacements,
            _ => &mut seen.others,
        };
        trial.call(check, met, call);
    }
}

/// Every store of one row, one posting and one stopped key whose words are of
/// a short list; and of two of each, the list shorter still.
fn tiny_stores<I: Index>(check: &mut Check) {
    const NAN: u32 = 0x7FC0_0000;
    let seen = &mut Seen::default();
    let any: &[u32] = &[0, 1, NAN];
    let sets = [0, 1, 255, 256];
    every_store::<I>(check, seen, 1, [any, &[0, 1, NAN, RATE], any, &sets]);
    every_store::<I>(check, seen, 2, [&[0, 1, 2], &[0, NAN], &[0, 1], &[0]]);
    seen.end::<I>(check);
}

/// What each word of a store of `size` rows, postings and stopped keys may be:
/// the header, the rates, other words and the sets are of these lists.
fn places<'a, I: Index>(store: &Store, size: usize, lists: [&'a [u32]; 4]) -> Vec<&'a [u32]> {
    let [counts, rates, others, sets] = lists;
    let refs = (0..store.refs.len()).map(|place| match place.checked_sub(HEADER) {
        None => counts,
        Some(word) if word % ROW == 0 => rates,
        Some(word) if word % ROW == SET => sets,
        Some(_) => others,
    });
    // Of a posting the times after the anchor matter to queries alone.
    let posting = (0..I::WIDTH).map(|word| match word {
        0..=2 => others,
        4 if size == 1 => &[0, 1],
        _ => &[0],
    });
    let postings = posting.cycle().take(store.postings.len());
    let stopped = std::iter::repeat_n(others, size);
    refs.chain(postings).chain(stopped).collect()
}

/// Every store of that size and those words; where the only set is 0, each is
/// as its row's live word.
fn every_store<I: Index>(check: &mut Check, seen: &mut Seen, size: usize, lists: [&[u32]; 4]) {
    let [_, _, others, sets] = lists;
    let mut store = Store::zeroed::<I>(Sizes::new(size, size, size));
    let places = places::<I>(&store, size, lists);
    let mut digits = vec![0; places.len()];
    loop {
        let words = digits.iter().zip(&places).map(|(&digit, list)| list[digit]);
        let all = store.lend().into_iter().flatten();
        all.zip(words).for_each(|(word, value)| *word = value);
        if sets == [0] {
            let rows = store.refs[HEADER..].chunks_exact_mut(ROW);
            rows.for_each(|row| row[SET] = row[2]);
        }
        let mut trial = Trial::<I>::new(store.clone());
        trial.call(check, &mut seen.others, Call::LiveCount);
        seen.query(check, &mut trial, [others, &[0, 1]]);
        if trial.is_sound() {
            for _ in 0..20 {
                seen.query(check, &mut trial, [others, &[0, 1]]);
            }
            calls_on::<I>(check, seen, &store);
        } else if check.rng.below(8) == 0 {
            let call = replace(0, vec![0; I::HASH], 100);
            trial.call(check, &mut seen.replacements, call);
        }
        let Some(place) = (0..digits.len()).find(|&i| digits[i] + 1 < places[i].len()) else {
            return;
        };
        digits[..place].fill(0);
        digits[place] += 1;
    }
}

/// A sound store, most often with dead rows, stopped keys and free rows.
fn some_start<I: Index>(rng: &mut Rng, sizes: Sizes) -> Store {
    loop {
        let store = some_store::<I>(rng, sizes, &KEYS);
        let [n, v, p, k] = store.header();
        let filled = v > 0 && p > 1 && k > 0 && (n as usize) < sizes.rows;
        if filled || rng.below(16) == 0 {
            return store;
        }
    }
}

/// Values that a word is set to: ends and NaNs, sizes, and all that stands in
/// the store with its neighbours.
pub fn values<I: Index>(store: &Store) -> Vec<u32> {
    let fixed = [
        0,
        1,
        2,
        255,
        256,
        0x7F80_0000,
        0x7F80_0001,
        0x7FBF_FFFF,
        0x7FC0_0000,
        0x7FC0_0001,
        0xFFC0_0000,
        0x8000_0000,
        u32::MAX,
    ];
    let sizes = store.sizes::<I>().expect("the lengths are listed");
    let sizes = [sizes.rows, sizes.postings, sizes.stopped].map(|size| size as u32);
    let words = store.slices().concat();
    let near = |word: u32| [word.wrapping_sub(1), word, word.wrapping_add(1)];
    let mut values: Vec<u32> = words
        .into_iter()
        .chain(sizes)
        .flat_map(near)
        .chain(fixed)
        .collect();
    values.sort_unstable();
    values.dedup();
    values
}

pub fn set(store: &mut Store, mut place: usize, value: u32) {
    for slice in store.lend() {
        match slice.get_mut(place) {
            Some(word) => {
                *word = value;
                return;
            }
            None => place -= slice.len(),
        }
    }
}

/// Each word of some stores, set to each value.
fn one_word<I: Index>(check: &mut Check) {
    let seen = &mut Seen::default();
    for turn in check.times(60) {
        let sizes = match turn % 3 {
            0 => Sizes::new(3, 4, 2),
            1 => Sizes::new(4, 6, 3),
            _ => Sizes::new(5, 5, 4),
        };
        let store = some_start::<I>(&mut check.rng, sizes);
        let values = values::<I>(&store);
        for place in 0..store.slices().concat().len() {
            for &value in &values {
                let mut damaged = store.clone();
                set(&mut damaged, place, value);
                calls_on::<I>(check, seen, &damaged);
            }
        }
    }
    seen.end::<I>(check);
}

/// Up to three words of stores small and larger.
fn some_words<I: Index>(check: &mut Check) {
    let seen = &mut Seen::default();
    let mut some = |check: &mut Check, sizes: [u64; 3], keys: &[u32]| {
        let rng = &mut check.rng;
        let [rows, postings, stopped] = sizes.map(|most| 1 + rng.below(most) as usize);
        let store = some_store::<I>(rng, Sizes::new(rows, postings, stopped), keys);
        let values = values::<I>(&store);
        let words = store.slices().concat().len() as u64;
        for _ in 0..20 {
            let rng = &mut check.rng;
            let mut damaged = store.clone();
            for _ in 0..1 + rng.below(3) {
                // The header as often as all the rest.
                let reach = rng.pick(&[HEADER as u64, words]);
                let place = rng.below(reach) as usize;
                let value = rng.pick(&values);
                set(&mut damaged, place, value);
            }
            calls_on::<I>(check, seen, &damaged);
        }
    };
    for _ in check.times(4000) {
        some(check, [4, 8, 4], &KEYS);
    }
    let keys: Vec<u32> = (0..200).map(|_| check.rng.sized(32) as u32).collect();
    for _ in check.times(400) {
        some(check, [60, 300, 80], &keys);
    }
    for _ in check.times(20) {
        some(check, [4096, 300, 80], &keys);
    }
    large_store::<I>(check, seen);
    seen.end::<I>(check);
}

/// One word of the largest store, mostly where its used parts end.
fn large_store<I: Index>(check: &mut Check, seen: &mut Seen) {
    let keys: Vec<u32> = (0..300_000).map(|_| check.rng.next() as u32).collect();
    let store = some_store::<I>(&mut check.rng, Sizes::MOST, &keys);
    let [n, v, p, k] = store.header().map(|count| count as usize);
    let lengths = store.slices().map(<[u32]>::len);
    let ends = [
        HEADER + ROW * n,
        HEADER + ROW * v,
        lengths[0],
        lengths[0] + I::WIDTH * p,
        lengths[0] + lengths[1],
        lengths[0] + lengths[1] + k,
        lengths.iter().sum(),
    ];
    let words = store.slices().concat();
    for _ in check.times(4) {
        for end in ends {
            let rng = &mut check.rng;
            let place = match rng.below(4) {
                0 => rng.below(words.len() as u64) as usize,
                _ => end.saturating_sub(1 + rng.below(2 * I::WIDTH as u64) as usize),
            };
            let place = place.max(1);
            let word = words[place];
            let value = match rng.below(4) {
                0 => word.wrapping_add(1),
                1 => word.wrapping_sub(1),
                2 => words[place - 1],
                _ => u32::MAX,
            };
            let mut damaged = store.clone();
            set(&mut damaged, place, value);
            let mut trial = Trial::<I>::new(damaged);
            trial.call(check, &mut seen.others, Call::LiveCount);
            seen.query(check, &mut trial, [&keys, &[]]);
        }
    }
}
