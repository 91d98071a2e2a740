//! Sound stores of any content, also such as no list of calls leaves.

use crate::calls::Source;
use crate::harness::Rng;
use crate::store::{Content, Index, Posting, SET, Store, of_set, read, write};
use std::collections::{BTreeMap, BTreeSet};

/// A live recording's row.
#[derive(Clone, Copy)]
struct Row {
    rate: f32,
    r_max: u32,
    set: u32,
}

/// Postings by key, in order of arrival.
type Lists<P> = BTreeMap<u32, Vec<P>>;

/// Rows by id, and postings, that a store is to hold.
pub struct Kept<I: Index> {
    rows: BTreeMap<u32, Row>,
    postings: Lists<I::Posting>,
}

impl<I: Index> Kept<I> {
    fn nothing() -> Self {
        Self {
            rows: BTreeMap::new(),
            postings: BTreeMap::new(),
        }
    }

    /// What a sound store holds of one set.
    pub fn of(store: &Store, set: u32) -> Self {
        let row = |row: &[u32]| Row {
            rate: f32::from_bits(row[0]),
            r_max: row[1],
            set: row[SET],
        };
        let rows = (0..).zip(store.rows().map(row));
        let content = of_set::<I>(read::<I>(store), &store.sets(), set);
        Self {
            rows: rows.filter(|(_, row)| row.set == set).collect(),
            postings: content.map.into_iter().collect(),
        }
    }

    /// Rows and postings that a store needs at least.
    pub fn least(&self) -> [usize; 2] {
        let rows = self.rows.last_key_value().map_or(0, |(&id, _)| id + 1);
        let postings = self.postings.values().map(Vec::len).sum();
        [rows as usize, postings]
    }
}

impl Source<'_> {
    pub fn store<I: Index>(&self, rng: &mut Rng) -> Store {
        self.store_with(rng, &Kept::<I>::nothing())
    }

    /// A store that holds this among others. It has room for it.
    pub fn store_with<I: Index>(&self, rng: &mut Rng, kept: &Kept<I>) -> Store {
        let rows = self.rows(rng, kept);
        let stopped = self.stopped(rng, kept);
        let map = self.postings(rng, kept, &rows, &stopped);
        let is_live = |id: &u32| rows[*id as usize].is_some();
        let (live, mut vacant): (Vec<u32>, Vec<u32>) = (0..rows.len() as u32).partition(is_live);
        for place in (1..vacant.len()).rev() {
            vacant.swap(place, rng.below(place as u64 + 1) as usize);
        }
        let each = || rows.iter().copied();
        let r_max = each().map(|row| row.map_or(0, |row| row.r_max));
        let content = Content::<I> {
            map: map.into_iter().collect(),
            fps: each()
                .map(|row| row.map_or(f32::NAN, |row| row.rate))
                .collect(),
            r_max: r_max.filter(|_| I::HAS_R_MAX).collect(),
            live: each().map(|row| row.is_some()).collect(),
            vacant,
            live_count: live.len(),
            stopped: stopped.into_iter().collect(),
        };
        let sets: Vec<u32> = each().map(|row| row.map_or(0, |row| row.set)).collect();
        write::<I>(&content, &sets, self.sizes)
    }

    /// The row of each id, none where it is dead.
    fn rows<I: Index>(&self, rng: &mut Rng, kept: &Kept<I>) -> Vec<Option<Row>> {
        let [least, _] = kept.least();
        let n = least as u64 + rng.below((self.sizes.rows - least) as u64 + 1);
        let row = |id: u32| match kept.rows.get(&id) {
            Some(row) => Some(*row),
            None if rng.below(3) == 0 => None,
            None => Some(Row {
                rate: f32::from_bits(self.rate(rng)),
                r_max: self.time(rng),
                set: rng.pick(self.sets),
            }),
        };
        (0..n as u32).map(row).collect()
    }

    /// Some keys that no posting to be held has.
    fn stopped<I: Index>(&self, rng: &mut Rng, kept: &Kept<I>) -> BTreeSet<u32> {
        let mut stopped: BTreeSet<u32> = self.keys.iter().copied().collect();
        stopped.retain(|key| !kept.postings.contains_key(key) && rng.below(4) == 0);
        stopped.into_iter().take(self.sizes.stopped).collect()
    }

    /// The postings to be held, and among them others, of other recordings.
    fn postings<I: Index>(
        &self,
        rng: &mut Rng,
        kept: &Kept<I>,
        rows: &[Option<Row>],
        stopped: &BTreeSet<u32>,
    ) -> Lists<I::Posting> {
        let ids = (0..)
            .zip(rows)
            .filter(|(id, _)| !kept.rows.contains_key(id));
        let others: Vec<(u32, Row)> = ids.filter_map(|(id, row)| Some((id, (*row)?))).collect();
        let is_free = |key: &u32| !stopped.contains(key);
        let free: Vec<u32> = self.keys.iter().copied().filter(is_free).collect();
        let [_, least] = kept.least();
        let room = self.sizes.postings - least;
        let mut lists = Lists::new();
        if !others.is_empty() && !free.is_empty() {
            for _ in 0..rng.below(room as u64 + 1) {
                let (id, row) = rng.pick(&others);
                let posting = self.posting::<I>(rng, id, row.r_max);
                let list: &mut Vec<_> = lists.entry(rng.pick(&free)).or_default();
                list.push(posting);
            }
        }
        for (&key, held) in &kept.postings {
            let list = lists.entry(key).or_default();
            *list = mixed(rng, held, list);
        }
        lists
    }

    /// A posting of this recording; Wang's anchor is `most` at most.
    fn posting<I: Index>(&self, rng: &mut Rng, id: u32, most: u32) -> I::Posting {
        let mut words = [vec![id], self.times::<I>(rng)].concat();
        if I::HAS_R_MAX {
            words[1] = match rng.below(2) {
                0 => most,
                _ => words[1].min(most),
            };
        }
        I::Posting::of(&words)
    }
}

/// Both lists, each in its own order.
fn mixed<T: Copy>(rng: &mut Rng, one: &[T], other: &[T]) -> Vec<T> {
    let (mut one, mut other) = (one.iter(), other.iter());
    let all = one.len() + other.len();
    let next = |left: usize| match rng.below(left as u64) < one.len() as u64 {
        true => one.next(),
        false => other.next(),
    };
    (1..=all).rev().filter_map(next).copied().collect()
}
